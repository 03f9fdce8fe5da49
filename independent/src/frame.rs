//! The probe's frames: sequences of little-endian 64-bit words.

use std::io::{Read, Write};

use crate::cardwords::CARD_WORDS;

pub const ARGUMENTS: usize = 8;
pub const MOST_LIST: u64 = 128;
pub const MOST_WORDS: u64 = 1024;
pub const MOST_TREE: u64 = 8192;

/// One call on raw state.
#[derive(Clone, PartialEq, Eq, Debug)]
pub struct Frame {
    pub op: u64,
    pub arguments: [u64; ARGUMENTS],
    pub card: Vec<u64>,
    pub list: Vec<u64>,
    pub words: Vec<u64>,
    pub tree: Vec<u64>,
}

#[derive(Clone, PartialEq, Eq, Debug)]
pub struct Reply {
    pub number: u64,
    pub answer: [u64; 6],
    pub card: Vec<u64>,
    pub list: Vec<u64>,
    pub words: Vec<u64>,
    pub tree: Vec<u64>,
}

/// The next request, or None where the input ends, is cut short, has an op outside 1 to 10 or a
/// length over its limit.
pub fn read_frame(input: &mut dyn Read) -> Option<Frame> {
    let op = read_words(input, 1)?[0];
    if !(1..=10).contains(&op) {
        return None;
    }
    let mut arguments = [0; ARGUMENTS];
    arguments.copy_from_slice(&read_words(input, ARGUMENTS)?);
    let card = read_words(input, CARD_WORDS)?;
    let lengths = read_words(input, 3)?;
    if lengths[0] > MOST_LIST || lengths[1] > MOST_WORDS || lengths[2] > MOST_TREE {
        return None;
    }
    let list = read_words(input, lengths[0] as usize)?;
    let words = read_words(input, lengths[1] as usize)?;
    let tree = read_words(input, lengths[2] as usize)?;
    Some(Frame {
        op,
        arguments,
        card,
        list,
        words,
        tree,
    })
}

fn read_words(input: &mut dyn Read, count: usize) -> Option<Vec<u64>> {
    let mut bytes = vec![0; 8 * count];
    input.read_exact(&mut bytes).ok()?;
    let mut words = Vec::new();
    for chunk in bytes.chunks_exact(8) {
        let mut eight = [0; 8];
        eight.copy_from_slice(chunk);
        words.push(u64::from_le_bytes(eight));
    }
    Some(words)
}

pub fn write_frame(output: &mut dyn Write, frame: &Frame) -> std::io::Result<()> {
    write_words(output, &[frame.op])?;
    write_words(output, &frame.arguments)?;
    write_words(output, &frame.card)?;
    let lengths = [
        frame.list.len() as u64,
        frame.words.len() as u64,
        frame.tree.len() as u64,
    ];
    write_words(output, &lengths)?;
    write_words(output, &frame.list)?;
    write_words(output, &frame.words)?;
    write_words(output, &frame.tree)
}

/// The lengths are those of the request and are not sent again.
pub fn write_reply(output: &mut dyn Write, reply: &Reply) -> std::io::Result<()> {
    write_words(output, &[reply.number])?;
    write_words(output, &reply.answer)?;
    write_words(output, &reply.card)?;
    write_words(output, &reply.list)?;
    write_words(output, &reply.words)?;
    write_words(output, &reply.tree)
}

fn write_words(output: &mut dyn Write, words: &[u64]) -> std::io::Result<()> {
    let mut bytes = Vec::new();
    for word in words {
        bytes.extend(word.to_le_bytes());
    }
    output.write_all(&bytes)
}
