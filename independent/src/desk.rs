//! The desk program: it "reads lines and plays both sides".

use std::io::{BufRead, Write};

use crate::card::{sizes_good, Answer, Request};
use crate::heap::Heap;
use crate::places::tree_words;
use crate::refusal::Refusal;

/// "one over 128 bytes" can't be read.
pub const LONGEST_LINE: usize = 128;
/// "a `size` within its ranges whose tree is over 8,192 words prints `?`".
const LARGEST_TREE: u64 = 8192;

#[derive(Clone, Copy, PartialEq, Eq, Debug)]
pub enum Command {
    Size { h: u64, z: u64, r: u64, most: u64 },
    Ask(Request),
    Min,
}

/// The heap of the last accepted `size`, if there was one.
pub struct Desk {
    pub heap: Option<Heap>,
}

impl Desk {
    pub fn new() -> Desk {
        Desk { heap: None }
    }

    /// What one line prints, without the line end. The line is given without its own.
    pub fn line(&mut self, line: &[u8]) -> String {
        let printed = match read_command(line) {
            None => None,
            Some(Command::Size { h, z, r, most }) => self.size(h, z, r, most),
            Some(Command::Ask(request)) => self.ask(request),
            Some(Command::Min) => self.min(),
        };
        match printed {
            Some(text) => text,
            None => String::from("?"),
        }
    }

    /// "`size h Z R T` starts afresh". A refused one, or one with too big a tree, leaves the heap
    /// there was. Ranges come first: out of range prints 1 however big the tree would be.
    fn size(&mut self, h: u64, z: u64, r: u64, most: u64) -> Option<String> {
        if sizes_good(h, z, r, most) && tree_words(h, z) > LARGEST_TREE {
            return None;
        }
        match Heap::start(h, z, r, most) {
            Err(refusal) => Some(refused(refusal)),
            Ok(heap) => {
                self.heap = Some(heap);
                Some(String::from("0"))
            }
        }
    }

    /// "0, label, stamp, words for insert; 0, key, value, label, stamp, words for min and extract;
    /// 0, found (1 or 0), words for delete".
    fn ask(&mut self, request: Request) -> Option<String> {
        let heap = self.heap.as_mut()?;
        let answer = match heap.play(request) {
            Err(refusal) => return Some(refused(refusal)),
            Ok((answer, _)) => answer,
        };
        Some(match request {
            Request::Insert { .. } => {
                format!("0 {} {} {}", answer.label, answer.stamp, answer.words)
            }
            Request::ExtractMin => record_line(&answer),
            Request::Delete { .. } => format!("0 {} {}", answer.found, answer.words),
        })
    }

    fn min(&self) -> Option<String> {
        let heap = self.heap.as_ref()?;
        Some(match heap.find_min() {
            Err(refusal) => refused(refusal),
            Ok(answer) => record_line(&answer),
        })
    }
}

fn record_line(answer: &Answer) -> String {
    let Answer {
        key,
        value,
        label,
        stamp,
        words,
        ..
    } = answer;
    format!("0 {key} {value} {label} {stamp} {words}")
}

/// "A refusal prints its number."
fn refused(refusal: Refusal) -> String {
    refusal.number().to_string()
}

/// "Fields are parted by one space": two spaces, or one at either end, leave an empty field, which
/// is neither a word nor a number.
pub fn read_command(line: &[u8]) -> Option<Command> {
    if line.len() > LONGEST_LINE {
        return None;
    }
    let fields: Vec<&[u8]> = line.split(|byte| *byte == b' ').collect();
    let mut numbers = Vec::new();
    for field in &fields[1..] {
        numbers.push(read_number(field)?);
    }
    match (fields[0], numbers.as_slice()) {
        (b"size", [h, z, r, most]) => Some(Command::Size {
            h: *h,
            z: *z,
            r: *r,
            most: *most,
        }),
        (b"insert", [key, value, label, first, second]) => Some(Command::Ask(Request::Insert {
            key: *key,
            value: *value,
            label: *label,
            first: *first,
            second: *second,
        })),
        (b"min", []) => Some(Command::Min),
        (b"extract", []) => Some(Command::Ask(Request::ExtractMin)),
        (b"delete", [label, stamp]) => Some(Command::Ask(Request::Delete {
            label: *label,
            stamp: *stamp,
        })),
        _ => None,
    }
}

/// "numbers are plain decimal below 2^64 without leading zeros".
pub fn read_number(field: &[u8]) -> Option<u64> {
    if field.is_empty() || (field.len() > 1 && field[0] == b'0') {
        return None;
    }
    let mut number: u128 = 0;
    for byte in field {
        if !byte.is_ascii_digit() {
            return None;
        }
        number = 10 * number + (byte - b'0') as u128;
        if number > u64::MAX as u128 {
            return None;
        }
    }
    Some(number as u64)
}

/// The whole output for a whole input.
pub fn play_script(script: &[u8]) -> Vec<u8> {
    let mut output = Vec::new();
    play(&mut &script[..], &mut output);
    output
}

/// "A line ends at byte 10, which is not counted in its length"; "the last line may lack its line
/// end". Nothing after the last byte 10 is no line. Every output line ends with byte 10.
pub fn play(input: &mut dyn BufRead, output: &mut dyn Write) {
    let mut desk = Desk::new();
    loop {
        let mut line = Vec::new();
        match input.read_until(10, &mut line) {
            Ok(0) | Err(_) => return,
            Ok(_) => {}
        }
        if line.last() == Some(&10) {
            line.pop();
        }
        let printed = desk.line(&line);
        if writeln!(output, "{printed}").is_err() || output.flush().is_err() {
            return;
        }
    }
}
