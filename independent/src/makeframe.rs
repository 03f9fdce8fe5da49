//! Small parts for making frames.

use crate::card::{Card, Request};
use crate::cardwords::{words_from_card, CARD_WORDS};
use crate::frame::{Frame, ARGUMENTS};
use crate::random::Random;

/// A frame for one call with this card and with slices that the call does not use: a few words of
/// anything, which must come back.
pub fn frame_for(random: &mut Random, op: u64, card: &Card) -> Frame {
    Frame {
        op,
        arguments: [0; ARGUMENTS],
        card: words_from_card(card),
        list: some_words(random, 4),
        words: some_words(random, 6),
        tree: some_words(random, 5),
    }
}

/// Up to `most` words of anything.
pub fn some_words(random: &mut Random, most: u64) -> Vec<u64> {
    let count = random.below(most + 1);
    words_of(random, count)
}

pub fn words_of(random: &mut Random, count: u64) -> Vec<u64> {
    let mut words = Vec::new();
    for _ in 0..count {
        words.push(any_word(random));
    }
    words
}

/// Any 64-bit number, mostly one at some edge.
pub fn any_word(random: &mut Random) -> u64 {
    match random.below(10) {
        0 => 0,
        1 => 1,
        2 => random.between(2, 20),
        3 => u64::MAX,
        4 => u64::MAX - 1,
        5 => 1 << random.below(64),
        6 => (1u64 << random.below(64)).wrapping_sub(1),
        7 => u64::MAX - random.below(40),
        _ => random.word(),
    }
}

/// 272 words of anything.
pub fn any_card_words(random: &mut Random) -> Vec<u64> {
    words_of(random, CARD_WORDS as u64)
}

/// The op and arguments of a begin.
pub fn set_request(frame: &mut Frame, request: &Request) {
    frame.arguments = [0; ARGUMENTS];
    match *request {
        Request::Insert {
            key,
            value,
            label,
            first,
            second,
        } => {
            frame.op = 2;
            frame.arguments[..5].copy_from_slice(&[key, value, label, first, second]);
        }
        Request::ExtractMin => frame.op = 3,
        Request::Delete { label, stamp } => {
            frame.op = 4;
            frame.arguments[..2].copy_from_slice(&[label, stamp]);
        }
    }
}

/// How many numbers a request's list has.
pub fn list_length(h: u64, request: &Request) -> u64 {
    match request {
        Request::Insert { .. } => 4 * h - 2,
        _ => 2 * h,
    }
}

/// A slice's length: mostly what is needed or a little more, at times a little less or nothing.
pub fn room(random: &mut Random, needed: u64, most: u64) -> u64 {
    let length = match random.below(20) {
        0 => needed.saturating_sub(1),
        1 => random.below(needed + 1),
        2 => 0,
        3 => most,
        4..=9 => needed + random.below(5),
        _ => needed,
    };
    length.min(most)
}

/// Brings a slice to a length: cut short, or filled up with anything.
pub fn set_length(random: &mut Random, words: &mut Vec<u64>, length: u64) {
    words.truncate(length as usize);
    while (words.len() as u64) < length {
        words.push(any_word(random));
    }
}
