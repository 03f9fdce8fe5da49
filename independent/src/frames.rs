//! Makes request frames from a seed.

use std::io::Write;

use crate::cardframes::{card_frame, crowded_frame};
use crate::cardwords::CARD_WORDS;
use crate::damageframes::damage_frame;
use crate::frame::{write_frame, Frame, ARGUMENTS, MOST_LIST, MOST_TREE, MOST_WORDS};
use crate::honestframes::Run;
use crate::makeframe::{any_card_words, any_word, some_words, words_of};
use crate::rackframes::{rack_frame, start_frame};
use crate::random::Random;

pub fn frames(seed: u64, count: u64, output: &mut dyn Write) {
    let mut maker = Maker::new(seed);
    for _ in 0..count {
        if write_frame(output, &maker.next()).is_err() {
            return;
        }
    }
    let _ = output.flush();
}

pub struct Maker {
    random: Random,
    run: Run,
}

impl Maker {
    pub fn new(seed: u64) -> Maker {
        Maker {
            random: Random::new(seed),
            run: Run::new(),
        }
    }

    pub fn next(&mut self) -> Frame {
        let random = &mut self.random;
        let mut frame = match random.below(20) {
            0..=5 => self.run.next(random),
            6..=8 => card_frame(random),
            9 | 10 => crowded_frame(random),
            11..=15 => damage_frame(random),
            16..=18 => rack_frame(random),
            _ => start_frame(random),
        };
        if random.chance(8) {
            spoil(random, &mut frame);
        }
        if random.chance(1) {
            frame = wild_frame(random);
        }
        if frame.op >= 8 {
            tidy_card(&mut frame);
        }
        frame
    }
}

/// The rack's calls have no card. What a frame carries in its place is a card whose unused fields
/// are 0, so that nothing hangs on whether those are written anew.
fn tidy_card(frame: &mut Frame) {
    let card = crate::cardwords::card_from_words(&frame.card);
    frame.card = match card {
        Ok(card) => crate::cardwords::words_from_card(&card),
        Err(_) => vec![0; CARD_WORDS],
    };
}

/// One thing changed anywhere in a frame.
fn spoil(random: &mut Random, frame: &mut Frame) {
    let word = any_word(random);
    match random.below(9) {
        0 => frame.op = random.between(1, 10),
        1 => frame.arguments[random.below(ARGUMENTS as u64) as usize] = word,
        2 => frame.card[random.below(16) as usize] = word,
        3 => frame.card[random.below(CARD_WORDS as u64) as usize] = word,
        4 => {
            let place = random.below(16) as usize;
            frame.card[place] = frame.card[place].wrapping_add(random.pick(&[1, u64::MAX]));
        }
        5 => change_one(random, &mut frame.list, MOST_LIST),
        6 | 7 => change_one(random, &mut frame.words, MOST_WORDS),
        _ => change_one(random, &mut frame.tree, MOST_TREE),
    }
}

/// One word changed, dropped or added.
fn change_one(random: &mut Random, words: &mut Vec<u64>, most: u64) {
    let word = any_word(random);
    if words.is_empty() || (random.chance(20) && (words.len() as u64) < most) {
        words.push(word);
        return;
    }
    let place = random.below(words.len() as u64) as usize;
    if random.chance(30) {
        words.remove(place);
    } else {
        words[place] = word;
    }
}

/// Anything at all, within the limits of a frame.
fn wild_frame(random: &mut Random) -> Frame {
    let mut arguments = [0; ARGUMENTS];
    arguments.copy_from_slice(&words_of(random, ARGUMENTS as u64));
    Frame {
        op: random.between(1, 10),
        arguments,
        card: any_card_words(random),
        list: some_words(random, MOST_LIST),
        words: some_words(random, MOST_WORDS),
        tree: some_words(random, 200),
    }
}
