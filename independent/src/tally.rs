//! Counts what frames meet.

use std::collections::BTreeMap;
use std::io::{Read, Write};

use crate::badcard::bad_clauses;
use crate::begin::request_list;
use crate::card::Card;
use crate::cardwords::card_from_words;
use crate::fetched::{damage_clauses, read_fetched};
use crate::finish::try_work;
use crate::frame::{read_frame, Frame};
use crate::probe::answer;
use crate::refusal::CALLS;

/// Replies by call and number, and the grounds of 13 and 12.
struct Tally {
    frames: u64,
    numbers: Vec<[u64; 15]>,
    /// For each ground: how often it was met, and how often it was the only one.
    grounds: BTreeMap<String, (u64, u64)>,
}

/// Answers the frames and prints, for each call, how many replies had each number, then the grounds
/// of BadCard and Damaged. False if a refusal that a call can give was never met, or one was met
/// that it can't give.
pub fn count_frames(input: &mut dyn Read, output: &mut dyn Write) -> bool {
    let mut tally = Tally {
        frames: 0,
        numbers: vec![[0; 15]; CALLS.len() + 1],
        grounds: BTreeMap::new(),
    };
    while let Some(frame) = read_frame(input) {
        tally.count(&frame);
    }
    let mut text = String::new();
    let complete = tally.report(&mut text);
    let _ = output.write_all(text.as_bytes());
    complete
}

impl Tally {
    fn count(&mut self, frame: &Frame) {
        let number = answer(frame).number;
        self.frames += 1;
        self.numbers[frame.op as usize][number as usize] += 1;
        let grounds = match number {
            12 => damaged_grounds(frame),
            13 => bad_grounds(frame),
            _ => Vec::new(),
        };
        for ground in &grounds {
            let counted = self.grounds.entry(ground.clone()).or_insert((0, 0));
            counted.0 += 1;
            if grounds.len() == 1 {
                counted.1 += 1;
            }
        }
    }

    fn report(&self, text: &mut String) -> bool {
        let mut complete = true;
        text.push_str(&format!("{} frames\n", self.frames));
        for (op, name, can_give) in CALLS {
            let row = &self.numbers[op as usize];
            text.push_str(&format!("{name:9} 0: {}", row[0]));
            for number in can_give {
                text.push_str(&format!("  {number}: {}", row[*number as usize]));
            }
            text.push('\n');
            for number in 0..15 {
                let expected = number == 0 || can_give.contains(&number);
                let met = row[number as usize] > 0;
                if expected && !met {
                    text.push_str(&format!("{name} never gave {number}\n"));
                }
                if !expected && met {
                    text.push_str(&format!("{name} gave {number}, which it can't\n"));
                }
                complete = complete && expected == met;
            }
        }
        for (ground, (met, alone)) in &self.grounds {
            text.push_str(&format!("{ground}: {met}, alone {alone}\n"));
        }
        complete
    }
}

fn bad_grounds(frame: &Frame) -> Vec<String> {
    let clauses = match card_from_words(&frame.card) {
        Err(_) => vec!["kind above 3"],
        Ok(card) => bad_clauses(&card),
    };
    clauses
        .into_iter()
        .map(|clause| format!("13 {clause}"))
        .collect()
}

/// The clauses by which the words are damaged; else those by which the card that would come out is
/// bad.
fn damaged_grounds(frame: &Frame) -> Vec<String> {
    let card: Card = match card_from_words(&frame.card) {
        Ok(card) => card,
        Err(_) => return Vec::new(),
    };
    let mut grounds: Vec<String> = Vec::new();
    if let Some(request) = &card.waiting {
        let fetched = read_fetched(card.z, &request_list(&card, request), &frame.words);
        for clause in damage_clauses(&card, &fetched) {
            grounds.push(format!("12 {clause}"));
        }
    }
    if let Ok(worked) = try_work(&card, &frame.words) {
        for clause in bad_clauses(&worked.card) {
            grounds.push(format!("12 card out: {clause}"));
        }
    } else if grounds.is_empty() {
        grounds.push(String::from("12 the work found no record"));
    }
    grounds.sort();
    grounds.dedup();
    grounds
}
