//! Frames and scripts answered by the program itself: what every reply must keep to.

use crate::badcard::bad_card;
use crate::cardwords::card_from_words;
use crate::check::Checks;
use crate::desk::play_script;
use crate::frame::{read_frame, write_frame, Frame, Reply};
use crate::frames::Maker;
use crate::probe::answer;
use crate::refusal::CALLS;
use crate::scripts::script;

pub fn check_frames(seed: u64, count: u64, checks: &mut Checks) {
    let mut maker = Maker::new(seed);
    for _ in 0..count {
        let frame = maker.next();
        checks.that("a frame is read as it was written", read_back(&frame));
        let reply = answer(&frame);
        let can_give = CALLS[frame.op as usize - 1].2;
        let expected = reply.number == 0 || can_give.contains(&reply.number);
        checks.that("a call gives a refusal that it can give", expected);
        if reply.number == 0 {
            checks.that(
                "only what the call may change is changed",
                keeps_rest(&frame, &reply),
            );
            checks.that(
                "a card that comes out is good",
                good_card_out(&frame, &reply),
            );
        } else {
            checks.that(
                "a refused frame comes back as it was",
                untouched(&frame, &reply),
            );
        }
    }
    let lines = script(seed, count);
    let newlines = lines.iter().filter(|byte| **byte == 10).count() as u64;
    let unended = !lines.is_empty() && lines.last() != Some(&10);
    checks.that("a script has its lines", newlines + unended as u64 == count);
    let printed = play_script(&lines)
        .iter()
        .filter(|byte| **byte == 10)
        .count() as u64;
    checks.that("every line of a script prints one line", printed == count);
}

fn read_back(frame: &Frame) -> bool {
    let mut bytes = Vec::new();
    if write_frame(&mut bytes, frame).is_err() {
        return false;
    }
    read_frame(&mut &bytes[..]).as_ref() == Some(frame)
}

/// "Any refusal returns its number with every other field 0; card and lent slices are as before".
fn untouched(frame: &Frame, reply: &Reply) -> bool {
    reply.answer == [0; 6]
        && reply.card == frame.card
        && reply.list == frame.list
        && reply.words == frame.words
        && reply.tree == frame.tree
}

fn keeps_rest(frame: &Frame, reply: &Reply) -> bool {
    let list = (2..=4).contains(&frame.op) || reply.list == frame.list;
    let words = frame.op == 7 || frame.op == 9 || reply.words == frame.words;
    let tree = frame.op == 8 || frame.op == 10 || reply.tree == frame.tree;
    let card = (frame.op < 8 && frame.op != 5) || reply.card == frame.card;
    list && words && tree && card
}

fn good_card_out(frame: &Frame, reply: &Reply) -> bool {
    match card_from_words(&reply.card) {
        Err(_) => frame.op >= 8,
        Ok(card) => frame.op >= 8 || !bad_card(&card),
    }
}
