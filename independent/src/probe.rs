//! Answers frames: each is one call on raw state.

use std::io::{Read, Write};

use crate::begin::{begin, find_min, withdraw};
use crate::card::{start, Answer, Card, Request};
use crate::cardwords::{card_from_words, words_from_card};
use crate::finish::finish;
use crate::frame::{read_frame, write_reply, Frame, Reply};
use crate::rack::{fetch, fill, store};
use crate::refusal::Refusal;

/// Answers frame after frame until the input ends or can't be read any further.
pub fn probe(input: &mut dyn Read, output: &mut dyn Write) {
    while let Some(frame) = read_frame(input) {
        let reply = answer(&frame);
        if write_reply(output, &reply).is_err() || output.flush().is_err() {
            return;
        }
    }
}

/// "Any refusal returns its number with every other field 0; card and lent slices are as before,
/// the waiting request included." So a refusal sends back the words that came in.
pub fn answer(frame: &Frame) -> Reply {
    let mut reply = unchanged(frame);
    if let Err(refusal) = call(frame, &mut reply) {
        reply = unchanged(frame);
        reply.number = refusal.number();
    }
    reply
}

fn unchanged(frame: &Frame) -> Reply {
    Reply {
        number: 0,
        answer: [0; 6],
        card: frame.card.clone(),
        list: frame.list.clone(),
        words: frame.words.clone(),
        tree: frame.tree.clone(),
    }
}

fn call(frame: &Frame, reply: &mut Reply) -> Result<(), Refusal> {
    let a = &frame.arguments;
    match frame.op {
        1 => {
            reply.card = words_from_card(&start(a[0], a[1], a[2], a[3])?);
            Ok(())
        }
        2 => {
            let (key, value, label, first, second) = (a[0], a[1], a[2], a[3], a[4]);
            call_begin(
                frame,
                reply,
                Request::Insert {
                    key,
                    value,
                    label,
                    first,
                    second,
                },
            )
        }
        3 => call_begin(frame, reply, Request::ExtractMin),
        4 => call_begin(
            frame,
            reply,
            Request::Delete {
                label: a[0],
                stamp: a[1],
            },
        ),
        5 => {
            // "It leaves the card unchanged": its words go out as they came in.
            let card = card_from_words(&frame.card)?;
            reply.answer = answer_words(&find_min(&card)?);
            Ok(())
        }
        6 => {
            let after = withdraw(&card_from_words(&frame.card)?)?;
            reply.card = words_from_card(&after);
            Ok(())
        }
        7 => {
            let card = card_from_words(&frame.card)?;
            let (after, answer): (Card, Answer) = finish(&card, &mut reply.words)?;
            reply.card = words_from_card(&after);
            reply.answer = answer_words(&answer);
            Ok(())
        }
        // The rack has no card: its words go out as they came in.
        8 => fill(a[0], a[1], &mut reply.tree),
        9 => fetch(
            a[0],
            a[1],
            a[2],
            a[3],
            &frame.list,
            &frame.tree,
            &mut reply.words,
        ),
        _ => store(
            a[0],
            a[1],
            a[2],
            a[3],
            &frame.list,
            &mut reply.tree,
            &frame.words,
        ),
    }
}

fn call_begin(frame: &Frame, reply: &mut Reply, request: Request) -> Result<(), Refusal> {
    let card = card_from_words(&frame.card)?;
    let (after, named) = begin(&card, request, &mut reply.list)?;
    reply.card = words_from_card(&after);
    reply.answer = [
        named.whole.len() as u64,
        named.least.len() as u64,
        0,
        0,
        0,
        0,
    ];
    Ok(())
}

fn answer_words(answer: &Answer) -> [u64; 6] {
    [
        answer.key,
        answer.value,
        answer.label,
        answer.stamp,
        answer.found,
        answer.words,
    ]
}
