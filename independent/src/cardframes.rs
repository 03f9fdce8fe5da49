//! Frames with forged cards, one or two forgeries at a time; and begins whose fields are refused,
//! one or more at a time.

use crate::begin::request_list;
use crate::card::{request_refused, Card, Request};
use crate::forge::{fill_root, forge, forge_words, known_leaves};
use crate::frame::{Frame, MOST_LIST, MOST_WORDS};
use crate::makeframe::{frame_for, list_length, room, set_length, set_request};
use crate::places::leaves;
use crate::random::Random;
use crate::record::DUMMY;
use crate::world::World;

pub fn card_frame(random: &mut Random) -> Frame {
    let highest = random.pick(&[2, 4, 16]);
    let (mut world, waiting) = if random.chance(50) {
        let (world, request) = World::with_request(random, highest);
        (world, Some(request))
    } else {
        (World::new(random, highest), None)
    };
    let op = random.between(2, 7);
    let request = world.request_of(random, op);
    // The words are those that a finish of the waiting request takes, before the card is forged.
    let words = match &waiting {
        Some(waiting) => world.fetched_words(&request_list(&world.card, waiting)),
        None => Vec::new(),
    };
    world.card.waiting = waiting;
    let defects = random.pick(&[0, 0, 1, 1, 1, 2, 2]);
    for _ in 0..defects {
        forge(random, &mut world.card);
    }
    let mut frame = frame_for(random, op, &world.card);
    if op <= 4 {
        let request = spoiled_request(random, &world.card, request);
        set_request(&mut frame, &request);
        if let 1..=16 = world.card.h {
            let length = room(random, list_length(world.card.h, &request), MOST_LIST);
            set_length(random, &mut frame.list, length);
        }
    }
    if op == 7 {
        let length = room(random, words.len() as u64, MOST_WORDS);
        frame.words = words;
        set_length(random, &mut frame.words, length);
    }
    if random.chance(12) {
        forge_words(random, &mut frame.card);
    }
    frame
}

/// The request with none, one or more of its fields out of range.
fn spoiled_request(random: &mut Random, card: &Card, request: Request) -> Request {
    let n = known_leaves(card);
    let below_half = (n / 2).saturating_sub(1);
    let wrong = random.pick(&[n, n + 1, n / 2, below_half, 0, n - 1, u64::MAX]);
    let odds = if random.chance(50) { 0 } else { 35 };
    match request {
        Request::Insert {
            mut key,
            value,
            mut label,
            mut first,
            mut second,
        } => {
            if random.chance(odds) {
                key = u64::MAX;
            }
            if random.chance(odds * 2 / 3) {
                label = random.pick(&[n, wrong]);
            }
            if random.chance(odds * 2 / 3) {
                first = random.pick(&[n / 2, wrong]);
            }
            if random.chance(odds * 2 / 3) {
                second = random.pick(&[n, below_half, wrong]);
            }
            Request::Insert {
                key,
                value,
                label,
                first,
                second,
            }
        }
        Request::ExtractMin => Request::ExtractMin,
        Request::Delete {
            mut label,
            mut stamp,
        } => {
            if random.chance(odds) {
                label = random.pick(&[n, wrong]);
            }
            if random.chance(odds) {
                stamp = random.pick(&[card.t, card.t.saturating_add(1), u64::MAX]);
            }
            Request::Delete { label, stamp }
        }
    }
}

/// A good card on which a begin is refused for more than one ground: spent, full and overflowing,
/// or spent and empty, with fields and list at fault as well.
pub fn crowded_frame(random: &mut Random) -> Frame {
    let (mut world, request) = World::with_request(random, 5);
    let card = &mut world.card;
    let n = leaves(card.h);
    if random.chance(45) {
        fill_root(random, card);
    }
    if random.chance(15) && card.t >= n && card.c > 0 {
        card.c = n;
    }
    if random.chance(15) && card.t >= n {
        card.most = card.t;
    }
    if random.chance(15) {
        card.c = 0;
        card.least = DUMMY;
        card.root = vec![DUMMY; 64];
    }
    // Most of the requests that would be refused can't wait: they'd make a BadCard.
    if request_refused(card, &request).is_none() && random.chance(15) {
        card.waiting = Some(request);
    }
    let op = random.between(2, 5);
    let mut frame = frame_for(random, op, &world.card);
    if op <= 4 {
        let request = world.request_of(random, op);
        let request = spoiled_request(random, &world.card, request);
        set_request(&mut frame, &request);
        let length = room(random, list_length(world.card.h, &request), MOST_LIST);
        set_length(random, &mut frame.list, length);
    }
    frame
}
