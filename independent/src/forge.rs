//! Forging: each clause of BadCard, and near misses that are good.

use crate::card::{sizes_good, Card, Request};
use crate::cardwords::{FIELDS, KIND};
use crate::makeframe::any_word;
use crate::places::leaves;
use crate::random::Random;
use crate::record::{smallest, Record, DUMMY};

/// One clause of BadCard, or a near miss of one.
pub fn forge(random: &mut Random, card: &mut Card) {
    match random.below(6) {
        0 => forge_sizes(random, card),
        1 => forge_counts(random, card),
        2 | 3 => forge_root(random, card),
        4 => forge_least(random, card),
        _ => forge_waiting(random, card),
    }
}

pub fn known_leaves(card: &Card) -> u64 {
    if card.h <= 16 {
        leaves(card.h)
    } else {
        65536
    }
}

fn forge_sizes(random: &mut Random, card: &mut Card) {
    let n = known_leaves(card);
    match random.below(4) {
        0 => card.h = random.pick(&[0, 17, 64, u64::MAX, card.h.wrapping_add(1)]),
        1 => card.z = random.pick(&[0, 6, 5, u64::MAX]),
        2 => card.r = random.pick(&[0, 65, 64, u64::MAX, card.r.saturating_sub(1)]),
        _ => card.most = random.pick(&[n - 1, n, 4294967295, 4294967296, u64::MAX, 0]),
    }
}

fn forge_counts(random: &mut Random, card: &mut Card) {
    let n = known_leaves(card);
    match random.below(4) {
        0 => card.t = random.pick(&[card.most, card.most.wrapping_add(1), u64::MAX]),
        1 => card.c = random.pick(&[n, n + 1, u64::MAX]),
        2 => card.c = random.pick(&[card.t, card.t.wrapping_add(1)]),
        _ => card.c = random.pick(&[0, card.c.wrapping_sub(1), card.c.wrapping_add(1)]),
    }
}

/// A record that is proper but for one thing, or is proper at the edge.
fn near_record(random: &mut Random, card: &Card) -> Record {
    let n = known_leaves(card);
    let mut record = Record {
        key: random.below(5),
        value: random.below(5),
        label: random.below(n),
        stamp: random.below(card.t),
    };
    match random.below(9) {
        0 => record.label = n,
        1 => record.label = n - 1,
        2 => record.stamp = card.t,
        3 => record.stamp = card.t.wrapping_sub(1),
        4 => record = Record { value: 1, ..DUMMY },
        5 => record = Record { label: 1, ..DUMMY },
        6 => record = Record { stamp: 1, ..DUMMY },
        7 => record.key = u64::MAX - 1,
        _ => {}
    }
    record
}

fn forge_root(random: &mut Random, card: &mut Card) {
    let slots = card.r.min(64);
    let place = random.below(slots.max(1)) as usize;
    match random.below(7) {
        0 => card.root[place] = near_record(random, card),
        // Places past R, the first and the last of them above all.
        1 => {
            let any = random.between(slots.min(63), 63);
            let past = random.pick(&[slots.min(63), 63, any]) as usize;
            card.root[past] = near_record(random, card);
        }
        2 => {
            card.root[63] = Record {
                key: 0,
                value: 0,
                label: 0,
                stamp: 0,
            }
        }
        3 | 4 => forge_stamps(random, card, slots),
        // As many records as c allows, one more, or one fewer.
        5 => {
            let records = card.root.iter().filter(|slot| !slot.is_dummy()).count() as u64;
            card.c = random.pick(&[records, records.wrapping_sub(1), records + 1]);
        }
        _ => card.root[place] = DUMMY,
    }
    // So that the least record is not at fault as well, most of the time.
    if random.chance(70) && card.root[place].comes_before(&card.least) {
        card.least = card.root[place];
    }
}

/// Two root records with one stamp, all else apart or nothing apart; or, as a near miss, with
/// stamps one apart. The second stands in a slot of its own and is counted.
fn forge_stamps(random: &mut Random, card: &mut Card, slots: u64) {
    if slots < 2 || card.t < 2 {
        return;
    }
    let one = random.below(slots) as usize;
    let other = (one + 1 + random.below(slots - 1) as usize) % slots as usize;
    if card.root[one].is_dummy() {
        card.root[one] = Record {
            key: 2,
            value: 0,
            label: 0,
            stamp: card.t - 2,
        };
    }
    card.root[other] = card.root[one];
    match random.below(4) {
        0 => {}
        1 => card.root[other].stamp = card.root[one].stamp.wrapping_add(1),
        2 => card.root[other].key = random.below(3),
        _ => card.root[other].value = 9,
    }
    for place in [one, other] {
        if card.root[place].comes_before(&card.least) {
            card.least = card.root[place];
        }
    }
    card.c = card.c.saturating_add(2).min(card.t).min(known_leaves(card));
}

fn forge_least(random: &mut Random, card: &mut Card) {
    let slots: Vec<Record> = card
        .root
        .iter()
        .filter(|slot| !slot.is_dummy())
        .copied()
        .collect();
    match random.below(9) {
        0 => card.least = DUMMY,
        1 => card.least = near_record(random, card),
        2 => card.c = 0,
        // Equal in key and stamp, which is not greater.
        3 => card.least.value = card.least.value.wrapping_add(1),
        4 => card.least.label = random.below(known_leaves(card)),
        5 => card.least.stamp = card.least.stamp.wrapping_add(1),
        6 => card.least.key = card.least.key.wrapping_add(1),
        // Of the same key as a root record, with a later or an earlier stamp.
        7 if !slots.is_empty() => {
            let record = random.pick(&slots);
            let stamp = record.stamp.wrapping_add(random.pick(&[1, 1, u64::MAX]));
            card.least = Record { stamp, ..record };
            card.t = card.t.max(stamp.saturating_add(1));
        }
        _ => {
            if !slots.is_empty() {
                card.least = random.pick(&slots);
            }
        }
    }
}

/// A waiting request that begin would refuse with one of 4 to 10, or just not.
fn forge_waiting(random: &mut Random, card: &mut Card) {
    let n = known_leaves(card);
    let mut key = 1;
    let (mut label, mut first, mut second) = (n - 1, 0, n - 1);
    match random.below(12) {
        0 => card.t = card.most,
        1 => key = u64::MAX,
        2 => label = n,
        3 => first = n / 2,
        4 => second = (n / 2).wrapping_sub(1),
        5 => second = n,
        6 => {
            card.waiting = Some(Request::Delete {
                label: n,
                stamp: card.t.wrapping_sub(1),
            });
            return;
        }
        7 => {
            let stamp = random.pick(&[card.t, card.t.wrapping_sub(1)]);
            card.waiting = Some(Request::Delete {
                label: n - 1,
                stamp,
            });
            return;
        }
        8 => {
            card.waiting = Some(Request::ExtractMin);
            if random.chance(50) {
                card.c = 0;
                card.least = DUMMY;
                card.root = vec![DUMMY; 64];
            }
            return;
        }
        9 => card.c = n,
        10 => {
            if sizes_good(card.h, card.z, card.r, card.most) {
                fill_root(random, card);
            }
        }
        _ => second = n / 2,
    }
    card.waiting = Some(Request::Insert {
        key,
        value: 0,
        label,
        first,
        second,
    });
}

/// What only the words of a card can hold: a kind above 3, and fields that the kind does not use.
pub fn forge_words(random: &mut Random, words: &mut [u64]) {
    match random.below(4) {
        0 => words[KIND] = random.pick(&[4, 5, u64::MAX, 1 << 32, 256]),
        1 => words[KIND] = random.below(4),
        _ => {
            let used = match words[KIND] {
                1 => 5,
                3 => 2,
                _ => 0,
            };
            for place in used..5 {
                words[FIELDS + place] = any_word(random);
            }
        }
    }
}

/// Every root slot real, or all but one, with t raised to fit. The sizes are in their ranges.
pub fn fill_root(random: &mut Random, card: &mut Card) {
    if random.chance(70) {
        card.r = card.r.min(leaves(card.h) - 1);
    }
    card.t = card.t.max(70);
    card.most = card.most.max(71);
    let spare = if random.chance(30) {
        random.below(card.r)
    } else {
        64
    };
    let n = leaves(card.h);
    let wanted = card.r.min(n);
    card.root = vec![DUMMY; 64];
    for place in 0..wanted {
        let record = Record {
            key: 3,
            value: place,
            label: random.below(n),
            stamp: place,
        };
        card.root[place as usize] = if place == spare { DUMMY } else { record };
    }
    card.c = wanted;
    card.least = smallest(&card.root);
    if card.least.is_dummy() {
        card.c = 0;
    }
}
