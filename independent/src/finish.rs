//! Finish: the work on the fetched buckets.

use crate::badcard::bad_card;
use crate::begin::request_list;
use crate::card::{Answer, Card, Request};
use crate::fetched::{damage_clauses, read_fetched, write_whole, Fetched};
use crate::places::{path_below_root, path_bucket, path_holds, BucketList};
use crate::record::{Record, DUMMY};
use crate::refusal::Refusal;

/// "Finish takes the fetched words in list order. It works, then each bucket's part of the fetched
/// words is written where it stands". It "checks 13, 3, 11, 12 only".
pub fn finish(card: &Card, words: &mut [u64]) -> Result<(Card, Answer), Refusal> {
    let worked = try_work(card, words)?;
    // Damaged: "or the card that would come out is a BadCard"
    if bad_card(&worked.card) {
        return Err(Refusal::Damaged);
    }
    write_whole(&worked.named, &worked.fetched, words);
    Ok((worked.card, worked.answer))
}

/// What the work comes to, before the card that would come out is looked at.
pub struct Worked {
    pub card: Card,
    pub answer: Answer,
    named: BucketList,
    fetched: Fetched,
}

pub fn try_work(card: &Card, words: &[u64]) -> Result<Worked, Refusal> {
    if bad_card(card) {
        return Err(Refusal::BadCard);
    }
    let request = match card.waiting {
        None => return Err(Refusal::Idle),
        Some(request) => request,
    };
    let named = request_list(card, &request);
    if (words.len() as u128) < named.words_needed(card.z) as u128 {
        return Err(Refusal::ShortRoom);
    }
    let mut fetched = read_fetched(card.z, &named, words);
    if !damage_clauses(card, &fetched).is_empty() {
        return Err(Refusal::Damaged);
    }
    let mut after = card.clone();
    let mut answer = match work(&mut after, &mut fetched, &request) {
        None => return Err(Refusal::Damaged),
        Some(answer) => answer,
    };
    // "Every finished Insert, ExtractMin and Delete adds 1 to t."
    after.t += 1;
    after.waiting = None;
    // "The answer carries the words moved, fetched plus stored"
    answer.words = named.words_moved(card.z);
    Ok(Worked {
        card: after,
        answer,
        named,
        fetched,
    })
}

/// Does the request, evicts and works out least records; t is still the count of before. None where
/// what must be there is not, which can't be once the checks above have passed.
fn work(card: &mut Card, fetched: &mut Fetched, request: &Request) -> Option<Answer> {
    match *request {
        Request::Insert {
            key,
            value,
            label,
            first,
            second,
        } => {
            let record = Record {
                key,
                value,
                label,
                stamp: card.t,
            };
            insert_into_root(card, record)?;
            card.c += 1;
            // "then evicts the first path, then the second"
            evict(card, fetched, first);
            evict(card, fetched, second);
            update_least(card, fetched, &[first, second]);
            // "It answers label and stamp."
            Some(Answer {
                label,
                stamp: record.stamp,
                ..Answer::default()
            })
        }
        Request::ExtractMin => {
            // "ExtractMin replaces the root's least record, wherever it is on the path, by the
            // dummy"
            let wanted = card.least;
            let path_leaf = wanted.label;
            let record = remove(card, fetched, path_leaf, |slot| *slot == wanted)?;
            card.c = card.c.checked_sub(1)?;
            evict(card, fetched, path_leaf);
            update_least(card, fetched, &[path_leaf]);
            Some(Answer::of(&record))
        }
        Request::Delete { label, stamp } => {
            // "Delete does so with the record that has this label and stamp, or answers Absent and
            // removes nothing." The dummy, whose label and stamp are 0, is no such record.
            let named = |slot: &Record| slot.label == label && slot.stamp == stamp;
            let removed = remove(card, fetched, label, named);
            if removed.is_some() {
                card.c = card.c.checked_sub(1)?;
            }
            // "Then the path is evicted. Absent counts as a finished request and stores its
            // buckets like any other."
            evict(card, fetched, label);
            update_least(card, fetched, &[label]);
            let found = if removed.is_some() { 1 } else { 0 };
            Some(Answer {
                found,
                ..Answer::default()
            })
        }
    }
}

/// "Insert puts the record, with stamp t, into the lowest dummy slot of the root".
fn insert_into_root(card: &mut Card, record: Record) -> Option<()> {
    for slot in &mut card.root[..card.r as usize] {
        if slot.is_dummy() {
            *slot = record;
            return Some(());
        }
    }
    None
}

/// The slots of a path bucket at a level; level 0 is the root, whose slots are on the card.
fn slots_at<'a>(
    card: &'a mut Card,
    fetched: &'a mut Fetched,
    leaf: u64,
    level: u64,
) -> &'a mut [Record] {
    if level == 0 {
        return &mut card.root[..card.r as usize];
    }
    let number = path_bucket(card.h, leaf, level);
    match fetched.whole.get_mut(&number) {
        Some(bucket) => &mut bucket.slots,
        // Not reached: every bucket of the path is fetched whole.
        None => &mut [],
    }
}

/// Replaces the wanted record by the dummy, in all four words, and hands it back.
fn remove(
    card: &mut Card,
    fetched: &mut Fetched,
    leaf: u64,
    wanted: impl Fn(&Record) -> bool,
) -> Option<Record> {
    for level in 0..=card.h {
        for slot in slots_at(card, fetched, leaf, level) {
            if !slot.is_dummy() && wanted(slot) {
                let record = *slot;
                *slot = DUMMY;
                return Some(record);
            }
        }
    }
    None
}

/// "Eviction goes from the leaf's bucket up to level 1. For each dummy slot, lowest first, it moves
/// in the first record found from the root downwards, slots ascending, that stands at a smaller
/// level and whose own path holds this bucket. The place left becomes the dummy."
fn evict(card: &mut Card, fetched: &mut Fetched, leaf: u64) {
    for level in (1..=card.h).rev() {
        for place in 0..card.z as usize {
            if slots_at(card, fetched, leaf, level)[place].is_dummy() {
                if let Some(record) = take_from_above(card, fetched, leaf, level) {
                    slots_at(card, fetched, leaf, level)[place] = record;
                }
            }
        }
    }
}

/// Takes the first record above this level that may stand in the path's bucket at this level.
fn take_from_above(
    card: &mut Card,
    fetched: &mut Fetched,
    leaf: u64,
    level: u64,
) -> Option<Record> {
    let h = card.h;
    let number = path_bucket(h, leaf, level);
    for above in 0..level {
        for slot in slots_at(card, fetched, leaf, above) {
            if !slot.is_dummy() && path_holds(h, slot.label, number) {
                let record = *slot;
                *slot = DUMMY;
                return Some(record);
            }
        }
    }
    None
}

/// "Least records of the evicted paths are then worked out from the leaf up, the root last."
fn update_least(card: &mut Card, fetched: &mut Fetched, evicted: &[u64]) {
    for leaf in evicted {
        for number in path_below_root(card.h, *leaf).into_iter().rev() {
            let slots = match fetched.whole.get(&number) {
                Some(bucket) => bucket.slots.clone(),
                None => continue,
            };
            let least = fetched.least_given(card.h, number, &slots);
            if let Some(bucket) = fetched.whole.get_mut(&number) {
                bucket.least = least;
            }
        }
    }
    card.least = fetched.least_given(card.h, 1, &card.root[..card.r as usize]);
}
