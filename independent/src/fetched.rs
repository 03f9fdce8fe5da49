//! The fetched words as buckets, and what Damaged asks of them.

use std::collections::BTreeMap;

use crate::badcard::{root_records, two_share_a_stamp};
use crate::card::Card;
use crate::places::{leaves, path_holds, BucketList};
use crate::record::{read_record, smallest, write_record, Record, DUMMY};

/// A whole bucket: "first its least record, then its slots".
#[derive(Clone, PartialEq, Eq, Debug)]
pub struct Bucket {
    pub least: Record,
    pub slots: Vec<Record>,
}

/// What was fetched, by bucket number. A request's own list names no number twice.
#[derive(Clone, PartialEq, Eq, Debug)]
pub struct Fetched {
    pub whole: BTreeMap<u64, Bucket>,
    pub siblings: BTreeMap<u64, Record>,
}

/// Reads "the fetched words in list order". The words are enough for the list.
pub fn read_fetched(z: u64, named: &BucketList, words: &[u64]) -> Fetched {
    let mut fetched = Fetched {
        whole: BTreeMap::new(),
        siblings: BTreeMap::new(),
    };
    let mut at = 0;
    for number in &named.whole {
        let least = read_record(words, at);
        at += 4;
        let mut slots = Vec::new();
        for _ in 0..z {
            slots.push(read_record(words, at));
            at += 4;
        }
        fetched.whole.insert(*number, Bucket { least, slots });
    }
    for number in &named.least {
        fetched.siblings.insert(*number, read_record(words, at));
        at += 4;
    }
    fetched
}

/// "each bucket's part of the fetched words is written where it stands; sibling words, and any
/// words past the list, stay".
pub fn write_whole(named: &BucketList, fetched: &Fetched, words: &mut [u64]) {
    let mut at = 0;
    for number in &named.whole {
        let bucket = &fetched.whole[number];
        write_record(words, at, &bucket.least);
        at += 4;
        for slot in &bucket.slots {
            write_record(words, at, slot);
            at += 4;
        }
    }
}

impl Fetched {
    /// The least record of a fetched bucket, whole or sibling, as it stands now.
    fn least_of(&self, number: u64) -> Record {
        if let Some(bucket) = self.whole.get(&number) {
            return bucket.least;
        }
        if let Some(least) = self.siblings.get(&number) {
            return *least;
        }
        // Not reached: both children of a path bucket are in every list.
        DUMMY
    }

    /// "The least record is the smallest of its own slots and its children's least records, or the
    /// dummy; a tie takes own slots first in slot order, then the lower child."
    pub fn least_given(&self, h: u64, number: u64, slots: &[Record]) -> Record {
        let mut candidates = slots.to_vec();
        // The buckets from N on are the leaves' and have no children.
        if number < leaves(h) {
            candidates.push(self.least_of(2 * number));
            candidates.push(self.least_of(2 * number + 1));
        }
        smallest(&candidates)
    }
}

/// The clauses of Damaged that the fetched words and the root show before the work, by name. The
/// last clause, the card that would come out, is looked at after the work.
pub fn damage_clauses(card: &Card, fetched: &Fetched) -> Vec<&'static str> {
    let mut clauses = Vec::new();
    belonging_clauses(card, fetched, &mut clauses);
    if shared_stamp(card, fetched) {
        clauses.push("two slots share a stamp");
    }
    least_clauses(card, fetched, &mut clauses);
    clauses
}

/// "a fetched slot or least record is neither the dummy nor a proper record whose path holds that
/// bucket". For a sibling's least record that bucket is the sibling itself.
fn belonging_clauses(card: &Card, fetched: &Fetched, clauses: &mut Vec<&'static str>) {
    for (number, bucket) in &fetched.whole {
        if bucket
            .slots
            .iter()
            .any(|slot| !belongs(card, *number, slot))
        {
            clauses.push("slot does not belong");
        }
        if !belongs(card, *number, &bucket.least) {
            clauses.push("path bucket's least does not belong");
        }
    }
    for (number, least) in &fetched.siblings {
        if !belongs(card, *number, least) {
            clauses.push("sibling's least does not belong");
        }
    }
}

fn belongs(card: &Card, number: u64, record: &Record) -> bool {
    if record.is_dummy() {
        return true;
    }
    record.is_proper(leaves(card.h), card.t) && path_holds(card.h, record.label, number)
}

/// "two slots that are not dummies, root included, share a stamp". Slots only: least records repeat
/// by design.
fn shared_stamp(card: &Card, fetched: &Fetched) -> bool {
    let mut records = root_records(card);
    for bucket in fetched.whole.values() {
        records.extend(bucket.slots.iter().filter(|slot| !slot.is_dummy()));
    }
    two_share_a_stamp(&records)
}

/// "the least record of a path bucket or of the root isn't the one its slots and children give", in
/// all four numbers.
fn least_clauses(card: &Card, fetched: &Fetched, clauses: &mut Vec<&'static str>) {
    for (number, bucket) in &fetched.whole {
        if bucket.least != fetched.least_given(card.h, *number, &bucket.slots) {
            clauses.push("path bucket's least not the one given");
        }
    }
    if card.least != fetched.least_given(card.h, 1, &card.root[..card.r as usize]) {
        clauses.push("root's least not the one given");
    }
}
