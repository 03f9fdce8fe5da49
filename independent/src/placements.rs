//! Where an eviction puts records, slot by slot.

use crate::card::{Card, Request};
use crate::check::Checks;
use crate::examples::{fresh, insert};
use crate::finish::finish;
use crate::record::{smallest, write_record, Record, DUMMY};

pub fn check_placements(checks: &mut Checks) {
    leaf_first(checks);
    slots_ascending(checks);
    upper_levels_first(checks);
    both_paths(checks);
    other_half_stays(checks);
}

/// A record with this key, under this label; the stamp is the key too.
fn event(key: u64, label: u64) -> Record {
    Record {
        key,
        value: 10 * key,
        label,
        stamp: key,
    }
}

/// h = 2 with these root records and t = 9; what is in the buckets below is counted by the caller.
fn card_with(z: u64, r: u64, root: &[Record], below: &[Record]) -> Card {
    let mut card = fresh(2, z, r, 99);
    card.t = 9;
    card.c = (root.len() + below.len()) as u64;
    card.root[..root.len()].copy_from_slice(root);
    let mut all = root.to_vec();
    all.extend(below);
    card.least = smallest(&all);
    card
}

/// Words out of records in their order.
fn words_of(records: &[Record]) -> Vec<u64> {
    let mut words = vec![0; 4 * records.len()];
    for (place, record) in records.iter().enumerate() {
        write_record(&mut words, 4 * place, record);
    }
    words
}

/// A Delete of label 0 that finds nothing: buckets 2 and 4 whole, siblings 3 and 5.
fn absent(mut card: Card, records: &[Record]) -> Option<(Card, Vec<u64>)> {
    card.waiting = Some(Request::Delete { label: 0, stamp: 8 });
    let mut words = words_of(records);
    let (after, answer) = finish(&card, &mut words).ok()?;
    if answer.found == 1 {
        return None;
    }
    Some((after, words))
}

/// "Eviction goes from the leaf's bucket up to level 1": the first of the root goes to the leaf.
fn leaf_first(checks: &mut Checks) {
    let (one, two) = (event(1, 0), event(2, 0));
    let card = card_with(1, 2, &[one, two], &[]);
    let good = match absent(card, &[DUMMY; 6]) {
        None => false,
        Some((after, words)) => {
            words == words_of(&[one, two, one, one, DUMMY, DUMMY])
                && after.root == vec![DUMMY; 64]
                && after.least == one
                && after.t == 10
                && after.c == 2
        }
    };
    checks.that("the leaf's bucket first", good);
}

/// "For each dummy slot, lowest first"; "slots ascending".
fn slots_ascending(checks: &mut Checks) {
    let root = [event(3, 0), event(1, 1), event(2, 0)];
    let own = event(4, 0);
    let card = card_with(2, 3, &root, &[own]);
    // Bucket 4 has its second slot taken; bucket 2 is empty.
    let records = [own, DUMMY, DUMMY, own, DUMMY, own, DUMMY, DUMMY];
    let good = match absent(card, &records) {
        None => false,
        Some((after, words)) => {
            let least = root[1];
            let bucket_two = [least, root[1], root[2]];
            let bucket_four = [root[0], root[0], own];
            let whole = [bucket_two, bucket_four].concat();
            words == words_of(&[whole, vec![DUMMY, DUMMY]].concat()) && after.least == least
        }
    };
    checks.that("slots ascending, dummy slots lowest first", good);
}

/// "the first record found from the root downwards": the root's before level 1's.
fn upper_levels_first(checks: &mut Checks) {
    let (high, low) = (event(6, 0), event(5, 0));
    let card = card_with(1, 1, &[high], &[low]);
    let good = match absent(card, &[low, low, DUMMY, DUMMY, DUMMY, DUMMY]) {
        None => false,
        Some((after, words)) => {
            words == words_of(&[low, low, high, high, DUMMY, DUMMY])
                && after.root == vec![DUMMY; 64]
        }
    };
    checks.that("from the root downwards", good);
}

/// An Insert evicts both paths: one record goes to either side, the new one among them.
fn both_paths(checks: &mut Checks) {
    let (left, right) = (event(1, 0), event(2, 3));
    let mut card = card_with(1, 4, &[left, right], &[]);
    card.waiting = Some(insert(7, 70, 3, 0, 3));
    // 2, 4, 3, 7 whole, 5 and 6 for least records.
    let mut words = words_of(&[DUMMY; 10]);
    let new = Record {
        key: 7,
        value: 70,
        label: 3,
        stamp: 9,
    };
    let done = finish(&card, &mut words);
    let records = [
        left, DUMMY, left, left, right, new, right, right, DUMMY, DUMMY,
    ];
    let good = match done {
        Err(_) => false,
        Ok((after, answer)) => {
            answer.label == 3
                && answer.stamp == 9
                && after.c == 3
                && after.root == vec![DUMMY; 64]
                && words == words_of(&records)
        }
    };
    checks.that("an Insert evicts both paths", good);
}

/// A record of the other half stays in the root, and its slot with it.
fn other_half_stays(checks: &mut Checks) {
    let root = [event(5, 3), event(1, 1), event(2, 2)];
    let card = card_with(1, 3, &root, &[]);
    let good = match absent(card, &[DUMMY; 6]) {
        None => false,
        Some((after, words)) => {
            after.root[..3] == [root[0], DUMMY, root[2]]
                && words == words_of(&[root[1], root[1], DUMMY, DUMMY, DUMMY, DUMMY])
        }
    };
    checks.that("a record of the other half stays", good);
}
