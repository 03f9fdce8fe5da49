//! BadCard, clause by clause.

use crate::card::{request_refused, sizes_good, Card};
use crate::places::leaves;
use crate::record::Record;

pub fn bad_card(card: &Card) -> bool {
    !bad_clauses(card).is_empty()
}

/// The clauses that make this card bad, by name; none for a good card. With a size out of range no
/// other is looked at, as N and R mean nothing then.
pub fn bad_clauses(card: &Card) -> Vec<&'static str> {
    // "sizes out of range"
    if !sizes_good(card.h, card.z, card.r, card.most) {
        return vec!["sizes out of range"];
    }
    let mut clauses = Vec::new();
    count_clauses(card, &mut clauses);
    root_clauses(card, &mut clauses);
    least_clauses(card, &mut clauses);
    waiting_clause(card, &mut clauses);
    clauses
}

/// "t above T; c above N or t".
fn count_clauses(card: &Card, clauses: &mut Vec<&'static str>) {
    if card.t > card.most {
        clauses.push("t above T");
    }
    if card.c > leaves(card.h) {
        clauses.push("c above N");
    }
    if card.c > card.t {
        clauses.push("c above t");
    }
}

fn root_clauses(card: &Card, clauses: &mut Vec<&'static str>) {
    let n = leaves(card.h);
    let (slots, past) = card.root.split_at(card.r as usize);
    // "a root slot that is neither proper nor dummy"
    if slots
        .iter()
        .any(|slot| !slot.is_dummy() && !slot.is_proper(n, card.t))
    {
        clauses.push("root slot neither proper nor dummy");
    }
    // "slots past R not dummy"
    if past.iter().any(|place| !place.is_dummy()) {
        clauses.push("slot past R not dummy");
    }
    let records = root_records(card);
    // "two root records with one stamp": the dummy is no record here
    if two_share_a_stamp(&records) {
        clauses.push("two root records with one stamp");
    }
    // "more root records than c"
    if records.len() as u128 > card.c as u128 {
        clauses.push("more root records than c");
    }
}

pub fn two_share_a_stamp(records: &[Record]) -> bool {
    for (i, one) in records.iter().enumerate() {
        for other in &records[i + 1..] {
            if one.stamp == other.stamp {
                return true;
            }
        }
    }
    false
}

fn least_clauses(card: &Card, clauses: &mut Vec<&'static str>) {
    let least = &card.least;
    // "root's least dummy while c is above 0"
    if least.is_dummy() && card.c > 0 {
        clauses.push("least dummy while c above 0");
    }
    // "or other than the dummy while c = 0"
    if !least.is_dummy() && card.c == 0 {
        clauses.push("least not dummy while c = 0");
    }
    // "or neither the dummy nor proper"
    if !least.is_dummy() && !least.is_proper(leaves(card.h), card.t) {
        clauses.push("least neither dummy nor proper");
    }
    // "or greater than some root record", in the records' order
    if root_records(card)
        .iter()
        .any(|record| record.comes_before(least))
    {
        clauses.push("least greater than a root record");
    }
}

/// "a waiting request that begin would refuse (numbers 4 to 10)".
fn waiting_clause(card: &Card, clauses: &mut Vec<&'static str>) {
    if let Some(request) = &card.waiting {
        if let Some(refusal) = request_refused(card, request) {
            clauses.push(match refusal.number() {
                4 => "waiting request refused: 4",
                5 => "waiting request refused: 5",
                6 => "waiting request refused: 6",
                7 => "waiting request refused: 7",
                8 => "waiting request refused: 8",
                9 => "waiting request refused: 9",
                _ => "waiting request refused: 10",
            });
        }
    }
}

/// What stands in the root's R slots and is not the dummy.
pub fn root_records(card: &Card) -> Vec<Record> {
    let mut records = Vec::new();
    for slot in &card.root[..card.r as usize] {
        if !slot.is_dummy() {
            records.push(*slot);
        }
    }
    records
}
