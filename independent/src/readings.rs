//! The readings that only a forged card or a lying rack shows.

use crate::badcard::bad_card;
use crate::begin::{begin, withdraw};
use crate::card::{Card, Request};
use crate::check::Checks;
use crate::examples::{fresh, insert};
use crate::finish::finish;
use crate::places::{insert_list, BucketList};
use crate::record::{Record, DUMMY};
use crate::refusal::Refusal;

pub fn check_readings(checks: &mut Checks) {
    let named = insert_list(3, 1, 6);
    let whole = named.whole == [2, 4, 9, 3, 7, 14];
    checks.that(
        "1: h = 3, leaves 1 and 6",
        whole && named.least == [5, 8, 6, 15],
    );
    cards(checks);
    least_records_on_cards(checks);
    waiting_requests(checks);
    siblings(checks);
    ties(checks);
    card_that_comes_out(checks);
}

fn record(key: u64, value: u64, label: u64, stamp: u64) -> Record {
    Record {
        key,
        value,
        label,
        stamp,
    }
}

/// h = 1, N = 2, one slot below, four in the root, t = 5, c = 2, records 3 and 4 in the root.
fn two_in_root() -> Card {
    let mut card = fresh(1, 1, 4, 9);
    card.t = 5;
    card.c = 2;
    card.root[0] = record(3, 0, 1, 4);
    card.root[2] = record(4, 0, 0, 0);
    card.least = card.root[0];
    card
}

fn changed(change: impl Fn(&mut Card)) -> Card {
    let mut card = two_in_root();
    change(&mut card);
    card
}

fn cards(checks: &mut Checks) {
    checks.that("a good card", !bad_card(&two_in_root()));
    checks.that(
        "19: a fresh card is good",
        !bad_card(&fresh(16, 5, 64, 65536)),
    );
    checks.that("18: t = T", !bad_card(&changed(|card| card.most = 5)));
    checks.that("18: t above T", bad_card(&changed(|card| card.most = 4)));
    checks.that("18: c above N", bad_card(&changed(|card| card.c = 3)));
    checks.that(
        "18: more root records than c",
        bad_card(&changed(|card| card.c = 1)),
    );
    let at_t = changed(|card| card.root[0].stamp = 5);
    checks.that("21: a root stamp of t", bad_card(&at_t));
    checks.that(
        "a root label of N",
        bad_card(&changed(|card| card.root[0].label = 2)),
    );
    checks.that(
        "20: past R",
        bad_card(&changed(|card| card.root[4] = record(9, 0, 0, 1))),
    );
    checks.that(
        "20: zeros past R",
        bad_card(&changed(|card| card.root[63] = record(0, 0, 0, 0))),
    );
    for tail in [
        Record { value: 1, ..DUMMY },
        Record { label: 1, ..DUMMY },
        Record { stamp: 1, ..DUMMY },
    ] {
        let slot = move |card: &mut Card| card.root[2] = tail;
        checks.that(
            "20: a dummy with a tail in a slot",
            bad_card(&changed(slot)),
        );
        let past = move |card: &mut Card| card.root[4] = tail;
        checks.that("20: a dummy with a tail past R", bad_card(&changed(past)));
        let least = move |card: &mut Card| {
            card.root = vec![DUMMY; 64];
            card.least = tail;
        };
        checks.that(
            "20: a dummy with a tail as least record",
            bad_card(&changed(least)),
        );
    }
    let few = |card: &mut Card| {
        card.t = 1;
        card.root[0] = DUMMY;
        card.least = card.root[2];
    };
    checks.that("18: c above t", bad_card(&changed(few)));
    checks.that(
        "19: one stamp twice",
        bad_card(&changed(|card| card.root[2].stamp = 4)),
    );
    for h in [0, 17, 64, u64::MAX] {
        checks.that("24: a bad height", bad_card(&changed(|card| card.h = h)));
    }
    let wild = changed(|card| {
        card.r = u64::MAX;
        card.most = u64::MAX;
        card.t = u64::MAX;
        card.c = u64::MAX;
    });
    checks.that("24: absurd sizes", bad_card(&wild));
}

fn least_records_on_cards(checks: &mut Checks) {
    checks.that(
        "22: greater by key",
        bad_card(&changed(|card| card.least.key = 5)),
    );
    let later = |card: &mut Card| {
        card.root[0] = DUMMY;
        card.least = record(4, 0, 0, 1);
    };
    checks.that("22: greater by stamp", bad_card(&changed(later)));
    let at_t = |card: &mut Card| card.least = record(1, 0, 0, 5);
    checks.that("21: a least record with stamp t", bad_card(&changed(at_t)));
    let below = |card: &mut Card| card.least = record(3, 0, 1, 3);
    checks.that(
        "23: smaller than all in the root",
        !bad_card(&changed(below)),
    );
    let other = |card: &mut Card| card.least = record(3, 9, 0, 4);
    checks.that("22: equal in key and stamp", !bad_card(&changed(other)));
    checks.that(
        "least dummy while c above 0",
        bad_card(&changed(|card| card.least = DUMMY)),
    );
    let empty = |card: &mut Card| {
        card.c = 0;
        card.root = vec![DUMMY; 64];
    };
    checks.that("least not dummy while c = 0", bad_card(&changed(empty)));
    let improper = |card: &mut Card| card.least = record(0, 0, 2, 0);
    checks.that("least with label N", bad_card(&changed(improper)));
    // 22: such a card is good, and finish gives 12.
    let mut card = changed(other);
    card.waiting = Some(Request::Delete { label: 0, stamp: 0 });
    let mut words = [u64::MAX, 0, 0, 0].repeat(3);
    checks.that("22: finish gives 12", refused(&card, &mut words) == 12);
    card.least = card.root[0];
    checks.that("else it is done", refused(&card, &mut words) == 0);
    // 23: the list is that of whatever label the least record has.
    let mut list = [0; 2];
    let lied = changed(|card| card.least = record(1, 1, 0, 1));
    let begun = begin(&lied, Request::ExtractMin, &mut list).is_ok();
    checks.that("23: the label that is there", begun && list == [2, 3]);
}

fn refused(card: &Card, words: &mut [u64]) -> u64 {
    let before = words.to_vec();
    match finish(card, words) {
        Ok(_) => 0,
        // 32: nothing is changed, the waiting request included.
        Err(refusal) if before == words => refusal.number(),
        Err(_) => 99,
    }
}

fn waiting_requests(checks: &mut Checks) {
    let full = changed(|card| card.waiting = Some(insert(1, 1, 0, 0, 1)));
    checks.that("17: waiting though Full", bad_card(&full));
    checks.that(
        "17: it can't be withdrawn",
        withdraw(&full) == Err(Refusal::BadCard),
    );
    let spent = changed(|card| {
        card.most = 5;
        card.waiting = Some(Request::ExtractMin);
    });
    checks.that("17: waiting though Spent", bad_card(&spent));
    let at_t =
        |stamp| changed(move |card| card.waiting = Some(Request::Delete { label: 1, stamp }));
    checks.that(
        "17: waiting with stamp t",
        bad_card(&at_t(5)) && !bad_card(&at_t(4)),
    );
    let mut overflow = fresh(2, 1, 1, 9);
    overflow.t = 1;
    overflow.c = 1;
    overflow.root[0] = record(1, 1, 1, 0);
    overflow.least = overflow.root[0];
    overflow.waiting = Some(insert(1, 1, 0, 0, 2));
    checks.that("17: waiting though it overflows", bad_card(&overflow));
    overflow.r = 2;
    checks.that("17: waiting with a free slot", !bad_card(&overflow));
}

/// Words for a list: whole buckets as least record and slots, then sibling least records.
fn words_of(records: &[Record]) -> Vec<u64> {
    let mut words = Vec::new();
    for record in records {
        words.extend([record.key, record.value, record.label, record.stamp]);
    }
    words
}

/// h = 1, Z = 1: a Delete of label 0 lists bucket 2 whole and the least record of bucket 3.
fn siblings(checks: &mut Checks) {
    let mut card = two_in_root();
    card.waiting = Some(Request::Delete { label: 0, stamp: 2 });
    let fits = record(8, 8, 1, 3);
    checks.that(
        "a sibling's record",
        refused(&card, &mut words_of(&[DUMMY, DUMMY, fits])) == 0,
    );
    let beside = record(8, 8, 0, 3);
    let number = refused(&card, &mut words_of(&[DUMMY, DUMMY, beside]));
    checks.that("25: a record of the path bucket beside it", number == 12);
    let same_stamp = record(8, 8, 1, 4);
    let number = refused(&card, &mut words_of(&[DUMMY, DUMMY, same_stamp]));
    checks.that("26: a sibling may have a slot's stamp", number == 0);
    let strange = record(8, 8, 1, 3);
    let low = record(7, 7, 0, 2);
    let number = refused(&card, &mut words_of(&[low, low, strange]));
    checks.that("slot and sibling in their places", number == 0);
    let slot = record(8, 8, 0, 4);
    let number = refused(&card, &mut words_of(&[slot, slot, DUMMY]));
    checks.that("26: two slots may not", number == 12);
    let slot = record(8, 8, 0, 3);
    checks.that(
        "a true slot",
        refused(&card, &mut words_of(&[slot, slot, DUMMY])) == 0,
    );
    let other = record(8, 9, 0, 3);
    let number = refused(&card, &mut words_of(&[other, slot, DUMMY]));
    checks.that("27: equal in order only", number == 12);
    let late = record(8, 8, 0, 5);
    checks.that(
        "a slot with stamp t",
        refused(&card, &mut words_of(&[late, late, DUMMY])) == 12,
    );
    let mut wide = card.clone();
    wide.z = 2;
    let number = refused(&wide, &mut words_of(&[low, low, strange, DUMMY]));
    checks.that(
        "a slot whose path does not hold the bucket, all else true",
        number == 12,
    );
    let tail = Record { label: 1, ..DUMMY };
    let number = refused(&card, &mut words_of(&[DUMMY, tail, DUMMY]));
    checks.that("a dummy with a label", number == 12);
}

/// 28: own slots in slot order, then the lower bucket number.
fn ties(checks: &mut Checks) {
    let mut card = fresh(1, 1, 2, 9);
    card.t = 5;
    card.c = 1;
    let low = record(3, 0, 0, 2);
    let high = record(3, 7, 1, 2);
    // Bucket 2 is the sibling, bucket 3 on the path: the lower number wins.
    card.waiting = Some(Request::Delete { label: 1, stamp: 1 });
    card.least = low;
    checks.that(
        "28: the lower child",
        refused(&card, &mut words_of(&[high, high, low])) == 0,
    );
    card.least = high;
    checks.that(
        "28: not the path child",
        refused(&card, &mut words_of(&[high, high, low])) == 12,
    );
    // A root slot wins over both; once it is evicted into bucket 3 the sibling's number is lower.
    card.root[1] = high;
    let mut words = words_of(&[DUMMY, DUMMY, low]);
    let finished = finish(&card, &mut words);
    let good = matches!(&finished, Ok((after, answer)) if after.least == low && answer.found == 0);
    let moved = words == words_of(&[high, high, low]);
    checks.that(
        "28: the least record changes though nothing is removed",
        good && moved,
    );
    card.least = low;
    checks.that(
        "28: own slots first",
        refused(&card, &mut words_of(&[DUMMY, DUMMY, low])) == 12,
    );
}

/// 30 and 31.
fn card_that_comes_out(checks: &mut Checks) {
    let mut card = two_in_root();
    let named = BucketList {
        whole: vec![3],
        least: vec![2],
    };
    checks.that("the words of the list", named.words_needed(1) == 12);
    let mine = record(1, 1, 1, 1);
    card.least = mine;
    card.waiting = Some(Request::ExtractMin);
    // (iii): c in the root and one below; bucket 3 takes one of the root's, so the card is good.
    checks.that(
        "30: one goes down",
        refused(&card, &mut words_of(&[mine, mine, DUMMY])) == 0,
    );
    card.root[0].label = 0;
    let number = refused(&card, &mut words_of(&[mine, mine, DUMMY]));
    checks.that("30: all stay in the root", number == 12);
    // (i) and (ii)
    card.root = vec![DUMMY; 64];
    let number = refused(&card, &mut words_of(&[mine, mine, DUMMY]));
    checks.that("30: c above 1 and none is left", number == 12);
    let other = record(5, 5, 0, 2);
    checks.that(
        "one is left",
        refused(&card, &mut words_of(&[mine, mine, other])) == 0,
    );
    card.c = 1;
    let number = refused(&card, &mut words_of(&[mine, mine, other]));
    checks.that("30: c = 1 and one is left", number == 12);
    checks.that(
        "c = 1, none left",
        refused(&card, &mut words_of(&[mine, mine, DUMMY])) == 0,
    );
    // 31
    card.c = 0;
    card.least = DUMMY;
    card.waiting = Some(Request::Delete { label: 1, stamp: 1 });
    checks.that(
        "31: c = 0",
        refused(&card, &mut words_of(&[mine, mine, DUMMY])) == 12,
    );
    checks.that(
        "31: Absent",
        refused(&card, &mut words_of(&[DUMMY, DUMMY, DUMMY])) == 0,
    );
}
