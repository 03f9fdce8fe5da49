//! P10 to P12, and what 01 says of single calls.

use crate::begin::{begin, find_min, withdraw};
use crate::card::{start, Card, Request};
use crate::check::Checks;
use crate::finish::finish;
use crate::heap::Heap;
use crate::places::{bucket_start, path_bucket, sibling, tree_words};
use crate::rack::{fetch, fill, store};
use crate::record::{read_record, Record, DUMMY};
use crate::refusal::Refusal;

pub fn check_examples(checks: &mut Checks) {
    points_ten_to_twelve(checks);
    numbering(checks);
    slices_longer_than_needed(checks);
    rack_refusals(checks);
    rack_copies(checks);
    refusal_order(checks);
    eviction_refills(checks);
}

pub fn insert(key: u64, value: u64, label: u64, first: u64, second: u64) -> Request {
    Request::Insert {
        key,
        value,
        label,
        first,
        second,
    }
}

/// A fresh card; the sizes are good ones.
pub fn fresh(h: u64, z: u64, r: u64, most: u64) -> Card {
    match start(h, z, r, most) {
        Ok(card) => card,
        Err(_) => unreachable!("the sizes are in their ranges"),
    }
}

/// A fresh heap; the sizes are good ones.
pub fn fresh_heap(h: u64, z: u64, r: u64, most: u64) -> Heap {
    match Heap::start(h, z, r, most) {
        Ok(heap) => heap,
        Err(_) => unreachable!("the sizes are in their ranges"),
    }
}

fn slot(heap: &Heap, bucket: u64, place: usize) -> Record {
    read_record(
        &heap.tree,
        bucket_start(heap.card.z, bucket) + 4 + 4 * place,
    )
}

fn points_ten_to_twelve(checks: &mut Checks) {
    let mut heap = fresh_heap(2, 1, 1, 16);
    let named = heap.play(insert(7, 70, 0, 1, 2)).map(|(_, named)| named);
    let p12 = matches!(&named, Ok(list) if list.whole == [2, 5, 3, 6] && list.least == [4, 7]);
    checks.that("P12", p12);
    let seven = Record {
        key: 7,
        value: 70,
        label: 0,
        stamp: 0,
    };
    checks.that(
        "P10",
        slot(&heap, 2, 0) == seven && heap.card.root[0] == DUMMY,
    );
    let second = heap.play(insert(5, 50, 0, 1, 2)).is_ok();
    let fourth = heap.play(insert(6, 60, 3, 1, 2)).map(|_| ()) == Err(Refusal::Overflow);
    checks.that("P3 and P4", second && fourth);
    let named = heap.play(Request::ExtractMin).map(|(_, named)| named);
    let listed = matches!(&named, Ok(list) if list.whole == [2, 4] && list.least == [3, 5]);
    checks.that(
        "P11",
        listed && slot(&heap, 4, 0) == seven && slot(&heap, 2, 0) == DUMMY,
    );
}

fn numbering(checks: &mut Checks) {
    checks.that("leaf q is bucket N+q", path_bucket(3, 5, 3) == 13);
    checks.that("level 0 is the root", path_bucket(3, 5, 0) == 1);
    checks.that("siblings", sibling(6) == 7 && sibling(7) == 6);
    checks.that(
        "the tree's words",
        tree_words(2, 1) == 48 && tree_words(9, 1) == 8176,
    );
    let mut tree = vec![0; 48];
    let filled = fill(2, 1, &mut tree).is_ok();
    checks.that(
        "a fresh tree is all dummies",
        filled && tree == [u64::MAX, 0, 0, 0].repeat(12),
    );
}

/// "list places past the last number stay"; "any words past the list, stay".
fn slices_longer_than_needed(checks: &mut Checks) {
    let card = fresh(1, 1, 1, 9);
    let mut list = vec![77; 4];
    let begun = begin(&card, insert(1, 2, 0, 0, 1), &mut list);
    checks.that(
        "list places past the list stay",
        begun.is_ok() && list == [2, 3, 77, 77],
    );
    let waiting = match begun {
        Ok((waiting, _)) => waiting,
        Err(_) => return checks.that("begin", false),
    };
    let mut words = [u64::MAX, 0, 0, 0].repeat(4);
    words.extend([55, 66]);
    let done = finish(&waiting, &mut words).is_ok();
    let record = [1, 2, 0, 0];
    let good = words[..4] == record && words[4..8] == record && words[16..] == [55, 66];
    checks.that("words past the list stay", done && good);
    let mut short = [u64::MAX, 0, 0, 0].repeat(4);
    short.pop();
    let refused = finish(&waiting, &mut short).map(|_| ()) == Err(Refusal::ShortRoom);
    checks.that("a word too few is 11", refused);
    let mut short_list = vec![9];
    let refused = begin(&card, insert(1, 2, 0, 0, 1), &mut short_list).map(|_| ());
    checks.that(
        "a list too short is 11",
        refused == Err(Refusal::ShortRoom) && short_list == [9],
    );
}

fn rack_refusals(checks: &mut Checks) {
    let mut tree = vec![0; 16];
    let mut words = vec![0; 12];
    let bad_size = Err(Refusal::BadSize);
    let short = Err(Refusal::ShortRoom);
    let bad_bucket = Err(Refusal::BadBucket);
    checks.that(
        "fill: 1",
        fill(0, 1, &mut tree) == bad_size && fill(1, 6, &mut tree) == bad_size,
    );
    checks.that("fill: 1 before 11", fill(17, 1, &mut tree[..3]) == bad_size);
    checks.that(
        "fill: 11",
        fill(1, 1, &mut tree[..15]) == short && fill(2, 1, &mut tree) == short,
    );
    checks.that(
        "fill: 11 for a longer tree",
        fill(1, 1, &mut [0; 17]) == short,
    );
    let mut fetched = |whole, least, list: &[u64], room: usize| {
        fetch(1, 1, whole, least, list, &[7; 16], &mut words[..room])
    };
    checks.that("fetch", fetched(1, 1, &[2, 3], 12) == Ok(()));
    checks.that(
        "5: counts exceed the list",
        fetched(2, 1, &[2, 3], 12) == short,
    );
    checks.that(
        "5: counts that wrap",
        fetched(u64::MAX, 1, &[2, 3], 12) == short,
    );
    checks.that(
        "5: counts that wrap to 1",
        fetched(2, u64::MAX, &[0, 0], 12) == short,
    );
    checks.that(
        "5: a short list never gives 14",
        fetched(1, 1, &[9], 12) == short,
    );
    checks.that("words for all", fetched(1, 1, &[2, 3], 11) == short);
    checks.that("11 before 14", fetched(1, 1, &[2, 9], 11) == short);
    checks.that("14 below", fetched(1, 1, &[1, 3], 12) == bad_bucket);
    checks.that("14 above", fetched(1, 1, &[2, 4], 12) == bad_bucket);
    checks.that(
        "4: numbers past the counts",
        fetched(1, 0, &[2, 4], 12) == Ok(()),
    );
    let mut stored = |whole, least, list: &[u64], room: usize| {
        store(1, 1, whole, least, list, &mut tree, &[5; 12][..room])
    };
    checks.that(
        "4: store needs words for siblings",
        stored(1, 1, &[2, 3], 11) == short,
    );
    checks.that(
        "4: store looks at siblings",
        stored(1, 1, &[2, 4], 12) == bad_bucket,
    );
    checks.that("store", stored(1, 1, &[2, 3], 12) == Ok(()));
}

fn rack_copies(checks: &mut Checks) {
    let tree: Vec<u64> = (100..116).collect();
    let mut words = vec![1; 14];
    let fetched = fetch(1, 1, 1, 1, &[3, 2], &tree, &mut words);
    let wanted = [
        108, 109, 110, 111, 112, 113, 114, 115, 100, 101, 102, 103, 1, 1,
    ];
    checks.that("6: words of a fetch", fetched.is_ok() && words == wanted);
    let mut tree = vec![0; 16];
    let words: Vec<u64> = (1..17).collect();
    let stored = store(1, 1, 2, 0, &[2, 2], &mut tree, &words);
    let good = tree[..8] == words[8..] && tree[8..] == [0; 8];
    checks.that(
        "of one number named twice the later store stands",
        stored.is_ok() && good,
    );
    let mut tree = vec![0; 16];
    let stored = store(1, 1, 1, 1, &[2, 3], &mut tree, &words);
    let good = tree[..8] == words[..8] && tree[8..] == [0; 8];
    checks.that("36: a store writes no siblings", stored.is_ok() && good);
}

/// 13, then 2, then 4 to 10 in order, then 11.
fn refusal_order(checks: &mut Checks) {
    let none: &mut [u64] = &mut [];
    let fresh_card = fresh(1, 1, 1, 2);
    let number = |card: &Card, request| match begin(card, request, &mut []) {
        Ok(_) => 0,
        Err(refusal) => refusal.number(),
    };
    let wrong = insert(u64::MAX, 0, 2, 9, 9);
    checks.that("5 before 6", number(&fresh_card, wrong) == 5);
    checks.that(
        "6 before 11",
        number(&fresh_card, insert(0, 0, 2, 9, 9)) == 6,
    );
    checks.that("8 before 11", number(&fresh_card, Request::ExtractMin) == 8);
    checks.that(
        "7 before 11",
        number(&fresh_card, Request::Delete { label: 0, stamp: 0 }) == 7,
    );
    checks.that("11", number(&fresh_card, insert(0, 0, 0, 0, 1)) == 11);
    let mut busy = fresh_card.clone();
    busy.waiting = Some(insert(0, 0, 0, 0, 1));
    checks.that("14: 2 whatever the fields are", number(&busy, wrong) == 2);
    checks.that(
        "FindMin while a request waits",
        find_min(&busy).map(|_| ()) == Err(Refusal::Busy),
    );
    checks.that("withdraw", withdraw(&busy) == Ok(fresh_card.clone()));
    checks.that("withdraw: 3", withdraw(&fresh_card) == Err(Refusal::Idle));
    checks.that(
        "finish: 3",
        finish(&fresh_card, none).map(|_| ()) == Err(Refusal::Idle),
    );
    checks.that(
        "finish: 11",
        finish(&busy, none).map(|_| ()) == Err(Refusal::ShortRoom),
    );
    let mut spent = fresh_card.clone();
    spent.t = 2;
    checks.that("4 before 5", number(&spent, wrong) == 4);
    checks.that("4 before 8", number(&spent, Request::ExtractMin) == 4);
    checks.that(
        "4 before 6",
        number(&spent, Request::Delete { label: 9, stamp: 9 }) == 4,
    );
    checks.that(
        "8 though spent",
        find_min(&spent).map(|_| ()) == Err(Refusal::Empty),
    );
    busy.t = 3;
    checks.that("13 before 2", number(&busy, wrong) == 13);
    checks.that("13 before 3", withdraw(&busy) == Err(Refusal::BadCard));
}

/// 33: places left by moves to lower levels are filled again. h = 2, Z = 1: the record in bucket 2
/// goes to the leaf, and the root's goes to bucket 2.
fn eviction_refills(checks: &mut Checks) {
    let mut heap = fresh_heap(2, 1, 2, 16);
    let one = heap.play(insert(7, 1, 0, 1, 2)).is_ok();
    let two = heap.play(insert(8, 2, 0, 1, 2)).is_ok();
    let high = slot(&heap, 2, 0).key == 7 && heap.card.root[0].key == 8;
    let absent = heap.play(Request::Delete { label: 0, stamp: 1 });
    let gone = slot(&heap, 4, 0).key == 7 && slot(&heap, 2, 0) == DUMMY;
    checks.that(
        "a Delete in the root",
        one && two && high && absent.is_ok() && gone,
    );
    let three = heap.play(insert(9, 3, 0, 1, 2)).is_ok();
    let four = heap.play(insert(6, 4, 0, 1, 2)).is_ok();
    let before = slot(&heap, 2, 0).key == 9 && heap.card.root[0].key == 6;
    let removed = heap.play(Request::Delete { label: 0, stamp: 0 });
    let found = matches!(removed, Ok((answer, _)) if answer.found == 1 && answer.words == 40);
    // The leaf takes the first from the root downwards, which is the root's own record.
    let after = slot(&heap, 4, 0).key == 6 && slot(&heap, 2, 0).key == 9;
    checks.that(
        "34: the root's record first",
        three && four && before && found && after,
    );
    checks.that(
        "33: the root is left empty",
        heap.card.root == vec![DUMMY; 64],
    );
}
