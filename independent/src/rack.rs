//! The rack's side: it "fills a fresh lent tree and copies buckets out of it and back". It is
//! given h and Z only. "On the rack: 1, 11, 14".

use crate::card::tree_sizes_good;
use crate::places::{bucket_start, bucket_words, leaves, tree_words};
use crate::record::{write_record, DUMMY};
use crate::refusal::Refusal;

/// "A fresh tree is all dummies."
pub fn fill(h: u64, z: u64, tree: &mut [u64]) -> Result<(), Refusal> {
    check_tree(h, z, tree)?;
    for record in 0..tree.len() / 4 {
        write_record(tree, 4 * record, &DUMMY);
    }
    Ok(())
}

/// Copies buckets out of the tree: all words of the first `whole` numbers, then the least record
/// of the `least` numbers after them. "fetched words past these stay".
pub fn fetch(
    h: u64,
    z: u64,
    whole: u64,
    least: u64,
    list: &[u64],
    tree: &[u64],
    words: &mut [u64],
) -> Result<(), Refusal> {
    check_tree(h, z, tree)?;
    check_list(h, z, whole, least, list, words)?;
    let mut at = 0;
    for number in &list[..whole as usize] {
        copy(
            tree,
            bucket_start(z, *number),
            words,
            at,
            bucket_words(z) as usize,
        );
        at += bucket_words(z) as usize;
    }
    for number in &list[whole as usize..(whole + least) as usize] {
        copy(tree, bucket_start(z, *number), words, at, 4);
        at += 4;
    }
    Ok(())
}

/// "The rack stores the whole buckets back, in list order, so that of one number named twice the
/// later store stands."
pub fn store(
    h: u64,
    z: u64,
    whole: u64,
    least: u64,
    list: &[u64],
    tree: &mut [u64],
    words: &[u64],
) -> Result<(), Refusal> {
    check_tree(h, z, tree)?;
    check_list(h, z, whole, least, list, words)?;
    let mut at = 0;
    for number in &list[..whole as usize] {
        copy(
            words,
            at,
            tree,
            bucket_start(z, *number),
            bucket_words(z) as usize,
        );
        at += bucket_words(z) as usize;
    }
    Ok(())
}

fn copy(from: &[u64], from_at: usize, to: &mut [u64], to_at: usize, count: usize) {
    for i in 0..count {
        to[to_at + i] = from[from_at + i];
    }
}

/// 1: h or Z out of range; 11: "a tree of another length".
fn check_tree(h: u64, z: u64, tree: &[u64]) -> Result<(), Refusal> {
    if !tree_sizes_good(h, z) {
        return Err(Refusal::BadSize);
    }
    if tree.len() as u128 != tree_words(h, z) as u128 {
        return Err(Refusal::ShortRoom);
    }
    Ok(())
}

/// "counts that together exceed the list are 11. Fetch and store both check every number that the
/// counts cover and need words for all of them". Sums are true numbers, in 128 bits.
fn check_list(
    h: u64,
    z: u64,
    whole: u64,
    least: u64,
    list: &[u64],
    words: &[u64],
) -> Result<(), Refusal> {
    let covered = whole as u128 + least as u128;
    if covered > list.len() as u128 {
        return Err(Refusal::ShortRoom);
    }
    let needed = whole as u128 * bucket_words(z) as u128 + least as u128 * 4;
    if needed > words.len() as u128 {
        return Err(Refusal::ShortRoom);
    }
    // 14: "a number outside 2 to 2N-1"
    for number in &list[..covered as usize] {
        if *number < 2 || *number > 2 * leaves(h) - 1 {
            return Err(Refusal::BadBucket);
        }
    }
    Ok(())
}
