//! Both sides in memory: a card and a rack's tree, and a request played from begin to store.

use crate::begin::{begin, find_min};
use crate::card::{start, Answer, Card, Request};
use crate::finish::finish;
use crate::places::{tree_words, BucketList};
use crate::rack::{fetch, fill, store};
use crate::refusal::Refusal;

/// The most numbers that a list has: an Insert at h = 16 names 4h - 2.
const LIST_ROOM: usize = 62;
/// The most words that are fetched: an Insert at h = 16 and Z = 5, 8h(Z+1) + 8h - 8.
const WORDS_ROOM: usize = 888;

#[derive(Clone)]
pub struct Heap {
    pub card: Card,
    pub tree: Vec<u64>,
}

impl Heap {
    pub fn start(h: u64, z: u64, r: u64, most: u64) -> Result<Heap, Refusal> {
        let card = start(h, z, r, most)?;
        let mut tree = vec![0; tree_words(h, z) as usize];
        fill(h, z, &mut tree)?;
        Ok(Heap { card, tree })
    }

    /// Begin, fetch, finish, store. A refusal of any of them leaves the heap as it was.
    pub fn play(&mut self, request: Request) -> Result<(Answer, BucketList), Refusal> {
        let (h, z) = (self.card.h, self.card.z);
        let mut list = vec![0; LIST_ROOM];
        let mut words = vec![0; WORDS_ROOM];
        let (waiting, named) = begin(&self.card, request, &mut list)?;
        let (whole, least) = (named.whole.len() as u64, named.least.len() as u64);
        fetch(h, z, whole, least, &list, &self.tree, &mut words)?;
        let (after, answer) = finish(&waiting, &mut words)?;
        store(h, z, whole, least, &list, &mut self.tree, &words)?;
        self.card = after;
        Ok((answer, named))
    }

    pub fn find_min(&self) -> Result<Answer, Refusal> {
        find_min(&self.card)
    }
}
