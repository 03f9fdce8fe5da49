//! Demand 2 on random honest runs: every answer is the plain queue's, each live event stands in
//! exactly one slot on the way to its leaf, and every least record is true.

use crate::card::{Answer, Request};
use crate::check::Checks;
use crate::heap::Heap;
use crate::oddlines::accepted_size;
use crate::places::{bucket_start, leaves, BucketList};
use crate::plainqueue::PlainQueue;
use crate::random::Random;
use crate::record::{read_record, Record, DUMMY};
use crate::refusal::Refusal;

struct Run {
    heap: Heap,
    queue: PlainQueue,
    finished: u64,
}

/// One run; counts each request and each refusal it meets.
pub fn check_run(random: &mut Random, checks: &mut Checks) {
    let highest = random.pick(&[1, 2, 3, 4, 6, 9]);
    let (h, z) = accepted_size(random, highest);
    let r = random.pick(&[1, 1, 2, 3, 5, 64]);
    let most = leaves(h) + random.pick(&[0, 10, 100000, 100000, 100000]);
    let heap = match Heap::start(h, z, r, most) {
        Ok(heap) => heap,
        Err(_) => return checks.that("a good size starts", false),
    };
    let mut run = Run {
        heap,
        queue: PlainQueue::default(),
        finished: 0,
    };
    let inserts = random.pick(&[35, 50, 80]);
    // A run goes on a little after it is spent.
    let mut spent = 0;
    for _ in 0..random.between(10, 80) {
        if run.finished == most {
            spent += 1;
        }
        if spent > 4 {
            return;
        }
        if random.chance(10) {
            let good = run.find_min();
            checks.that("FindMin is the plain queue's", good);
            continue;
        }
        let request = run.request(random, inserts);
        let before = run.heap.clone();
        let expected = run.expected(&request);
        let result = run.heap.play(request);
        checks.that(
            "the answer is the plain queue's",
            run.agrees(&request, &expected, &result),
        );
        match result {
            Err(refusal) => {
                checks.met(refusal);
                let same = before.card == run.heap.card && before.tree == run.heap.tree;
                checks.that("a refusal changes nothing", same);
            }
            Ok(_) => {
                checks.finished += 1;
                run.finished += 1;
                checks.that("the heap holds the live events", run.holds_events());
                checks.that("every least record is true", run.least_records_true());
            }
        }
    }
}

impl Run {
    fn request(&self, random: &mut Random, inserts: u64) -> Request {
        let n = leaves(self.heap.card.h);
        let draw = random.below(100);
        if draw < inserts {
            let key = random.pick(&[0, 1, 2, 3, 4, random_key(draw), u64::MAX - 1]);
            let key = if random.chance(1) { u64::MAX } else { key };
            let crowded = random.chance(60) && self.heap.card.r < 3;
            let label = if crowded { n - 1 } else { random.below(n) };
            let second = if random.chance(1) {
                0
            } else {
                n / 2 + random.below(n / 2)
            };
            let second = if crowded { n / 2 } else { second };
            let first = random.below(n / 2);
            return Request::Insert {
                key,
                value: random.word(),
                label,
                first,
                second,
            };
        }
        if draw < inserts + (100 - inserts) / 2 {
            return Request::ExtractMin;
        }
        let mut label = random.below(n + 1);
        let mut stamp = random.below(self.finished + 1);
        if !self.queue.events.is_empty() && random.chance(70) {
            let event = random.pick(&self.queue.events);
            stamp = event.stamp;
            if random.chance(85) {
                label = event.label;
            }
        }
        Request::Delete { label, stamp }
    }

    /// What the plain queue says, which knows nothing of slots and hence of Overflow.
    fn expected(&mut self, request: &Request) -> Result<Answer, Refusal> {
        let n = leaves(self.heap.card.h);
        if self.finished == self.heap.card.most {
            return Err(Refusal::Spent);
        }
        match *request {
            Request::Insert {
                key,
                label,
                first,
                second,
                ..
            } => {
                if key == u64::MAX {
                    return Err(Refusal::BadKey);
                }
                if label >= n || first >= n / 2 || second < n / 2 || second >= n {
                    return Err(Refusal::BadLeaf);
                }
                if self.queue.events.len() as u64 == n {
                    return Err(Refusal::Full);
                }
                Ok(Answer {
                    label,
                    stamp: self.finished,
                    ..Answer::default()
                })
            }
            Request::ExtractMin => match self.queue.least() {
                None => Err(Refusal::Empty),
                Some(event) => Ok(Answer::of(&event)),
            },
            Request::Delete { label, stamp } => {
                if label >= n {
                    return Err(Refusal::BadLeaf);
                }
                if stamp >= self.finished {
                    return Err(Refusal::BadStamp);
                }
                let found = self.queue.clone().delete(label, stamp);
                Ok(Answer {
                    found: found as u64,
                    ..Answer::default()
                })
            }
        }
    }

    /// Compares, and brings the plain queue up to date. "10 changes nothing, so the plain queue
    /// takes the request as not made."
    fn agrees(
        &mut self,
        request: &Request,
        expected: &Result<Answer, Refusal>,
        result: &Result<(Answer, BucketList), Refusal>,
    ) -> bool {
        match (expected, result) {
            (Ok(_), Err(Refusal::Overflow)) => {
                matches!(request, Request::Insert { .. }) && self.root_is_full()
            }
            (Err(expected), Err(given)) => expected == given,
            (Ok(expected), Ok((given, named))) => {
                let (list, words) = self.expected_list(request);
                self.update_queue(request);
                Answer { words, ..*expected } == *given && list == *named
            }
            _ => false,
        }
    }

    fn root_is_full(&self) -> bool {
        let slots = &self.heap.card.root[..self.heap.card.r as usize];
        slots.iter().all(|slot| !slot.is_dummy())
    }

    /// The list by the plain queue, and the words moved by 01's two formulas.
    fn expected_list(&self, request: &Request) -> (BucketList, u64) {
        let (h, z) = (self.heap.card.h, self.heap.card.z);
        let removal_words = 4 * h * (2 * z + 3);
        match *request {
            Request::Insert { first, second, .. } => {
                let (mut whole, mut least) = halved_path(h, first);
                let (other_whole, other_least) = halved_path(h, second);
                whole.extend(other_whole);
                // Level 1 is whole on both sides.
                least.remove(0);
                least.extend(&other_least[1..]);
                (BucketList { whole, least }, 16 * h * (z + 1) + 8 * h - 8)
            }
            Request::ExtractMin => {
                let (whole, least) = halved_path(h, self.queue.least().unwrap_or(DUMMY).label);
                (BucketList { whole, least }, removal_words)
            }
            Request::Delete { label, .. } => {
                let (whole, least) = halved_path(h, label);
                (BucketList { whole, least }, removal_words)
            }
        }
    }

    fn update_queue(&mut self, request: &Request) {
        match *request {
            Request::Insert {
                key, value, label, ..
            } => self.queue.insert(Record {
                key,
                value,
                label,
                stamp: self.finished,
            }),
            Request::ExtractMin => {
                self.queue.extract();
            }
            Request::Delete { label, stamp } => {
                self.queue.delete(label, stamp);
            }
        }
    }

    fn find_min(&self) -> bool {
        match (self.queue.least(), self.heap.find_min()) {
            (None, Err(refusal)) => refusal == Refusal::Empty,
            (Some(event), Ok(given)) => given == Answer::of(&event),
            _ => false,
        }
    }

    /// Bucket by bucket: its number and slots, the root first.
    fn buckets(&self) -> Vec<(u64, Vec<Record>)> {
        let card = &self.heap.card;
        let mut buckets = vec![(1, card.root.clone())];
        for number in 2..2 * leaves(card.h) {
            let start = bucket_start(card.z, number);
            let mut slots = Vec::new();
            for place in 1..=card.z as usize {
                slots.push(read_record(&self.heap.tree, start + 4 * place));
            }
            buckets.push((number, slots));
        }
        buckets
    }

    /// Each live event is in exactly one slot, on the way to its leaf, and nothing else is in any;
    /// the counts are true.
    fn holds_events(&self) -> bool {
        let card = &self.heap.card;
        let mut standing = Vec::new();
        for (number, slots) in self.buckets() {
            for slot in slots {
                if slot != DUMMY {
                    standing.push(slot);
                    if !is_ancestor(number, leaves(card.h) + slot.label) {
                        return false;
                    }
                }
            }
        }
        standing.sort_by_key(|record| record.stamp);
        standing == self.queue.events
            && card.c == self.queue.events.len() as u64
            && card.t == self.finished
            && card.waiting.is_none()
    }

    /// A least record is true if it is the smallest of all that stands in its bucket or below.
    fn least_records_true(&self) -> bool {
        let card = &self.heap.card;
        let mut truth = vec![DUMMY; 2 * leaves(card.h) as usize];
        for (number, slots) in self.buckets() {
            for slot in slots {
                let mut above = number;
                while above >= 1 {
                    let old = truth[above as usize];
                    if (slot.key, slot.stamp) < (old.key, old.stamp) {
                        truth[above as usize] = slot;
                    }
                    above /= 2;
                }
            }
        }
        for number in 2..2 * leaves(card.h) {
            let start = bucket_start(card.z, number);
            if read_record(&self.heap.tree, start) != truth[number as usize] {
                return false;
            }
        }
        card.least == truth[1]
    }
}

/// Whether one halves its way up from a leaf's bucket to this one.
fn is_ancestor(number: u64, leaf_bucket: u64) -> bool {
    let mut bucket = leaf_bucket;
    while bucket > number {
        bucket /= 2;
    }
    bucket == number
}

/// Path and siblings from level 1 down, worked out from the leaf up by halving.
fn halved_path(h: u64, leaf: u64) -> (Vec<u64>, Vec<u64>) {
    let (mut path, mut siblings) = (Vec::new(), Vec::new());
    let mut bucket = leaves(h) + leaf;
    while bucket > 1 {
        path.insert(0, bucket);
        siblings.insert(0, bucket ^ 1);
        bucket /= 2;
    }
    (path, siblings)
}

fn random_key(draw: u64) -> u64 {
    draw.wrapping_mul(0x9e37_79b9_7f4a_7c15) >> 1
}
