//! Made-up states for frames: a good card and the buckets that fit it, with records wherever their
//! paths let them stand. An honest run comes to few of them.

use std::collections::BTreeMap;

use crate::card::{request_refused, start, Card, Request};
use crate::fetched::Bucket;
use crate::places::{leaves, path_below_root, path_bucket, BucketList};
use crate::random::Random;
use crate::record::{smallest, write_record, Record, DUMMY};

#[derive(Clone)]
pub struct World {
    pub card: Card,
    /// Buckets that are not here are all dummies.
    pub buckets: BTreeMap<u64, Bucket>,
    /// The leaves near which most records and requests are.
    pub focus: Vec<u64>,
}

/// A good card with sizes out of those that meet most cases, no request waiting, nothing live.
fn bare_card(random: &mut Random, highest: u64) -> Card {
    let h = match random.below(10) {
        0 => random.between(1, highest),
        1 => highest,
        _ => random.between(1, highest.min(4)),
    };
    let z = random.between(1, 5);
    let r = random.pick(&[1, 1, 2, 3, 4, 8, 63, 64]);
    let n = leaves(h);
    let most = match random.below(5) {
        0 => n,
        1 | 2 => n + random.below(20),
        3 => 4294967295,
        _ => random.between(n, 4294967295),
    };
    let mut card = match start(h, z, r, most) {
        Ok(card) => card,
        Err(_) => unreachable!("the sizes are in their ranges"),
    };
    card.t = match random.below(16) {
        0 => most,
        1 => most - 1,
        2..=4 => n.min(most - 1),
        5 | 6 => random.below(n + 1),
        7 => random.between(0, 2),
        _ => random.between(n / 2, most - 1),
    };
    card
}

pub fn any_key(random: &mut Random) -> u64 {
    match random.below(8) {
        0 => random.word().min(u64::MAX - 1),
        1 => u64::MAX - 1,
        2 => 0,
        _ => random.below(6),
    }
}

impl World {
    pub fn new(random: &mut Random, highest: u64) -> World {
        let card = bare_card(random, highest);
        let n = leaves(card.h);
        let mut focus = Vec::new();
        for _ in 0..random.between(1, 3) {
            focus.push(random.below(n));
        }
        let mut world = World {
            card,
            buckets: BTreeMap::new(),
            focus,
        };
        let most = n.min(world.card.t);
        let wanted = match random.below(6) {
            0 => 0,
            1 => most.min(1),
            2 => most,
            _ => random.below(most.min(20) + 1),
        };
        // A full tree of a high world would be large and is not needed.
        world.add_records(random, wanted.min(80));
        world.settle();
        world
    }

    fn add_records(&mut self, random: &mut Random, wanted: u64) {
        let mut used: Vec<u64> = Vec::new();
        for _ in 0..wanted {
            let stamp = self.unused_stamp(random, &used);
            let record = Record {
                key: any_key(random),
                value: random.pick(&[0, 1, 7, u64::MAX]),
                label: self.near_leaf(random),
                stamp,
            };
            if self.place(random, record) {
                used.push(stamp);
                self.card.c += 1;
            }
        }
    }

    /// A stamp below t that no record has; fewer than t are used.
    fn unused_stamp(&self, random: &mut Random, used: &[u64]) -> u64 {
        let mut stamp = match random.below(3) {
            0 => 0,
            1 => self.card.t - 1,
            _ => random.below(self.card.t),
        };
        while used.contains(&stamp) {
            stamp = (stamp + 1) % self.card.t;
        }
        stamp
    }

    /// A leaf of the focus, one near it, or any.
    pub fn near_leaf(&self, random: &mut Random) -> u64 {
        let n = leaves(self.card.h);
        match random.below(6) {
            0 => random.below(n),
            1 | 2 => random.pick(&self.focus) ^ random.below(2).min(n - 1),
            _ => random.pick(&self.focus),
        }
    }

    /// Puts the record into a free slot on its path, at a level drawn first.
    fn place(&mut self, random: &mut Random, record: Record) -> bool {
        let drawn = random.below(self.card.h + 1);
        for step in 0..=self.card.h {
            let level = (drawn + step) % (self.card.h + 1);
            let slots = self.slots(path_bucket(self.card.h, record.label, level));
            let free: Vec<usize> = (0..slots.len()).filter(|i| slots[*i].is_dummy()).collect();
            if free.is_empty() {
                continue;
            }
            let place = if random.chance(70) {
                free[0]
            } else {
                random.pick(&free)
            };
            slots[place] = record;
            for number in path_below_root(self.card.h, record.label) {
                self.slots(number);
            }
            return true;
        }
        false
    }

    /// The slots of a bucket, the root included; a bucket that is not here yet is made.
    pub fn slots(&mut self, number: u64) -> &mut [Record] {
        if number == 1 {
            return &mut self.card.root[..self.card.r as usize];
        }
        let fresh = Bucket {
            least: DUMMY,
            slots: vec![DUMMY; self.card.z as usize],
        };
        &mut self.buckets.entry(number).or_insert(fresh).slots
    }

    fn least_of(&self, number: u64) -> Record {
        match self.buckets.get(&number) {
            Some(bucket) => bucket.least,
            None => DUMMY,
        }
    }

    /// Works out all least records, children before parents.
    pub fn settle(&mut self) {
        let numbers: Vec<u64> = self.buckets.keys().rev().copied().collect();
        for number in numbers {
            let mut candidates = self.slots(number).to_vec();
            candidates.push(self.least_of(2 * number));
            candidates.push(self.least_of(2 * number + 1));
            if let Some(bucket) = self.buckets.get_mut(&number) {
                bucket.least = smallest(&candidates);
            }
        }
        let mut candidates = self.slots(1).to_vec();
        candidates.push(self.least_of(2));
        candidates.push(self.least_of(3));
        self.card.least = smallest(&candidates);
    }

    /// Everything that stands in a slot.
    pub fn records(&self) -> Vec<Record> {
        let mut records = self.card.root.clone();
        for bucket in self.buckets.values() {
            records.extend(&bucket.slots);
        }
        records.retain(|record| !record.is_dummy());
        records
    }

    /// The words of a bucket as they stand in the tree.
    pub fn bucket_words(&self, number: u64) -> Vec<u64> {
        let mut words = vec![0; 4 * (self.card.z as usize + 1)];
        write_record(&mut words, 0, &self.least_of(number));
        for place in 0..self.card.z as usize {
            let slot = match self.buckets.get(&number) {
                Some(bucket) => bucket.slots[place],
                None => DUMMY,
            };
            write_record(&mut words, 4 * (place + 1), &slot);
        }
        words
    }

    /// The words that the rack would fetch for a list.
    pub fn fetched_words(&self, named: &BucketList) -> Vec<u64> {
        let mut words = Vec::new();
        for number in &named.whole {
            words.extend(self.bucket_words(*number));
        }
        for number in &named.least {
            words.extend(&self.bucket_words(*number)[..4]);
        }
        words
    }

    /// The whole tree, for heights at which it is small.
    pub fn tree(&self) -> Vec<u64> {
        let mut tree = Vec::new();
        for number in 2..2 * leaves(self.card.h) {
            tree.extend(self.bucket_words(number));
        }
        tree
    }

    /// A request that begin may refuse with 4, 8, 9 or 10 only: its own fields are good where t is
    /// above 0.
    pub fn request(&self, random: &mut Random) -> Request {
        let op = random.pick(&[2, 2, 3, 4, 4]);
        self.request_of(random, op)
    }

    /// Such a request for one call of begin: 2 Insert, 3 ExtractMin, 4 Delete.
    pub fn request_of(&self, random: &mut Random, op: u64) -> Request {
        match op {
            2 => self.insert(random),
            3 => Request::ExtractMin,
            _ => self.delete(random),
        }
    }

    fn insert(&self, random: &mut Random) -> Request {
        let half = leaves(self.card.h) / 2;
        let (one, other) = (self.near_leaf(random), self.near_leaf(random));
        Request::Insert {
            key: any_key(random),
            value: random.pick(&[0, 9, u64::MAX]),
            label: self.near_leaf(random),
            first: one % half,
            second: half + other % half,
        }
    }

    fn delete(&self, random: &mut Random) -> Request {
        let records = self.records();
        if !records.is_empty() && random.chance(75) {
            let record = random.pick(&records);
            let label = if random.chance(85) {
                record.label
            } else {
                self.near_leaf(random)
            };
            return Request::Delete {
                label,
                stamp: record.stamp,
            };
        }
        Request::Delete {
            label: self.near_leaf(random),
            stamp: random.below(self.card.t),
        }
    }

    /// A world and a request that begin would accept on its card.
    pub fn with_request(random: &mut Random, highest: u64) -> (World, Request) {
        loop {
            let world = World::new(random, highest);
            let request = world.request(random);
            if request_refused(&world.card, &request).is_none() {
                return (world, request);
            }
        }
    }
}
