//! Records, the dummy and their order.

/// "A record is four 64-bit numbers: key, value, label, stamp."
#[derive(Clone, Copy, PartialEq, Eq, Debug)]
pub struct Record {
    pub key: u64,
    pub value: u64,
    pub label: u64,
    pub stamp: u64,
}

/// "The dummy is one fixed record: key 2^64 - 1, and 0 in the other three."
pub const DUMMY: Record = Record {
    key: u64::MAX,
    value: 0,
    label: 0,
    stamp: 0,
};

impl Record {
    /// All four numbers are looked at: key 2^64 - 1 with anything else behind it is no dummy.
    pub fn is_dummy(&self) -> bool {
        *self == DUMMY
    }

    /// "A proper record has key below 2^64 - 1, any value, label below N, and stamp below the
    /// card's count of finished requests."
    pub fn is_proper(&self, leaves: u64, finished: u64) -> bool {
        self.key < u64::MAX && self.label < leaves && self.stamp < finished
    }

    /// "Records are ordered by key, then by stamp; the dummy comes after every proper record."
    /// The dummy's key is above every proper key, so the key alone puts it last.
    pub fn comes_before(&self, other: &Record) -> bool {
        if self.key != other.key {
            return self.key < other.key;
        }
        self.stamp < other.stamp
    }
}

/// The smallest of the candidates, or the dummy. Of equals the first one stays, so the caller
/// gives them in the order of the tie rule: "own slots first in slot order, then the lower child".
pub fn smallest(candidates: &[Record]) -> Record {
    let mut best = DUMMY;
    for candidate in candidates {
        if candidate.comes_before(&best) {
            best = *candidate;
        }
    }
    best
}

/// The record whose four words begin at `at`. The caller has made sure that they are there.
pub fn read_record(words: &[u64], at: usize) -> Record {
    Record {
        key: words[at],
        value: words[at + 1],
        label: words[at + 2],
        stamp: words[at + 3],
    }
}

pub fn write_record(words: &mut [u64], at: usize, record: &Record) {
    words[at] = record.key;
    words[at + 1] = record.value;
    words[at + 2] = record.label;
    words[at + 3] = record.stamp;
}
