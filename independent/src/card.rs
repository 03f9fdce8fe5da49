//! The card, the requests that may wait on it, and the start of a fresh card.

use crate::places::leaves;
use crate::record::{Record, DUMMY};
use crate::refusal::Refusal;

/// The places for root records on a card; the first R of them are the root's slots.
pub const ROOT_PLACES: usize = 64;

#[derive(Clone, Copy, PartialEq, Eq, Debug)]
pub enum Request {
    Insert {
        key: u64,
        value: u64,
        label: u64,
        first: u64,
        second: u64,
    },
    ExtractMin,
    Delete {
        label: u64,
        stamp: u64,
    },
}

/// "The card holds sizes, the count t of finished requests, the count c of live events, the root's
/// slots, the root's least record and the waiting request, if any."
#[derive(Clone, PartialEq, Eq, Debug)]
pub struct Card {
    pub h: u64,
    pub z: u64,
    pub r: u64,
    /// T, "the most requests ever finished".
    pub most: u64,
    pub t: u64,
    pub c: u64,
    pub waiting: Option<Request>,
    pub least: Record,
    /// Always 64 places.
    pub root: Vec<Record>,
}

/// What a finished request or FindMin answers; a number that does not apply is 0.
#[derive(Clone, Copy, PartialEq, Eq, Debug, Default)]
pub struct Answer {
    pub key: u64,
    pub value: u64,
    pub label: u64,
    pub stamp: u64,
    pub found: u64,
    pub words: u64,
}

impl Answer {
    /// The event's four numbers, with no words moved yet.
    pub fn of(event: &Record) -> Answer {
        Answer {
            key: event.key,
            value: event.value,
            label: event.label,
            stamp: event.stamp,
            ..Answer::default()
        }
    }
}

/// "Height h: 1 to 16." "Z slots in each bucket below the root: 1 to 5."
pub fn tree_sizes_good(h: u64, z: u64) -> bool {
    (1..=16).contains(&h) && (1..=5).contains(&z)
}

/// "R slots in the root: 1 to 64." "T, the most requests ever finished: N to 2^32 - 1." The height
/// is looked at first, so that 2^h is never worked out for a bad one.
pub fn sizes_good(h: u64, z: u64, r: u64, most: u64) -> bool {
    if !tree_sizes_good(h, z) {
        return false;
    }
    (1..=64).contains(&r) && most >= leaves(h) && most <= u32::MAX as u64
}

/// "Starting a card gives 1 only."
pub fn start(h: u64, z: u64, r: u64, most: u64) -> Result<Card, Refusal> {
    if !sizes_good(h, z, r, most) {
        return Err(Refusal::BadSize);
    }
    let root = vec![DUMMY; ROOT_PLACES];
    Ok(Card {
        h,
        z,
        r,
        most,
        t: 0,
        c: 0,
        waiting: None,
        least: DUMMY,
        root,
    })
}

/// The numbers 4 to 10 in their order, each where it applies, for this request on this card. The
/// card's sizes are in their ranges. Whether a request waits already is not looked at.
pub fn request_refused(card: &Card, request: &Request) -> Option<Refusal> {
    let n = leaves(card.h);
    // 4: "t = T"
    if card.t == card.most {
        return Some(Refusal::Spent);
    }
    match *request {
        Request::Insert {
            key,
            label,
            first,
            second,
            ..
        } => {
            // 5: "Insert with key 2^64 - 1"
            if key == u64::MAX {
                return Some(Refusal::BadKey);
            }
            // 6: "label N or more, or an eviction leaf outside its half": "the first below N/2, the
            // second from N/2 to N-1"
            if label >= n || first >= n / 2 || second < n / 2 || second >= n {
                return Some(Refusal::BadLeaf);
            }
            // 9: "Insert with c = N"
            if card.c == n {
                return Some(Refusal::Full);
            }
            // 10: "Insert, every root slot real", the R slots and not the places past them
            if card.root[..card.r as usize]
                .iter()
                .all(|slot| !slot.is_dummy())
            {
                return Some(Refusal::Overflow);
            }
            None
        }
        Request::ExtractMin => {
            // 8: "FindMin or ExtractMin with c = 0"
            if card.c == 0 {
                return Some(Refusal::Empty);
            }
            None
        }
        Request::Delete { label, stamp } => {
            // 6: "label N or more"
            if label >= n {
                return Some(Refusal::BadLeaf);
            }
            // 7: "Delete with stamp t or more"
            if stamp >= card.t {
                return Some(Refusal::BadStamp);
            }
            None
        }
    }
}
