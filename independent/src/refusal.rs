//! The refusal numbers, and which call can give which.

#[derive(Clone, Copy, PartialEq, Eq, Debug)]
pub enum Refusal {
    BadSize = 1,
    Busy = 2,
    Idle = 3,
    Spent = 4,
    BadKey = 5,
    BadLeaf = 6,
    BadStamp = 7,
    Empty = 8,
    Full = 9,
    Overflow = 10,
    ShortRoom = 11,
    Damaged = 12,
    BadCard = 13,
    BadBucket = 14,
}

impl Refusal {
    pub fn number(self) -> u64 {
        self as u64
    }
}

/// The calls as the probe numbers them, with the refusals that each can give, in their order.
/// "Order on the card: 13, 2 or 3, 4, 5, 6, 7, 8, 9, 10, 11, 12, each where it applies; finish
/// checks 13, 3, 11, 12 only, withdraw 13, 3. On the rack: 1, 11, 14". FindMin "checks 13, 2 and 8
/// only". "Starting a card gives 1 only."
pub const CALLS: [(u64, &str, &[u64]); 10] = [
    (1, "start", &[1]),
    (2, "insert", &[13, 2, 4, 5, 6, 9, 10, 11]),
    (3, "extract", &[13, 2, 4, 8, 11]),
    (4, "delete", &[13, 2, 4, 6, 7, 11]),
    (5, "findmin", &[13, 2, 8]),
    (6, "withdraw", &[13, 3]),
    (7, "finish", &[13, 3, 11, 12]),
    (8, "fill", &[1, 11]),
    (9, "fetch", &[1, 11, 14]),
    (10, "store", &[1, 11, 14]),
];
