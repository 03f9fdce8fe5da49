//! Makes desk scripts from a seed. The desk is played along, so that a run can be led to where it
//! is Full, Spent or Empty, overflows, or holds ties.

use crate::card::Request;
use crate::desk::{read_command, Command, Desk};
use crate::oddlines::{accepted_size, odd_line, odd_size};
use crate::places::leaves;
use crate::random::Random;

/// What a run is led towards.
#[derive(Clone, Copy, PartialEq, Eq)]
enum Aim {
    Any,
    Full,
    Overflow,
    Spent,
    Empty,
    Ties,
    References,
    Odd,
}

const AIMS: [Aim; 8] = [
    Aim::Any,
    Aim::Full,
    Aim::Overflow,
    Aim::Spent,
    Aim::Empty,
    Aim::Ties,
    Aim::References,
    Aim::Odd,
];

struct Writer {
    random: Random,
    desk: Desk,
    aim: Aim,
    /// Lines until the next run begins.
    left: u64,
    /// Label and stamp of live events, and of those that left.
    live: Vec<(u64, u64)>,
    gone: Vec<(u64, u64)>,
}

/// A script of so many lines. The last may lack its line end.
pub fn script(seed: u64, count: u64) -> Vec<u8> {
    let mut writer = Writer {
        random: Random::new(seed),
        desk: Desk::new(),
        aim: Aim::Odd,
        left: 0,
        live: Vec::new(),
        gone: Vec::new(),
    };
    writer.left = writer.random.below(16);
    let mut script = Vec::new();
    for _ in 0..count {
        let line = writer.next_line();
        writer.play(&line);
        script.extend(line);
        script.push(10);
    }
    // Only where something is left of the last line without its line end.
    let bare_end = script.len() >= 2 && script[script.len() - 2] != 10;
    if bare_end && writer.random.chance(50) {
        script.pop();
    }
    script
}

impl Writer {
    fn next_line(&mut self) -> Vec<u8> {
        if self.left == 0 {
            self.aim = self.random.pick(&AIMS);
            self.left = self.random.between(5, 80);
            return self.size_line();
        }
        self.left -= 1;
        let percent = match (&self.desk.heap, self.aim) {
            (None, _) => 40,
            (_, Aim::Odd) => 50,
            _ => 3,
        };
        if self.random.chance(percent) {
            // Now and then a second in a run, which is refused or too big and changes nothing.
            if self.random.chance(20) {
                return odd_size(&mut self.random);
            }
            let valid = self.request_line();
            return odd_line(&mut self.random, &valid);
        }
        self.request_line()
    }

    fn size_line(&mut self) -> Vec<u8> {
        let highest = match self.aim {
            Aim::Full | Aim::Spent => 3,
            Aim::Overflow | Aim::Empty => 5,
            _ => 9,
        };
        let (h, z) = accepted_size(&mut self.random, highest);
        let r = match self.aim {
            Aim::Full => self.random.pick(&[16, 64]),
            Aim::Overflow => self.random.between(1, 3),
            _ => self.random.pick(&[1, 2, 4, 8, 64]),
        };
        let most = match self.aim {
            Aim::Spent => leaves(h) + self.random.below(12),
            _ => self.random.pick(&[leaves(h) + 60, 65536, 4294967295]),
        };
        format!("size {h} {z} {r} {most}").into_bytes()
    }

    /// A line that can be read; mostly one that is not refused.
    fn request_line(&mut self) -> Vec<u8> {
        let (live, most, finished, spent) = match &self.desk.heap {
            None => (0, 1, 0, 1),
            Some(heap) => (
                heap.card.c,
                leaves(heap.card.h),
                heap.card.t,
                heap.card.most,
            ),
        };
        // A run that is spent soon ends, and one that is full goes on by removals.
        if finished == spent {
            self.left = self.left.min(5);
        }
        let (insert, extract, delete) = match self.aim {
            _ if live == most => (20, 30, 40),
            Aim::Full | Aim::Overflow => (80, 8, 7),
            Aim::Empty => (25, 40, 20),
            Aim::References => (40, 5, 50),
            Aim::Spent => (45, 20, 25),
            _ => (50, 20, 20),
        };
        let draw = self.random.below(100);
        if draw < insert {
            self.insert_line()
        } else if draw < insert + extract {
            b"extract".to_vec()
        } else if draw < insert + extract + delete {
            self.delete_line()
        } else {
            b"min".to_vec()
        }
    }

    fn leaf_count(&self) -> u64 {
        match &self.desk.heap {
            None => 4,
            Some(heap) => leaves(heap.card.h),
        }
    }

    fn insert_line(&mut self) -> Vec<u8> {
        let n = self.leaf_count();
        let mut key = match self.aim {
            Aim::Ties => self.random.below(3),
            _ => self.random.below(1000),
        };
        if self.random.chance(4) {
            key = self.random.pick(&[0, u64::MAX - 1, u64::MAX, self.left]);
        }
        let value = match self.random.below(10) {
            0 => self.random.word(),
            1 => u64::MAX,
            _ => self.random.below(100),
        };
        let mut label = self.random.below(n);
        if self.aim == Aim::Overflow && self.random.chance(70) {
            label = n - 1;
        }
        let mut first = self.random.below(n / 2);
        let mut second = n / 2 + self.random.below(n / 2);
        if self.aim == Aim::Overflow && self.random.chance(70) {
            first = 0;
            second = n / 2;
        }
        if self.random.chance(4) {
            let wrong = self.random.pick(&[n, n + 1, n / 2, n / 2 - 1, 0, u64::MAX]);
            match self.random.below(3) {
                0 => label = wrong,
                1 => first = wrong,
                _ => second = wrong,
            }
        }
        format!("insert {key} {value} {label} {first} {second}").into_bytes()
    }

    /// Live references, those of events that left, wrong labels, stamps that are no insertion's,
    /// and numbers out of range.
    fn delete_line(&mut self) -> Vec<u8> {
        let n = self.leaf_count();
        let t = match &self.desk.heap {
            None => 3,
            Some(heap) => heap.card.t,
        };
        let mut label = self.random.below(n);
        let mut stamp = self.random.below(t.saturating_add(1));
        let draw = self.random.below(10);
        if draw < 6 && !self.live.is_empty() {
            (label, stamp) = self.random.pick(&self.live);
            if draw == 5 {
                label = self.random.below(n);
            }
        } else if draw < 8 && !self.gone.is_empty() {
            (label, stamp) = self.random.pick(&self.gone);
        } else if draw == 8 {
            label = self.random.pick(&[n - 1, n, n + 1, u64::MAX, 0]);
            stamp = self
                .random
                .pick(&[0, t, t.saturating_add(1), t.saturating_sub(1), u64::MAX]);
        }
        format!("delete {label} {stamp}").into_bytes()
    }

    /// Plays the line and keeps the references.
    fn play(&mut self, line: &[u8]) {
        let printed = self.desk.line(line);
        let numbers: Vec<u64> = printed
            .split(' ')
            .filter_map(|field| field.parse().ok())
            .collect();
        if numbers.first() != Some(&0) {
            return;
        }
        match read_command(line) {
            Some(Command::Size { .. }) => {
                self.live.clear();
                self.gone.clear();
            }
            Some(Command::Ask(Request::Insert { .. })) => self.live.push((numbers[1], numbers[2])),
            Some(Command::Ask(Request::ExtractMin)) => self.leave((numbers[3], numbers[4])),
            Some(Command::Ask(Request::Delete { label, stamp })) if numbers[1] == 1 => {
                self.leave((label, stamp))
            }
            _ => {}
        }
    }

    fn leave(&mut self, reference: (u64, u64)) {
        self.live.retain(|live| *live != reference);
        self.gone.push(reference);
    }
}
