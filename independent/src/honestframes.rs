//! Frames out of real runs: start, fill, begin, fetch, finish, store, with FindMin, withdraw and
//! calls out of turn in the midst.

use crate::card::{start, Card, Request};
use crate::cardwords::card_from_words;
use crate::frame::{Frame, Reply, MOST_LIST, MOST_WORDS};
use crate::makeframe::{any_card_words, frame_for, list_length, room, set_length, set_request};
use crate::oddlines::accepted_size;
use crate::places::{bucket_words, leaves, tree_words};
use crate::probe::answer;
use crate::random::Random;
use crate::world::any_key;

#[derive(Clone, Copy, PartialEq, Eq)]
enum Stage {
    Start,
    Fill,
    Idle,
    Named,
    Fetched,
    Finished,
}

pub struct Run {
    card: Card,
    tree: Vec<u64>,
    stage: Stage,
    /// What begin answered, and the fetched words.
    list: Vec<u64>,
    whole: u64,
    least: u64,
    words: Vec<u64>,
    /// Label and stamp of every insert, those that left included.
    references: Vec<(u64, u64)>,
    left: u64,
}

impl Run {
    pub fn new() -> Run {
        let card = match start(1, 1, 1, 2) {
            Ok(card) => card,
            Err(_) => unreachable!("the sizes are in their ranges"),
        };
        Run {
            card,
            tree: Vec::new(),
            stage: Stage::Start,
            list: Vec::new(),
            whole: 0,
            least: 0,
            words: Vec::new(),
            references: Vec::new(),
            left: 0,
        }
    }

    /// The next call of the run as a frame; the run goes on with what it answers.
    pub fn next(&mut self, random: &mut Random) -> Frame {
        if self.left == 0 {
            self.stage = Stage::Start;
            self.left = random.between(20, 250);
        }
        self.left -= 1;
        let frame = match self.stage {
            Stage::Start => self.start_frame(random),
            Stage::Fill => self.fill_frame(random),
            Stage::Idle => self.idle_frame(random),
            Stage::Named => self.named_frame(random),
            Stage::Fetched => self.fetched_frame(random),
            Stage::Finished => self.store_frame(random),
        };
        let reply = answer(&frame);
        if reply.number == 0 {
            self.go_on(random, &frame, reply);
        } else if reply.number == 4 || reply.number == 12 {
            // Nothing new comes after these for long.
            self.left = self.left.min(4);
        }
        frame
    }

    fn start_frame(&mut self, random: &mut Random) -> Frame {
        let highest = random.pick(&[1, 2, 3, 3, 4, 5]);
        let (h, z) = accepted_size(random, highest);
        let r = random.pick(&[1, 1, 2, 3, 8, 64]);
        let most = leaves(h) + random.pick(&[0, 5, 20, 1000000]);
        let mut frame = frame_for(random, 1, &self.card);
        if random.chance(50) {
            frame.card = any_card_words(random);
        }
        frame.arguments[..4].copy_from_slice(&[h, z, r, most]);
        frame
    }

    fn fill_frame(&mut self, random: &mut Random) -> Frame {
        let (h, z) = (self.card.h, self.card.z);
        let mut frame = frame_for(random, 8, &self.card);
        frame.arguments[..2].copy_from_slice(&[h, z]);
        set_length(random, &mut frame.tree, tree_words(h, z));
        frame
    }

    fn idle_frame(&mut self, random: &mut Random) -> Frame {
        match random.below(20) {
            0 | 1 => frame_for(random, 5, &self.card),
            2 => frame_for(random, 6, &self.card),
            3 => frame_for(random, 7, &self.card),
            _ => self.begin_frame(random),
        }
    }

    fn begin_frame(&mut self, random: &mut Random) -> Frame {
        let request = self.request(random);
        let mut frame = frame_for(random, 2, &self.card);
        set_request(&mut frame, &request);
        let length = room(random, list_length(self.card.h, &request), MOST_LIST);
        set_length(random, &mut frame.list, length);
        frame
    }

    fn request(&self, random: &mut Random) -> Request {
        let n = leaves(self.card.h);
        match random.below(10) {
            0..=5 => Request::Insert {
                key: any_key(random),
                value: random.word(),
                label: random.below(n),
                first: random.below(n / 2),
                second: n / 2 + random.below(n / 2),
            },
            6 | 7 => Request::ExtractMin,
            _ => {
                let mut label = random.below(n);
                let mut stamp = random.below(self.card.t + 1);
                if !self.references.is_empty() && random.chance(80) {
                    (label, stamp) = random.pick(&self.references);
                }
                Request::Delete { label, stamp }
            }
        }
    }

    fn named_frame(&mut self, random: &mut Random) -> Frame {
        match random.below(20) {
            0 => frame_for(random, 5, &self.card),
            1 => frame_for(random, 6, &self.card),
            2 => self.begin_frame(random),
            _ => {
                let mut frame = self.rack_frame(random, 9);
                frame.words = Vec::new();
                let length = room(random, self.words_needed(), MOST_WORDS);
                set_length(random, &mut frame.words, length);
                frame.tree = self.tree.clone();
                frame
            }
        }
    }

    fn fetched_frame(&mut self, random: &mut Random) -> Frame {
        if random.chance(5) {
            return frame_for(random, 6, &self.card);
        }
        let mut frame = frame_for(random, 7, &self.card);
        frame.words = self.words.clone();
        if random.chance(10) {
            let length = room(random, self.words_needed(), MOST_WORDS);
            set_length(random, &mut frame.words, length);
        }
        frame
    }

    fn store_frame(&mut self, random: &mut Random) -> Frame {
        let mut frame = self.rack_frame(random, 10);
        frame.words = self.words.clone();
        frame.tree = self.tree.clone();
        frame
    }

    fn rack_frame(&self, random: &mut Random, op: u64) -> Frame {
        let mut frame = frame_for(random, op, &self.card);
        let arguments = [self.card.h, self.card.z, self.whole, self.least];
        frame.arguments[..4].copy_from_slice(&arguments);
        frame.list = self.list.clone();
        frame
    }

    fn words_needed(&self) -> u64 {
        self.whole * bucket_words(self.card.z) + 4 * self.least
    }

    fn go_on(&mut self, random: &mut Random, frame: &Frame, reply: Reply) {
        if frame.op < 8 {
            if let Ok(card) = card_from_words(&reply.card) {
                self.card = card;
            }
        }
        self.stage = match frame.op {
            1 => {
                self.references.clear();
                Stage::Fill
            }
            2..=4 => {
                self.list = reply.list;
                (self.whole, self.least) = (reply.answer[0], reply.answer[1]);
                Stage::Named
            }
            6 => Stage::Idle,
            7 => {
                self.words = reply.words;
                if reply.answer[3] + 1 == self.card.t {
                    self.references.push((reply.answer[2], reply.answer[3]));
                }
                // Now and then the rack forgets to store, and an older copy of the tree stays.
                if random.chance(3) {
                    Stage::Idle
                } else {
                    Stage::Finished
                }
            }
            8 => {
                self.tree = reply.tree;
                Stage::Idle
            }
            9 => {
                self.words = reply.words;
                Stage::Fetched
            }
            10 => {
                self.tree = reply.tree;
                Stage::Idle
            }
            _ => self.stage,
        };
    }
}
