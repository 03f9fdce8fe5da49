//! Frames for the rack and for the start of a card: sizes out of range, lists and words that are
//! short or long, trees of another length, counts that wrap, numbers out of range.

use crate::card::start;
use crate::frame::{Frame, MOST_LIST, MOST_TREE, MOST_WORDS};
use crate::makeframe::{any_card_words, any_word, frame_for, room, set_length};
use crate::places::{bucket_words, leaves, tree_words};
use crate::random::Random;
use crate::world::World;

const ABSURD: [u64; 8] = [0, 6, 17, 64, 65, 1 << 32, 1 << 63, u64::MAX];

pub fn start_frame(random: &mut Random) -> Frame {
    let h = random.between(1, 16);
    let mut sizes = [
        h,
        random.between(1, 5),
        random.between(1, 64),
        random.pick(&[leaves(h), leaves(h) + 1, 4294967295]),
    ];
    if random.chance(60) {
        for _ in 0..random.between(1, 2) {
            let place = random.below(4) as usize;
            sizes[place] = random.pick(&ABSURD);
        }
        if random.chance(40) {
            sizes[3] = random.pick(&[leaves(h) - 1, 4294967296]);
        }
    }
    let fresh = match start(1, 1, 1, 2) {
        Ok(card) => card,
        Err(_) => unreachable!("the sizes are in their ranges"),
    };
    let mut frame = frame_for(random, 1, &fresh);
    if random.chance(70) {
        frame.card = any_card_words(random);
    }
    frame.arguments[..4].copy_from_slice(&sizes);
    frame
}

/// Fill, fetch and store on a made-up tree.
pub fn rack_frame(random: &mut Random) -> Frame {
    let world = small_world(random);
    let (h, z) = (world.card.h, world.card.z);
    let op = random.between(8, 10);
    let mut frame = frame_for(random, op, &world.card);
    frame.tree = world.tree();
    frame.arguments[0] = h;
    frame.arguments[1] = z;
    if op > 8 {
        set_list(random, &mut frame, h, z);
    }
    if random.chance(12) {
        frame.arguments[random.below(2) as usize] = random.pick(&ABSURD);
    } else if random.chance(4) {
        frame.arguments[0] = random.between(1, 16);
    }
    if random.chance(12) {
        set_tree_length(random, &mut frame, h, z);
    }
    frame
}

/// A world whose tree fits into a frame, at times only just.
fn small_world(random: &mut Random) -> World {
    if random.chance(90) {
        return World::new(random, 4);
    }
    loop {
        let world = World::new(random, 9);
        if tree_words(world.card.h, world.card.z) <= MOST_TREE {
            return world;
        }
    }
}

fn set_tree_length(random: &mut Random, frame: &mut Frame, h: u64, z: u64) {
    let right = tree_words(h, z);
    let length = random.pick(&[
        right - 1,
        right + 1,
        0,
        right - bucket_words(z),
        right + bucket_words(z),
        tree_words(h, 1),
        tree_words(1, z),
        MOST_TREE,
    ]);
    set_length(random, &mut frame.tree, length.min(MOST_TREE));
}

fn set_list(random: &mut Random, frame: &mut Frame, h: u64, z: u64) {
    let whole = few(random, h);
    let least = few(random, h);
    frame.list = Vec::new();
    for _ in 0..whole + least {
        frame.list.push(random.between(2, 2 * leaves(h) - 1));
    }
    // A number out of range at some place, past the counts too; or one named twice.
    let length = room(random, whole + least, MOST_LIST);
    set_length(random, &mut frame.list, length);
    if random.chance(40) && !frame.list.is_empty() {
        let place = random.below(frame.list.len() as u64) as usize;
        let last = 2 * leaves(h) - 1;
        frame.list[place] = random.pick(&[0, 1, 2, last, last + 1, (1 << 32) + 2, u64::MAX]);
    }
    if random.chance(20) && !frame.list.is_empty() {
        let place = random.below(frame.list.len() as u64) as usize;
        frame.list[place] = frame.list[0];
    }
    let needed = whole * bucket_words(z) + 4 * least;
    frame.words = Vec::new();
    let length = room(random, needed, MOST_WORDS);
    set_length(random, &mut frame.words, length);
    frame.arguments[2] = whole;
    frame.arguments[3] = least;
    if random.chance(12) {
        set_counts(random, frame, whole, least);
    }
}

/// Counts that exceed the list alone, together, or only as true numbers: their 64-bit sum wraps.
fn set_counts(random: &mut Random, frame: &mut Frame, whole: u64, least: u64) {
    let listed = frame.list.len() as u64;
    let pairs = [
        (u64::MAX, 1),
        (1, u64::MAX),
        (u64::MAX, u64::MAX),
        (1 << 63, 1 << 63),
        (0u64.wrapping_sub(least), least),
        (whole, 0u64.wrapping_sub(whole)),
        (listed, 1),
        (0, listed + 1),
        (listed + 1, 0),
        (0, listed),
        (listed, 0),
        (1 << 61, 0),
        (any_word(random), any_word(random)),
    ];
    let (whole, least) = random.pick(&pairs);
    frame.arguments[2] = whole;
    frame.arguments[3] = least;
}

/// How many buckets of a kind are named.
fn few(random: &mut Random, h: u64) -> u64 {
    let any = random.below(12);
    random.pick(&[0, 1, 2, h, 2 * h, any])
}
