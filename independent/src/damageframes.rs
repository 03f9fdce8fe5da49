//! Frames that finish: true words, and words damaged in one way or another. Where a damage is meant
//! to be the only one, the least records above it are worked out again.

use crate::begin::request_list;
use crate::card::Request;
use crate::frame::{Frame, MOST_WORDS};
use crate::makeframe::{any_word, frame_for, room, set_length};
use crate::places::{leaves, path_below_root, path_holds, sibling, BucketList};
use crate::random::Random;
use crate::record::{smallest, Record, DUMMY};
use crate::world::{any_key, World};

pub fn damage_frame(random: &mut Random) -> Frame {
    let highest = random.pick(&[1, 2, 3, 3, 4, 4, 16]);
    let (mut world, mut request) = World::with_request(random, highest);
    let named = request_list(&world.card, &request);
    match random.below(12) {
        0 | 1 => {}
        2 => shared_stamp(random, &mut world, &named),
        3 => off_path(random, &mut world, &named),
        4 => wrong_count(random, &mut world),
        5 => far_root(random, &mut world, &mut request),
        6 | 7 => tie(random, &mut world, &named),
        8 => improper(random, &mut world, &named),
        9 => sibling_record(random, &mut world, &named),
        10 => stale_least(random, &mut world, &named),
        _ => last_event(random, &mut world, &mut request),
    }
    if world.card.c == 0 && !world.card.least.is_dummy() && random.chance(80) {
        world.card.c = 1;
    }
    // The least record may have changed, and with it an ExtractMin's list.
    let named = request_list(&world.card, &request);
    let mut words = world.fetched_words(&named);
    if random.chance(12) {
        flip_words(random, &mut words);
    }
    world.card.waiting = if random.chance(97) {
        Some(request)
    } else {
        None
    };
    let mut frame = frame_for(random, 7, &world.card);
    let length = room(random, words.len() as u64, MOST_WORDS);
    frame.words = words;
    set_length(random, &mut frame.words, length);
    frame
}

/// One or two words changed to anything, to a neighbour or to another word.
fn flip_words(random: &mut Random, words: &mut [u64]) {
    for _ in 0..random.between(1, 2) {
        let place = random.below(words.len() as u64) as usize;
        let other = random.below(words.len() as u64) as usize;
        words[place] = match random.below(5) {
            0 => words[place].wrapping_add(1),
            1 => words[place].wrapping_sub(1),
            2 => words[other],
            3 => words[place] ^ (1 << random.below(64)),
            _ => any_word(random),
        };
    }
}

/// Works out the least records of the named whole buckets and of the root; siblings stay.
fn settle_path(world: &mut World, named: &BucketList) {
    let mut numbers = named.whole.clone();
    numbers.sort();
    for number in numbers.into_iter().rev() {
        let mut candidates = world.slots(number).to_vec();
        candidates.push(least_of(world, 2 * number));
        candidates.push(least_of(world, 2 * number + 1));
        let least = smallest(&candidates);
        set_least(world, number, least);
    }
    let mut candidates = world.slots(1).to_vec();
    candidates.push(least_of(world, 2));
    candidates.push(least_of(world, 3));
    world.card.least = smallest(&candidates);
}

fn least_of(world: &World, number: u64) -> Record {
    if number == 1 {
        return world.card.least;
    }
    match world.buckets.get(&number) {
        Some(bucket) => bucket.least,
        None => DUMMY,
    }
}

fn set_least(world: &mut World, number: u64, least: Record) {
    if number == 1 {
        world.card.least = least;
        return;
    }
    world.slots(number);
    if let Some(bucket) = world.buckets.get_mut(&number) {
        bucket.least = least;
    }
}

/// Bucket and slot of every record in the root and the named whole buckets.
fn seen(world: &mut World, named: &BucketList) -> Vec<(u64, usize)> {
    let mut numbers = vec![1];
    numbers.extend(&named.whole);
    let mut places = Vec::new();
    for number in numbers {
        for (place, slot) in world.slots(number).iter().enumerate() {
            if !slot.is_dummy() {
                places.push((number, place));
            }
        }
    }
    places
}

/// Two slots with one stamp, or one record in two slots.
fn shared_stamp(random: &mut Random, world: &mut World, named: &BucketList) {
    let places = seen(world, named);
    if places.len() < 2 {
        return;
    }
    let (one, other) = (random.pick(&places), random.pick(&places));
    let record = world.slots(one.0)[one.1];
    world.slots(other.0)[other.1].stamp = record.stamp;
    settle_path(world, named);
}

/// A record under a label whose path does not hold its bucket, or whose path still does.
fn off_path(random: &mut Random, world: &mut World, named: &BucketList) {
    let mut places = seen(world, named);
    places.retain(|place| place.0 != 1);
    if places.is_empty() {
        return;
    }
    let (number, slot) = random.pick(&places);
    let label = random.below(leaves(world.card.h));
    world.slots(number)[slot].label = label;
    settle_path(world, named);
}

/// A count of live events that is not true. Some of these are seen, some are not.
fn wrong_count(random: &mut Random, world: &mut World) {
    let in_root = world
        .slots(1)
        .iter()
        .filter(|slot| !slot.is_dummy())
        .count() as u64;
    let true_count = world.card.c;
    let most = leaves(world.card.h).min(world.card.t);
    let choices = [
        1,
        in_root,
        in_root + 1,
        true_count.saturating_sub(1),
        true_count + 1,
        most,
    ];
    world.card.c = random.pick(&choices).min(most);
}

/// The root's records all belong to the other half, so that they stay, and c counts them alone: the
/// removal of a record below leaves more root records than c - 1.
fn far_root(random: &mut Random, world: &mut World, request: &mut Request) {
    let mut below = Vec::new();
    for bucket in world.buckets.values() {
        below.extend(bucket.slots.iter().filter(|slot| !slot.is_dummy()).copied());
    }
    if below.is_empty() {
        return;
    }
    let target = random.pick(&below);
    let half = leaves(world.card.h) / 2;
    let taken: Vec<u64> = world.records().iter().map(|record| record.stamp).collect();
    let mut free = (0..world.card.t).filter(|stamp| !taken.contains(stamp));
    let mut in_root = 0;
    for slot in world.slots(1) {
        if slot.is_dummy() && in_root < 2 {
            if let Some(stamp) = free.next() {
                *slot = Record {
                    key: any_key(random),
                    value: 3,
                    label: 0,
                    stamp,
                };
            }
        }
        if !slot.is_dummy() {
            slot.label = target.label ^ half;
            in_root += 1;
        }
    }
    world.settle();
    *request = Request::Delete {
        label: target.label,
        stamp: target.stamp,
    };
    world.card.c = in_root + random.below(2);
}

/// c = 1 with the one event there is, or with more; c above 1 with a single event in sight.
fn last_event(random: &mut Random, world: &mut World, request: &mut Request) {
    if world.card.least.is_dummy() {
        return;
    }
    *request = Request::ExtractMin;
    if random.chance(50) {
        let least = world.card.least;
        let keep_all = random.chance(30);
        for number in [vec![1], path_below_root(world.card.h, least.label)].concat() {
            for slot in world.slots(number) {
                if *slot != least && !keep_all {
                    *slot = DUMMY;
                }
            }
        }
        for number in path_below_root(world.card.h, least.label) {
            if random.chance(90) {
                set_least(world, sibling(number), DUMMY);
            }
        }
        settle_path(world, &request_list(&world.card, request));
    }
    world.card.c = random.between(1, 2).min(world.card.t);
}

/// A leaf below this bucket.
fn leaf_below(random: &mut Random, h: u64, number: u64) -> u64 {
    let mut bucket = number;
    while bucket < leaves(h) {
        bucket = 2 * bucket + random.below(2);
    }
    bucket - leaves(h)
}

/// A sibling's least record with the key and stamp of the least record of its parent, so that the
/// tie rule decides. Then, at times, the twin that it does not choose.
fn tie(random: &mut Random, world: &mut World, named: &BucketList) {
    if named.least.is_empty() {
        return;
    }
    let chosen = random.pick(&named.least);
    let parent_least = least_of(world, chosen / 2);
    if parent_least.is_dummy() {
        return;
    }
    let label = leaf_below(random, world.card.h, chosen);
    let value = random.pick(&[parent_least.value, 77]);
    let twin = Record {
        value,
        label,
        ..parent_least
    };
    set_least(world, chosen, twin);
    settle_path(world, named);
    if random.chance(35) {
        let mut bucket = chosen / 2;
        while bucket >= 1 {
            let least = least_of(world, bucket);
            if least == parent_least && random.chance(80) {
                set_least(world, bucket, twin);
            } else if least == twin && random.chance(80) {
                set_least(world, bucket, parent_least);
            }
            bucket /= 2;
        }
    }
}

/// A slot or a sibling's least record that is neither the dummy nor proper, or proper at the edge.
fn improper(random: &mut Random, world: &mut World, named: &BucketList) {
    let (n, t) = (leaves(world.card.h), world.card.t);
    let places = seen(world, named);
    let mut record = match places.last() {
        Some((number, place)) => world.slots(*number)[*place],
        None => Record {
            key: any_key(random),
            value: 0,
            label: 0,
            stamp: t.saturating_sub(1),
        },
    };
    match random.below(7) {
        0 => record.stamp = t,
        1 => record.stamp = t.wrapping_sub(1),
        2 => record.label = n,
        3 => record.label |= 1 << 40,
        4 => record = Record { value: 1, ..DUMMY },
        5 => record = Record { stamp: 1, ..DUMMY },
        _ => {
            record = Record {
                key: 0,
                value: 0,
                label: 0,
                stamp: 0,
            }
        }
    }
    if !named.least.is_empty() && random.chance(40) {
        set_least(world, random.pick(&named.least), record);
    } else if let Some((number, place)) = places.last() {
        if *number != 1 {
            world.slots(*number)[*place] = record;
        }
    }
    settle_path(world, named);
}

/// Another least record for a sibling: one that may stand there, at times with a stamp that a slot
/// has; or one that belongs to the path bucket beside it.
fn sibling_record(random: &mut Random, world: &mut World, named: &BucketList) {
    if named.least.is_empty() || world.card.t == 0 {
        return;
    }
    let chosen = random.pick(&named.least);
    let home = if random.chance(70) {
        chosen
    } else {
        sibling(chosen)
    };
    let mut stamp = random.below(world.card.t);
    let places = seen(world, named);
    if !places.is_empty() && random.chance(60) {
        let (number, place) = random.pick(&places);
        stamp = world.slots(number)[place].stamp;
    }
    let label = leaf_below(random, world.card.h, home);
    debug_assert!(path_holds(world.card.h, label, home));
    let record = Record {
        key: any_key(random),
        value: 5,
        label,
        stamp,
    };
    set_least(world, chosen, record);
    settle_path(world, named);
}

/// A least record of a path bucket or of the root that is not true: the dummy, another record, or
/// the right one with another value or label.
fn stale_least(random: &mut Random, world: &mut World, named: &BucketList) {
    let mut numbers = named.whole.clone();
    numbers.push(1);
    let number = random.pick(&numbers);
    let mut least = least_of(world, number);
    let records = world.records();
    match random.below(5) {
        0 => least = DUMMY,
        1 => least.value = least.value.wrapping_add(1),
        2 => least.label ^= 1,
        _ => {
            if !records.is_empty() {
                least = random.pick(&records);
            }
        }
    }
    set_least(world, number, least);
}
