//! Demand 3 on pairs of runs: same kinds, same eviction leaves, own keys, values and deletes; the
//! second run's labels are dealt from the first's so that removals fall on the same leaves. The
//! bucket lists are then equal up to the second run's first Overflow.

use crate::card::Request;
use crate::check::Checks;
use crate::heap::Heap;
use crate::oddlines::accepted_size;
use crate::places::{leaves, BucketList};
use crate::plainqueue::PlainQueue;
use crate::random::Random;
use crate::record::Record;
use crate::refusal::Refusal;

/// A request that names events by their insertion: 0 for the first Insert, 1 for the next.
#[derive(Clone, Copy, PartialEq, Eq)]
enum Step {
    Insert {
        key: u64,
        value: u64,
        first: u64,
        second: u64,
    },
    Min,
    Extract,
    Delete {
        event: usize,
    },
}

struct Sizes {
    h: u64,
    z: u64,
    r: u64,
}

pub fn check_pair(random: &mut Random, checks: &mut Checks) {
    let highest = random.pick(&[1, 2, 3, 5, 5]);
    let (h, z) = accepted_size(random, highest);
    let z = random.pick(&[1, 1, z]);
    let sizes = Sizes {
        h,
        z,
        r: random.pick(&[1, 1, 2, 64]),
    };
    let mut steps = first_steps(random, &sizes);
    let inserts = steps
        .iter()
        .filter(|step| matches!(step, Step::Insert { .. }))
        .count();
    let mut labels = Vec::new();
    for _ in 0..inserts {
        labels.push(random.below(leaves(h)));
    }
    let (lists, overflow) = lists_of(&sizes, &steps, &labels);
    // The first run is one in which nothing is refused: it ends before its first Overflow.
    if overflow {
        steps.truncate(lists.len());
        checks.cut_short += 1;
    }
    let second = second_steps(random, &steps);
    let dealt = deal_labels(random, &steps, &second, &labels);
    let (second_lists, overflow) = lists_of(&sizes, &second, &dealt);
    if overflow {
        checks.overflowed += 1;
    }
    let equal = second_lists
        .iter()
        .zip(&lists)
        .all(|(one, other)| one == other);
    let long_enough = overflow || second_lists.len() == lists.len();
    checks.lists += second_lists.len() as u64;
    checks.that("the lists of a pair are equal", equal && long_enough);
}

/// Steps of which none is refused but for Overflow, and no Delete is Absent.
fn first_steps(random: &mut Random, sizes: &Sizes) -> Vec<Step> {
    let n = leaves(sizes.h);
    let mut queue = PlainQueue::default();
    let mut steps = Vec::new();
    let mut inserted = 0;
    let inserts = random.pick(&[50, 65, 80]);
    for _ in 0..random.between(5, 60) {
        let draw = random.below(100);
        let live = queue.events.len() as u64;
        if live == 0 || (draw < inserts && live < n) {
            let step = Step::Insert {
                key: random.below(8),
                value: random.word(),
                first: random.below(n / 2),
                second: n / 2 + random.below(n / 2),
            };
            take(&mut queue, &step, &mut inserted);
            steps.push(step);
        } else {
            let step = match draw % 4 {
                0 => Step::Min,
                1 => Step::Delete {
                    event: random.pick(&queue.events).label as usize,
                },
                _ => Step::Extract,
            };
            take(&mut queue, &step, &mut inserted);
            steps.push(step);
        }
    }
    steps
}

/// Plays a step on a plain queue in which an event's label is its insertion. Gives the event that
/// the step removes.
fn take(queue: &mut PlainQueue, step: &Step, inserted: &mut usize) -> Option<usize> {
    match *step {
        Step::Insert { key, value, .. } => {
            let number = *inserted as u64;
            queue.insert(Record {
                key,
                value,
                label: number,
                stamp: number,
            });
            *inserted += 1;
            None
        }
        Step::Min => None,
        Step::Extract => queue.extract().map(|event| event.label as usize),
        Step::Delete { event } => {
            queue.delete(event as u64, event as u64);
            Some(event)
        }
    }
}

/// Step by step, the event that is removed there.
fn removed(steps: &[Step]) -> Vec<Option<usize>> {
    let mut queue = PlainQueue::default();
    let mut inserted = 0;
    steps
        .iter()
        .map(|step| take(&mut queue, step, &mut inserted))
        .collect()
}

/// Same kinds and eviction leaves; own keys, values and deletes.
fn second_steps(random: &mut Random, first: &[Step]) -> Vec<Step> {
    let mut queue = PlainQueue::default();
    let mut inserted = 0;
    let mut steps = Vec::new();
    for step in first {
        let own = match *step {
            Step::Insert { first, second, .. } => Step::Insert {
                key: random.below(8),
                value: random.word(),
                first,
                second,
            },
            Step::Delete { .. } => Step::Delete {
                event: random.pick(&queue.events).label as usize,
            },
            same => same,
        };
        take(&mut queue, &own, &mut inserted);
        steps.push(own);
    }
    steps
}

/// "a Delete of the second sequence names its event by insertion and carries the label dealt to
/// it": what the second run removes at a step has the label of what the first removes there; the
/// labels of the first run's other events go to the second's others in any order.
fn deal_labels(random: &mut Random, first: &[Step], second: &[Step], labels: &[u64]) -> Vec<u64> {
    let (first_removed, second_removed) = (removed(first), removed(second));
    let inserts = first
        .iter()
        .filter(|step| matches!(step, Step::Insert { .. }))
        .count();
    let mut dealt: Vec<Option<u64>> = vec![None; inserts];
    let mut left: Vec<usize> = (0..inserts).collect();
    for (one, other) in first_removed.iter().zip(&second_removed) {
        if let (Some(one), Some(other)) = (one, other) {
            dealt[*other] = Some(labels[*one]);
            left.retain(|event| event != one);
        }
    }
    let mut all = Vec::new();
    for label in dealt {
        all.push(match label {
            Some(label) => label,
            None => labels[left.remove(random.below(left.len() as u64) as usize)],
        });
    }
    all
}

/// Plays a run; the lists up to its end or its first Overflow, and whether there was one. FindMin's
/// list is empty.
fn lists_of(sizes: &Sizes, steps: &[Step], labels: &[u64]) -> (Vec<BucketList>, bool) {
    let mut lists = Vec::new();
    let mut heap = match Heap::start(sizes.h, sizes.z, sizes.r, 1000000) {
        Ok(heap) => heap,
        Err(_) => return (lists, false),
    };
    // Label and stamp of each event by its insertion.
    let mut references: Vec<(u64, u64)> = Vec::new();
    for step in steps {
        let request = match *step {
            Step::Min => {
                lists.push(BucketList {
                    whole: Vec::new(),
                    least: Vec::new(),
                });
                continue;
            }
            Step::Insert {
                key,
                value,
                first,
                second,
            } => {
                let label = labels[references.len()];
                Request::Insert {
                    key,
                    value,
                    label,
                    first,
                    second,
                }
            }
            Step::Extract => Request::ExtractMin,
            Step::Delete { event } => {
                let (label, stamp) = references[event];
                Request::Delete { label, stamp }
            }
        };
        match heap.play(request) {
            Ok((answer, named)) => {
                if let Request::Insert { .. } = request {
                    references.push((answer.label, answer.stamp));
                }
                lists.push(named);
            }
            Err(Refusal::Overflow) => return (lists, true),
            // Not reached; the lists are then too short, and the check fails.
            Err(_) => return (lists, false),
        }
    }
    (lists, false)
}
