//! The program checks itself: the paper's examples, then random runs and pairs of runs.

use std::collections::BTreeMap;
use std::io::Write;

use crate::checkframes::check_frames;
use crate::checkpairs::check_pair;
use crate::checkruns::check_run;
use crate::deskexamples::check_desk;
use crate::examples::check_examples;
use crate::placements::check_placements;
use crate::random::Random;
use crate::readings::check_readings;
use crate::refusal::Refusal;

#[derive(Default)]
pub struct Checks {
    pub passed: u64,
    pub failed: u64,
    failures: BTreeMap<String, u64>,
    refusals: BTreeMap<u64, u64>,
    /// Finished requests of the runs for demand 2.
    pub finished: u64,
    /// Of the pairs for demand 3: lists compared, second runs that overflowed, first runs that were
    /// cut short before an Overflow.
    pub lists: u64,
    pub overflowed: u64,
    pub cut_short: u64,
}

impl Checks {
    pub fn that(&mut self, name: &str, good: bool) {
        if good {
            self.passed += 1;
        } else {
            self.failed += 1;
            *self.failures.entry(String::from(name)).or_insert(0) += 1;
        }
    }

    pub fn met(&mut self, refusal: Refusal) {
        *self.refusals.entry(refusal.number()).or_insert(0) += 1;
    }
}

/// `count` runs, as many pairs of runs, and as many frames.
pub fn check(seed: u64, count: u64, output: &mut dyn Write) -> bool {
    let mut checks = Checks::default();
    let mut random = Random::new(seed);
    check_desk(&mut checks);
    check_examples(&mut checks);
    check_readings(&mut checks);
    check_placements(&mut checks);
    let examples = checks.passed + checks.failed;
    for _ in 0..count {
        check_run(&mut random, &mut checks);
    }
    for _ in 0..count {
        check_pair(&mut random, &mut checks);
    }
    check_frames(seed, count, &mut checks);
    let mut text = format!("{examples} examples\n");
    text.push_str(&format!(
        "{count} runs, {} requests finished, refused:",
        checks.finished
    ));
    for (number, met) in &checks.refusals {
        text.push_str(&format!(" {number}: {met}"));
    }
    text.push_str(&format!(
        "\n{count} pairs of runs, {} lists compared, overflowed: {} second runs, {} first runs\n",
        checks.lists, checks.overflowed, checks.cut_short
    ));
    text.push_str(&format!("{count} frames\n"));
    for (name, times) in &checks.failures {
        text.push_str(&format!("FAILED {times} times: {name}\n"));
    }
    text.push_str(&format!(
        "{} passed, {} failed\n",
        checks.passed, checks.failed
    ));
    let _ = output.write_all(text.as_bytes());
    checks.failed == 0
}
