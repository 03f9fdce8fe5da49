//! Counts what the lines of desk scripts print.

use std::collections::BTreeMap;
use std::io::Write;

use crate::card::{sizes_good, Request};
use crate::desk::{read_command, Command, Desk, LONGEST_LINE};

/// What each line can print besides 0: the refusals that 01 lets its call give where both sides are
/// honest, in the table's numbers. No request waits between two lines, the desk lends what is
/// needed, and its card and tree are its own: 2, 3, 11, 12, 13 and 14 can't come.
const LINES: [(&str, &[&str]); 5] = [
    ("size", &["1"]),
    ("insert", &["4", "5", "6", "9", "10"]),
    ("min", &["8"]),
    ("extract", &["4", "8"]),
    ("delete", &["4", "6", "7"]),
];

/// "A line it can't read, one over 128 bytes, one other than `size` before any accepted `size`, or
/// a `size` within its ranges whose tree is over 8,192 words prints `?`".
const UNREAD: [&str; 4] = [
    "can't be read",
    "over 128 bytes",
    "before any size",
    "tree over 8,192 words",
];

/// How often each line printed each number, or `?` for each ground.
#[derive(Default)]
pub struct LineTally {
    lines: u64,
    met: BTreeMap<(String, String), u64>,
}

impl LineTally {
    pub fn count_script(&mut self, script: &[u8]) {
        let mut desk = Desk::new();
        let mut lines: Vec<&[u8]> = script.split(|byte| *byte == 10).collect();
        if lines.last().map_or(false, |last| last.is_empty()) {
            lines.pop();
        }
        for line in lines {
            let started = desk.heap.is_some();
            let printed = desk.line(line);
            let number = printed.split(' ').next().unwrap_or("");
            let (kind, said) = match number {
                "?" => ("?", ground(line, started)),
                number => (kind_of(line), number),
            };
            self.lines += 1;
            let key = (String::from(kind), String::from(said));
            *self.met.entry(key).or_insert(0) += 1;
        }
    }

    /// Prints the counts. False if a line never printed what it can, or printed what it can't.
    pub fn report(&self, output: &mut dyn Write) -> bool {
        let mut expected = Vec::new();
        for (kind, numbers) in LINES {
            expected.push((kind, "0"));
            expected.extend(numbers.iter().map(|number| (kind, *number)));
        }
        expected.extend(UNREAD.iter().map(|ground| ("?", *ground)));
        let _ = writeln!(output, "{} lines", self.lines);
        let mut complete = true;
        for (kind, said) in &expected {
            let key = (String::from(*kind), String::from(*said));
            let met = self.met.get(&key).copied().unwrap_or(0);
            let _ = writeln!(output, "{kind:8} {said}: {met}");
            if met == 0 {
                let _ = writeln!(output, "{kind} never printed {said}");
                complete = false;
            }
        }
        for (kind, said) in self.met.keys() {
            if !expected.contains(&(kind.as_str(), said.as_str())) {
                let _ = writeln!(output, "{kind} printed {said}, which it can't");
                complete = false;
            }
        }
        complete
    }
}

fn kind_of(line: &[u8]) -> &'static str {
    match read_command(line) {
        Some(Command::Size { .. }) => "size",
        Some(Command::Min) => "min",
        Some(Command::Ask(Request::Insert { .. })) => "insert",
        Some(Command::Ask(Request::ExtractMin)) => "extract",
        Some(Command::Ask(Request::Delete { .. })) => "delete",
        None => "a line that can't be read",
    }
}

/// Why a line printed `?`.
fn ground(line: &[u8], started: bool) -> &'static str {
    if line.len() > LONGEST_LINE {
        return "over 128 bytes";
    }
    match read_command(line) {
        None => "can't be read",
        Some(Command::Size { h, z, r, most }) if sizes_good(h, z, r, most) => {
            "tree over 8,192 words"
        }
        Some(Command::Size { .. }) => "a size out of its ranges",
        Some(_) if !started => "before any size",
        Some(_) => "a line that can be read",
    }
}
