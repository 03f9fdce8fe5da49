//! Tells where another program's answers part from this one's: the first call that is answered
//! otherwise, with both answers.

use std::io::{BufRead, Read, Write};

use crate::cardwords::LEAST;
use crate::desk::Desk;
use crate::frame::{read_frame, write_reply, Frame};
use crate::probe::answer;
use crate::refusal::CALLS;

/// The first line of the script for which the other program printed something else. False if there
/// is one, or if something was printed after the last.
pub fn tell_lines(
    script: &mut dyn BufRead,
    others: &mut dyn BufRead,
    output: &mut dyn Write,
) -> bool {
    let mut desk = Desk::new();
    let mut count = 0;
    while let Some(line) = next_line(script) {
        count += 1;
        let own = desk.line(&line);
        let other = next_line(others);
        if other.as_deref() != Some(own.as_bytes()) {
            let _ = writeln!(output, "line {count}: {}", line.escape_ascii());
            let _ = writeln!(output, "the independent program printed: {own}");
            let _ = match other {
                None => writeln!(output, "the other printed nothing more"),
                Some(bytes) => writeln!(output, "the other printed: {}", bytes.escape_ascii()),
            };
            return false;
        }
    }
    ends(others, count, "lines", output)
}

/// A line without its line end; None where no byte is left.
fn next_line(input: &mut dyn BufRead) -> Option<Vec<u8>> {
    let mut line = Vec::new();
    match input.read_until(10, &mut line) {
        Ok(0) | Err(_) => return None,
        Ok(_) => {}
    }
    if line.last() == Some(&10) {
        line.pop();
    }
    Some(line)
}

/// The first frame to which the other program replied something else. False if there is one, or if
/// something was written after the last.
pub fn tell_frames(asked: &mut dyn Read, others: &mut dyn Read, output: &mut dyn Write) -> bool {
    let mut count = 0;
    while let Some(frame) = read_frame(asked) {
        count += 1;
        let mut own = Vec::new();
        let _ = write_reply(&mut own, &answer(&frame));
        let mut other = Vec::new();
        let _ = others.take(own.len() as u64).read_to_end(&mut other);
        if own != other {
            let name = CALLS[frame.op as usize - 1].1;
            let asked = joined(&frame.arguments);
            let head = joined(&frame.card[..LEAST]);
            let _ = writeln!(output, "frame {count}: {name}, arguments {asked}");
            let _ = writeln!(output, "on a card that begins {head}");
            tell_reply("the independent program", &own, output);
            tell_reply("the other", &other, output);
            tell_word(&frame, &own, &other, output);
            return false;
        }
    }
    ends(others, count, "frames", output)
}

fn tell_reply(who: &str, reply: &[u8], output: &mut dyn Write) {
    let words = words_of(reply);
    let _ = match words.split_first() {
        Some((number, rest)) if rest.len() >= 6 => {
            writeln!(output, "{who} gave {number}, answer {}", joined(&rest[..6]))
        }
        _ => writeln!(output, "{who} gave no whole answer"),
    };
}

/// The first word that differs, by what it is.
fn tell_word(frame: &Frame, own: &[u8], other: &[u8], output: &mut dyn Write) {
    let (own, other) = (words_of(own), words_of(other));
    let place = (0..own.len()).find(|place| other.get(*place) != Some(&own[*place]));
    let Some(mut place) = place else { return };
    let (here, there) = (own[place], other.get(place));
    let parts = [
        ("number", 1),
        ("answer", 6),
        ("card", frame.card.len()),
        ("list", frame.list.len()),
        ("words", frame.words.len()),
        ("tree", frame.tree.len()),
    ];
    for (name, length) in parts {
        if place < length {
            let there = there.map_or(String::from("nothing"), |word| word.to_string());
            let _ = writeln!(
                output,
                "first at {name}[{place}]: {here}, the other {there}"
            );
            return;
        }
        place -= length;
    }
}

/// Whether nothing is left of what the other wrote.
fn ends(others: &mut dyn Read, count: u64, what: &str, output: &mut dyn Write) -> bool {
    let mut byte = [0];
    let ended = !matches!(others.read(&mut byte), Ok(1));
    if !ended {
        let _ = writeln!(output, "the other wrote more than {count} {what} ask for");
    }
    ended
}

/// The whole words of some bytes.
fn words_of(bytes: &[u8]) -> Vec<u64> {
    let mut words = Vec::new();
    for chunk in bytes.chunks_exact(8) {
        let mut eight = [0; 8];
        eight.copy_from_slice(chunk);
        words.push(u64::from_le_bytes(eight));
    }
    words
}

fn joined(words: &[u64]) -> String {
    let texts: Vec<String> = words.iter().map(|word| word.to_string()).collect();
    texts.join(" ")
}
