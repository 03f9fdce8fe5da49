//! The independent program: a second, plain implementation of the card, the rack and the desk.

mod badcard;
mod begin;
mod card;
mod cardframes;
mod cardwords;
mod check;
mod checkframes;
mod checkpairs;
mod checkruns;
mod damageframes;
mod desk;
mod deskexamples;
mod examples;
mod fetched;
mod finish;
mod forge;
mod frame;
mod frames;
mod heap;
mod honestframes;
mod linetally;
mod makeframe;
mod oddlines;
mod placements;
mod places;
mod plainqueue;
mod probe;
mod rack;
mod rackframes;
mod random;
mod readings;
mod record;
mod refusal;
mod scripts;
mod tally;
mod tell;
mod world;

use std::fs::{read, File};
use std::io::{stdin, stdout, BufReader, BufWriter, Write};
use std::process::ExitCode;

fn main() -> ExitCode {
    let arguments: Vec<String> = std::env::args_os()
        .skip(1)
        .map(|word| word.to_string_lossy().into_owned())
        .collect();
    let words: Vec<&str> = arguments.iter().map(|word| word.as_str()).collect();
    match run(&words) {
        Some(true) => ExitCode::SUCCESS,
        Some(false) => ExitCode::FAILURE,
        None => {
            eprintln!("desk | probe | count-frames | count-lines SCRIPT...");
            eprintln!("tell-lines SCRIPT PRINTED | tell-frames ASKED REPLIES");
            eprintln!("scripts SEED COUNT | frames SEED COUNT | check SEED COUNT");
            ExitCode::from(2)
        }
    }
}

/// None where there is no such subcommand; else whether it went well.
fn run(words: &[&str]) -> Option<bool> {
    let mut input = BufReader::new(stdin());
    let mut output = BufWriter::new(stdout());
    match words {
        ["desk"] => desk::play(&mut input, &mut output),
        ["probe"] => probe::probe(&mut input, &mut output),
        ["count-frames"] => return Some(tally::count_frames(&mut input, &mut output)),
        ["count-lines", scripts @ ..] => {
            let mut tally = linetally::LineTally::default();
            for script in scripts {
                tally.count_script(&read(script).ok()?);
            }
            return Some(tally.report(&mut output));
        }
        ["tell-lines", script, printed] => {
            let (mut script, mut printed) = (file(script)?, file(printed)?);
            return Some(tell::tell_lines(&mut script, &mut printed, &mut output));
        }
        ["tell-frames", asked, replies] => {
            let (mut asked, mut replies) = (file(asked)?, file(replies)?);
            return Some(tell::tell_frames(&mut asked, &mut replies, &mut output));
        }
        ["scripts", seed, count] => {
            let script = scripts::script(number(seed)?, number(count)?);
            let _ = output.write_all(&script);
        }
        ["frames", seed, count] => frames::frames(number(seed)?, number(count)?, &mut output),
        ["check", seed, count] => {
            return Some(check::check(number(seed)?, number(count)?, &mut output));
        }
        _ => return None,
    }
    Some(true)
}

fn file(path: &str) -> Option<BufReader<File>> {
    Some(BufReader::new(File::open(path).ok()?))
}

fn number(word: &str) -> Option<u64> {
    word.parse().ok()
}
