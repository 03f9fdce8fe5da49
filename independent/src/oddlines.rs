//! Lines for the desk that are odd: bad spacing, bad numbers, bad words, bad bytes, bad sizes, and
//! near misses that can be read.

use crate::card::sizes_good;
use crate::places::{leaves, tree_words};
use crate::random::Random;

const WORDS: [&str; 14] = [
    "min", "extract", "MIN", "Extract", "size", "insert", "delete", "mi", "minn", "extrac",
    "extracts", "Size", "del", "#",
];

const NUMBERS: [&str; 22] = [
    "0",
    "1",
    "00",
    "01",
    "007",
    "+1",
    "-1",
    "-0",
    "1.0",
    "0x1",
    "1e3",
    "1_0",
    "18446744073709551614",
    "18446744073709551615",
    "18446744073709551616",
    "018446744073709551615",
    "36893488147419103232",
    "99999999999999999999",
    "340282366920938463463374607431768211456",
    "",
    "a",
    "9223372036854775808",
];

const FIXED: [&str; 34] = [
    "",
    " ",
    "\t",
    "\r",
    "\0",
    " min",
    "min ",
    "min  ",
    "\tmin",
    "min\t",
    "min\r",
    "min\0",
    "min min",
    "min 0",
    "min\u{b}",
    "min\u{c}",
    "min\u{a0}",
    "extract ",
    " extract",
    "extract\r",
    "extract 0",
    "delete",
    "delete 0",
    "delete 0 0 ",
    "delete  0 0",
    "delete 0  0",
    "delete 0\t0",
    "delete 0 0 0",
    "delete 0,0",
    "size",
    "insert",
    "insert 1 2 0 0 1\r",
    "insert 1 2 0 0",
    "insert 1 2 0 0 1 0",
];

pub fn odd_line(random: &mut Random, valid: &[u8]) -> Vec<u8> {
    match random.below(8) {
        0 | 1 => random.pick(&FIXED).as_bytes().to_vec(),
        2 => random_fields(random),
        3 => odd_size(random),
        4 => long_line(random, valid),
        5 => random_bytes(random),
        6 => spoiled_spacing(random, valid),
        _ => spoiled_byte(random, valid),
    }
}

/// A word and a few numbers, most of which do not fit together.
fn random_fields(random: &mut Random) -> Vec<u8> {
    let mut line = random.pick(&WORDS).to_string();
    for _ in 0..random.below(7) {
        line.push(' ');
        line.push_str(random.pick(&NUMBERS));
    }
    line.into_bytes()
}

/// A `size` that is out of range, or within its ranges with too big a tree, or can't be read.
pub fn odd_size(random: &mut Random) -> Vec<u8> {
    if random.chance(30) {
        return big_size(random);
    }
    let h = random.pick(&[0, 1, 2, 3, 16, 17, 32, 63, 64, 65, u64::MAX]);
    let z = random.pick(&[0, 1, 2, 5, 6, u64::MAX]);
    let r = random.pick(&[0, 1, 2, 64, 65, u64::MAX]);
    let n = if h <= 16 { leaves(h) } else { 65536 };
    let most = random.pick(&[0, n - 1, n, n + 1, 4294967295, 4294967296, u64::MAX]);
    if random.chance(10) {
        return format!("size {h} {z} {r} {}", random.pick(&NUMBERS)).into_bytes();
    }
    if random.chance(5) {
        return format!("size {} {z} {r} {most}", random.pick(&NUMBERS)).into_bytes();
    }
    format!("size {h} {z} {r} {most}").into_bytes()
}

/// Within its ranges, or out of them by T or R alone, with a tree that is over 8,192 words or just
/// not over.
fn big_size(random: &mut Random) -> Vec<u8> {
    let h = random.between(7, 16);
    let z = random.between(1, 5);
    let r = random.pick(&[1, 64, 65]);
    let most = random.pick(&[leaves(h) - 1, leaves(h), 4294967295, 4294967296]);
    format!("size {h} {z} {r} {most}").into_bytes()
}

/// A `size` that the desk accepts.
pub fn accepted_size(random: &mut Random, highest: u64) -> (u64, u64) {
    loop {
        let h = random.between(1, highest);
        let z = random.between(1, 5);
        if sizes_good(h, z, 1, leaves(h)) && tree_words(h, z) <= 8192 {
            return (h, z);
        }
    }
}

/// Lines of 128, 129 and more bytes.
fn long_line(random: &mut Random, valid: &[u8]) -> Vec<u8> {
    let mut line = match random.below(4) {
        0 => b"min".to_vec(),
        1 => valid.to_vec(),
        2 => b"delete 0 ".to_vec(),
        _ => b"insert 1".to_vec(),
    };
    let filler = random.pick(&[b' ', b'0', b'1', b'9', b'x', 0, 13]);
    let length = random.pick(&[127, 128, 129, 130, 200, 1000]);
    while line.len() < length {
        line.push(filler);
    }
    line
}

/// Any bytes but 10, which would end the line.
fn random_bytes(random: &mut Random) -> Vec<u8> {
    let mut line = Vec::new();
    for _ in 0..random.below(20) {
        let byte = random.below(256) as u8;
        line.push(if byte == 10 { 13 } else { byte });
    }
    line
}

/// One space more, one less, or another byte in place of one.
fn spoiled_spacing(random: &mut Random, valid: &[u8]) -> Vec<u8> {
    let mut line = valid.to_vec();
    let mut places = vec![0, line.len()];
    for (place, byte) in valid.iter().enumerate() {
        if *byte == b' ' {
            places.push(place);
        }
    }
    let place = random.pick(&places);
    if place < line.len() && line[place] == b' ' && random.chance(60) {
        line.remove(place);
        if random.chance(60) {
            line.insert(place, random.pick(&[9, 11, 12, 13, 0, b',', 160]));
        }
    } else {
        line.insert(place, b' ');
    }
    line
}

/// One byte of a good line changed, dropped or doubled. It may still be good.
fn spoiled_byte(random: &mut Random, valid: &[u8]) -> Vec<u8> {
    let mut line = valid.to_vec();
    if line.is_empty() {
        return line;
    }
    let place = random.below(line.len() as u64) as usize;
    match random.below(4) {
        0 => {
            line.remove(place);
        }
        1 => line.insert(place, line[place]),
        2 => line[place] = random.pick(b"0123456789 aAm\r\t+-"),
        _ => line.insert(place, b'0'),
    }
    line
}
