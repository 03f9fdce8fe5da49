//! The card as the probe's 272 words.

use crate::card::{Card, Request, ROOT_PLACES};
use crate::record::{read_record, write_record, DUMMY};
use crate::refusal::Refusal;

pub const CARD_WORDS: usize = 272;
/// Where things stand: h, Z, R, T, t, c; the kind; five fields; the least record; the root.
pub const KIND: usize = 6;
pub const FIELDS: usize = 7;
pub const LEAST: usize = 12;
pub const ROOT: usize = 16;

/// A kind above 3 is a BadCard. Fields that a kind does not use are not looked at.
pub fn card_from_words(words: &[u64]) -> Result<Card, Refusal> {
    let fields = &words[FIELDS..FIELDS + 5];
    let waiting = match words[KIND] {
        0 => None,
        1 => Some(Request::Insert {
            key: fields[0],
            value: fields[1],
            label: fields[2],
            first: fields[3],
            second: fields[4],
        }),
        2 => Some(Request::ExtractMin),
        3 => Some(Request::Delete {
            label: fields[0],
            stamp: fields[1],
        }),
        _ => return Err(Refusal::BadCard),
    };
    let mut root = vec![DUMMY; ROOT_PLACES];
    for (place, record) in root.iter_mut().enumerate() {
        *record = read_record(words, ROOT + 4 * place);
    }
    Ok(Card {
        h: words[0],
        z: words[1],
        r: words[2],
        most: words[3],
        t: words[4],
        c: words[5],
        waiting,
        least: read_record(words, LEAST),
        root,
    })
}

/// Fields that a kind does not use are 0.
pub fn words_from_card(card: &Card) -> Vec<u64> {
    let mut words = vec![0; CARD_WORDS];
    words[0] = card.h;
    words[1] = card.z;
    words[2] = card.r;
    words[3] = card.most;
    words[4] = card.t;
    words[5] = card.c;
    match card.waiting {
        None => {}
        Some(Request::Insert {
            key,
            value,
            label,
            first,
            second,
        }) => {
            words[KIND] = 1;
            words[FIELDS..FIELDS + 5].copy_from_slice(&[key, value, label, first, second]);
        }
        Some(Request::ExtractMin) => words[KIND] = 2,
        Some(Request::Delete { label, stamp }) => {
            words[KIND] = 3;
            words[FIELDS..FIELDS + 2].copy_from_slice(&[label, stamp]);
        }
    }
    write_record(&mut words, LEAST, &card.least);
    for (place, record) in card.root.iter().enumerate() {
        write_record(&mut words, ROOT + 4 * place, record);
    }
    words
}
