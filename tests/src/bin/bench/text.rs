//! Strings of many bytes, which a field's reader judges to their ends.

use crate::edge;
use crate::measure::{shortest, Line};
use hplog_tests::random::Random;
use hplog_tests::records::Cursor;
use hplog_tests::reference::{Range, CHARACTERS};
use std::hint::black_box;

const LENGTH: usize = 64 << 10;

/// A character by a row of the table of UTF-8, each byte by chance.
fn push(random: &mut Random, text: &mut Vec<u8>, row: &[Range]) {
    text.extend(row.iter().map(|&(least, most)| least + random.below(usize::from(most - least) + 1) as u8));
}

/// The whole text of characters by any of these rows, and ASCII where no more fits.
fn by_rows(rows: impl Iterator<Item = &'static [Range]>) -> Vec<u8> {
    let rows: Vec<_> = rows.collect();
    let mut random = Random::new(1, 0, 0);
    let mut text = Vec::with_capacity(LENGTH);
    while text.len() + 4 <= LENGTH {
        let row = random.pick(&rows);
        push(&mut random, &mut text, row);
    }
    text.resize(LENGTH, b'a');
    text
}

/// Letters and blanks, one in twenty of them a letter with an accent.
fn latin() -> Vec<u8> {
    let mut random = Random::new(1, 0, 0);
    let mut text = Vec::with_capacity(LENGTH);
    while text.len() + 2 <= LENGTH {
        match random.below(20) {
            0 => push(&mut random, &mut text, &[(0xC3, 0xC3), (0xA0, 0xBF)]),
            1..=3 => text.push(b' '),
            _ => push(&mut random, &mut text, &[(b'a', b'z')]),
        }
    }
    text.resize(LENGTH, b'a');
    text
}

pub fn fields(lines: &mut Vec<Line>) {
    let sized = |size: usize| by_rows(CHARACTERS.into_iter().filter(move |row| row.len() == size));
    let texts = [
        ("ASCII", sized(1)),
        ("1 in 20 accented", latin()),
        ("2 bytes each", sized(2)),
        ("3 bytes each", sized(3)),
        ("4 bytes each", sized(4)),
        ("1 to 4 bytes each", by_rows(CHARACTERS.into_iter())),
    ];
    for (kind, text) in texts {
        // A string under the first name; its length takes three bytes.
        let payload = [&[0, 0, 0, 0x80, 0x80, 0x04], &text[..]].concat();
        let step = edge::field(&payload, 1, Cursor { at: 0 });
        assert_eq!((step.number, step.length), (0, LENGTH as u64));
        let ours = shortest(|| {
            black_box(edge::field(black_box(&payload), 1, Cursor { at: 0 }));
        });
        let theirs = shortest(|| {
            black_box(std::str::from_utf8(black_box(&text)).expect("UTF-8"));
        });
        lines.push(Line { call: "field", shape: format!("64 KiB, {kind}"), peer: "Rust from_utf8", ours, theirs });
    }
}
