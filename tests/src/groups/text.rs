//! Texts at the edges of UTF-8 through the calls that judge one, beside Rust's own judge, which goes by the same table.

use crate::check::{filled, Check};
use crate::edge;
use hplog_tests::make;
use hplog_tests::random::Random;
use hplog_tests::records::{Cursor, Writer};
use hplog_tests::reference::{self, put, BLOCK_HEADER, CHARACTERS, FIELD, HEADER, ROW};

/// The lengths of what stands before a text at the edges: from none to beyond a window of 64 bytes.
const LENGTHS: u64 = 71;

/// Each of these lengths, of characters of each size.
pub const CASES: u64 = 4 * LENGTHS;

/// Bytes that neither a row of the table nor a neighbour of one gives.
const STRAYS: [&[u8]; 5] = [b"\xBF", b"\xC0\x80", b"\xC0\xBF", b"\xF7\xBF\xBF\xBF", b"\xF8\x88\x80\x80\x80"];

/// A case is what stands before the texts: so many bytes of characters of one size. The texts are the end, or else more
/// of the like follows and by chance a long text is in front of all. Further cases are the same with other characters.
pub fn text(check: &mut Check, random: &mut Random) {
    let (length, size) = ((check.case % LENGTHS) as usize, (check.case / LENGTHS % 4) as usize + 1);
    let before = characters(random, size, length);
    for text in at_edges() {
        every_call(check, random, &[&before[..], &text].concat());
        let front = if random.once_in(2) { make::long_text(random) } else { Vec::new() };
        let length = random.below(192);
        let after = characters(random, size, length);
        every_call(check, random, &[&front[..], &before, &text, &after].concat());
    }
    for _ in 0..100 {
        let mut text = make::long_text(random);
        if random.once_in(2) {
            make::damage_text(random, &mut text);
        }
        every_call(check, random, &text);
    }
}

/// So many bytes of characters of one size, with ASCII in front where they don't come out even.
fn characters(random: &mut Random, size: usize, length: usize) -> Vec<u8> {
    let rows: Vec<_> = CHARACTERS.into_iter().filter(|row| row.len() == size).collect();
    let mut text = vec![b'a'; length % size];
    while text.len() < length {
        let row = random.pick(&rows);
        text.extend(make::character(random, row));
    }
    text
}

/// Each row's characters of bytes at the ends of their ranges, as they are, with one byte beside its range, cut, and
/// with a tail too many.
fn at_edges() -> Vec<Vec<u8>> {
    let mut texts = STRAYS.map(<[u8]>::to_vec).to_vec();
    for row in CHARACTERS {
        for ends in 0..1 << row.len() {
            let end = |i: usize| if ends >> i & 1 == 0 { row[i].0 } else { row[i].1 };
            let character: Vec<u8> = (0..row.len()).map(end).collect();
            for (i, &(least, most)) in row.iter().enumerate() {
                for beside in [least.wrapping_sub(1), most.wrapping_add(1)] {
                    let mut changed = character.clone();
                    changed[i] = beside;
                    texts.push(changed);
                }
                texts.push(character[..i].to_vec());
            }
            texts.extend([0x80, 0xBF].map(|tail| [&character[..], &[tail]].concat()));
            texts.push(character);
        }
    }
    texts.sort();
    texts.dedup();
    texts
}

fn every_call(check: &mut Check, random: &mut Random, text: &[u8]) {
    let begun = reference::begin(reference::writer_new(), &mut [0; HEADER]).next;
    let named = reference::add_name(begun, &mut [0; 9], b"n").next;
    names(check, text);
    add_name(check, random, begun, text);
    for kind in [0, 5] {
        field(check, random, kind, text);
        add_entry(check, random, named, kind, text);
    }
    add_block(check, random, named, text);
}

/// Compares a number and a place with what Rust's own judge says of the text: no refusal, or this one.
fn judged(check: &Check, call: &str, text: &[u8], refusal: (u64, u64), found: (u64, u64)) {
    let expected = if std::str::from_utf8(text).is_ok() { (0, 0) } else { refusal };
    check.same(call, &[text], expected, found);
}

fn names(check: &mut Check, text: &[u8]) {
    let dictionary = make::dictionary(&[text.to_vec()]);
    let answer = check.call(
        "names",
        [&dictionary],
        &mut [],
        |[dictionary], []| reference::names(dictionary),
        |[dictionary], []| edge::names(dictionary),
    );
    judged(check, "names, by Rust's judge", text, (10, 8), (answer.number, answer.place));
}

fn add_name(check: &mut Check, random: &mut Random, begun: Writer, text: &[u8]) {
    let answer = check
        .call(
            "add_name",
            [text],
            &mut [filled(random, 8 + text.len())],
            |[name], [dictionary]| reference::add_name(begun, dictionary, name),
            |[name], [dictionary]| edge::add_name(begun, dictionary, name),
        )
        .answer;
    judged(check, "add_name, by Rust's judge", text, (10, 0), (answer.number, answer.place));
}

/// An entry of one text, whose length takes two bytes; the field stands at byte 2.
fn plain(kind: u8, text: &[u8]) -> Vec<u8> {
    let length = text.len();
    [&[0, 1, 0, 0, kind, length as u8 | 0x80, (length >> 7) as u8], text].concat()
}

/// By chance tails after the text, which would make a character that is cut whole.
fn tails(random: &mut Random) -> &'static [u8] {
    random.pick(&[&[], &[0x80; 3]])
}

fn field(check: &mut Check, random: &mut Random, kind: u8, text: &[u8]) {
    let payload = [&plain(kind, text), tails(random)].concat();
    let at = Cursor { at: 2 };
    let step = check.call(
        "field at 2 with one name",
        [&payload],
        &mut [],
        |[payload], []| reference::field(payload, 1, at),
        |[payload], []| edge::field(payload, 1, at),
    );
    judged(check, "field, by Rust's judge", text, (11, 2), (step.number, step.place));
}

/// A whole number first, so that the text's field would stand at byte 14.
fn add_entry(check: &mut Check, random: &mut Random, named: Writer, kind: u8, text: &[u8]) {
    let mut fields = [0; 2 * FIELD];
    put(&mut fields, 2, 1, 1);
    put(&mut fields, FIELD + 2, 1, u64::from(kind));
    put(&mut fields, FIELD + 16, 8, text.len() as u64);
    let lent = [text, tails(random)].concat();
    let answer = check
        .call(
            "add_entry at 0",
            [&fields, &lent],
            &mut [filled(random, 32 + text.len())],
            |[fields, text], [payload]| reference::add_entry(named, payload, 0, fields, text),
            |[fields, text], [payload]| edge::add_entry(named, payload, 0, fields, text),
        )
        .answer;
    judged(check, "add_entry, by Rust's judge", text, (11, 14), (answer.number, answer.place));
}

fn add_block(check: &mut Check, random: &mut Random, named: Writer, text: &[u8]) {
    let plain = plain(random.pick(&[0, 5]), text);
    let answer = check
        .call(
            "add_block with start 0 and one name",
            [&plain],
            &mut [ROW, BLOCK_HEADER].map(|length| filled(random, length)),
            |[plain], [rows, out]| reference::add_block(named, rows, out, 0, plain, &[], 1),
            |[plain], [rows, out]| edge::add_block(named, rows, out, 0, plain, &[], 1),
        )
        .answer;
    judged(check, "add_block, by Rust's judge", text, (11, 2), (answer.number, answer.place));
}
