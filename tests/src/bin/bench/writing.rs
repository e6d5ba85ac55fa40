//! The check of a dictionary, and the writer's calls.

use crate::edge;
use crate::measure::{shortest, Line};
use hplog_tests::make;
use hplog_tests::random::Random;
use hplog_tests::records::{Writer, Written};
use hplog_tests::reference::{self, ROW};
use std::hint::black_box;

pub fn dictionary(lines: &mut Vec<Line>) {
    for count in [10, 100, 1000, 10_000, 65_535] {
        let dictionary = make::dictionary(&make::many_names(count));
        assert_eq!(edge::names(&dictionary).count, count as u64);
        let ours = shortest(|| {
            black_box(edge::names(black_box(&dictionary)));
        });
        let theirs = shortest(|| {
            black_box(reference::names(black_box(&dictionary)));
        });
        lines.push(Line { call: "names", shape: format!("{count} names"), peer: "Rust", ours, theirs });
    }
}

/// Names added one by one, with a common beginning: each is looked for among those held.
pub fn adding(lines: &mut Vec<Line>) {
    for count in [1000usize, 10_000] {
        let names: Vec<Vec<u8>> =
            (0..count).map(|i| format!("a beginning that they all have {i:07}").into_bytes()).collect();
        let mut dictionary = vec![0; 4 + names.iter().map(|name| 4 + name.len()).sum::<usize>()];
        let begun = reference::begin(reference::writer_new(), &mut [0; 64]).next;
        let mut fill = |add: &dyn Fn(Writer, &mut [u8], &[u8]) -> Written| {
            let mut state = begun;
            for name in &names {
                state = add(state, &mut dictionary, name).next;
            }
            assert_eq!(state.names as usize, count);
        };
        let ours = shortest(|| fill(&edge::add_name));
        let theirs = shortest(|| fill(&reference::add_name));
        lines.push(Line { call: "add_name", shape: format!("{count} names"), peer: "Rust", ours, theirs });
    }
}

/// A field to write.
pub fn record(id: u16, kind: u8, bits: u64, length: u64) -> [u8; 24] {
    let mut record = [0; 24];
    record[..2].copy_from_slice(&id.to_le_bytes());
    record[2] = kind;
    record[8..16].copy_from_slice(&bits.to_le_bytes());
    record[16..].copy_from_slice(&length.to_le_bytes());
    record
}

/// A string, a whole number, a real and a null.
fn four_fields() -> Vec<u8> {
    [record(0, 0, 0, 2), record(1, 1, 42, 0), record(2, 2, 1.5f64.to_bits(), 0), record(3, 4, 0, 0)].concat()
}

fn fill(begun: Writer, count: u64, payload: &mut [u8], add: impl Fn(Writer, &mut [u8], u64) -> Written) {
    let mut state = begun;
    for i in 0..count {
        let written = add(state, payload, 1000 + i);
        assert_eq!(written.answer.number, 0);
        state = written.next;
    }
}

pub fn entries(lines: &mut Vec<Line>) {
    let fields = four_fields();
    let begun = Writer { names: 4, ..reference::begin(reference::writer_new(), &mut [0; 64]).next };
    for count in [100, 10_000, 100_000] {
        let mut payload = vec![0; 64 * count as usize];
        let ours = shortest(|| {
            fill(begun, count, &mut payload, |state, out, time| edge::add_entry(state, out, time, &fields, b"B7"))
        });
        let theirs = shortest(|| {
            fill(begun, count, &mut payload, |state, out, time| reference::add_entry(state, out, time, &fields, b"B7"))
        });
        lines.push(Line { call: "add_entry", shape: format!("{count} entries"), peer: "Rust", ours, theirs });
    }
}

pub fn blocks(lines: &mut Vec<Line>) {
    let begun = reference::begin(reference::writer_new(), &mut [0; 64]).next;
    for size in [64usize, 64 << 10, 16 << 20] {
        let stored = Random::new(1, 0, 0).bytes(size);
        let (mut rows, mut out) = ([0; ROW], vec![0; 36 + size]);
        assert_eq!(edge::add_block(begun, &mut rows, &mut out, 5, &[0, 0], &stored, 0).answer.number, 0);
        let ours = shortest(|| {
            black_box(edge::add_block(begun, &mut rows, &mut out, 5, &[0, 0], black_box(&stored), 0));
        });
        let theirs = shortest(|| {
            black_box(reference::add_block(begun, &mut rows, &mut out, 5, &[0, 0], black_box(&stored), 0));
        });
        lines.push(Line { call: "add_block", shape: format!("{size} bytes"), peer: "Rust", ours, theirs });
    }
}
