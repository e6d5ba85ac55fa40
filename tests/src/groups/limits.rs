//! States and positions that no call gave back, and lengths above 32 bits.

use super::writer::{Calls, Room};
use crate::check::{filled, Check, Reply};
use crate::edge::{self, Listing};
use crate::guard::{self, Side};
use hplog_tests::make;
use hplog_tests::random::Random;
use hplog_tests::records::{Cursor, Writer, Written};
use hplog_tests::reference::{self, BLOCKS, FIELD, HEADER, NAMES, ROW};
use std::sync::OnceLock;

pub fn states(check: &mut Check, random: &mut Random) {
    match random.below(3) {
        0 => out_of_bounds(check, random),
        1 => any_state(check, random),
        _ => any_listing(check, random),
    }
}

/// Counts above their bounds and turns that are over: 17 of every call.
fn out_of_bounds(check: &mut Check, random: &mut Random) {
    let mut calls = Calls::new(check);
    let above = |random: &mut Random, bound: usize| random.pick(&[bound as u32 + 1, bound as u32 * 2, u32::MAX]);
    let state = Writer { turn: 1, length: 64, ..calls.state };
    calls.state = match random.below(4) {
        0 => Writer { blocks: above(random, BLOCKS), ..state },
        1 => Writer { names: above(random, NAMES), ..state },
        2 => Writer { given: above(random, NAMES), ..state },
        _ => Writer { turn: random.pick(&[2, 3, 255, 256, u32::MAX]), ..state },
    };
    let answers = [
        calls.begin(check, random, Room::Enough).0,
        calls.add_name(check, random, Room::Enough, b"name"),
        calls.add_entry(check, random, Room::Enough, 5, &[], &[]),
        calls.add_block(check, random, Room::Enough, 5, &[0, 0], &[], 0).0,
        calls.close(check, random, Room::Enough, 0, &[0; 4], b"stored").0,
    ];
    for answer in answers {
        check.same("a call from a state out of bounds", &[], (17, 0, 0), (answer.number, answer.place, answer.count));
    }
}

/// A state of any numbers, with lent memory of any lengths. Nothing is settled but what holds of every call.
fn any_state(check: &mut Check, random: &mut Random) {
    let number = |random: &mut Random| if random.once_in(2) { random.below(100) as u64 } else { random.edge() };
    let count = |random: &mut Random| if random.once_in(2) { random.below(5) as u32 } else { random.edge() as u32 };
    let state = Writer {
        length: number(random),
        end: number(random),
        dictionary: number(random),
        start: number(random),
        last: number(random),
        plain: number(random),
        blocks: count(random),
        given: count(random),
        names: count(random),
        turn: random.pick(&[0, 1, 1, 1, 1, 2]),
    };
    let mut lent = || {
        let length = random.below(120);
        random.bytes(length)
    };
    let (first, second, third) = (lent(), lent(), lent());
    let output = [filled(random, 100 + 7 * (state.turn as usize))];
    let outputs = [output[0].clone(), filled(random, 90)];
    let time = number(random);
    let names = count(random);
    for side in [Side::Start, Side::End] {
        let (written, left) = check.lend("begin", [], &output, side, |[], [out]| edge::begin(state, out));
        kept_on_refusal(check, "begin", state, written, &output, &left);
        let (written, left) =
            check.lend("add_name", [&first], &output, side, |[name], [out]| edge::add_name(state, out, name));
        kept_on_refusal(check, "add_name", state, written, &output, &left);
        let entry = |[fields, text]: [&[u8]; 2], [out]: [&mut [u8]; 1]| edge::add_entry(state, out, time, fields, text);
        let (written, left) = check.lend("add_entry", [&first, &second], &output, side, entry);
        kept_on_refusal(check, "add_entry", state, written, &output, &left);
        let block = |[plain, stored]: [&[u8]; 2], [rows, out]: [&mut [u8]; 2]| {
            edge::add_block(state, rows, out, time, plain, stored, names)
        };
        let plain = if time % 2 == 0 { &[0, 0][..] } else { &first };
        let (written, left) = check.lend("add_block", [plain, &second], &outputs, side, block);
        kept_on_refusal(check, "add_block", state, written, &outputs, &left);
        let closing =
            |[rows, plain, stored]: [&[u8]; 3], [out]: [&mut [u8]; 1]| edge::close(state, rows, out, plain, stored);
        let plain = if time % 2 == 0 { &[0; 4][..] } else { &second };
        let (written, left) = check.lend("close", [&first, plain, &third], &output, side, closing);
        kept_on_refusal(check, "close", state, written, &output, &left);
    }
}

/// A refusal gives the state back and changes no lent byte.
fn kept_on_refusal<const O: usize>(
    check: &Check,
    call: &str,
    state: Writer,
    written: Written,
    before: &[Vec<u8>; O],
    after: &[Vec<u8>; O],
) {
    if written.number() == 0 {
        return;
    }
    check.same(
        &format!("{call} from any state, count and state of a refusal"),
        &[],
        (0, state),
        (written.answer.count, written.next),
    );
    for (before, after) in before.iter().zip(after) {
        check.same_bytes(&format!("{call} from {state:?}, output of a refusal"), &[], before, after);
    }
}

/// A listing that stands anywhere, or that belongs to another log: what is written stays within the output.
fn any_listing(check: &mut Check, random: &mut Random) {
    let made = make::file_of_up_to(random, 4);
    let other = make::file_of_up_to(random, 4);
    let mut at = if random.once_in(2) {
        edge::list(&other.log, &other.book()).next
    } else {
        Listing {
            places: std::array::from_fn(|_| if random.once_in(2) { random.below(200) as u64 } else { random.edge() }),
            counts: std::array::from_fn(|_| {
                if random.once_in(2) {
                    random.below(200) as u32
                } else {
                    random.edge() as u32
                }
            }),
            kinds: [random.edge() as u8, random.below(10) as u8],
        }
    };
    if random.once_in(2) {
        at.places[random.below(7)] = random.edge();
    }
    let book = made.book();
    for _ in 0..4 {
        let length = random.below(200);
        let output = [filled(random, length)];
        let side = if random.once_in(2) { Side::Start } else { Side::End };
        let (listed, left) = check.lend("list_next", [&made.log, &book], &output, side, |[log, book], [out]| {
            edge::list_next(log, book, at, out)
        });
        let count = listed.answer.count as usize;
        if listed.answer.number != 0 || count > length {
            check.fail(
                "list_next from anywhere",
                &[&made.log, &book],
                &format!("no refusal, at most {length} bytes"),
                &listed.answer,
            );
        }
        check.same_bytes(
            "list_next from anywhere, bytes past those written",
            &[&made.log, &book],
            &output[0][count..],
            &left[0][count..],
        );
        at = listed.next;
    }
}

/// Lengths around 32 bits. What is lent is zeros that are only read.
pub fn large(check: &mut Check, random: &mut Random) {
    const LIMIT: usize = 1 << 32;
    // Mapped once for all cases.
    static ZEROS: OnceLock<&[u8]> = OnceLock::new();
    let zeros = *ZEROS.get_or_init(|| guard::zeros(LIMIT + 4096));
    long_texts(check, zeros);
    let made = make::file_of(random, 2);
    let mut unclosed = made.log.clone();
    reference::put(&mut unclosed, 10, 8, 0);
    for length in [LIMIT - 1, LIMIT, LIMIT + 7] {
        let lent = &zeros[..length];
        for log in [&unclosed, &made.log] {
            both(
                check,
                "repair",
                made.log.len(),
                |out| reference::repair(log, lent, out),
                |out| edge::repair(log, lent, out),
            );
        }
        both(check, "label", 16, |panel| reference::label(lent, panel), |panel| edge::label(lent, panel));
        both(check, "names", 0, |_| reference::names(lent), |_| edge::names(lent));
        both(
            check,
            "open",
            40,
            |frame| reference::open(lent, &mut [], frame),
            |frame| edge::open(lent, &mut [], frame),
        );
        both(
            check,
            "recover",
            32,
            |report| reference::recover(lent, &mut [], report),
            |report| edge::recover(lent, &mut [], report),
        );
        let rows = &zeros[..length - length % ROW];
        both(
            check,
            "query",
            64,
            |numbers| reference::query(rows, 0, 9, numbers),
            |numbers| edge::query(rows, 0, 9, numbers),
        );
        both(
            check,
            "query",
            64,
            |numbers| reference::query(lent, 0, 9, numbers),
            |numbers| edge::query(lent, 0, 9, numbers),
        );
        let at = Cursor { at: length as u64 - 3 };
        both(check, "delta", 0, |_| reference::delta(lent, at), |_| edge::delta(lent, at));
        both(check, "count", 0, |_| reference::count(lent, at), |_| edge::count(lent, at));
        both(check, "field", 0, |_| reference::field(zeros, 1, at), |_| edge::field(zeros, 1, at));
        both(check, "field", 0, |_| reference::field(lent, 1, at), |_| edge::field(lent, 1, at));
        let begun = reference::begin(reference::writer_new(), &mut [0; HEADER]).next;
        both(
            check,
            "add_name",
            64,
            |out| reference::add_name(begun, out, lent),
            |out| edge::add_name(begun, out, lent),
        );
        both(
            check,
            "close",
            64,
            |out| reference::close(begun, &[], out, &[0; 4], lent),
            |out| edge::close(begun, &[], out, &[0; 4], lent),
        );
        if length >= LIMIT {
            let add = |stored: &'static [u8], plain: &'static [u8]| {
                (
                    move |out: &mut [u8]| reference::add_block(begun, &mut [0; ROW], out, 0, plain, stored, 0),
                    move |out: &mut [u8]| edge::add_block(begun, &mut [0; ROW], out, 0, plain, stored, 0),
                )
            };
            for (stored, plain) in [(lent, &[0, 0][..]), (&[][..], lent), (lent, lent)] {
                let (reference, library) = add(stored, plain);
                both(check, "add_block", 64, reference, library);
            }
        }
    }
}

/// Entries of one text: the longest and the least that each length of a varint holds, for which 12 says the bytes that
/// the entry takes; and, where the text isn't there, the longest that 32 bits hold with ten bytes more, and their
/// neighbours.
fn long_texts(check: &mut Check, zeros: &[u8]) {
    let begun = reference::begin(reference::writer_new(), &mut [0; HEADER]).next;
    let named = reference::add_name(begun, &mut [0; 9], b"n").next;
    let mut add = |length: usize, text: &[u8]| {
        let mut field = [0; FIELD];
        reference::put(&mut field, 16, 8, length as u64);
        both(
            check,
            "add_entry",
            64,
            |out| reference::add_entry(named, out, 0, &field, text),
            |out| edge::add_entry(named, out, 0, &field, text),
        );
    };
    for bits in [7, 14, 21, 28] {
        add((1 << bits) - 1, zeros);
        add(1 << bits, zeros);
    }
    for length in u32::MAX - 12..=u32::MAX - 8 {
        add(length as usize, &[]);
    }
}

/// A call with one small output on both sides.
fn both<A: Reply>(
    check: &mut Check,
    name: &str,
    length: usize,
    reference: impl Fn(&mut [u8]) -> A,
    library: impl Fn(&mut [u8]) -> A,
) {
    let name = format!("{name} with large lengths");
    check.call(&name, [], &mut [vec![0xEE; length]], |[], [out]| reference(out), |[], [out]| library(out));
}
