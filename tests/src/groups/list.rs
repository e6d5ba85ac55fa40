//! A log with its book: each block's plain bytes, the book by itself, and both as text in pieces.

use crate::check::{filled, Check};
use crate::edge::{self, Listed, Listing, PIECE};
use crate::guard::Side;
use hplog_tests::make::{self, MadeFile};
use hplog_tests::random::Random;
use hplog_tests::records::Answer;
use hplog_tests::reference;

/// A log and a book; most have one fault, in the log, the book, the dictionary or a block.
fn log_and_book(random: &mut Random) -> (Vec<u8>, Vec<u8>) {
    let mut made = make::file(random);
    match random.below(10) {
        0 => (make::damaged(random, &made), made.book()),
        1 => (make::damaged(random, &made), make::damaged_book(random, &made)),
        2 => (made.log.clone(), make::damaged_book(random, &made)),
        3 => {
            made.dictionary = make::damaged_dictionary(random, &made.names);
            (made.log.clone(), made.book())
        }
        4 | 5 => {
            damage_block(random, &mut made);
            (made.log.clone(), made.book())
        }
        6 => (disagreeing(random, &made), made.book()),
        _ => (made.log.clone(), made.book()),
    }
}

fn damage_block(random: &mut Random, made: &mut MadeFile) {
    for _ in 0..made.blocks.len().min(2) {
        let which = random.below(made.blocks.len());
        made.blocks[which].plain = make::damaged_plain(random, &made.blocks[which].plain);
    }
}

/// The log with a count or a plain size of a block that open can't see to be wrong.
fn disagreeing(random: &mut Random, made: &MadeFile) -> Vec<u8> {
    let mut log = made.log.clone();
    if !made.blocks.is_empty() {
        let which = random.below(made.blocks.len());
        let at = 64 + made.blocks[..which].iter().map(|block| 36 + block.stored.len()).sum::<usize>();
        let at = at + random.pick(&[20, 28]);
        let value = reference::value_at(&log, at, 4);
        let other = random.pick(&[value + 1, value.wrapping_sub(1).max(1), value ^ 0x8000_0000]);
        reference::put(&mut log, at, 4, other);
    }
    log
}

/// The plain bytes of each block against the header of that block or another, which may be changed or cut.
pub fn block(check: &mut Check, random: &mut Random) {
    let mut made = make::file(random);
    if random.once_in(2) {
        damage_block(random, &mut made);
    }
    let mut log = if random.once_in(3) { disagreeing(random, &made) } else { made.log.clone() };
    if random.once_in(6) {
        log.truncate(random.below(log.len() + 1));
    }
    let mut at = 64;
    for block in made.blocks.iter().take(6) {
        let place = match random.below(10) {
            0 => random.edge(),
            1 => (log.len() as u64).saturating_sub(random.below(40) as u64),
            _ => at as u64,
        };
        let plain = if random.once_in(8) { &made.blocks[random.below(made.blocks.len())].plain } else { &block.plain };
        let names = if random.once_in(8) { random.below(4) as u32 } else { made.names.len() as u32 };
        check.call(
            &format!("check_block at {place} with {names} names"),
            [&log, plain],
            &mut [],
            |[log, plain], []| reference::check_block(log, place, plain, names),
            |[log, plain], []| edge::check_block(log, place, plain, names),
        );
        at += 36 + block.stored.len();
    }
}

/// A book by itself: with the blocks that it has, with other numbers, without one, and part by part.
pub fn book(check: &mut Check, random: &mut Random) {
    let made = make::file(random);
    let book = match random.below(12) {
        0 => make::any_bytes(random),
        1 => b"PLB\x01\0\0\0\0\0"[..5 + random.below(5)].to_vec(),
        2..=6 => make::damaged_book(random, &made),
        _ => made.book(),
    };
    let whole = check.call(
        "book_parts",
        [&book],
        &mut [],
        |[book], []| reference::book_parts(book),
        |[book], []| edge::book_parts(book),
    );
    let count = made.blocks.len() as u32;
    for blocks in
        [count, (whole.count as u32).wrapping_sub(1), random.below(count as usize + 3) as u32, random.edge() as u32]
    {
        check.call(
            &format!("book of {blocks} blocks"),
            [&book],
            &mut [],
            |[book], []| reference::book(book, blocks),
            |[book], []| edge::book(book, blocks),
        );
    }
    let mut at = reference::FIRST as u64;
    for _ in 0..=count.min(8) {
        at = part(check, &book, at);
    }
    let near = (book.len() as u64).saturating_sub(random.below(8) as u64);
    for at in [near, random.edge(), random.below(book.len() + 2) as u64, u64::MAX - random.below(6) as u64] {
        part(check, &book, at);
    }
}

/// The part at a place; gives the place after it back.
fn part(check: &mut Check, book: &[u8], at: u64) -> u64 {
    let found = check.call(
        &format!("book_part at {at}"),
        [book],
        &mut [],
        |[book], []| reference::book_part(book, at),
        |[book], []| edge::book_part(book, at),
    );
    found.place + found.count
}

pub fn list(check: &mut Check, random: &mut Random) {
    let (log, book) = log_and_book(random);
    let (answer, text) = reference::listing(&log, &book);
    let listed = listed(check, &log, &book, answer);
    pieces(check, random, &log, &book, listed.next, &text);
    ranges(check, random, &log, &book);
}

/// A time at an entry or beside one, or any other.
fn time_near(random: &mut Random, times: &[u64]) -> u64 {
    if times.is_empty() || random.once_in(6) {
        return random.edge();
    }
    let time = random.pick(times);
    random.pick(&[time, time, time.saturating_sub(1), time.saturating_add(1)])
}

/// Ranges of times: one that may be empty or reversed, and where the entries are few each of theirs at both edges.
fn ranges(check: &mut Check, random: &mut Random, log: &[u8], book: &[u8]) {
    let times = reference::times(log, book);
    let (a, b) = (time_near(random, &times), time_near(random, &times));
    let (t1, t2) = if random.once_in(8) { (a.max(b), a.min(b)) } else { (a.min(b), a.max(b)) };
    range(check, random, log, book, t1, t2);
    range(check, random, log, book, 0, u64::MAX);
    if times.len() <= 5 {
        for &time in &times {
            range(check, random, log, book, time, time);
            range(check, random, log, book, 0, time.saturating_sub(1));
            range(check, random, log, book, time.saturating_add(1), u64::MAX);
        }
    }
}

/// The entries of a range: the check with both placements, and all pieces.
fn range(check: &mut Check, random: &mut Random, log: &[u8], book: &[u8], t1: u64, t2: u64) {
    let (answer, text) = reference::range(log, book, t1, t2);
    let [first, second] = [Side::Start, Side::End].map(|side| {
        check.lend("list_range", [log, book], &[], side, |[log, book], []| edge::list_range(log, book, t1, t2)).0
    });
    check.same(&format!("list_range from {t1} to {t2}"), &[log, book], answer, first.answer);
    check.same("list_range, the two placements", &[log, book], first, second);
    pieces(check, random, log, book, first.next, &text);
}

/// The check alone, with both placements.
pub fn listed(check: &mut Check, log: &[u8], book: &[u8], expected: Answer) -> Listed {
    let [first, second] = [Side::Start, Side::End]
        .map(|side| check.lend("list", [log, book], &[], side, |[log, book], []| edge::list(log, book)).0);
    check.same("list", &[log, book], expected, first.answer);
    check.same("list, the two placements", &[log, book], first, second);
    first
}

/// All pieces from a listing's start, with outputs of any size, joined and compared with the text.
pub fn pieces(check: &mut Check, random: &mut Random, log: &[u8], book: &[u8], start: Listing, text: &[u8]) {
    let mut at = start;
    let mut joined: Vec<u8> = Vec::with_capacity(text.len());
    let usual = random.pick(&[PIECE, PIECE + 1, 64, 200, 5000, 300_000]);
    loop {
        let room = if random.once_in(5) { random.below(PIECE + 30) } else { usual };
        let side = if random.once_in(2) { Side::Start } else { Side::End };
        let out = filled(random, room);
        let lent = [out];
        let (listed, [left]) =
            check.lend("list_next", [log, book], &lent, side, |[log, book], [out]| edge::list_next(log, book, at, out));
        let count = listed.answer.count as usize;
        if count > room || listed.answer.number != 0 || listed.answer.place != 0 {
            check.fail("list_next", &[log, book], &format!("an accepted call, at most {room} bytes"), &listed.answer);
        }
        check.same_bytes("list_next, bytes past those written", &[log, book], &lent[0][count..], &left[count..]);
        joined.extend(&left[..count]);
        let length = joined.len().min(text.len());
        check.same_bytes("list_next, the text so far", &[log, book], &text[..length], &joined);
        // What is left of an output that took as much as fits has no room for any more, unless the text is at its end.
        if room - count >= PIECE && joined.len() < text.len() {
            check.fail("list_next", &[log, book], &format!("as much as fits into {room} bytes"), &listed.answer);
        }
        at = listed.next;
        if count == 0 && room >= PIECE {
            break;
        }
    }
    check.same_bytes("list_next, the whole text", &[log, book], text, &joined);
}
