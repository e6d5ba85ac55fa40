//! Open, query, recover and repair, and where stored bytes stand.

use crate::check::{awkward, filled, Check};
use crate::edge;
use hplog_tests::make;
use hplog_tests::random::Random;
use hplog_tests::reference::{self, Row, BLOCKS, ROW};

/// Hands on logs of every kind: valid and damaged ones, any bytes, and now and then all cuts or all single changes of a
/// small file.
fn each_log(random: &mut Random, mut each: impl FnMut(&mut Random, &[u8])) {
    match random.below(60) {
        0 => {
            let log = make::file_of_up_to(random, 3).log;
            let log = unclosed(random, log);
            for cut in 0..=log.len() {
                each(random, &log[..cut]);
            }
        }
        1 => {
            let log = make::file_of_up_to(random, 3).log;
            let mut log = unclosed(random, log);
            for at in 0..log.len() {
                let old = log[at];
                log[at] = if random.once_in(2) { old ^ 1 << random.below(8) } else { random.byte() };
                each(random, &log);
                log[at] = old;
            }
        }
        2..=5 => {
            let log = make::any_bytes(random);
            each(random, &log);
        }
        6..=14 => {
            let log = make::file(random).log;
            let log = unclosed(random, log);
            each(random, &log);
        }
        _ => {
            let made = make::file(random);
            let log = make::damaged(random, &made);
            each(random, &log);
        }
    }
}

/// By chance with a dictionary offset of 0, as in a file that was not closed.
fn unclosed(random: &mut Random, mut log: Vec<u8>) -> Vec<u8> {
    if random.once_in(3) {
        reference::put(&mut log, 10, 8, 0);
    }
    log
}

pub fn open(check: &mut Check, random: &mut Random) {
    each_log(random, |random, log| {
        let need = ROW * reference::opened(log).map_or(random.below(3), |(rows, _)| rows.len());
        let mut outputs = [awkward(random, need), awkward(random, 40)].map(|length| filled(random, length));
        check.call(
            "open",
            [log],
            &mut outputs,
            |[log], [rows, frame]| reference::open(log, rows, frame),
            |[log], [rows, frame]| edge::open(log, rows, frame),
        );
    });
}

pub fn recover(check: &mut Check, random: &mut Random) {
    each_log(random, |random, log| {
        let found =
            if log.len() >= 64 { reference::scan(log, dictionary_offset(log)).rows.len() } else { random.below(3) };
        let mut outputs = [awkward(random, ROW * found), awkward(random, 32)].map(|length| filled(random, length));
        check.call(
            "recover",
            [log],
            &mut outputs,
            |[log], [rows, report]| reference::recover(log, rows, report),
            |[log], [rows, report]| edge::recover(log, rows, report),
        );
    });
}

/// The dictionary offset where it could be one, else 0.
fn dictionary_offset(log: &[u8]) -> u64 {
    let offset = reference::value_at(log, 10, 8);
    if offset >= 64 && offset <= log.len() as u64 {
        offset
    } else {
        0
    }
}

pub fn repair(check: &mut Check, random: &mut Random) {
    each_log(random, |random, log| {
        let length = if random.once_in(4) { 0 } else { 1 + random.below(30) };
        let dictionary = random.bytes(length);
        // With no room at all the answer is the room that is needed, or a refusal that comes before.
        let refused = reference::repair(log, &dictionary, &mut []);
        let need = if refused.number == 12 { refused.place as usize } else { random.below(300) };
        let mut outputs = [awkward(random, need)].map(|length| filled(random, length));
        check.call(
            "repair",
            [log, &dictionary],
            &mut outputs,
            |[log, dictionary], [out]| reference::repair(log, dictionary, out),
            |[log, dictionary], [out]| edge::repair(log, dictionary, out),
        );
    });
}

/// Rows in order, with a fault in the order by chance.
fn rows(random: &mut Random) -> Vec<Row> {
    let count = match random.below(400) {
        0 => BLOCKS,
        1 => BLOCKS + 1 + random.below(3),
        2..=9 => 20 + random.below(100),
        _ => random.below(7),
    };
    let mut rows = Vec::with_capacity(count);
    let mut time = if random.once_in(3) { 0 } else { random.edge() };
    let mut later = |random: &mut Random| {
        let step = if random.once_in(2) { random.below(3) as u64 } else { random.edge() >> random.below(64) };
        time = time.saturating_add(step);
        time
    };
    for _ in 0..count {
        rows.push(Row {
            start: later(random),
            end: later(random),
            offset: random.edge(),
            size: random.number() as u32,
        });
    }
    if count > 0 && random.once_in(4) {
        let at = random.below(count);
        let row = &mut rows[at];
        match random.below(4) {
            0 => row.start = random.edge(),
            1 => row.end = random.edge(),
            2 => row.end = row.start.wrapping_sub(1),
            _ => row.start = row.start.wrapping_sub(1),
        }
    }
    rows
}

pub fn query(check: &mut Check, random: &mut Random) {
    let rows = rows(random);
    let mut bytes = vec![0; ROW * rows.len()];
    for (i, row) in rows.iter().enumerate() {
        row.hold(&mut bytes, i);
    }
    let mut bytes = make::renumbered(random, bytes);
    if random.once_in(12) {
        bytes.truncate(random.below(bytes.len() + 1));
    }
    let time = |random: &mut Random| {
        if rows.is_empty() || random.once_in(4) {
            return random.edge();
        }
        let row = random.pick(&rows);
        random.pick(&[row.start, row.end]).wrapping_add(random.below(3) as u64).wrapping_sub(1)
    };
    let (mut t1, mut t2) = (time(random), time(random));
    if t1 > t2 && !random.once_in(8) {
        (t1, t2) = (t2, t1);
    }
    let refused = reference::query(&bytes, t1, t2, &mut []);
    let need = if refused.number == 12 { refused.place as usize } else { 4 * random.below(3) };
    let mut outputs = [awkward(random, need)].map(|length| filled(random, length));
    check.call(
        &format!("query from {t1} to {t2}"),
        [&bytes],
        &mut outputs,
        |[rows], [numbers]| reference::query(rows, t1, t2, numbers),
        |[rows], [numbers]| edge::query(rows, t1, t2, numbers),
    );
}

/// The rows and the frame of a log, by chance with a number changed or cut.
fn parts_of(random: &mut Random, log: &[u8]) -> (Vec<u8>, Vec<u8>) {
    let count = reference::opened(log).map_or(0, |(rows, _)| rows.len());
    let (mut rows, mut frame) = (vec![0; ROW * count], vec![0; 40]);
    reference::open(log, &mut rows, &mut frame);
    let mut rows = make::renumbered(random, rows);
    if random.once_in(3) {
        for (table, fields) in [(&mut rows, &[(16, 8), (24, 4)]), (&mut frame, &[(0, 8), (8, 8)])] {
            let (at, width) = random.pick(fields);
            let at = if table.len() == 40 { at } else { at + ROW * random.below(count.max(1)) };
            let near = [log.len() as u64, log.len() as u64 - 36, 0, u64::MAX, u64::MAX - 3, u64::MAX - 35, 1 << 32];
            if at < table.len() {
                let value = if random.once_in(2) { random.pick(&near) } else { random.edge() };
                reference::put(table, at, width, value);
            }
        }
    }
    if random.once_in(4) {
        rows.truncate(random.below(rows.len() + 1));
        frame.truncate(random.below(frame.len() + 1));
    }
    (rows, frame)
}

pub fn stored(check: &mut Check, random: &mut Random) {
    let mut log = make::file(random).log;
    let (rows, frame) = parts_of(random, &log);
    if random.once_in(4) {
        log.truncate(random.below(log.len() + 1));
    }
    let count = rows.len() / ROW;
    for _ in 0..3 {
        let i = if random.once_in(5) { random.edge() } else { random.below(count + 2) as u64 };
        check.call(
            &format!("stored {i}"),
            [&log, &rows],
            &mut [],
            |[log, rows], []| reference::stored(log, rows, i),
            |[log, rows], []| edge::stored(log, rows, i),
        );
        check.call(
            &format!("block {i}"),
            [&log, &rows],
            &mut [],
            |[log, rows], []| reference::block_header(log, rows, i),
            |[log, rows], []| edge::block(log, rows, i),
        );
    }
    check.call(
        "dictionary",
        [&log, &frame],
        &mut [],
        |[log, frame], []| reference::dictionary(log, frame),
        |[log, frame], []| edge::dictionary(log, frame),
    );
}
