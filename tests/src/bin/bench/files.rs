//! Calls on whole files.

use crate::edge;
use crate::measure::{shortest, Line};
use crate::peers;
use crate::writing::record;
use hplog_tests::make;
use hplog_tests::random::Random;
use hplog_tests::records::Writer;
use hplog_tests::reference::{self, Row, BLOCKS, INDEX_ROW, ROW};
use std::hint::black_box;

const KIB: usize = 1 << 10;
const MIB: usize = 1 << 20;

/// A file of so many bytes in so many blocks of one entry each, closed or cut before its closing.
fn log(size: usize, blocks: usize, closed: bool) -> Vec<u8> {
    let stored = Random::new(1, 0, 0).bytes(size / blocks - 36);
    let mut log = vec![0; 64];
    let mut rows = vec![0; ROW * BLOCKS];
    let mut state = reference::begin(reference::writer_new(), &mut log).next;
    for number in 0..blocks {
        let at = log.len();
        log.resize(at + 36 + stored.len(), 0);
        let written = reference::add_block(state, &mut rows, &mut log[at..], 1000 * number as u64, &[0, 0], &stored, 0);
        assert_eq!(written.answer.number, 0);
        state = written.next;
    }
    if closed {
        let mut out = vec![0; 64 + 5 + 16 + INDEX_ROW * blocks + 24];
        let answer = reference::close(state, &rows, &mut out, &[0; 4], &[0]).answer;
        assert_eq!(answer.number, 0);
        log[..64].copy_from_slice(&out[..64]);
        log.extend_from_slice(&out[64..answer.count as usize]);
    }
    log
}

fn shape(size: usize, blocks: usize) -> String {
    let size = match size {
        s if s < MIB => format!("{} KiB", s / KIB),
        s if s < 1024 * MIB => format!("{} MiB", s / MIB),
        s => format!("{} GiB", s / MIB / 1024),
    };
    format!("{size}, {blocks} block{}", if blocks == 1 { "" } else { "s" })
}

/// The checksum of a file by each peer that has one, and its copy.
fn peer_times(file: &[u8]) -> Vec<(&'static str, f64)> {
    let mut copy = vec![0; file.len()];
    let mut times: Vec<_> = peers::checksums()
        .into_iter()
        .map(|(peer, checksum)| {
            let time = shortest(|| {
                black_box(checksum(black_box(file)));
            });
            (peer, time)
        })
        .collect();
    times.push(("memcpy", shortest(|| black_box(&mut copy).copy_from_slice(black_box(file)))));
    times
}

/// Files by their size and how many blocks they have: long blocks, and blocks of 64, 4 and 1 KiB.
const FILES: [(usize, usize); 9] = [
    (64 * KIB, 1),
    (64 * KIB, 16),
    (64 * KIB, 64),
    (16 * MIB, 1),
    (16 * MIB, 256),
    (16 * MIB, 4096),
    (4 * MIB, 4096),
    (1024 * MIB, 1),
    (1024 * MIB, 4096),
];

pub fn open_recover_repair(lines: &mut Vec<Line>) {
    let (mut rows, mut record) = (vec![0; ROW * BLOCKS], [0; 40]);
    for (size, blocks) in FILES {
        let closed = log(size, blocks, true);
        assert_eq!(edge::open(&closed, &mut rows, &mut record).number, 0);
        let open = shortest(|| {
            black_box(edge::open(black_box(&closed), &mut rows, &mut record));
        });
        let cut = log(size, blocks, false);
        assert_eq!(edge::recover(&cut, &mut rows, &mut record[..32]).count, blocks as u64);
        let recover = shortest(|| {
            black_box(edge::recover(black_box(&cut), &mut rows, &mut record[..32]));
        });
        let mut out = vec![0; closed.len()];
        assert_eq!(edge::repair(&cut, &[0], &mut out).number, 0);
        assert_eq!(out, closed);
        let repair = shortest(|| {
            black_box(edge::repair(black_box(&cut), &[0], &mut out));
        });
        let times = peer_times(&cut);
        for (call, ours) in [("open", open), ("recover", recover), ("repair", repair)] {
            lines.extend(times.iter().map(|&(peer, theirs)| Line {
                call,
                shape: shape(size, blocks),
                peer,
                ours,
                theirs,
            }));
        }
    }
}

pub fn query(lines: &mut Vec<Line>) {
    for count in [1usize, 64, 4096] {
        let mut rows = vec![0; ROW * count];
        for i in 0..count {
            let at = i as u64;
            Row { start: 1000 * at, end: 1000 * at + 900, offset: 64 + 36 * at, size: 3 }.hold(&mut rows, i);
        }
        let (t1, t2) = (250 * count as u64, 750 * count as u64);
        let mut numbers = vec![0; 4 * count];
        let found = peers::query(&rows, t1, t2, &mut numbers);
        assert_eq!(edge::query(&rows, t1, t2, &mut numbers).count, found);
        let ours = shortest(|| {
            black_box(edge::query(black_box(&rows), t1, t2, &mut numbers));
        });
        let theirs = shortest(|| {
            black_box(peers::query(black_box(&rows), t1, t2, &mut numbers));
        });
        lines.push(Line { call: "query", shape: format!("{count} rows"), peer: "plain C loop", ours, theirs });
    }
}

/// The text from a state on, through an output that is used again.
fn rest(log: &[u8], book: &[u8], begin: edge::Listing, out: &mut [u8]) -> usize {
    let mut at = begin;
    let mut length = 0;
    loop {
        let piece = edge::list_next(log, book, at, out);
        if piece.answer.count == 0 {
            return length;
        }
        length += piece.answer.count as usize;
        at = piece.next;
    }
}

/// The whole text.
fn list(log: &[u8], book: &[u8], out: &mut [u8]) -> usize {
    rest(log, book, edge::list(log, book).next, out)
}

pub fn listing(lines: &mut Vec<Line>) {
    let mut out = vec![0; 64 * KIB];
    for blocks in [1, 64, 1024] {
        let made = make::file_of(&mut Random::new(1, 0, 0), blocks);
        let book = made.book();
        assert_eq!(list(&made.log, &book, &mut out), reference::listing(&made.log, &book).1.len());
        let ours = shortest(|| {
            black_box(list(black_box(&made.log), black_box(&book), &mut out));
        });
        let theirs = shortest(|| {
            black_box(reference::listing(black_box(&made.log), black_box(&book)));
        });
        let size = made.log.len() + book.len();
        lines.push(Line {
            call: "listing",
            shape: format!("{} KiB, {blocks} blocks", size / KIB),
            peer: "Rust",
            ours,
            theirs,
        });
    }
}

/// A log of one block with so many fields, four in an entry, and its book: numbers, under names of six bytes by chance.
fn numbers(fields: usize, names: usize) -> (Vec<u8>, Vec<u8>) {
    let mut random = Random::new(1, 0, 0);
    let spelt: Vec<Vec<u8>> = (0..names).map(|i| format!("n{i:05}").into_bytes()).collect();
    let dictionary = make::dictionary(&spelt);
    let mut log = vec![0; 64];
    let mut state = Writer { names: names as u32, ..reference::begin(reference::writer_new(), &mut log).next };
    state.dictionary = dictionary.len() as u64;
    let mut plain = vec![0; 16 * fields];
    for _ in 0..fields / 4 {
        let records: Vec<u8> =
            (0..4).flat_map(|_| record(random.below(names) as u16, 1, random.below(1000) as u64, 0)).collect();
        state = reference::add_entry(state, &mut plain, 1000, &records, &[]).next;
    }
    plain.truncate(state.plain as usize);
    let (mut rows, mut out) = ([0; ROW], vec![0; 36 + 1]);
    state = reference::add_block(state, &mut rows, &mut out, 1000, &plain, &[0], names as u32).next;
    log.extend(&out);
    let mut tail = vec![0; 64 + 5 + 16 + INDEX_ROW + 24];
    assert_eq!(reference::close(state, &rows, &mut tail, &dictionary, &[0]).answer.number, 0);
    log[..64].copy_from_slice(&tail[..64]);
    log.extend(&tail[64..]);
    (log, make::book([plain.as_slice()].into_iter(), &dictionary))
}

/// What a field costs by the number of names, beside its cost with ten.
pub fn naming(lines: &mut Vec<Line>) {
    const FIELDS: usize = 100_000;
    let mut out = vec![0; MIB];
    let mut ten = 0.0;
    for names in [10, 100, 1000, 10_000, 65_535] {
        let (log, book) = numbers(FIELDS, names);
        let begun = edge::list(&log, &book);
        assert_eq!(begun.answer.number, 0);
        assert_eq!(rest(&log, &book, begun.next, &mut out), reference::listing(&log, &book).1.len());
        let ours = shortest(|| {
            black_box(rest(black_box(&log), black_box(&book), begun.next, &mut out));
        });
        if names == 10 {
            ten = ours;
        }
        lines.push(Line {
            call: "list_next",
            shape: format!("{FIELDS} fields, {names} names"),
            peer: "itself, 10 names",
            ours,
            theirs: ten,
        });
    }
}
