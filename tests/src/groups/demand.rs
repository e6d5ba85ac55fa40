//! What a list of the writer's calls promises: the finished file (demand 2), and every file that a cut leaves (demand
//! 3). What is expected here is known from the calls that were made, not from a scan.

use super::list::{listed, pieces};
use super::writer::{records, Calls, Room};
use crate::check::{filled, Check};
use crate::edge;
use hplog_tests::make::{self, MadeBlock, MadeEntry, MadeField, MadeFile};
use hplog_tests::random::Random;
use hplog_tests::records::{Answer, Cursor, FieldStep};
use hplog_tests::reference::{self, put, Row, BLOCK_HEADER, FOOTER, HEADER, INDEX_HEADER, INDEX_ROW, ROW};

/// A store of the writer: where it goes, and its bytes.
struct Store {
    is_header: bool,
    bytes: Vec<u8>,
}

/// What was written: the file as it was meant, the stores in order, and the number of names given with each block.
struct Run {
    made: MadeFile,
    stores: Vec<Store>,
    given: Vec<u32>,
}

/// The parts of closing's output: header, dictionary, index and footer.
fn closing_stores(out: &[u8], stored: usize, blocks: usize) -> Vec<Store> {
    let mut at = 0;
    let lengths = [HEADER, 4 + stored, INDEX_HEADER + INDEX_ROW * blocks, FOOTER];
    lengths
        .into_iter()
        .enumerate()
        .map(|(i, length)| {
            at += length;
            Store { is_header: i == 0, bytes: out[at - length..at].to_vec() }
        })
        .collect()
}

/// The file that stands after a cut.
fn standing(stores: &[Store], cut: usize) -> Vec<u8> {
    let mut file: Vec<u8> = Vec::new();
    let mut left = cut;
    for (i, store) in stores.iter().enumerate() {
        let whole = left >= store.bytes.len();
        let before = &store.bytes[..left.min(store.bytes.len())];
        left -= before.len();
        if store.is_header && i > 0 {
            if whole {
                file[..HEADER].copy_from_slice(before);
            }
        } else {
            file.extend(before);
        }
        if !whole {
            break;
        }
    }
    file
}

/// How many of the stores came whole before a cut.
fn whole_stores(stores: &[Store], cut: usize) -> usize {
    let mut end = 0;
    stores
        .iter()
        .take_while(|store| {
            end += store.bytes.len();
            end <= cut
        })
        .count()
}

/// A call that must be accepted.
fn accept(check: &Check, call: &str, answer: Answer) {
    check.same(&format!("{call}, which must be accepted"), &[], 0, answer.number);
}

/// A call that must be refused and so stores nothing.
fn refuse(check: &Check, call: &str, answer: Answer) {
    if answer.number == 0 || answer.count != 0 {
        check.fail(call, &[], &"a refusal with count 0", &answer);
    }
}

/// A refused call now and then; nothing that is expected later depends on it.
fn refused_call(check: &mut Check, random: &mut Random, calls: &mut Calls) {
    let state = calls.state;
    match random.below(4) {
        0 => {
            let (answer, _) = calls.begin(check, random, Room::Enough);
            refuse(check, "begin a second time", answer);
        }
        1 => {
            let (answer, _) = calls.add_block(check, random, Room::Enough, state.end, &[1, 0], b"stored", state.names);
            refuse(check, "add_block with a first delta of 1", answer);
        }
        2 if state.plain != 0 => {
            let answer = calls.add_entry(check, random, Room::Enough, state.last.wrapping_sub(1), &[], &[]);
            refuse(check, "add_entry back in time", answer);
        }
        _ => {
            let answer = calls.add_name(check, random, Room::Enough, b"\xFF");
            refuse(check, "add_name that is not UTF-8", answer);
        }
    }
}

/// Adds a block by entries, whose plain bytes the writer makes.
fn add_by_entries(check: &mut Check, random: &mut Random, calls: &mut Calls) -> (u64, Vec<MadeEntry>) {
    let start = calls.state.end.saturating_add(random.below(5000) as u64);
    let mut time = start;
    let mut entries = Vec::new();
    for _ in 0..1 + random.below(4) {
        let mut fields = make::fields(random, calls.state.names as usize);
        fields.truncate(6);
        let (records, text) = records(random, &fields);
        let answer = calls.add_entry(check, random, Room::Enough, time, &records, &text);
        accept(check, "add_entry", answer);
        entries.push(MadeEntry { time, fields });
        let latest = start.saturating_add(30_000_000_000 - 1);
        let step = random.below(1 << 30) as u64;
        time = random.pick(&[time, time.saturating_add(1).min(latest), time.saturating_add(step).min(latest), latest]);
        if random.once_in(10) {
            refused_call(check, random, calls);
        }
    }
    (start, entries)
}

/// Writes a file by the library's calls, each of them also compared with the reference.
fn write(check: &mut Check, random: &mut Random, blocks: usize) -> Run {
    let mut calls = Calls::new(check);
    let (answer, header) = calls.begin(check, random, Room::Enough);
    accept(check, "begin", answer);
    let mut stores = vec![Store { is_header: true, bytes: header }];
    let (mut names, mut made, mut given): (Vec<Vec<u8>>, Vec<MadeBlock>, Vec<u32>) = Default::default();
    for _ in 0..blocks {
        for _ in 0..random.below(3) {
            add_a_name(check, random, &mut calls, &mut names);
        }
        let block = if random.once_in(3) {
            make::block(random, calls.state.end, names.len(), false)
        } else {
            let (start, entries) = add_by_entries(check, random, &mut calls);
            let length = random.below(12);
            MadeBlock {
                start,
                end: entries.last().expect("an entry").time,
                entries,
                plain: calls.payload.clone(),
                stored: random.bytes(length),
            }
        };
        if random.once_in(6) {
            refused_call(check, random, &mut calls);
        }
        let (answer, store) =
            calls.add_block(check, random, Room::Enough, block.start, &block.plain, &block.stored, names.len() as u32);
        accept(check, "add_block", answer);
        stores.push(Store { is_header: false, bytes: store });
        given.push(names.len() as u32);
        made.push(block);
    }
    add_a_name(check, random, &mut calls, &mut names);
    let dictionary = calls.dictionary.clone();
    check.same_bytes("the plain dictionary that add_name built", &[], &make::dictionary(&names), &dictionary);
    let length = 1 + random.below(9);
    let stored = random.bytes(length);
    let (answer, out) = calls.close(check, random, Room::Enough, ROW * blocks, &dictionary, &stored);
    accept(check, "close", answer);
    stores.extend(closing_stores(&out, stored.len(), blocks));
    let total = stores.iter().map(|store| store.bytes.len()).sum();
    let log = standing(&stores, total);
    Run { made: MadeFile { names, blocks: made, dictionary, stored, log }, stores, given }
}

fn add_a_name(check: &mut Check, random: &mut Random, calls: &mut Calls, names: &mut Vec<Vec<u8>>) {
    let name = make::names(random, 1).remove(0);
    let number = names.iter().position(|held| *held == name).unwrap_or(names.len());
    let answer = calls.add_name(check, random, Room::Enough, &name);
    accept(check, "add_name", answer);
    check.same("add_name, the number", &[&name], number as u64, answer.count);
    if number == names.len() {
        names.push(name);
    }
}

/// The rows of the first blocks, from the calls' arguments alone.
fn rows_of(blocks: &[MadeBlock]) -> (Vec<u8>, u64) {
    let mut rows = vec![0; ROW * blocks.len()];
    let mut offset = HEADER as u64;
    for (i, block) in blocks.iter().enumerate() {
        Row { start: block.start, end: block.end, offset, size: block.stored.len() as u32 }.hold(&mut rows, i);
        offset += (BLOCK_HEADER + block.stored.len()) as u64;
    }
    (rows, offset)
}

/// Opens, lists and reads a finished file, and compares with what the calls were given.
pub fn finished(check: &mut Check, random: &mut Random) {
    let blocks = random.below(7);
    let Run { made, .. } = write(check, random, blocks);
    opens(check, random, &made);
    let entries = made.blocks.iter().map(|block| block.entries.len() as u64).sum();
    let book = made.book();
    let start = listed(check, &made.log, &book, Answer { number: 0, place: 0, count: entries }).next;
    pieces(check, random, &made.log, &book, start, &made.text());
    for block in &made.blocks {
        read(check, block, made.names.len() as u32);
    }
    for (i, name) in made.names.iter().enumerate() {
        let answer = edge::name(&made.dictionary, i as u64);
        check.calls += 1;
        let found = made.dictionary.get(answer.place as usize..(answer.place + answer.count) as usize);
        check.same("name", &[&made.dictionary], Some(name.as_slice()), found);
    }
}

fn opens(check: &mut Check, random: &mut Random, made: &MadeFile) {
    let (expected, dictionary) = rows_of(&made.blocks);
    let mut outputs = [filled(random, expected.len()), filled(random, 40)];
    let answer = check.call(
        "open",
        [&made.log],
        &mut outputs,
        |[log], [rows, frame]| reference::open(log, rows, frame),
        |[log], [rows, frame]| edge::open(log, rows, frame),
    );
    let accepted = Answer { number: 0, place: 0, count: made.blocks.len() as u64 };
    check.same("open of a finished file", &[&made.log], accepted, answer);
    check.same_bytes("open, the rows of the calls", &[&made.log], &expected, &outputs[0]);
    let stored = made.stored.len() as u64;
    let first = made.blocks.first().map_or(0, |block| block.start);
    let last = made.blocks.last().map_or(0, |block| block.end);
    let mut frame = [0; 40];
    for (i, value) in [dictionary, stored, dictionary + 4 + stored, first, last].into_iter().enumerate() {
        put(&mut frame, 8 * i, 8, value);
    }
    check.same_bytes("open, the frame of the calls", &[&made.log], &frame, &outputs[1]);
}

/// Reads a block's plain bytes by the three steps and compares with the entries that were added.
fn read(check: &mut Check, block: &MadeBlock, names: u32) {
    let plain = block.plain.as_slice();
    let mut at = Cursor { at: 0 };
    for entry in &block.entries {
        let delta = edge::delta(plain, at);
        check.same("delta", &[plain], (0, entry.time - block.start), (delta.number, delta.value));
        let count = edge::count(plain, delta.next);
        check.same("count", &[plain], (0, entry.fields.len() as u64), (count.number, count.value));
        check.calls += 2;
        at = count.next;
        for field in &entry.fields {
            let step = edge::field(plain, names, at);
            check.calls += 1;
            check.same("field", &[plain], Some(field), read_field(plain, &step).as_ref());
            at = step.next;
        }
    }
    check.same("the end of the plain bytes", &[plain], plain.len() as u64, at.at);
}

fn read_field(plain: &[u8], step: &FieldStep) -> Option<MadeField> {
    let end = step.from.checked_add(step.length)?;
    let text = plain.get(step.from as usize..end as usize)?.to_vec();
    (step.number == 0).then_some(MadeField { id: step.id as u16, kind: step.kind as u8, bits: step.bits, text })
}

/// Recovers and repairs what stands after each cut of a small file, or after some cuts of a larger one.
pub fn cuts(check: &mut Check, random: &mut Random) {
    let larger = random.once_in(4);
    let blocks = if larger { 5 + random.below(60) } else { random.below(4) };
    let run = write(check, random, blocks);
    let total = run.stores.iter().map(|store| store.bytes.len()).sum::<usize>();
    let shorter: Vec<Vec<u8>> = (0..=blocks).map(|count| finished_with(check, random, &run, count)).collect();
    check.same_bytes("the file of all blocks, written twice", &[], &run.made.log, &shorter[blocks]);
    if larger {
        for _ in 0..200 {
            let cut = random.below(total + 1);
            after_cut(check, random, &run, cut, &shorter);
        }
    } else {
        for cut in 0..=total {
            after_cut(check, random, &run, cut, &shorter);
        }
    }
}

/// The file that begin, the addings of the first blocks and a closing with the same dictionary store.
fn finished_with(check: &mut Check, random: &mut Random, run: &Run, count: usize) -> Vec<u8> {
    let mut calls = Calls::new(check);
    let (_, mut file) = calls.begin(check, random, Room::Enough);
    for (block, &names) in run.made.blocks[..count].iter().zip(&run.given) {
        let (answer, store) =
            calls.add_block(check, random, Room::Enough, block.start, &block.plain, &block.stored, names);
        accept(check, "add_block", answer);
        file.extend(store);
    }
    let (answer, out) = calls.close(check, random, Room::Enough, ROW * count, &run.made.dictionary, &run.made.stored);
    accept(check, "close", answer);
    file[..HEADER].copy_from_slice(&out[..HEADER]);
    file.extend(&out[HEADER..]);
    file
}

fn after_cut(check: &mut Check, random: &mut Random, run: &Run, cut: usize, shorter: &[Vec<u8>]) {
    let file = standing(&run.stores, cut);
    let whole = whole_stores(&run.stores, cut);
    let blocks = whole.saturating_sub(1).min(run.made.blocks.len());
    let dictionary_whole = whole >= run.made.blocks.len() + 3;
    let (expected, end) = rows_of(&run.made.blocks[..blocks]);
    let mut outputs = [expected.len() + ROW * random.below(2), 32].map(|length| filled(random, length));
    let lent_rows = outputs[0].clone();
    let answer = check.call(
        &format!("recover after a cut at {cut}"),
        [&file],
        &mut outputs,
        |[log], [rows, report]| reference::recover(log, rows, report),
        |[log], [rows, report]| edge::recover(log, rows, report),
    );
    if cut < HEADER {
        check.same("recover of a cut header", &[&file], Answer { number: 1, place: cut as u64, count: 0 }, answer);
        return;
    }
    check.same(
        "recover, the blocks stored in full",
        &[&file],
        Answer { number: 0, place: 0, count: blocks as u64 },
        answer,
    );
    check.same_bytes("recover, the rows of the calls", &[&file], &expected, &outputs[0][..expected.len()]);
    check.same_bytes(
        "recover, the room after the rows",
        &[&file],
        &lent_rows[expected.len()..],
        &outputs[0][expected.len()..],
    );
    let report: Vec<u64> = (0..4).map(|i| reference::value_at(&outputs[1], 8 * i, 8)).collect();
    check.same("recover, the end of the last whole block", &[&file], end, report[0]);
    check.same(
        "recover, number and place of the stop",
        &[&file],
        stop(run, whole, end, file.len() as u64),
        (report[1], report[2]),
    );
    check.same("recover, whether a whole dictionary stands", &[&file], u64::from(dictionary_whole), report[3]);
    repaired(check, random, &file, &run.made.stored, &shorter[blocks]);
    if dictionary_whole {
        repaired(check, random, &file, &[], &shorter[blocks]);
    } else {
        let refused = repair(check, &file, &[], &mut [filled(random, shorter[blocks].len())]);
        check.same("repair with no dictionary", &[&file], Answer { number: 16, place: end, count: 0 }, refused);
    }
}

/// What stops a scan: the block that the cut left, at its start or, with its header whole, at its size; nothing once
/// the header is there again.
fn stop(run: &Run, whole: usize, end: u64, length: u64) -> (u64, u64) {
    let header_again = whole >= run.made.blocks.len() + 2;
    match length - end {
        _ if header_again => (0, 0),
        0 => (0, 0),
        left if left < BLOCK_HEADER as u64 => (6, end),
        _ => (6, end + 24),
    }
}

/// Repair that must give the finished file back.
fn repaired(check: &mut Check, random: &mut Random, file: &[u8], dictionary: &[u8], expected: &[u8]) {
    let mut outputs = [filled(random, expected.len())];
    let answer = repair(check, file, dictionary, &mut outputs);
    check.same("repair", &[file, dictionary], Answer { number: 0, place: 0, count: expected.len() as u64 }, answer);
    check.same_bytes("repair, the finished file", &[file, dictionary], expected, &outputs[0]);
}

fn repair(check: &mut Check, file: &[u8], dictionary: &[u8], outputs: &mut [Vec<u8>; 1]) -> Answer {
    check.call(
        "repair",
        [file, dictionary],
        outputs,
        |[log, dictionary], [out]| reference::repair(log, dictionary, out),
        |[log, dictionary], [out]| edge::repair(log, dictionary, out),
    )
}
