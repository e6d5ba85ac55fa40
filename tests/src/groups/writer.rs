//! The writer's calls, one by one.

use crate::check::{awkward, filled, Check};
use crate::edge;
use hplog_tests::make::{self, MadeField};
use hplog_tests::random::Random;
use hplog_tests::records::{Answer, Writer};
use hplog_tests::reference::{self, put, BLOCKS, BLOCK_HEADER, FIELD, HEADER, ROW};

/// A writer and what is lent to it again and again. Each call runs on both sides from the same state.
pub struct Calls {
    pub state: Writer,
    pub dictionary: Vec<u8>,
    pub payload: Vec<u8>,
    pub rows: Vec<u8>,
}

/// How long the outputs of a call are.
#[derive(Clone, Copy, PartialEq, Eq)]
pub enum Room {
    Enough,
    Awkward,
}

impl Room {
    fn length(self, random: &mut Random, need: usize) -> usize {
        match self {
            Room::Enough => need + random.below(3),
            Room::Awkward => awkward(random, need),
        }
    }
}

/// An output of a length that starts with what it held before.
fn held_in(random: &mut Random, held: &[u8], length: usize) -> Vec<u8> {
    let mut lent = filled(random, length);
    let kept = held.len().min(length);
    lent[..kept].copy_from_slice(&held[..kept]);
    lent
}

/// The bytes that a call needs, if it comes to that: the reference asks for them where there is no room at all.
fn needed(random: &mut Random, answer: Answer) -> usize {
    if answer.number == 12 {
        answer.place as usize
    } else {
        random.below(100)
    }
}

impl Calls {
    pub fn new(check: &mut Check) -> Calls {
        let state =
            check.call("writer_new", [], &mut [], |[], []| reference::writer_new(), |[], []| edge::writer_new());
        Calls { state, dictionary: Vec::new(), payload: Vec::new(), rows: Vec::new() }
    }

    /// The answer and the call's stores.
    pub fn begin(&mut self, check: &mut Check, random: &mut Random, room: Room) -> (Answer, Vec<u8>) {
        let state = self.state;
        let mut outputs = [room.length(random, HEADER)].map(|length| filled(random, length));
        let written = check.call(
            &format!("begin from {state:?}"),
            [],
            &mut outputs,
            |[], [out]| reference::begin(state, out),
            |[], [out]| edge::begin(state, out),
        );
        self.state = written.next;
        (written.answer, stores(outputs, written.answer))
    }

    pub fn add_name(&mut self, check: &mut Check, random: &mut Random, room: Room, name: &[u8]) -> Answer {
        let state = self.state;
        let need = state.dictionary as usize + 4 + name.len().min(70_000);
        let length = match room {
            // Cut within what is held.
            Room::Awkward if random.once_in(2) => random.below(self.dictionary.len() + 1),
            _ => room.length(random, need),
        };
        let mut outputs = [held_in(random, &self.dictionary, length)];
        let written = check.call(
            &format!("add_name from {state:?}"),
            [name],
            &mut outputs,
            |[name], [dictionary]| reference::add_name(state, dictionary, name),
            |[name], [dictionary]| edge::add_name(state, dictionary, name),
        );
        let [dictionary] = outputs;
        if written.next.names > state.names {
            self.dictionary = dictionary[..written.next.dictionary as usize].to_vec();
        }
        self.state = written.next;
        written.answer
    }

    pub fn add_entry(
        &mut self,
        check: &mut Check,
        random: &mut Random,
        room: Room,
        time: u64,
        fields: &[u8],
        text: &[u8],
    ) -> Answer {
        let state = self.state;
        let need = needed(random, reference::add_entry(state, &mut [], time, fields, text).answer);
        let length = room.length(random, need);
        let mut outputs = [held_in(random, &self.payload, length)];
        let written = check.call(
            &format!("add_entry at {time} from {state:?}"),
            [fields, text],
            &mut outputs,
            |[fields, text], [payload]| reference::add_entry(state, payload, time, fields, text),
            |[fields, text], [payload]| edge::add_entry(state, payload, time, fields, text),
        );
        if written.answer.number == 0 {
            let [payload] = outputs;
            self.payload = payload[..written.next.plain as usize].to_vec();
        }
        self.state = written.next;
        written.answer
    }

    #[allow(clippy::too_many_arguments)]
    pub fn add_block(
        &mut self,
        check: &mut Check,
        random: &mut Random,
        room: Room,
        start: u64,
        plain: &[u8],
        stored: &[u8],
        names: u32,
    ) -> (Answer, Vec<u8>) {
        let state = self.state;
        let rows = room.length(random, ROW * (state.blocks as usize + 1).min(BLOCKS));
        let out = room.length(random, BLOCK_HEADER + stored.len());
        let mut outputs = [held_in(random, &self.rows, rows), filled(random, out)];
        let written = check.call(
            &format!("add_block with start {start} and {names} names from {state:?}"),
            [plain, stored],
            &mut outputs,
            |[plain, stored], [rows, out]| reference::add_block(state, rows, out, start, plain, stored, names),
            |[plain, stored], [rows, out]| edge::add_block(state, rows, out, start, plain, stored, names),
        );
        let [rows, out] = outputs;
        if written.answer.number == 0 {
            self.rows = rows[..ROW * written.next.blocks as usize].to_vec();
            self.payload.clear();
        }
        self.state = written.next;
        (written.answer, stores([out], written.answer))
    }

    /// `rows` is how many bytes of the rows are lent.
    pub fn close(
        &mut self,
        check: &mut Check,
        random: &mut Random,
        room: Room,
        rows: usize,
        plain: &[u8],
        stored: &[u8],
    ) -> (Answer, Vec<u8>) {
        let state = self.state;
        let rows = held_in(random, &self.rows, rows);
        let rows = make::renumbered(random, rows);
        let need = needed(random, reference::close(state, &rows, &mut [], plain, stored).answer);
        let mut outputs = [room.length(random, need)].map(|length| filled(random, length));
        let written = check.call(
            &format!("close from {state:?}"),
            [&rows, plain, stored],
            &mut outputs,
            |[rows, plain, stored], [out]| reference::close(state, rows, out, plain, stored),
            |[rows, plain, stored], [out]| edge::close(state, rows, out, plain, stored),
        );
        self.state = written.next;
        (written.answer, stores(outputs, written.answer))
    }
}

/// The first bytes of the output, as many as the answer counts.
fn stores([mut out]: [Vec<u8>; 1], answer: Answer) -> Vec<u8> {
    out.truncate(answer.count as usize);
    out
}

/// The records of fields as add_entry takes them, and the text that holds their bytes among others.
pub fn records(random: &mut Random, fields: &[MadeField]) -> (Vec<u8>, Vec<u8>) {
    let mut records = Vec::with_capacity(FIELD * fields.len());
    let mut text = Vec::new();
    for field in fields {
        // Whatever has no meaning is filled with any bytes.
        let mut record = random.bytes(FIELD);
        put(&mut record, 0, 2, u64::from(field.id));
        record[2] = field.kind;
        match field.kind {
            0 | 5 => {
                let between = random.below(3);
                text.extend(random.bytes(between));
                put(&mut record, 8, 8, text.len() as u64);
                put(&mut record, 16, 8, field.text.len() as u64);
                text.extend(&field.text);
            }
            4 => {}
            _ => put(&mut record, 8, 8, field.bits),
        }
        records.extend(record);
    }
    (records, text)
}

/// Puts one fault into a record, or into the text.
fn damage_records(random: &mut Random, records: &mut Vec<u8>, text: &mut [u8], names: u32) {
    if records.is_empty() {
        return;
    }
    let at = FIELD * random.below(records.len() / FIELD);
    let place = |random: &mut Random| match random.below(3) {
        0 => text.len() as u64 + random.below(3) as u64,
        1 => u64::MAX - random.below(4) as u64,
        _ => random.edge() & u64::from(u32::MAX),
    };
    match random.below(8) {
        0 => put(records, at, 2, u64::from(names) + random.below(2) as u64),
        1 => records[at + 2] = random.pick(&[6, 7, 128, 255]),
        2 => {
            records[at + 2] = 3;
            let value = random.pick(&[2, 255, 256, 1 << 32, u64::MAX]);
            put(records, at + 8, 8, value);
        }
        3 => {
            records[at + 2] = random.pick(&[0, 5]);
            let from = place(random);
            put(records, at + 8, 8, from);
            put(records, at + 16, 8, random.below(4) as u64);
        }
        4 => {
            records[at + 2] = random.pick(&[0, 5]);
            put(records, at + 8, 8, 0);
            put(records, at + 16, 8, text.len() as u64 + random.below(3) as u64);
        }
        5 => {
            // Texts that are too long for a field, or together for a block; nothing else is wrong then.
            for at in (at..records.len()).step_by(FIELD).take(1 + random.below(3)) {
                records[at + 2] = random.pick(&[0, 5]);
                let near = u64::from(u32::MAX) - 30 + random.below(60) as u64;
                let length = random.pick(&[near, u64::from(u32::MAX), 1 << 32, u64::MAX]);
                put(records, at + 16, 8, length);
            }
        }
        6 if !text.is_empty() => {
            let at = random.below(text.len());
            text[at] = random.pick(&make::EDGES);
        }
        _ => records.truncate(records.len() - 1 - random.below(FIELD - 1)),
    }
}

/// A time for the next entry: mostly one that is accepted, else at the edges of what is.
fn entry_time(random: &mut Random, state: &Writer) -> u64 {
    let open = state.plain != 0;
    let before = if open { state.last } else { state.end };
    match random.below(12) {
        0 => before.wrapping_sub(1),
        1 if open => state.start.saturating_add(30_000_000_000 - 1),
        2 if open => state.start.saturating_add(30_000_000_000),
        3 => random.edge(),
        4 => before,
        // A delta at the ends of a number of bits, so that its varint is of any length.
        5 if open => state.start.saturating_add((1u64 << random.below(35)) - random.below(2) as u64),
        _ => before.saturating_add(random.below(1 << 20) as u64),
    }
}

fn random_entry(check: &mut Check, random: &mut Random, calls: &mut Calls) {
    let names = calls.state.names as usize;
    let mut fields = make::fields(random, names);
    if names > 0 && random.once_in(60) {
        fields = (0..255 + random.below(3)).map(|_| MadeField { id: 0, kind: 4, bits: 0, text: Vec::new() }).collect();
    }
    let (mut records, mut text) = records(random, &fields);
    if random.once_in(3) {
        damage_records(random, &mut records, &mut text, calls.state.names);
    }
    let time = entry_time(random, &calls.state);
    let room = random.pick(&[Room::Enough, Room::Enough, Room::Awkward]);
    calls.add_entry(check, random, room, time, &records, &text);
}

fn random_block(check: &mut Check, random: &mut Random, calls: &mut Calls) {
    let state = calls.state;
    let mut start = state.start;
    let mut plain = calls.payload.clone();
    if state.plain == 0 || random.once_in(4) {
        let tiny = random.once_in(4);
        let made = make::block(random, state.end, state.names as usize, tiny);
        (start, plain) = (made.start, made.plain);
    }
    match random.below(10) {
        0 => plain = make::damaged_plain(random, &plain),
        1 => start = state.end.wrapping_sub(1),
        2 => start = random.edge(),
        3 => plain.clear(),
        _ => {}
    }
    let names = match random.below(12) {
        0 => state.given.wrapping_sub(1),
        1 => random.pick(&[65_535, 65_536, u32::MAX]),
        2 => random.below(8) as u32,
        _ => state.names.max(state.given),
    };
    let length = random.below(30);
    let stored = random.bytes(length);
    let room = random.pick(&[Room::Enough, Room::Enough, Room::Awkward]);
    calls.add_block(check, random, room, start, &plain, &stored, names);
}

/// A name that is held, or the beginning of one; an empty one where none is.
fn known_name(random: &mut Random, dictionary: &[u8]) -> Vec<u8> {
    let places = reference::name_places(dictionary).unwrap_or_default();
    if places.is_empty() {
        return Vec::new();
    }
    let (from, length) = random.pick(&places);
    let kept = if random.once_in(2) { length } else { random.below(length + 1) };
    dictionary[from..from + kept].to_vec()
}

fn random_name(check: &mut Check, random: &mut Random, calls: &mut Calls) {
    let name = match random.below(40) {
        0 => vec![b'n'; 65_534 + random.below(4)],
        1..=8 => make::doubtful_text(random),
        9..=16 => make::names(random, 1).remove(0),
        17..=24 => known_name(random, &calls.dictionary),
        _ => vec![b'a' + random.below(8) as u8; random.below(4)],
    };
    let room = random.pick(&[Room::Enough, Room::Enough, Room::Awkward]);
    calls.add_name(check, random, room, &name);
}

fn random_close(check: &mut Check, random: &mut Random, calls: &mut Calls) {
    let whole = ROW * calls.state.blocks as usize;
    let rows = match random.below(4) {
        0 => awkward(random, whole),
        _ => whole,
    };
    let plain = match random.below(6) {
        0 => {
            let count = random.below(6);
            let names = make::names(random, count);
            make::damaged_dictionary(random, &names)
        }
        1 => {
            let names = make::many_names(calls.state.given as usize + random.below(3));
            make::dictionary(&names[..names.len().saturating_sub(1)])
        }
        _ if calls.dictionary.is_empty() => make::dictionary(&[]),
        _ => calls.dictionary.clone(),
    };
    let length = if random.once_in(5) { 0 } else { 1 + random.below(20) };
    let stored = random.bytes(length);
    let room = random.pick(&[Room::Enough, Room::Awkward]);
    calls.close(check, random, room, rows, &plain, &stored);
}

/// A writer with nearly as many blocks as there may be, as the reference's calls leave it.
fn with_many_blocks(random: &mut Random, calls: &mut Calls) {
    let blocks = BLOCKS - random.below(3);
    let mut rows = vec![0; ROW * blocks];
    let mut state = reference::begin(calls.state, &mut [0; HEADER]).next;
    for _ in 0..blocks {
        let made = make::block(random, state.end.min(1 << 40), 0, true);
        let start = made.start.max(state.end).min(1 << 41);
        state = reference::add_block(state, &mut rows, &mut [0; 80], start, &[0, 0], &made.stored, 0).next;
    }
    assert_eq!(state.blocks as usize, blocks);
    calls.state = state;
    calls.rows = rows;
}

/// A writer with nearly as many names as there may be.
fn with_many_names(random: &mut Random, calls: &mut Calls) {
    let names = make::many_names(65_535 - random.below(3));
    calls.dictionary = make::dictionary(&names);
    let begun = reference::begin(calls.state, &mut [0; HEADER]).next;
    calls.state = Writer { names: names.len() as u32, dictionary: calls.dictionary.len() as u64, ..begun };
}

/// A list of calls of any kind, in turn and out of it, from a new writer or from one that is nearly full.
pub fn writer(check: &mut Check, random: &mut Random) {
    let mut calls = Calls::new(check);
    match random.below(200) {
        0..=2 => with_many_blocks(random, &mut calls),
        3 => with_many_names(random, &mut calls),
        _ => {}
    }
    for i in 0..8 + random.below(30) {
        let begin_first = i == 0 && !random.once_in(10);
        match random.below(50) {
            _ if begin_first => {
                let room = random.pick(&[Room::Enough, Room::Enough, Room::Awkward]);
                calls.begin(check, random, room);
            }
            0..=2 => {
                calls.begin(check, random, Room::Enough);
            }
            3..=14 => random_name(check, random, &mut calls),
            15..=34 => random_entry(check, random, &mut calls),
            35..=45 => random_block(check, random, &mut calls),
            _ => random_close(check, random, &mut calls),
        }
    }
}
