//! Files of every shape, and damage to them.

use crate::random::Random;
use crate::records::Writer;
use crate::reference::{
    self, put, value_at, Field, Range, Value, BLOCKS, BLOCK_HEADER, CHARACTERS, FOOTER, HEADER, INDEX_HEADER,
    INDEX_ROW, ROW, TAIL,
};

/// A field as it was meant: `text` is of strings and JSON, `bits` of the others.
#[derive(Clone, Debug, PartialEq, Eq)]
pub struct MadeField {
    pub id: u16,
    pub kind: u8,
    pub bits: u64,
    pub text: Vec<u8>,
}

#[derive(Clone, Debug, PartialEq, Eq)]
pub struct MadeEntry {
    pub time: u64,
    pub fields: Vec<MadeField>,
}

#[derive(Clone, Debug)]
pub struct MadeBlock {
    pub start: u64,
    pub end: u64,
    pub entries: Vec<MadeEntry>,
    pub plain: Vec<u8>,
    pub stored: Vec<u8>,
}

#[derive(Clone, Debug)]
pub struct MadeFile {
    pub names: Vec<Vec<u8>>,
    pub blocks: Vec<MadeBlock>,
    pub dictionary: Vec<u8>,
    pub stored: Vec<u8>,
    pub log: Vec<u8>,
}

impl MadeField {
    pub fn meant<'a>(&'a self, names: &'a [Vec<u8>]) -> Field<'a> {
        let value = match self.kind {
            0 => Value::Text(&self.text),
            1 => Value::Whole(self.bits as i64),
            2 => Value::Real(self.bits),
            3 => Value::Truth(self.bits == 1),
            4 => Value::Null,
            _ => Value::Json(&self.text),
        };
        Field { name: &names[self.id as usize], value }
    }
}

impl MadeFile {
    pub fn book(&self) -> Vec<u8> {
        book(self.blocks.iter().map(|block| block.plain.as_slice()), &self.dictionary)
    }

    /// The listing as it was meant, without a look at the plain bytes.
    pub fn text(&self) -> Vec<u8> {
        let entries: Vec<&MadeEntry> = self.blocks.iter().flat_map(|block| &block.entries).collect();
        let lines = entries
            .iter()
            .map(|entry| (entry.time, entry.fields.iter().map(|field| field.meant(&self.names)).collect()));
        reference::text_of(self.blocks.len(), lines)
    }
}

/// Bytes at the ends of the ranges in the table of UTF-8, and beside them.
pub const EDGES: [u8; 26] = [
    0x00, 0x7F, 0x80, 0x8F, 0x90, 0x9F, 0xA0, 0xBF, 0xC0, 0xC1, 0xC2, 0xDF, 0xE0, 0xE1, 0xEC, 0xED, 0xEE, 0xEF, 0xF0,
    0xF1, 0xF3, 0xF4, 0xF5, 0xF7, 0xF8, 0xFF,
];

/// What has a first byte and the tails that go with it, and is no character: a longer form of one, half of a pair of
/// UTF-16, or a number that is too large.
const NEARLY: [&[Range]; 6] = [
    &[(0xC0, 0xC1), TAIL],
    &[(0xE0, 0xE0), (0x80, 0x9F), TAIL],
    &[(0xED, 0xED), (0xA0, 0xBF), TAIL],
    &[(0xF0, 0xF0), (0x80, 0x8F), TAIL, TAIL],
    &[(0xF4, 0xF4), (0x90, 0xBF), TAIL, TAIL],
    &[(0xF5, 0xF7), TAIL, TAIL, TAIL],
];

/// A byte of a range, often one of its ends.
fn byte_of(random: &mut Random, (least, most): Range) -> u8 {
    match random.below(4) {
        0 => least,
        1 => most,
        _ => least + random.below(usize::from(most - least) + 1) as u8,
    }
}

/// A character by a row of the table of UTF-8.
pub fn character(random: &mut Random, row: &[Range]) -> Vec<u8> {
    row.iter().map(|&range| byte_of(random, range)).collect()
}

/// A character by any row.
fn any_character(random: &mut Random) -> Vec<u8> {
    let row = random.pick(&CHARACTERS);
    character(random, row)
}

/// One character: often printable, else one that is escaped, or one by any row.
fn push_character(random: &mut Random, text: &mut Vec<u8>) {
    match random.below(10) {
        0..=5 => text.push(0x20 + random.below(0x5F) as u8),
        6 => text.push(random.pick(&[0x00, 0x0A, 0x1F, 0x20, b'"', b'\\', b'=', 0x7E, 0x7F])),
        _ => text.extend(any_character(random)),
    }
}

/// UTF-8 of up to some 300 bytes: mixed, by all rows alike, or nearly all by one row, as texts in one script are.
pub fn long_text(random: &mut Random) -> Vec<u8> {
    let length = random.below(300);
    let usual = random.pick(&CHARACTERS);
    let kind = random.below(3);
    let mut text = Vec::with_capacity(length + 4);
    while text.len() < length {
        match kind {
            0 => push_character(random, &mut text),
            1 if !random.once_in(20) => text.extend(character(random, usual)),
            _ => text.extend(any_character(random)),
        }
    }
    text
}

/// UTF-8; mostly short, sometimes empty, rarely with a length of two varint bytes.
pub fn text(random: &mut Random) -> Vec<u8> {
    let characters = match random.below(12) {
        0 => 0,
        1 => return long_text(random),
        _ => 1 + random.below(8),
    };
    let mut text = Vec::new();
    for _ in 0..characters {
        push_character(random, &mut text);
    }
    text
}

/// A character with one byte beside its range or at another's edge: UTF-8 only where a row has it all the same.
fn beside_row(random: &mut Random) -> Vec<u8> {
    let row = random.pick(&CHARACTERS);
    let mut bytes = character(random, row);
    let at = random.below(row.len());
    let (least, most) = row[at];
    let edge = random.pick(&EDGES);
    bytes[at] = random.pick(&[least.wrapping_sub(1), most.wrapping_add(1), edge]);
    bytes
}

/// A place between two characters, or at an end of the text.
fn between(random: &mut Random, text: &[u8]) -> usize {
    let begins = |&i: &usize| !(TAIL.0..=TAIL.1).contains(&text[i]);
    let places: Vec<usize> = (0..text.len()).filter(begins).chain([text.len()]).collect();
    random.pick(&places)
}

/// One fault in UTF-8, or what may be one.
pub fn damage_text(random: &mut Random, text: &mut Vec<u8>) {
    let at = random.below(text.len() + 1);
    match random.below(8) {
        0 if at < text.len() => text[at] = random.pick(&EDGES),
        1 if at < text.len() => {
            text.remove(at);
        }
        2 => text.truncate(at),
        3 => text.insert(at, random.pick(&EDGES)),
        kind => {
            let at = between(random, text);
            let row = random.pick(&NEARLY);
            let fault = if kind == 4 { beside_row(random) } else { character(random, row) };
            text.splice(at..at, fault);
        }
    }
}

/// Bytes that may or may not be UTF-8, short or long.
pub fn doubtful_text(random: &mut Random) -> Vec<u8> {
    let mut bytes = if random.once_in(3) { long_text(random) } else { text(random) };
    damage_text(random, &mut bytes);
    bytes
}

/// Names, no two equal.
pub fn names(random: &mut Random, count: usize) -> Vec<Vec<u8>> {
    let mut names: Vec<Vec<u8>> = Vec::with_capacity(count);
    while names.len() < count {
        let mut name = match random.below(5) {
            0 => random
                .pick(&[
                    &b"site"[..],
                    b"wet",
                    b"",
                    b" ",
                    b"=",
                    b"a=b",
                    b"\"",
                    b"\\x20",
                    b"sixteen letters!",
                    b"seventeen letters",
                ])
                .to_vec(),
            _ => text(random),
        };
        while names.contains(&name) {
            push_character(random, &mut name);
        }
        names.push(name);
    }
    names
}

pub fn dictionary(names: &[Vec<u8>]) -> Vec<u8> {
    let mut out = (names.len() as u32).to_le_bytes().to_vec();
    for (id, name) in names.iter().enumerate() {
        out.extend((id as u16).to_le_bytes());
        out.extend((name.len() as u16).to_le_bytes());
        out.extend(name);
    }
    out
}

/// So many names of few bytes: their number in a base of 26, low digit first; the first is empty.
pub fn many_names(count: usize) -> Vec<Vec<u8>> {
    (0..count)
        .map(|mut number| {
            let mut name = Vec::new();
            while number > 0 {
                name.push(b'a' + (number % 26) as u8);
                number /= 26;
            }
            name
        })
        .collect()
}

/// A varint of a length from its shortest to ten.
fn push_varint(random: &mut Random, out: &mut Vec<u8>, value: u64, longer: bool) {
    let shortest = reference::varint_length(value);
    let length = if longer { shortest + random.below(11 - shortest) } else { shortest };
    for i in 0..length {
        let group = if i == 9 { value >> 63 } else { value >> (7 * i) & 0x7F };
        out.push(group as u8 | if i + 1 < length { 0x80 } else { 0 });
    }
}

pub fn field(random: &mut Random, names: usize) -> MadeField {
    let kind = random.below(6) as u8;
    let mut field = MadeField { id: random.below(names) as u16, kind, bits: 0, text: Vec::new() };
    match kind {
        0 | 5 => field.text = text(random),
        1 => field.bits = random.edge(),
        2 => {
            let any = random.number();
            field.bits = random.pick(&[
                0,
                1 << 63,
                0x7FF0 << 48,
                0xFFF0 << 48,
                0x7FF8 << 48,
                0x7FF0_0000_0000_0001,
                0x3FF0 << 48,
                any,
            ]);
        }
        3 => field.bits = random.below(2) as u64,
        _ => {}
    }
    field
}

pub fn fields(random: &mut Random, names: usize) -> Vec<MadeField> {
    let count = match random.below(40) {
        _ if names == 0 => 0,
        0 => 255,
        1..=8 => 0,
        _ => 1 + random.below(4),
    };
    (0..count).map(|_| field(random, names)).collect()
}

fn push_entry(random: &mut Random, plain: &mut Vec<u8>, delta: u64, fields: &[MadeField]) {
    let longer = random.once_in(4);
    push_varint(random, plain, delta, longer);
    plain.push(fields.len() as u8);
    for field in fields {
        plain.extend(field.id.to_le_bytes());
        plain.push(field.kind);
        let value = match field.kind {
            0 | 5 => field.text.clone(),
            1 | 2 => field.bits.to_le_bytes().to_vec(),
            3 => vec![field.bits as u8],
            _ => Vec::new(),
        };
        let longer = random.once_in(8);
        push_varint(random, plain, value.len() as u64, longer);
        plain.extend(value);
    }
}

/// A step in time from `from` that does not pass the last time there is.
fn later(random: &mut Random, from: u64) -> u64 {
    let step = match random.below(8) {
        0..=2 => 0,
        3 => 1,
        4 => random.below(1000) as u64,
        5 => 30_000_000_000 - 1 + random.below(3) as u64,
        6 => random.number() >> 4 >> random.below(50),
        _ => random.below(1 << 20) as u64,
    };
    let step = if random.once_in(60) { u64::MAX } else { step };
    from.saturating_add(step)
}

/// A block whose start is not below the end of the block before.
pub fn block(random: &mut Random, before: u64, names: usize, tiny: bool) -> MadeBlock {
    let start = later(random, before);
    let count = if tiny { 1 } else { 1 + random.below(5) };
    let mut entries: Vec<MadeEntry> = Vec::new();
    let mut plain = Vec::new();
    let mut time = start;
    for i in 0..count {
        if i > 0 {
            time = later(random, time);
        }
        let fields = if tiny { Vec::new() } else { fields(random, names) };
        push_entry(random, &mut plain, time - start, &fields);
        entries.push(MadeEntry { time, fields });
    }
    let length = if tiny { random.below(2) } else { random.below(40) };
    MadeBlock { start, end: time, entries, plain, stored: random.bytes(length) }
}

/// Stored bytes that, with the length in front of them, are a block that could follow so many blocks: so many bytes, at
/// least 32 of them.
fn like_a_block(random: &mut Random, blocks: usize, last: u64) -> Vec<u8> {
    let content = random.bytes(blocks - 32);
    let mut out = vec![0; 32];
    put(&mut out, 0, 8, last);
    put(&mut out, 8, 8, last);
    put(&mut out, 16, 4, 1);
    put(&mut out, 20, 4, content.len() as u64);
    put(&mut out, 24, 4, 2);
    put(&mut out, 28, 4, u64::from(reference::checksum(&content)));
    out.extend(content);
    out
}

pub fn file(random: &mut Random) -> MadeFile {
    let blocks = match random.below(600) {
        0 => BLOCKS,
        1 => BLOCKS - 1,
        2..=60 => 0,
        61..=90 => 6 + random.below(60),
        _ => 1 + random.below(5),
    };
    file_of(random, blocks)
}

/// A file of few blocks.
pub fn file_of_up_to(random: &mut Random, most: usize) -> MadeFile {
    let blocks = random.below(most + 1);
    file_of(random, blocks)
}

pub fn file_of(random: &mut Random, blocks: usize) -> MadeFile {
    let count = random.below(8);
    let names = names(random, count);
    let mut made = Vec::with_capacity(blocks);
    let mut before = if random.once_in(2) { 0 } else { 1_700_000_000_000_000_000 };
    for _ in 0..blocks {
        let block = block(random, before, names.len(), blocks > 100);
        before = block.end;
        made.push(block);
    }
    let last = made.last().map_or(0, |block| block.end);
    let stored = if blocks >= 32 && random.once_in(2) {
        like_a_block(random, blocks, last)
    } else {
        let length = 1 + random.below(20);
        random.bytes(length)
    };
    let dictionary = dictionary(&names);
    let log = log(&made, &dictionary, &stored, names.len() as u32);
    MadeFile { names, blocks: made, dictionary, stored, log }
}

/// The finished file, by the reference's writer.
fn log(blocks: &[MadeBlock], dictionary: &[u8], stored: &[u8], names: u32) -> Vec<u8> {
    let mut rows = vec![0; ROW * blocks.len()];
    let mut log = vec![0; HEADER];
    let mut state = accepted(reference::begin(reference::writer_new(), &mut log));
    for block in blocks {
        let mut out = vec![0; BLOCK_HEADER + block.stored.len()];
        state =
            accepted(reference::add_block(state, &mut rows, &mut out, block.start, &block.plain, &block.stored, names));
        log.extend(out);
    }
    let mut out = vec![0; HEADER + 4 + stored.len() + INDEX_HEADER + INDEX_ROW * blocks.len() + FOOTER];
    accepted(reference::close(state, &rows, &mut out, dictionary, stored));
    log[..HEADER].copy_from_slice(&out[..HEADER]);
    log.extend(&out[HEADER..]);
    log
}

/// Rows in memory, by chance with other numbers, which no call looks at.
pub fn renumbered(random: &mut Random, mut rows: Vec<u8>) -> Vec<u8> {
    if random.once_in(3) {
        for row in rows.chunks_exact_mut(ROW) {
            put(row, INDEX_ROW, 4, random.edge());
        }
    }
    rows
}

/// What is made here is valid, so that a refusal is a fault of these tests.
fn accepted(written: crate::records::Written) -> Writer {
    assert_eq!(written.answer.number, 0, "a made file is refused: {written:?}");
    written.next
}

pub fn book<'a>(plains: impl Iterator<Item = &'a [u8]>, dictionary: &'a [u8]) -> Vec<u8> {
    let mut out = b"PLB\x01\x00".to_vec();
    for part in plains.chain([dictionary]) {
        out.extend((part.len() as u32).to_le_bytes());
        out.extend(part);
    }
    out
}

/// Where the parts of a made file stand.
struct Layout {
    blocks: Vec<usize>,
    dictionary: usize,
    index: usize,
    footer: usize,
}

fn layout(made: &MadeFile) -> Layout {
    let mut at = HEADER;
    let mut blocks = Vec::with_capacity(made.blocks.len());
    for block in &made.blocks {
        blocks.push(at);
        at += BLOCK_HEADER + block.stored.len();
    }
    let index = at + 4 + made.stored.len();
    Layout { blocks, dictionary: at, index, footer: index + INDEX_HEADER + INDEX_ROW * made.blocks.len() }
}

/// A value for a field that holds `old`; its low bytes are written.
fn edge_for(random: &mut Random, old: u64, length: usize, layout: &Layout) -> u64 {
    match random.below(8) {
        0 => old.wrapping_add(1),
        1 => old.wrapping_sub(1),
        2 => old ^ 1 << random.below(64),
        3 => 0,
        4 => u64::MAX,
        5 => [length, layout.dictionary, layout.index, layout.footer][random.below(4)] as u64,
        6 => (length as u64).wrapping_sub(old).wrapping_add(random.below(3) as u64).wrapping_sub(1),
        _ => random.edge(),
    }
}

/// Sets one field of the file, and by chance the one that must agree with it.
fn damage_field(random: &mut Random, log: &mut [u8], layout: &Layout) {
    let header: [(usize, usize); 9] = [(0, 4), (4, 2), (6, 4), (10, 8), (18, 8), (26, 8), (34, 8), (42, 8), (56, 8)];
    let block: [(usize, usize); 7] = [(0, 4), (4, 8), (12, 8), (20, 4), (24, 4), (28, 4), (32, 4)];
    let row: [(usize, usize); 4] = [(0, 8), (8, 8), (16, 8), (24, 4)];
    let some_block = |random: &mut Random| if layout.blocks.is_empty() { 0 } else { random.below(layout.blocks.len()) };
    let which = some_block(random);
    let row_at = layout.index + INDEX_HEADER + INDEX_ROW * which;
    let mut partner = None;
    let (at, width) = match random.below(6) {
        0 => {
            let (at, width) = random.pick(&header);
            if at == 18 {
                partner = Some((layout.index + 8, 8));
            }
            (at, width)
        }
        1 | 2 if !layout.blocks.is_empty() => {
            let (at, width) = random.pick(&block);
            partner = match at {
                4 => Some((row_at, 8)),
                12 => Some((row_at + 8, 8)),
                24 => Some((row_at + 24, 4)),
                _ => None,
            };
            (layout.blocks[which] + at, width)
        }
        3 if !layout.blocks.is_empty() => {
            let (at, width) = random.pick(&row);
            (row_at + at, width)
        }
        4 => random.pick(&[(layout.dictionary, 4), (layout.index, 8), (layout.index + 8, 8)]),
        _ => {
            random.pick(&[(layout.footer, 8), (layout.footer + 8, 8), (layout.footer + 16, 4), (layout.footer + 20, 4)])
        }
    };
    if at + width > log.len() {
        return;
    }
    let old = value_at(log, at, width);
    let value = edge_for(random, old, log.len(), layout);
    put(log, at, width, value);
    if let Some((at, width)) = partner.filter(|&(at, width)| random.once_in(2) && at + width <= log.len()) {
        put(log, at, width, value);
    }
}

/// Changes a stored byte of a block, and by chance its checksum with it.
fn damage_stored(random: &mut Random, log: &mut [u8], made: &MadeFile, layout: &Layout) {
    if layout.blocks.is_empty() {
        return;
    }
    let which = random.below(layout.blocks.len());
    let at = layout.blocks[which];
    let size = made.blocks[which].stored.len();
    if size == 0 || at + BLOCK_HEADER + size > log.len() {
        return;
    }
    log[at + BLOCK_HEADER + random.below(size)] ^= 1 << random.below(8);
    if random.once_in(2) {
        let sum = reference::checksum(&log[at + BLOCK_HEADER..at + BLOCK_HEADER + size]);
        put(log, at + 32, 4, u64::from(sum));
    }
}

/// Puts bytes between the last block and the dictionary, with the offsets that follow from it: any bytes, or one more
/// block.
fn widen(random: &mut Random, log: &mut Vec<u8>, made: &MadeFile, layout: &Layout) {
    if layout.footer + FOOTER > log.len() {
        return;
    }
    let between = if random.once_in(2) {
        let length = 1 + random.below(50);
        random.bytes(length)
    } else {
        let mut block = (made.blocks.len() as u32).to_le_bytes().to_vec();
        block.extend(like_a_block(
            random,
            32 + layout.blocks.len() % 7,
            made.blocks.last().map_or(0, |block| block.end),
        ));
        block
    };
    put(log, 10, 8, (layout.dictionary + between.len()) as u64);
    put(log, layout.footer + 8, 8, (layout.index + between.len()) as u64);
    log.splice(layout.dictionary..layout.dictionary, between);
}

/// A damaged file: one to three changes of any kind.
pub fn damaged(random: &mut Random, made: &MadeFile) -> Vec<u8> {
    let layout = layout(made);
    let mut log = made.log.clone();
    for _ in 0..1 + random.below(5) / 2 {
        match random.below(20) {
            0 => log.truncate(random.below(log.len() + 1)),
            1 => {
                let length = 1 + random.below(60);
                log.extend(random.bytes(length));
            }
            2 if !log.is_empty() => {
                let at = random.below(log.len());
                log[at] = random.byte();
            }
            3 if log.len() >= HEADER => put(&mut log, 10, 8, 0),
            4 if log.len() > HEADER => {
                let from = HEADER + random.below(log.len() - HEADER);
                let to = (from + 1 + random.below(40)).min(log.len());
                log.drain(from..to);
            }
            5 => widen(random, &mut log, made, &layout),
            6..=8 => damage_stored(random, &mut log, made, &layout),
            _ => damage_field(random, &mut log, &layout),
        }
    }
    log
}

/// A valid header and any bytes after it, or any bytes at all.
pub fn any_bytes(random: &mut Random) -> Vec<u8> {
    let length = random.below(200);
    let mut bytes = random.bytes(length);
    if bytes.len() >= HEADER && random.once_in(2) {
        bytes[..HEADER].fill(0);
        bytes[..4].copy_from_slice(b"HPLG");
        put(&mut bytes, 4, 2, 1);
        let d = if random.once_in(2) { 0 } else { random.below(bytes.len() + 2) as u64 };
        put(&mut bytes, 10, 8, d);
        put(&mut bytes, 18, 8, random.edge());
    }
    bytes
}

/// Plain bytes of any kind with a fault by chance: cut, a byte changed, a number put in, bytes added or taken.
pub fn damaged_plain(random: &mut Random, plain: &[u8]) -> Vec<u8> {
    let mut plain = plain.to_vec();
    for _ in 0..1 + random.below(3) / 2 {
        let at = random.below(plain.len() + 1);
        match random.below(8) {
            0 => plain.truncate(at),
            1 | 2 if at < plain.len() => {
                plain[at] = random.pick(&[0, 1, 2, 3, 4, 5, 6, 8, 9, 0x7F, 0x80, 0xBF, 0xC0, 0xFF])
            }
            3 if at < plain.len() => plain[at] = random.byte(),
            4 if at < plain.len() => plain[at] = random.pick(&EDGES),
            5 => {
                let length = 1 + random.below(3);
                plain.splice(at..at, random.bytes(length));
            }
            6 if at < plain.len() => {
                plain.remove(at);
            }
            _ => {
                let value = random.edge();
                let mut varint = Vec::new();
                push_varint(random, &mut varint, value, true);
                plain.splice(at..at, varint);
            }
        }
    }
    plain
}

/// Payloads around the ends of a varint: nine or ten bytes with the high bit, then what the tenth may or may not be.
pub fn long_varint(random: &mut Random) -> Vec<u8> {
    let mut bytes = vec![if random.once_in(2) { 0xFF } else { 0x80 }; 7 + random.below(4)];
    bytes.extend(random.pick(&[&[][..], &[0x00], &[0x01], &[0x02], &[0x7F], &[0x80], &[0x81, 0x00], &[0x01, 0x00]]));
    bytes
}

/// A dictionary with a fault by chance: a name twice, a wrong id, length or count, a cut, bytes left over, a name that
/// is not UTF-8.
pub fn damaged_dictionary(random: &mut Random, names: &[Vec<u8>]) -> Vec<u8> {
    let mut names = names.to_vec();
    if names.len() >= 2 && random.once_in(3) {
        let (from, to) = (random.below(names.len()), random.below(names.len()));
        names[to] = names[from].clone();
    }
    if !names.is_empty() && random.once_in(4) {
        let at = random.below(names.len());
        names[at] = doubtful_text(random);
    }
    let mut out = dictionary(&names);
    match random.below(8) {
        0 => out.truncate(random.below(out.len() + 1)),
        1 => {
            let count = names.len() as u64;
            let value = random.pick(&[count.wrapping_sub(1), count + 1, 65_535, 65_536, u64::MAX]);
            put(&mut out, 0, 4, value);
        }
        2 => {
            let length = 1 + random.below(9);
            out.extend(random.bytes(length));
        }
        3 | 4 if !names.is_empty() => {
            let at = 4 + names[..random.below(names.len())].iter().map(|name| 4 + name.len()).sum::<usize>();
            let value = random.edge();
            put(&mut out, at + 2 * random.below(2), 2, value);
        }
        5 => out = damaged_plain(random, &out),
        _ => {}
    }
    out
}

/// A book with a fault of its own.
pub fn damaged_book(random: &mut Random, made: &MadeFile) -> Vec<u8> {
    let mut book = made.book();
    match random.below(6) {
        0 => book.truncate(random.below(book.len() + 1)),
        1 => {
            let length = 1 + random.below(9);
            book.extend(random.bytes(length));
        }
        2 => {
            let at = random.below(5);
            book[at] ^= 1 << random.below(8);
        }
        _ => {
            let which = random.below(made.blocks.len() + 1);
            let at = 5 + made.blocks[..which].iter().map(|block| 4 + block.plain.len()).sum::<usize>();
            let old = value_at(&book, at, 4);
            let left = (book.len() - at - 4) as u64;
            let value = random.pick(&[old + 1, old.wrapping_sub(1), left, left + 1, 0, u64::from(u32::MAX)]);
            put(&mut book, at, 4, value);
        }
    }
    book
}

#[cfg(test)]
mod tests {
    use super::*;

    #[test]
    fn made_files_open_and_list_as_meant() {
        for case in 0..300 {
            let mut random = Random::new(1, 0, case);
            let made = file(&mut random);
            let (rows, _) = reference::opened(&made.log).expect("a made file opens");
            assert_eq!(rows.len(), made.blocks.len());
            let (answer, text) = reference::listing(&made.log, &made.book());
            assert_eq!(answer.number, 0);
            assert_eq!(text, made.text());
        }
    }

    #[test]
    fn made_texts_are_utf8_of_every_row() {
        let mut random = Random::new(3, 0, 0);
        let (mut long, mut refused) = (Vec::new(), 0);
        for _ in 0..1000 {
            assert!(reference::is_utf8(&text(&mut random)));
            long.extend(long_text(&mut random));
            refused += u32::from(!reference::is_utf8(&doubtful_text(&mut random)));
        }
        assert!(reference::is_utf8(&long));
        let ends = CHARACTERS.iter().flat_map(|row| [row[0].0, row[0].1]);
        assert!(ends.into_iter().all(|byte| long.contains(&byte)));
        assert!((500..900).contains(&refused), "{refused}");
    }

    #[test]
    fn many_names_are_all_different() {
        let names = many_names(65_535);
        assert_eq!(reference::names(&dictionary(&names)).count, 65_535);
    }

    #[test]
    fn stored_dictionary_like_a_block_is_not_taken_for_one() {
        let mut random = Random::new(2, 0, 0);
        let mut made = file_of(&mut random, 40);
        let last = made.blocks.last().expect("blocks").end;
        made.stored = like_a_block(&mut random, 40, last);
        let log = log(&made.blocks, &made.dictionary, &made.stored, made.names.len() as u32);
        let dictionary = value_at(&log, 10, 8);
        assert_eq!(reference::scan(&log, dictionary).rows.len(), 40);
        assert_eq!(reference::scan(&log, 0).rows.len(), 41);
    }
}
