//! The paper's worked cases.

use super::*;
use crate::make::EDGES;
use crate::records::{Cursor, Writer};

const PLAIN: [u8; 26] = [
    0x00, 0x01, 0x01, 0x00, 0x01, 0x08, 0xD6, 0xFF, 0xFF, 0xFF, 0xFF, 0xFF, 0xFF, 0xFF, 0x05, 0x02, 0x00, 0x00, 0x00,
    0x02, 0x42, 0x37, 0x01, 0x00, 0x04, 0x00,
];
const STORED: [u8; 3] = [0xAA, 0xBB, 0xCC];
const DICTIONARY: &[u8] = b"\x02\0\0\0\0\0\x04\0site\x01\0\x03\0wet";

/// The stores of the small file: first header, block, and the four of closing.
fn small_stores() -> (Vec<u8>, Vec<u8>, Vec<u8>) {
    let (mut first, mut block, mut last, mut rows) = (vec![0; 64], vec![0; 39], vec![0; 137], vec![0; ROW]);
    let begun = begin(writer_new(), &mut first);
    let added = add_block(begun.next, &mut rows, &mut block, 1000, &PLAIN, &STORED, 2);
    let closed = close(added.next, &rows, &mut last, DICTIONARY, &[0x5A]);
    assert_eq!((begun.answer.count, added.answer.count, closed.answer.count), (64, 39, 137));
    (first, block, last)
}

fn small_file() -> Vec<u8> {
    let (_, block, last) = small_stores();
    [&last[..64], &block, &last[64..]].concat()
}

/// A field to write.
fn record(id: u64, kind: u64, bits: u64, length: u64) -> [u8; FIELD] {
    let mut field = [0; FIELD];
    put(&mut field, 0, 2, id);
    put(&mut field, 2, 1, kind);
    put(&mut field, 8, 8, bits);
    put(&mut field, 16, 8, length);
    field
}

fn chosen(t1: u64, t2: u64) -> Vec<u64> {
    let mut rows = [0; ROW];
    Row { start: 1000, end: 1005, offset: 64, size: 3 }.hold(&mut rows, 0);
    let mut numbers = [0xEE; 4];
    let answer = query(&rows, t1, t2, &mut numbers);
    assert_eq!(answer.number, 0);
    (0..answer.count as usize).map(|i| value_at(&numbers, 4 * i, 4)).collect()
}

#[test]
fn the_checksum_is_that_of_the_published_vector() {
    assert_eq!(checksum(b"123456789"), 0xCBF4_3926);
    assert_eq!(checksum(b""), 0);
}

#[test]
fn k1_varint_300() {
    let step = delta(&[0xAC, 0x02], Cursor { at: 0 });
    assert_eq!((step.number, step.value, step.next.at), (0, 300, 2));
}

#[test]
fn k2_the_largest_varint() {
    let mut bytes = [0xFF; 10];
    bytes[9] = 1;
    assert_eq!(delta(&bytes, Cursor { at: 0 }).value, u64::MAX);
}

#[test]
fn k3_a_tenth_byte_of_two() {
    let mut bytes = [0xFF; 10];
    bytes[9] = 2;
    let step = delta(&bytes, Cursor { at: 0 });
    assert_eq!((step.number, step.place), (11, 0));
    let cut = delta(&bytes[..9], Cursor { at: 0 });
    assert_eq!((cut.number, cut.place), (11, 9));
}

#[test]
fn the_length_of_a_varint() {
    let values = [0, 1, 127, 128, 16_383, 16_384, (1 << 56) - 1, 1 << 56, u64::MAX >> 1, 1 << 63, u64::MAX];
    assert_eq!(values.map(varint_length), [1, 1, 1, 2, 2, 3, 8, 9, 9, 10, 10]);
}

#[test]
fn a_varint_is_written_in_its_length() {
    let ends = (0..64).flat_map(|bits| [1 << bits, u64::MAX >> bits]);
    for value in ends.chain([0]) {
        let mut written = Vec::new();
        writer::push_varint(&mut written, value);
        assert_eq!(written.len(), varint_length(value), "{value}");
    }
}

#[test]
fn k4_the_field_at_byte_two() {
    let step = field(&PLAIN, 2, Cursor { at: 2 });
    assert_eq!((step.number, step.id, step.kind, step.bits as i64, step.next.at), (0, 1, 1, -42, 14));
}

#[test]
fn k5_ranges_up_to_the_start() {
    assert_eq!(chosen(0, 999), []);
    assert_eq!(chosen(0, 1000), [0]);
}

#[test]
fn k6_ranges_from_the_end() {
    assert_eq!(chosen(1006, 2000), []);
    assert_eq!(chosen(1005, 2000), [0]);
}

#[test]
fn k7_thirty_seconds() {
    assert!(belongs(1000, 30_000_000_999));
    assert!(!belongs(1000, 30_000_001_000));
    let open = Writer { turn: 1, length: 64, start: 1000, last: 1000, plain: 2, ..Writer::default() };
    let mut payload = [0; 20];
    assert_eq!(add_entry(open, &mut payload, 30_000_000_999, &[], &[]).answer.number, 0);
    let refused = add_entry(open, &mut payload, 30_000_001_000, &[], &[]).answer;
    assert_eq!((refused.number, refused.place), (13, 30_000_001_000));
}

#[test]
fn k8_labels() {
    let shown = |name: &[u8]| {
        let mut panel = [0; 16];
        let answer = label(name, &mut panel);
        assert_eq!(answer.number, 0);
        (panel, answer.count)
    };
    assert_eq!(shown(b"abcdefghijklmnop"), (*b"abcdefghijklmnop", 0));
    assert_eq!(shown(b"abcdefghijklmnopq"), (*b"abcdefgh~klmnopq", 1));
    assert_eq!(shown(b"wet"), (*b"wet             ", 0));
}

#[test]
fn labels_of_long_names() {
    let mut panel = [0xAA; 20];
    assert_eq!(label(b"SN-2026-0007-ABCDEFGHIJKLMNOPQ", &mut panel).count, 1);
    assert_eq!(&panel[..16], b"SN-2026-~KLMNOPQ");
    assert_eq!(&panel[16..], [0xAA; 4]);
    assert_eq!(label(b"xxxxxxxxxxxxxxx~", &mut panel).count, 0);
    let refused = |name: &[u8], room: usize| {
        let answer = label(name, &mut [0; 16][..room]);
        (answer.number, answer.place)
    };
    assert_eq!(refused(b"abcdefghi\xC3\xA9lmnopqrstuv", 16), (15, 9));
    assert_eq!(refused(b"abcdefghijklmno\x7F", 16), (15, 15));
    assert_eq!(refused(&[0x1F; 40], 15), (15, 0));
    assert_eq!(refused(&[b'x'; 40], 15), (12, 16));
}

#[test]
fn k9_the_small_file_cut() {
    let (first, block, _) = small_stores();
    let unclosed = [first, block].concat();
    for (length, blocks) in [(102, 0), (103, 1)] {
        let mut rows = [0; ROW];
        let mut report = [0; 32];
        let answer = recover(&unclosed[..length], &mut rows, &mut report);
        assert_eq!((answer.number, answer.count), (0, blocks));
    }
}

#[test]
fn the_small_file() {
    let file = small_file();
    assert_eq!(file.len(), 176);
    let (rows, frame) = opened(&file).expect("the small file opens");
    assert_eq!(rows, [Row { start: 1000, end: 1005, offset: 64, size: 3 }]);
    assert_eq!(frame, Frame { dictionary: 103, stored: 1, index: 108, first: 1000, last: 1005 });
}

#[test]
fn the_small_file_in_parts() {
    let found = |place, count| Answer { number: 0, place, count };
    let file = small_file();
    let (mut rows, mut frame) = ([0xEE; ROW], [0; 40]);
    assert_eq!(open(&file, &mut rows, &mut frame).number, 0);
    let fields: Vec<u64> = [(0, 8), (8, 8), (16, 8), (24, 4), (28, 4)].map(|(at, n)| value_at(&rows, at, n)).into();
    assert_eq!(fields, [1000, 1005, 64, 3, 0]);
    assert_eq!(stored(&file, &rows, 0), found(100, 3));
    assert_eq!(stored(&file, &rows, 1), Answer { number: 14, place: 1, count: 0 });
    assert_eq!(dictionary(&file, &frame), found(107, 1));
    assert_eq!(name_at(DICTIONARY, FIRST_NAME as u64), found(8, 4));
    assert_eq!(name_at(DICTIONARY, 12), found(16, 3));
    assert_eq!(name_at(DICTIONARY, 19), found(19, 0));
    assert_eq!(number(DICTIONARY, b"wet"), found(1, 1));
    assert_eq!(number(DICTIONARY, b"we"), found(0, 0));
    assert_eq!(check_block(&file, 64, &PLAIN, 2), found(0, 2));
    assert_eq!(check_block(&file[..99], 64, &PLAIN, 2), Answer { number: 6, place: 64, count: 0 });
    let plain = [&b"PLB\x01\0\x1A\0\0\0"[..], &PLAIN, b"\x13\0\0\0", DICTIONARY].concat();
    assert_eq!(book(&plain, 1), found(39, 19));
    assert_eq!(book(&plain, 0), Answer { number: 6, place: 35, count: 0 });
    assert_eq!(book_parts(&plain), found(35, 2));
    assert_eq!(book_part(&plain, FIRST as u64), found(9, 26));
    assert_eq!(book_part(&plain, 35), found(39, 19));
}

/// Three blocks without stored bytes: their rows in memory, and the file.
fn three_blocks() -> (Vec<u8>, Vec<u8>) {
    let (mut rows, mut log, mut last) = (vec![0xEE; 3 * ROW], vec![0; 64], vec![0; 64 + 5 + 16 + 3 * 28 + 24]);
    let mut state = begin(writer_new(), &mut log).next;
    for start in 1..=3 {
        let mut block = [0; 36];
        state = add_block(state, &mut rows, &mut block, start, &[0, 0], &[], 0).next;
        log.extend(block);
    }
    let closed = close(state, &rows, &mut last, &[0; 4], &[0]);
    assert_eq!(closed.answer.count, last.len() as u64);
    let mut other = vec![0; last.len()];
    close(state, &renumbered(&rows), &mut other, &[0; 4], &[0]);
    assert_eq!(other, last);
    (rows, [&last[..64], &log[64..], &last[64..]].concat())
}

fn renumbered(rows: &[u8]) -> Vec<u8> {
    let mut other = rows.to_vec();
    for row in other.chunks_mut(ROW) {
        put(row, 28, 4, 7);
    }
    other
}

#[test]
fn a_row_in_memory_has_the_number_of_its_block() {
    let (rows, file) = three_blocks();
    assert_eq!([28, 60, 92].map(|at| value_at(&rows, at, 4)), [0, 1, 2]);
    let (mut opened, mut recovered) = (vec![0xEE; 3 * ROW], vec![0xEE; 3 * ROW]);
    assert_eq!(open(&file, &mut opened, &mut [0; 40]).count, 3);
    assert_eq!(recover(&file, &mut recovered, &mut [0; 32]).count, 3);
    assert_eq!((&opened, &recovered), (&rows, &rows));
    let short = Answer { number: 12, place: 96, count: 0 };
    assert_eq!(open(&file, &mut opened[1..], &mut [0; 40]), short);
    assert_eq!(recover(&file, &mut opened[1..], &mut [0; 32]), short);
}

#[test]
fn no_call_looks_at_the_number_of_a_row() {
    let (rows, file) = three_blocks();
    let other = renumbered(&rows);
    let mut numbers = [0; 8];
    assert_eq!(query(&other, 2, 9, &mut numbers).count, 2);
    assert_eq!([0, 4].map(|at| value_at(&numbers, at, 4)), [1, 2]);
    assert_eq!(query(&other[..84], 2, 9, &mut numbers), Answer { number: 6, place: 84, count: 0 });
    assert_eq!(block_header(&file, &other, 2), block_header(&file, &rows, 2));
    assert_eq!(stored(&file, &other, 2), stored(&file, &rows, 2));
}

#[test]
fn the_small_file_lists_as_three_lines() {
    let mut book = b"PLB\x01\0\x1A\0\0\0".to_vec();
    book.extend(PLAIN);
    book.extend([DICTIONARY.len() as u8, 0, 0, 0]);
    book.extend(DICTIONARY);
    let (answer, text) = listing(&small_file(), &book);
    assert_eq!((answer.number, answer.count), (0, 2));
    assert_eq!(
        String::from_utf8(text).expect("ASCII"),
        "blocks 1 entries 2\n1000 wet=i:-42\n1005 site=s:\"B7\" wet=n\n"
    );
}

#[test]
fn repair_of_a_cut_small_file_gives_it_back() {
    let (first, block, _) = small_stores();
    let mut out = [0; 176];
    let answer = repair(&[first, block].concat(), &[0x5A], &mut out);
    assert_eq!((answer.number, answer.count), (0, 176));
    assert_eq!(out.as_slice(), small_file());
}

#[test]
fn packed_entries_are_the_small_files_plain_bytes() {
    let mut state = begin(writer_new(), &mut [0; 64]).next;
    let mut dictionary = [0; 19];
    for (name, number) in [(&b"site"[..], 0), (b"wet", 1), (b"site", 0)] {
        let added = add_name(state, &mut dictionary, name);
        assert_eq!((added.answer.number, added.answer.count), (0, number));
        state = added.next;
    }
    assert_eq!(dictionary, DICTIONARY);
    let mut payload = [0; 26];
    state = add_entry(state, &mut payload, 1000, &record(1, 1, -42i64 as u64, 0), b"").next;
    let both = [record(0, 0, 1, 2), record(1, 4, 0, 0)].concat();
    state = add_entry(state, &mut payload, 1005, &both, b"xB7").next;
    assert_eq!((state.plain, payload), (26, PLAIN));
}

/// Characters at the edges of the table of UTF-8.
const ACCEPTED: [&[u8]; 8] = [
    b"\xC2\x80",
    b"\xE0\xA0\x80",
    b"\xED\x9F\xBF",
    b"\xEE\x80\x80",
    b"\xEF\xBF\xBF",
    b"\xF0\x90\x80\x80",
    b"\xF4\x8F\xBF\xBF",
    b"\0",
];

/// What stands just beside it, though the number of bytes is right.
const REFUSED: [&[u8]; 8] = [
    b"\xC0\x80",
    b"\xC1\xBF",
    b"\xE0\x9F\xBF",
    b"\xED\xA0\x80",
    b"\xF0\x8F\xBF\xBF",
    b"\xF4\x90\x80\x80",
    b"\xF5\x80\x80\x80",
    b"\xF7\xBF\xBF\xBF",
];

/// The numbers and places of the calls that judge a text, in turn: `names` of a dictionary with the names "a" and this,
/// `add_name`, and `field` and `add_entry` with a string and with JSON.
fn judged(text: &[u8]) -> [(u64, u64); 6] {
    let size = text.len() as u8;
    let dictionary = [&b"\x02\0\0\0\0\0\x01\0a\x01\0"[..], &[size, 0], text].concat();
    let checked = names(&dictionary);
    let begun = begin(writer_new(), &mut [0; 64]).next;
    let added = add_name(begun, &mut [0; 16], text).answer;
    let read = |kind: u8| {
        let step = field(&[&[0, 1, 0, 0, kind, size], text].concat(), 1, Cursor { at: 2 });
        (step.number, step.place)
    };
    let named = add_name(begun, &mut [0; 9], b"n").next;
    let packed = |kind: u64| {
        let fields = [record(0, 1, 1, 0), record(0, kind, 0, u64::from(size))].concat();
        let answer = add_entry(named, &mut [0; 32], 0, &fields, text).answer;
        (answer.number, answer.place)
    };
    [(checked.number, checked.place), (added.number, added.place), read(0), read(5), packed(0), packed(5)]
}

#[test]
fn utf8_by_the_examples() {
    for text in ACCEPTED {
        assert!(is_utf8(text), "{text:X?}");
        assert_eq!(judged(text), [(0, 0); 6], "{text:X?}");
    }
    for text in REFUSED {
        assert!(!is_utf8(text), "{text:X?}");
        assert_eq!(judged(text), [(10, 13), (10, 0), (11, 2), (11, 2), (11, 14), (11, 14)], "{text:X?}");
    }
}

/// Compares `is_utf8` with Rust's own judge on every text of so many bytes of those given.
fn agrees_with_rust(bytes: &[u8], length: u32) {
    let mut text = vec![0; length as usize];
    for number in 0..bytes.len().pow(length) {
        let mut left = number;
        for byte in &mut text {
            *byte = bytes[left % bytes.len()];
            left /= bytes.len();
        }
        assert_eq!(is_utf8(&text), std::str::from_utf8(&text).is_ok(), "{text:X?}");
    }
}

#[test]
fn utf8_by_rust_on_every_short_text() {
    let bytes: Vec<u8> = (0..=0xFF).collect();
    for length in 0..=3 {
        agrees_with_rust(&bytes, length);
    }
}

#[test]
fn utf8_by_rust_at_the_edges() {
    for length in 4..=5 {
        agrees_with_rust(&EDGES, length);
    }
}
