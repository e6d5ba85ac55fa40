//! The calls of hplog.h, each behind a function that takes slices. A slice's pointer is never null.

use hplog_tests::records::{Answer, BlockAnswer, Cursor, FieldStep, Step, Writer, Written};

/// Where a listing stands; its fields have no meaning here.
#[repr(C)]
#[derive(Clone, Copy, Debug, Default, PartialEq, Eq)]
pub struct Listing {
    pub places: [u64; 9],
    pub counts: [u32; 3],
    pub kinds: [u8; 2],
}

#[repr(C)]
#[derive(Clone, Copy, Debug, PartialEq, Eq)]
pub struct Listed {
    pub answer: Answer,
    pub next: Listing,
}

/// An output of so many bytes has room for some of any listing that is left.
pub const PIECE: usize = 50;

mod foreign {
    use super::{Answer, BlockAnswer, Cursor, FieldStep, Listed, Listing, Step, Writer, Written};

    #[link(name = "hplog", kind = "static")]
    extern "C" {
        pub fn hplog_open(
            log: *const u8,
            log_len: usize,
            rows: *mut u8,
            rows_len: usize,
            frame: *mut u8,
            frame_len: usize,
        ) -> Answer;
        pub fn hplog_query(
            rows: *const u8,
            rows_len: usize,
            t1: u64,
            t2: u64,
            numbers: *mut u8,
            numbers_len: usize,
        ) -> Answer;
        pub fn hplog_recover(
            log: *const u8,
            log_len: usize,
            rows: *mut u8,
            rows_len: usize,
            report: *mut u8,
            report_len: usize,
        ) -> Answer;
        pub fn hplog_repair(
            log: *const u8,
            log_len: usize,
            dictionary: *const u8,
            dictionary_len: usize,
            out: *mut u8,
            out_len: usize,
        ) -> Answer;
        pub fn hplog_label(name: *const u8, name_len: usize, panel: *mut u8, panel_len: usize) -> Answer;
        pub fn hplog_block(log: *const u8, log_len: usize, rows: *const u8, rows_len: usize, i: u64) -> BlockAnswer;
        pub fn hplog_stored(log: *const u8, log_len: usize, rows: *const u8, rows_len: usize, i: u64) -> Answer;
        pub fn hplog_dictionary(log: *const u8, log_len: usize, frame: *const u8, frame_len: usize) -> Answer;
        pub fn hplog_names(dictionary: *const u8, dictionary_len: usize) -> Answer;
        pub fn hplog_name(dictionary: *const u8, dictionary_len: usize, i: u64) -> Answer;
        pub fn hplog_name_at(dictionary: *const u8, dictionary_len: usize, at: u64) -> Answer;
        pub fn hplog_number(dictionary: *const u8, dictionary_len: usize, name: *const u8, name_len: usize) -> Answer;
        pub fn hplog_delta(payload: *const u8, payload_len: usize, at: Cursor) -> Step;
        pub fn hplog_count(payload: *const u8, payload_len: usize, at: Cursor) -> Step;
        pub fn hplog_field(payload: *const u8, payload_len: usize, names: u32, at: Cursor) -> FieldStep;
        pub fn hplog_check_block(
            log: *const u8,
            log_len: usize,
            at: u64,
            plain: *const u8,
            plain_len: usize,
            names: u32,
        ) -> Answer;
        pub fn hplog_book(book: *const u8, book_len: usize, blocks: u32) -> Answer;
        pub fn hplog_book_parts(book: *const u8, book_len: usize) -> Answer;
        pub fn hplog_book_part(book: *const u8, book_len: usize, at: u64) -> Answer;
        pub fn hplog_list(log: *const u8, log_len: usize, book: *const u8, book_len: usize) -> Listed;
        pub fn hplog_list_range(
            log: *const u8,
            log_len: usize,
            book: *const u8,
            book_len: usize,
            t1: u64,
            t2: u64,
        ) -> Listed;
        pub fn hplog_list_next(
            log: *const u8,
            log_len: usize,
            book: *const u8,
            book_len: usize,
            at: Listing,
            out: *mut u8,
            out_len: usize,
        ) -> Listed;
        pub fn hplog_writer_new() -> Writer;
        pub fn hplog_begin(state: Writer, out: *mut u8, out_len: usize) -> Written;
        pub fn hplog_add_name(
            state: Writer,
            dictionary: *mut u8,
            dictionary_len: usize,
            name: *const u8,
            name_len: usize,
        ) -> Written;
        pub fn hplog_add_entry(
            state: Writer,
            payload: *mut u8,
            payload_len: usize,
            time: u64,
            fields: *const u8,
            fields_len: usize,
            text: *const u8,
            text_len: usize,
        ) -> Written;
        pub fn hplog_add_block(
            state: Writer,
            rows: *mut u8,
            rows_len: usize,
            out: *mut u8,
            out_len: usize,
            start: u64,
            plain: *const u8,
            plain_len: usize,
            stored: *const u8,
            stored_len: usize,
            names: u32,
        ) -> Written;
        pub fn hplog_close(
            state: Writer,
            rows: *const u8,
            rows_len: usize,
            out: *mut u8,
            out_len: usize,
            plain: *const u8,
            plain_len: usize,
            stored: *const u8,
            stored_len: usize,
        ) -> Written;
    }
}

// Each call is lent whole slices that live while it runs, and outputs that overlap nothing, as hplog.h asks.

pub fn open(log: &[u8], rows: &mut [u8], frame: &mut [u8]) -> Answer {
    unsafe {
        foreign::hplog_open(log.as_ptr(), log.len(), rows.as_mut_ptr(), rows.len(), frame.as_mut_ptr(), frame.len())
    }
}

pub fn query(rows: &[u8], t1: u64, t2: u64, numbers: &mut [u8]) -> Answer {
    unsafe { foreign::hplog_query(rows.as_ptr(), rows.len(), t1, t2, numbers.as_mut_ptr(), numbers.len()) }
}

pub fn recover(log: &[u8], rows: &mut [u8], report: &mut [u8]) -> Answer {
    unsafe {
        foreign::hplog_recover(
            log.as_ptr(),
            log.len(),
            rows.as_mut_ptr(),
            rows.len(),
            report.as_mut_ptr(),
            report.len(),
        )
    }
}

pub fn repair(log: &[u8], dictionary: &[u8], out: &mut [u8]) -> Answer {
    unsafe {
        foreign::hplog_repair(
            log.as_ptr(),
            log.len(),
            dictionary.as_ptr(),
            dictionary.len(),
            out.as_mut_ptr(),
            out.len(),
        )
    }
}

pub fn label(name: &[u8], panel: &mut [u8]) -> Answer {
    unsafe { foreign::hplog_label(name.as_ptr(), name.len(), panel.as_mut_ptr(), panel.len()) }
}

pub fn block(log: &[u8], rows: &[u8], i: u64) -> BlockAnswer {
    unsafe { foreign::hplog_block(log.as_ptr(), log.len(), rows.as_ptr(), rows.len(), i) }
}

pub fn stored(log: &[u8], rows: &[u8], i: u64) -> Answer {
    unsafe { foreign::hplog_stored(log.as_ptr(), log.len(), rows.as_ptr(), rows.len(), i) }
}

pub fn dictionary(log: &[u8], frame: &[u8]) -> Answer {
    unsafe { foreign::hplog_dictionary(log.as_ptr(), log.len(), frame.as_ptr(), frame.len()) }
}

pub fn names(dictionary: &[u8]) -> Answer {
    unsafe { foreign::hplog_names(dictionary.as_ptr(), dictionary.len()) }
}

pub fn name(dictionary: &[u8], i: u64) -> Answer {
    unsafe { foreign::hplog_name(dictionary.as_ptr(), dictionary.len(), i) }
}

pub fn name_at(dictionary: &[u8], at: u64) -> Answer {
    unsafe { foreign::hplog_name_at(dictionary.as_ptr(), dictionary.len(), at) }
}

pub fn number(dictionary: &[u8], name: &[u8]) -> Answer {
    unsafe { foreign::hplog_number(dictionary.as_ptr(), dictionary.len(), name.as_ptr(), name.len()) }
}

pub fn delta(payload: &[u8], at: Cursor) -> Step {
    unsafe { foreign::hplog_delta(payload.as_ptr(), payload.len(), at) }
}

pub fn count(payload: &[u8], at: Cursor) -> Step {
    unsafe { foreign::hplog_count(payload.as_ptr(), payload.len(), at) }
}

pub fn field(payload: &[u8], names: u32, at: Cursor) -> FieldStep {
    unsafe { foreign::hplog_field(payload.as_ptr(), payload.len(), names, at) }
}

pub fn check_block(log: &[u8], at: u64, plain: &[u8], names: u32) -> Answer {
    unsafe { foreign::hplog_check_block(log.as_ptr(), log.len(), at, plain.as_ptr(), plain.len(), names) }
}

pub fn book(book: &[u8], blocks: u32) -> Answer {
    unsafe { foreign::hplog_book(book.as_ptr(), book.len(), blocks) }
}

pub fn book_parts(book: &[u8]) -> Answer {
    unsafe { foreign::hplog_book_parts(book.as_ptr(), book.len()) }
}

pub fn book_part(book: &[u8], at: u64) -> Answer {
    unsafe { foreign::hplog_book_part(book.as_ptr(), book.len(), at) }
}

pub fn list(log: &[u8], book: &[u8]) -> Listed {
    unsafe { foreign::hplog_list(log.as_ptr(), log.len(), book.as_ptr(), book.len()) }
}

pub fn list_range(log: &[u8], book: &[u8], t1: u64, t2: u64) -> Listed {
    unsafe { foreign::hplog_list_range(log.as_ptr(), log.len(), book.as_ptr(), book.len(), t1, t2) }
}

pub fn list_next(log: &[u8], book: &[u8], at: Listing, out: &mut [u8]) -> Listed {
    unsafe {
        foreign::hplog_list_next(log.as_ptr(), log.len(), book.as_ptr(), book.len(), at, out.as_mut_ptr(), out.len())
    }
}

pub fn writer_new() -> Writer {
    unsafe { foreign::hplog_writer_new() }
}

pub fn begin(state: Writer, out: &mut [u8]) -> Written {
    unsafe { foreign::hplog_begin(state, out.as_mut_ptr(), out.len()) }
}

pub fn add_name(state: Writer, dictionary: &mut [u8], name: &[u8]) -> Written {
    unsafe { foreign::hplog_add_name(state, dictionary.as_mut_ptr(), dictionary.len(), name.as_ptr(), name.len()) }
}

pub fn add_entry(state: Writer, payload: &mut [u8], time: u64, fields: &[u8], text: &[u8]) -> Written {
    unsafe {
        foreign::hplog_add_entry(
            state,
            payload.as_mut_ptr(),
            payload.len(),
            time,
            fields.as_ptr(),
            fields.len(),
            text.as_ptr(),
            text.len(),
        )
    }
}

pub fn add_block(
    state: Writer,
    rows: &mut [u8],
    out: &mut [u8],
    start: u64,
    plain: &[u8],
    stored: &[u8],
    names: u32,
) -> Written {
    unsafe {
        foreign::hplog_add_block(
            state,
            rows.as_mut_ptr(),
            rows.len(),
            out.as_mut_ptr(),
            out.len(),
            start,
            plain.as_ptr(),
            plain.len(),
            stored.as_ptr(),
            stored.len(),
            names,
        )
    }
}

pub fn close(state: Writer, rows: &[u8], out: &mut [u8], plain: &[u8], stored: &[u8]) -> Written {
    unsafe {
        foreign::hplog_close(
            state,
            rows.as_ptr(),
            rows.len(),
            out.as_mut_ptr(),
            out.len(),
            plain.as_ptr(),
            plain.len(),
            stored.as_ptr(),
            stored.len(),
        )
    }
}
