//! Lent memory beside inaccessible pages, and a last word where a call touches them. For Linux on 64 bits.

use std::ffi::c_void;
use std::sync::atomic::{AtomicPtr, AtomicU64, Ordering};

const PROT_NONE: i32 = 0;
const PROT_READ: i32 = 1;
const PROT_WRITE: i32 = 2;
const MAP_PRIVATE: i32 = 0x02;
const MAP_ANONYMOUS: i32 = 0x20;
const MAP_NORESERVE: i32 = 0x4000;
/// At least one page on every machine that Linux runs on, and a multiple of its size.
const GUARD: usize = 65_536;

extern "C" {
    fn mmap(address: *mut c_void, length: usize, protection: i32, flags: i32, file: i32, offset: i64) -> *mut c_void;
    fn mprotect(address: *mut c_void, length: usize, protection: i32) -> i32;
    fn signal(number: i32, handler: usize) -> usize;
    fn write(file: i32, bytes: *const c_void, length: usize) -> isize;
    fn _exit(status: i32) -> !;
}

/// New pages of zeros with `length` accessible bytes, a multiple of GUARD, between two inaccessible parts.
fn pages(length: usize, protection: i32) -> *mut u8 {
    unsafe {
        let all = mmap(
            std::ptr::null_mut(),
            length + 2 * GUARD,
            PROT_NONE,
            MAP_PRIVATE | MAP_ANONYMOUS | MAP_NORESERVE,
            -1,
            0,
        );
        assert!(all as isize != -1, "mmap of {length} bytes");
        let inner = all.add(GUARD);
        assert!(mprotect(inner, length, protection) == 0, "mprotect of {length} bytes");
        inner.cast()
    }
}

/// Which end of a lent buffer touches an inaccessible page.
#[derive(Clone, Copy, Debug, PartialEq, Eq)]
pub enum Side {
    Start,
    End,
}

/// A place for one lent buffer at a time.
pub struct Lent {
    base: *mut u8,
    capacity: usize,
}

impl Lent {
    pub fn new(capacity: usize) -> Lent {
        let capacity = capacity.next_multiple_of(GUARD);
        Lent { base: pages(capacity, PROT_READ | PROT_WRITE), capacity }
    }

    /// A copy of the bytes, at one of the two ends.
    pub fn place(&mut self, bytes: &[u8], side: Side) -> &mut [u8] {
        assert!(bytes.len() <= self.capacity, "{} bytes are too many to lend", bytes.len());
        let offset = if side == Side::Start { 0 } else { self.capacity - bytes.len() };
        // The part lies in this mapping, which lives to the end, and the mutable borrow of self keeps it the only one.
        let lent = unsafe { std::slice::from_raw_parts_mut(self.base.add(offset), bytes.len()) };
        lent.copy_from_slice(bytes);
        lent
    }
}

/// So many zeros, which take no memory while they are only read, with an inaccessible page after them.
pub fn zeros(length: usize) -> &'static [u8] {
    let capacity = length.next_multiple_of(GUARD);
    let base = pages(capacity, PROT_READ);
    unsafe { std::slice::from_raw_parts(base.add(capacity - length), length) }
}

/// What runs now: the bytes of the group's name, the seed and the case.
static GROUP: AtomicPtr<u8> = AtomicPtr::new(std::ptr::null_mut());
static GROUP_LENGTH: AtomicU64 = AtomicU64::new(0);
static SEED: AtomicU64 = AtomicU64::new(0);
static CASE: AtomicU64 = AtomicU64::new(0);

pub fn now_running(group: &'static str, seed: u64, case: u64) {
    GROUP.store(group.as_ptr().cast_mut(), Ordering::SeqCst);
    GROUP_LENGTH.store(group.len() as u64, Ordering::SeqCst);
    SEED.store(seed, Ordering::SeqCst);
    CASE.store(case, Ordering::SeqCst);
}

fn say(bytes: &[u8]) {
    unsafe { write(2, bytes.as_ptr().cast(), bytes.len()) };
}

fn say_number(mut number: u64) {
    let mut digits = [0; 20];
    let mut at = 20;
    loop {
        at -= 1;
        digits[at] = b'0' + (number % 10) as u8;
        number /= 10;
        if number == 0 {
            break;
        }
    }
    say(&digits[at..]);
}

/// Only calls that a signal handler may make: write and _exit.
extern "C" fn stopped(number: i32) {
    say(b"stopped by signal ");
    say_number(number as u64);
    let group = GROUP.load(Ordering::SeqCst);
    if !group.is_null() {
        say(b" in group ");
        say(unsafe { std::slice::from_raw_parts(group, GROUP_LENGTH.load(Ordering::SeqCst) as usize) });
        say(b", seed ");
        say_number(SEED.load(Ordering::SeqCst));
        say(b", case ");
        say_number(CASE.load(Ordering::SeqCst));
    }
    say(b"\n");
    unsafe { _exit(1) }
}

/// Says which case ran where a call touches memory that was not lent, or stops the program in another way.
pub fn report_faults() {
    const SIGILL: i32 = 4;
    const SIGABRT: i32 = 6;
    const SIGBUS: i32 = 7;
    const SIGFPE: i32 = 8;
    const SIGSEGV: i32 = 11;
    let handler: extern "C" fn(i32) = stopped;
    for number in [SIGILL, SIGABRT, SIGBUS, SIGFPE, SIGSEGV] {
        unsafe { signal(number, handler as usize) };
    }
}
