//! The peers that aren't Rust.

use hplog_tests::reference::ROW;
use std::ffi::{c_uint, c_ulong};

#[link(name = "z")]
extern "C" {
    fn crc32(crc: c_ulong, bytes: *const u8, length: c_uint) -> c_ulong;
}

#[cfg(has_libdeflate)]
#[link(name = "deflate")]
extern "C" {
    fn libdeflate_crc32(crc: u32, bytes: *const u8, length: usize) -> u32;
}

#[cfg(has_isal)]
#[link(name = "isal")]
extern "C" {
    fn crc32_gzip_refl(crc: u32, bytes: *const u8, length: u64) -> u32;
}

#[link(name = "plain", kind = "static")]
extern "C" {
    fn plain_query(rows: *const u8, count: usize, t1: u64, t2: u64, numbers: *mut u8) -> u64;
}

fn zlib(bytes: &[u8]) -> u64 {
    let length = c_uint::try_from(bytes.len()).expect("no more than 32 bits of bytes");
    unsafe { crc32(0, bytes.as_ptr(), length) }
}

#[cfg(has_libdeflate)]
fn libdeflate(bytes: &[u8]) -> u64 {
    unsafe { libdeflate_crc32(0, bytes.as_ptr(), bytes.len()).into() }
}

/// ISA-L leaves the upper halves of the vector registers in use, which would slow every later measurement.
#[cfg(has_isal)]
fn isal(bytes: &[u8]) -> u64 {
    unsafe {
        let checksum = crc32_gzip_refl(0, bytes.as_ptr(), bytes.len() as u64);
        std::arch::asm!("vzeroupper", out("xmm0") _, out("xmm1") _, out("xmm2") _, out("xmm3") _, out("xmm4") _,
            out("xmm5") _, out("xmm6") _, out("xmm7") _, out("xmm8") _, out("xmm9") _, out("xmm10") _, out("xmm11") _,
            out("xmm12") _, out("xmm13") _, out("xmm14") _, out("xmm15") _);
        checksum.into()
    }
}

pub type Checksum = fn(&[u8]) -> u64;

/// The checksums of those that were installed when this was built.
pub fn checksums() -> Vec<(&'static str, Checksum)> {
    vec![
        ("zlib crc32", zlib as Checksum),
        #[cfg(has_libdeflate)]
        ("libdeflate crc32", libdeflate),
        #[cfg(has_isal)]
        ("ISA-L crc32", isal),
    ]
}

/// Those that weren't.
pub fn missing() -> Vec<&'static str> {
    vec![
        #[cfg(not(has_libdeflate))]
        "libdeflate (Debian libdeflate-dev)",
        #[cfg(not(has_isal))]
        "ISA-L (Debian libisal-dev)",
    ]
}

/// The numbers of the rows that meet the times, each as four bytes.
pub fn query(rows: &[u8], t1: u64, t2: u64, numbers: &mut [u8]) -> u64 {
    assert!(numbers.len() / 4 >= rows.len() / ROW, "room for each row's number");
    unsafe { plain_query(rows.as_ptr(), rows.len() / ROW, t1, t2, numbers.as_mut_ptr()) }
}
