//! An implementation of HPLOG version 1 written from the paper alone, and generators of files for it.

pub mod make;
pub mod random;
pub mod records;
pub mod reference;
