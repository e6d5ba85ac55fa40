//! The records of hplog.h that both sides of a comparison answer with.

#[repr(C)]
#[derive(Clone, Copy, Debug, Default, PartialEq, Eq)]
pub struct Answer {
    pub number: u64,
    pub place: u64,
    pub count: u64,
}

#[repr(C)]
#[derive(Clone, Copy, Debug, Default, PartialEq, Eq)]
pub struct BlockAnswer {
    pub number: u64,
    pub place: u64,
    pub offset: u64,
    pub start: u64,
    pub end: u64,
    pub entries: u64,
    pub stored: u64,
    pub plain: u64,
}

#[repr(C)]
#[derive(Clone, Copy, Debug, Default, PartialEq, Eq)]
pub struct Cursor {
    pub at: u64,
}

#[repr(C)]
#[derive(Clone, Copy, Debug, Default, PartialEq, Eq)]
pub struct Step {
    pub number: u64,
    pub place: u64,
    pub value: u64,
    pub next: Cursor,
}

#[repr(C)]
#[derive(Clone, Copy, Debug, Default, PartialEq, Eq)]
pub struct FieldStep {
    pub number: u64,
    pub place: u64,
    pub id: u64,
    pub kind: u64,
    pub bits: u64,
    pub from: u64,
    pub length: u64,
    pub next: Cursor,
}

#[repr(C)]
#[derive(Clone, Copy, Debug, Default, PartialEq, Eq)]
pub struct Writer {
    pub length: u64,
    pub end: u64,
    pub dictionary: u64,
    pub start: u64,
    pub last: u64,
    pub plain: u64,
    pub blocks: u32,
    pub given: u32,
    pub names: u32,
    pub turn: u32,
}

#[repr(C)]
#[derive(Clone, Copy, Debug, Default, PartialEq, Eq)]
pub struct Written {
    pub answer: Answer,
    pub next: Writer,
}
