//! The groups of comparisons. A group's function runs one case.

mod demand;
mod file;
mod limits;
mod list;
mod plain;
mod text;
mod writer;

use crate::check::Check;
use hplog_tests::random::Random;

pub struct Group {
    pub name: &'static str,
    /// How many cases are run where nothing else is asked for.
    pub cases: u64,
    pub run: fn(&mut Check, &mut Random),
}

pub const GROUPS: [Group; 20] = [
    Group { name: "open", cases: 6000, run: file::open },
    Group { name: "query", cases: 20_000, run: file::query },
    Group { name: "recover", cases: 6000, run: file::recover },
    Group { name: "repair", cases: 6000, run: file::repair },
    Group { name: "stored", cases: 6000, run: file::stored },
    Group { name: "label", cases: 10_000, run: plain::label },
    Group { name: "names", cases: 10_000, run: plain::names },
    Group { name: "name", cases: 10_000, run: plain::name },
    Group { name: "name_at", cases: 10_000, run: plain::name_at },
    Group { name: "number", cases: 4000, run: plain::number },
    Group { name: "steps", cases: 4000, run: plain::steps },
    Group { name: "text", cases: text::CASES, run: text::text },
    Group { name: "block", cases: 6000, run: list::block },
    Group { name: "book", cases: 6000, run: list::book },
    Group { name: "list", cases: 5000, run: list::list },
    Group { name: "writer", cases: 2000, run: writer::writer },
    Group { name: "demand2", cases: 600, run: demand::finished },
    Group { name: "demand3", cases: 100, run: demand::cuts },
    Group { name: "states", cases: 10_000, run: limits::states },
    Group { name: "large", cases: 2, run: limits::large },
];
