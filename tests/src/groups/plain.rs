//! Label, plain dictionaries and the reading steps.

use crate::check::{awkward, filled, Check};
use crate::edge;
use hplog_tests::make;
use hplog_tests::random::Random;
use hplog_tests::records::{Answer, Cursor};
use hplog_tests::reference;

pub fn label(check: &mut Check, random: &mut Random) {
    let length = match random.below(100) {
        0 => random.below(70_000),
        1..=10 => random.below(200),
        11..=50 => random.below(40),
        _ => random.below(19),
    };
    let mut name: Vec<u8> = (0..length).map(|_| 0x20 + random.below(0x5F) as u8).collect();
    for _ in 0..random.below(3) {
        if !name.is_empty() {
            let at = random.below(name.len());
            name[at] = random.pick(&[0x00, 0x1F, 0x20, 0x7E, 0x7F, 0x80, 0xFF]);
        }
    }
    let mut outputs = [awkward(random, 16)].map(|length| filled(random, length));
    check.call(
        "label",
        [&name],
        &mut outputs,
        |[name], [panel]| reference::label(name, panel),
        |[name], [panel]| edge::label(name, panel),
    );
}

/// Dictionaries of every kind; rarely one around the most names that there may be.
fn dictionary(random: &mut Random) -> Vec<u8> {
    match random.below(1500) {
        0 => most_names(random),
        1..=200 => {
            let length = random.below(40);
            random.bytes(length)
        }
        _ => {
            let count = if random.once_in(20) { 50 + random.below(200) } else { random.below(8) };
            let names = make::names(random, count);
            if random.once_in(4) {
                make::dictionary(&names)
            } else {
                make::damaged_dictionary(random, &names)
            }
        }
    }
}

/// 65,534 to 65,536 names, by chance with one of them twice or one of 65,535 bytes.
fn most_names(random: &mut Random) -> Vec<u8> {
    let mut names = make::many_names(65_534 + random.below(3));
    let (from, to) = (random.below(names.len()), random.below(names.len()));
    match random.below(3) {
        0 => names[to] = names[from].clone(),
        1 => names[to] = vec![b'x'; 65_535],
        _ => {}
    }
    make::dictionary(&names)
}

pub fn names(check: &mut Check, random: &mut Random) {
    let dictionary = dictionary(random);
    check.call(
        "names",
        [&dictionary],
        &mut [],
        |[dictionary], []| reference::names(dictionary),
        |[dictionary], []| edge::names(dictionary),
    );
}

pub fn name(check: &mut Check, random: &mut Random) {
    let dictionary = dictionary(random);
    let count = reference::names(&dictionary).count;
    for _ in 0..1 + random.below(3) {
        let i = match random.below(5) {
            0 => random.edge(),
            1 => count,
            _ => random.number() % (count + 1),
        };
        check.call(
            &format!("name {i}"),
            [&dictionary],
            &mut [],
            |[dictionary], []| reference::name(dictionary, i),
            |[dictionary], []| edge::name(dictionary, i),
        );
    }
}

/// Names by the places of their ids: at any place, and from name to name in a dictionary that breaks no rule.
pub fn name_at(check: &mut Check, random: &mut Random) {
    let dictionary = dictionary(random);
    let near = (dictionary.len() as u64).saturating_sub(random.below(8) as u64);
    for at in [near, random.edge(), random.below(dictionary.len() + 2) as u64, u64::MAX - random.below(6) as u64] {
        check.call(
            &format!("name_at {at}"),
            [&dictionary],
            &mut [],
            |[dictionary], []| reference::name_at(dictionary, at),
            |[dictionary], []| edge::name_at(dictionary, at),
        );
    }
    if let Ok(places) = reference::name_places(&dictionary) {
        from_name_to_name(check, random, &dictionary, &places);
    }
}

/// Each step gives what the name's number gives, and the last one ends the dictionary. Few of many names are asked for
/// by number, which checks the whole dictionary each time.
fn from_name_to_name(check: &mut Check, random: &mut Random, dictionary: &[u8], places: &[(usize, usize)]) {
    let mut at = reference::FIRST_NAME as u64;
    for (i, &(from, length)) in places.iter().enumerate() {
        let name = edge::name_at(dictionary, at);
        let expected = Answer { number: 0, place: from as u64, count: length as u64 };
        check.same("name_at, the next name", &[dictionary], expected, name);
        if places.len() < 10 || random.once_in(places.len()) {
            check.same("name_at as name", &[dictionary], edge::name(dictionary, i as u64), name);
        }
        at = name.place + name.count;
    }
    check.same("name_at, after the last", &[dictionary], dictionary.len() as u64, at);
}

pub fn number(check: &mut Check, random: &mut Random) {
    let dictionary = dictionary(random);
    let places = reference::name_places(&dictionary).unwrap_or_default();
    for _ in 0..1 + random.below(3) {
        let name = asked(random, &dictionary, &places);
        check.call(
            "number",
            [&dictionary, &name],
            &mut [],
            |[dictionary, name], []| reference::number(dictionary, name),
            |[dictionary, name], []| edge::number(dictionary, name),
        );
    }
}

/// A name that is held, one that differs from it in a byte or its length, or any other.
fn asked(random: &mut Random, dictionary: &[u8], places: &[(usize, usize)]) -> Vec<u8> {
    if places.is_empty() || random.once_in(5) {
        return make::text(random);
    }
    let (from, length) = random.pick(places);
    let mut name = dictionary[from..from + length].to_vec();
    match random.below(5) {
        0 => name.truncate(length.saturating_sub(1)),
        1 => name.push(b'x'),
        2 if length > 0 => name[random.below(length)] ^= 1,
        _ => {}
    }
    name
}

fn payload(random: &mut Random, names: usize) -> Vec<u8> {
    match random.below(8) {
        0 => make::long_varint(random),
        1 => {
            let length = random.below(40);
            random.bytes(length)
        }
        2 | 3 => make::block(random, 0, names, false).plain,
        _ => {
            let plain = make::block(random, 0, names, false).plain;
            make::damaged_plain(random, &plain)
        }
    }
}

pub fn steps(check: &mut Check, random: &mut Random) {
    let names = random.below(6);
    let payload = payload(random, names);
    let given = match random.below(6) {
        0 => random.edge() as u32,
        1 => u32::MAX,
        _ => names as u32,
    };
    walk(check, &payload, given);
    for _ in 0..4 {
        let at = Cursor { at: if random.once_in(4) { random.edge() } else { random.below(payload.len() + 3) as u64 } };
        delta(check, &payload, at);
        count(check, &payload, at);
        field(check, &payload, given, at);
    }
}

/// Reads a payload step by step to its end or its first fault.
fn walk(check: &mut Check, payload: &[u8], names: u32) {
    let mut at = Cursor { at: 0 };
    loop {
        let Some((_, next)) = delta(check, payload, at) else { return };
        let Some((fields, next)) = count(check, payload, next) else { return };
        at = next;
        for _ in 0..fields {
            let Some(next) = field(check, payload, names, at) else { return };
            at = next;
        }
    }
}

fn delta(check: &mut Check, payload: &[u8], at: Cursor) -> Option<(u64, Cursor)> {
    let step = check.call(
        &format!("delta at {}", at.at),
        [payload],
        &mut [],
        |[payload], []| reference::delta(payload, at),
        |[payload], []| edge::delta(payload, at),
    );
    (step.number == 0).then_some((step.value, step.next))
}

fn count(check: &mut Check, payload: &[u8], at: Cursor) -> Option<(u64, Cursor)> {
    let step = check.call(
        &format!("count at {}", at.at),
        [payload],
        &mut [],
        |[payload], []| reference::count(payload, at),
        |[payload], []| edge::count(payload, at),
    );
    (step.number == 0).then_some((step.value, step.next))
}

fn field(check: &mut Check, payload: &[u8], names: u32, at: Cursor) -> Option<Cursor> {
    let step = check.call(
        &format!("field at {} with {names} names", at.at),
        [payload],
        &mut [],
        |[payload], []| reference::field(payload, names, at),
        |[payload], []| edge::field(payload, names, at),
    );
    (step.number == 0).then_some(step.next)
}
