//! One call, made by the reference and by the library, and everything about it compared.

use crate::guard::{Lent, Side};
use hplog_tests::random::Random;
use hplog_tests::records::{Answer, BlockAnswer, FieldStep, Step, Writer, Written};
use std::fmt::Debug;

/// What a call answers.
pub trait Reply: Copy + Debug + PartialEq {
    fn number(&self) -> u64;
}

impl Reply for Answer {
    fn number(&self) -> u64 {
        self.number
    }
}

impl Reply for BlockAnswer {
    fn number(&self) -> u64 {
        self.number
    }
}

impl Reply for Step {
    fn number(&self) -> u64 {
        self.number
    }
}

impl Reply for FieldStep {
    fn number(&self) -> u64 {
        self.number
    }
}

impl Reply for Writer {
    fn number(&self) -> u64 {
        0
    }
}

impl Reply for Written {
    fn number(&self) -> u64 {
        self.answer.number
    }
}

/// The most that one buffer is lent, in bytes.
const LENT: usize = 2 << 20;

pub struct Check {
    pub group: &'static str,
    pub seed: u64,
    pub case: u64,
    pub calls: u64,
    inputs: Vec<Lent>,
    outputs: Vec<Lent>,
}

impl Check {
    pub fn new(seed: u64) -> Check {
        let lent = || (0..3).map(|_| Lent::new(LENT)).collect();
        Check { group: "", seed, case: 0, calls: 0, inputs: lent(), outputs: lent() }
    }

    /// Reports a difference and ends the program.
    pub fn fail(&self, call: &str, inputs: &[&[u8]], expected: &dyn Debug, found: &dyn Debug) -> ! {
        println!("mismatch in {call}: group {}, seed {}, case {}", self.group, self.seed, self.case);
        for (i, input) in inputs.iter().enumerate() {
            println!("  input {i}, {} bytes: {}", input.len(), hex(input));
        }
        println!("  expected {expected:?}");
        println!("  found    {found:?}");
        std::process::exit(1);
    }

    /// Compares two values that are not a call's own.
    pub fn same<T: Debug + PartialEq>(&self, what: &str, inputs: &[&[u8]], expected: T, found: T) {
        if expected != found {
            self.fail(what, inputs, &expected, &found);
        }
    }

    /// The same for bytes, of which only the first that differ are shown.
    pub fn same_bytes(&self, what: &str, inputs: &[&[u8]], expected: &[u8], found: &[u8]) {
        if expected != found {
            let at = expected.iter().zip(found).position(|(a, b)| a != b).unwrap_or(expected.len().min(found.len()));
            let show = |bytes: &[u8]| format!("{} bytes, from {at}: {}", bytes.len(), hex(&bytes[at..]));
            self.fail(what, inputs, &show(expected), &show(found));
        }
    }

    /// Runs a library's call with copies of all that is lent at one end of their places. Gives its answer and what it
    /// left in the outputs; the inputs must be as they were.
    pub fn lend<R, const I: usize, const O: usize>(
        &mut self,
        name: &str,
        inputs: [&[u8]; I],
        outputs: &[Vec<u8>; O],
        side: Side,
        library: impl Fn([&[u8]; I], [&mut [u8]; O]) -> R,
    ) -> (R, [Vec<u8>; O]) {
        self.calls += 1;
        let (mut input_places, mut output_places) = (self.inputs.iter_mut(), self.outputs.iter_mut());
        let lent_inputs: [&[u8]; I] =
            std::array::from_fn(|i| &*input_places.next().expect("few inputs").place(inputs[i], side));
        let mut lent_outputs: [&mut [u8]; O] =
            std::array::from_fn(|i| output_places.next().expect("few outputs").place(&outputs[i], side));
        let answer = library(lent_inputs, lent_outputs.each_mut().map(|output| &mut **output));
        let left = lent_outputs.map(|output| output.to_vec());
        let changed = (0..I).find(|&i| lent_inputs[i] != inputs[i]).map(|i| (i, lent_inputs[i].to_vec()));
        if let Some((i, bytes)) = changed {
            self.same_bytes(&format!("{name}, input {i} afterwards"), &inputs, inputs[i], &bytes);
        }
        (answer, left)
    }

    /// Runs a call on both sides, the library's with both placements of all lent memory. The outputs hold what they are
    /// lent with, and afterwards what the call left.
    pub fn call<A: Reply, const I: usize, const O: usize>(
        &mut self,
        name: &str,
        inputs: [&[u8]; I],
        outputs: &mut [Vec<u8>; O],
        reference: impl Fn([&[u8]; I], [&mut [u8]; O]) -> A,
        library: impl Fn([&[u8]; I], [&mut [u8]; O]) -> A,
    ) -> A {
        let mut expected = outputs.clone();
        let meant = reference(inputs, expected.each_mut().map(Vec::as_mut_slice));
        let mut answer = meant;
        for side in [Side::Start, Side::End] {
            let (found, left) = self.lend(name, inputs, outputs, side, &library);
            if found != meant {
                self.fail(name, &inputs, &meant, &found);
            }
            for i in 0..O {
                if found.number() != 0 {
                    self.same_bytes(&format!("{name}, output {i} of a refusal"), &inputs, &outputs[i], &left[i]);
                }
                self.same_bytes(&format!("{name}, output {i}"), &inputs, &expected[i], &left[i]);
            }
            answer = found;
        }
        *outputs = expected;
        answer
    }
}

/// Some bytes as hex, all of them if they are few.
fn hex(bytes: &[u8]) -> String {
    const SHOWN: usize = 256;
    let mut text: String = bytes.iter().take(SHOWN).map(|byte| format!("{byte:02X}")).collect();
    if bytes.len() > SHOWN {
        text.push_str("...");
    }
    text
}

/// An output before a call: no two neighbours alike, and different from call to call.
pub fn filled(random: &mut Random, length: usize) -> Vec<u8> {
    let first = random.byte();
    (0..length).map(|i| first.wrapping_add((i as u8).wrapping_mul(29))).collect()
}

/// A length for an output that needs `need` bytes: mostly enough, else one less, none, or more.
pub fn awkward(random: &mut Random, need: usize) -> usize {
    match random.below(8) {
        0 => need.saturating_sub(1),
        1 => random.below(need + 1),
        2 => 0,
        3 | 4 => need + 1 + random.below(60),
        _ => need,
    }
}
