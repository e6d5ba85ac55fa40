//! The time of a call beside that of its peer.

use std::time::Instant;

/// One call, at one size, against one peer.
pub struct Line {
    pub call: &'static str,
    /// What grows.
    pub shape: String,
    pub peer: &'static str,
    pub ours: f64,
    pub theirs: f64,
}

impl Line {
    /// How fast the call is beside its peer: above 1 it is faster.
    pub fn ratio(&self) -> f64 {
        self.theirs / self.ours
    }
}

/// The shortest of several runs, in seconds: what else runs on the machine can only lengthen one.
pub fn shortest(mut run: impl FnMut()) -> f64 {
    let begun = Instant::now();
    let mut best = f64::INFINITY;
    let mut runs = 0;
    while runs < 3 || (begun.elapsed().as_secs_f64() < 0.3 && runs < 1_000_000) {
        let start = Instant::now();
        run();
        best = best.min(start.elapsed().as_secs_f64());
        runs += 1;
    }
    best
}

/// A time with the unit that fits it.
fn time(seconds: f64) -> String {
    match seconds {
        s if s < 1e-6 => format!("{:.0} ns", s * 1e9),
        s if s < 1e-3 => format!("{:.1} us", s * 1e6),
        s if s < 1.0 => format!("{:.1} ms", s * 1e3),
        s => format!("{s:.2} s"),
    }
}

pub fn table(lines: &[Line]) {
    println!("| call | on | time | peer | its time | ratio |");
    println!("|---|---|---|---|---|---|");
    for line in lines {
        println!(
            "| {} | {} | {} | {} | {} | {:.2} |",
            line.call,
            line.shape,
            time(line.ours),
            line.peer,
            time(line.theirs),
            line.ratio()
        );
    }
}
