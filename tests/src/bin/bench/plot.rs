//! The ratios as a plot: a bar for each line, with a mark where call and peer are alike.

use crate::measure::Line;
use std::fmt::Write;

const ROW: usize = 18;
const LEFT: usize = 330;
const WIDTH: usize = 560;
/// The smallest and the largest ratio that is told apart, as powers of two.
const RANGE: f64 = 5.0;

/// Where a ratio stands from left to right, on a scale of powers of two.
fn place(ratio: f64) -> f64 {
    let power = ratio.log2().clamp(-RANGE, RANGE);
    LEFT as f64 + WIDTH as f64 * (power + RANGE) / (2.0 * RANGE)
}

pub fn svg(lines: &[Line]) -> String {
    let height = ROW * (lines.len() + 3);
    let mut text = format!(
        "<svg xmlns=\"http://www.w3.org/2000/svg\" width=\"{}\" height=\"{height}\" \
         font-family=\"sans-serif\" font-size=\"12\">\n",
        LEFT + WIDTH + 70
    );
    let alike = place(1.0);
    for power in -4..=4 {
        let (at, ratio) = (place(2f64.powi(power)), 2f64.powi(power));
        let _ = writeln!(
            text,
            "<line x1=\"{at:.1}\" y1=\"{ROW}\" x2=\"{at:.1}\" y2=\"{height}\" stroke=\"#ddd\"/>\
             <text x=\"{at:.1}\" y=\"12\" text-anchor=\"middle\">{ratio}</text>"
        );
    }
    for (i, line) in lines.iter().enumerate() {
        let (y, end) = (ROW * (i + 2), place(line.ratio()));
        let colour = if line.ratio() >= 1.0 { "#2a7" } else { "#c63" };
        let _ = writeln!(
            text,
            "<text x=\"4\" y=\"{}\">{}, {} / {}</text>\
             <rect x=\"{:.1}\" y=\"{}\" width=\"{:.1}\" height=\"{}\" fill=\"{colour}\"/>",
            y + 12,
            line.call,
            line.shape,
            line.peer,
            alike.min(end),
            y + 2,
            (alike - end).abs().max(1.0),
            ROW - 5
        );
    }
    text.push_str("</svg>\n");
    text
}
