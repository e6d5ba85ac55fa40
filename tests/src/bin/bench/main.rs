//! Times the library against peers in the same run: the checksums of zlib, libdeflate and ISA-L and memcpy on the same
//! bytes, a plain C loop, Rust's own judge of UTF-8, and the implementation in Rust. Prints a table, and writes the
//! ratios as a plot to the file that is named.

#[path = "../../edge.rs"]
#[allow(dead_code)]
mod edge;
mod files;
mod measure;
mod peers;
mod plot;
mod text;
mod writing;

use measure::Line;

fn main() {
    let plot = std::env::args().nth(1);
    let mut lines: Vec<Line> = Vec::new();
    files::open_recover_repair(&mut lines);
    files::query(&mut lines);
    files::listing(&mut lines);
    files::naming(&mut lines);
    text::fields(&mut lines);
    writing::dictionary(&mut lines);
    writing::adding(&mut lines);
    writing::entries(&mut lines);
    writing::blocks(&mut lines);
    measure::table(&lines);
    for peer in peers::missing() {
        println!("\nNot installed, so not measured: {peer}.");
    }
    if let Some(path) = plot {
        std::fs::write(&path, plot::svg(&lines)).unwrap_or_else(|error| panic!("{path}: {error}"));
    }
}
