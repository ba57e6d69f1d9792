//! Writes the stored answers of arithmetic on sums anew.

use std::{fs, io, path::Path};

use oracle::operations::{Case, select};

fn main() -> io::Result<()> {
    let file = Path::new(env!("CARGO_MANIFEST_DIR")).join("../crates/replay_arithmetic/stdin");
    let cases = select();
    let text: String = cases.iter().map(Case::line).collect();
    println!("{} cases, {} bytes", cases.len(), text.len());
    fs::write(file, text)
}
