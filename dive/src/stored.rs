//! The lists and sums among the stored answers (vectors/), for tests.

use std::{fs, path::Path};

use uplink::{ENTRY_BYTES, RECORD_BYTES};

/// The lists of both files of stored answers about lists.
pub fn lists() -> Vec<Vec<u8>> {
    ["lists.txt", "limits.txt"]
        .iter()
        .flat_map(|file| of_file(file, "list", RECORD_BYTES))
        .collect()
}

/// The sums of every file of stored answers about sums.
pub fn sums() -> Vec<Vec<u8>> {
    ["sums.txt", "limits.txt", "faithful.txt", "values.txt"]
        .iter()
        .flat_map(|file| of_file(file, "sum", ENTRY_BYTES))
        .collect()
}

/// What stands behind a keyword in a file of stored answers.
fn of_file(name: &str, keyword: &str, size: usize) -> Vec<Vec<u8>> {
    let folder = Path::new(env!("CARGO_MANIFEST_DIR")).join("../vectors");
    let text = fs::read_to_string(folder.join(name)).expect("stored answers");
    let lines = text.lines().filter_map(|line| line.strip_prefix(keyword));
    lines.map(|line| from_hex(line, size)).collect()
}

/// Records or entries in hex, zero bytes at their ends left off.
fn from_hex(line: &str, size: usize) -> Vec<u8> {
    let byte = |digits: &str| u8::from_str_radix(digits, 16).expect("hex");
    let one = |word: &str| {
        let bytes = (0..word.len() / 2).map(|at| byte(&word[2 * at..2 * at + 2]));
        let mut one: Vec<u8> = bytes.collect();
        one.resize(size, 0);
        one
    };
    line.split_whitespace().flat_map(one).collect()
}
