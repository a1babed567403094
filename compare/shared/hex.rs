//! Bytes in hexadecimal and words in decimal with commas between, as the programs take and give them.

use std::fmt::Write as _;

pub fn to_hex(bytes: &[u8]) -> String {
    let mut hex = String::with_capacity(2 * bytes.len());
    for byte in bytes {
        write!(hex, "{byte:02x}").expect("a string takes all");
    }
    hex
}

pub fn from_hex(line: &str) -> Vec<u8> {
    assert!(line.len() % 2 == 0, "half a byte: {line}");
    (0..line.len())
        .step_by(2)
        .map(|at| u8::from_str_radix(&line[at..at + 2], 16).expect("hexadecimal"))
        .collect()
}

/// The texts of a file that has one a line.
pub fn lines(file: &str) -> Vec<Vec<u8>> {
    let lines = std::fs::read_to_string(file).expect("a list of texts");
    lines.lines().map(from_hex).collect()
}

pub fn to_words(words: &[u32]) -> String {
    let words: Vec<String> = words.iter().map(u32::to_string).collect();
    words.join(",")
}

pub fn from_words(line: &str) -> Vec<u32> {
    if line.is_empty() {
        return Vec::new();
    }
    let word = |word: &str| word.parse().expect("a word");
    line.split(',').map(word).collect()
}

/// The stored trees of a line: words and texts by turns, with bars between.
pub fn trees(line: &str) -> Vec<(Vec<u32>, Vec<u8>)> {
    let parts: Vec<&str> = line.split('|').collect();
    parts
        .chunks(2)
        .map(|tree| (from_words(tree[0]), from_hex(tree[1])))
        .collect()
}
