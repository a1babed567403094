//! The second program's answers, one line for each line of standard input.
//!
//! Bytes are written in hexadecimal (nothing for none), words in decimal with commas between.
//!
//! - `second` or `second read`: a text a line. `R cause place line column`, or
//!   `T words | texts` (as the oracle answers).
//! - `second normal`: a text a line. `R cause place line column`, or `T normal`.
//! - `second again`: an accepted text a line. `1` where its normal text is accepted, agrees with it and
//!   is its own normal text, else `0`.
//! - `second read-lend`: `words bytes text`, two lent lengths first. The answer of reading into buffers
//!   of these lengths and what they then hold: `A cause place line column | records | texts`, or
//!   `A 0 words bytes 0` for success, with how much holds the tree. Before the call word `i` of
//!   each lent buffer is `1000000 + i`, and byte `i` is the remainder of `i` by 251.
//! - `second lend`: `words bytes output text`, three lent lengths first. The same for reading and
//!   writing the normal text: `A .. | records | texts | output`, or `A 0 words bytes output`.
//! - `second print`: a text a line. What the program `normal` prints.
//! - `second tree expression` or `second tree grammar`: `words|texts`. `1` for one tree, else `0`.
//! - `second compare`: `words|texts|words|texts`. `E 0` or `E 1`, or `R 25 0 1 0`.

mod hex;
mod second;

use hex::{from_hex, to_hex, to_words, trees};
use second::{Held, Refusal, Root};
use std::io::{self, BufRead, BufWriter, Write};

/// What lent words hold before a call: each its own place, so that no shift goes unseen.
fn lent_words(length: &str) -> Vec<u32> {
    let length: u32 = length.parse().expect("a length");
    (1_000_000..1_000_000 + length).collect()
}

fn lent_bytes(length: &str) -> Vec<u8> {
    let length: usize = length.parse().expect("a length");
    (0..length).map(|place| (place % 251) as u8).collect()
}

/// Cause, place, line and column.
fn refused(text: &[u8], refusal: Refusal) -> String {
    let (line, column) = second::line_column(text, refusal.place);
    format!("{} {} {line} {column}", refusal.cause, refusal.place)
}

fn read(line: &str) -> String {
    let text = from_hex(line);
    match second::read(&text) {
        Err(refusal) => format!("R {}", refused(&text, refusal)),
        Ok(tree) => {
            let stored = second::store(&tree);
            format!("T {} | {}", to_words(&stored.words), to_hex(&stored.texts))
        }
    }
}

fn normal(line: &str) -> String {
    let text = from_hex(line);
    match second::read(&text) {
        Err(refusal) => format!("R {}", refused(&text, refusal)),
        Ok(tree) => format!("T {}", to_hex(&second::normal_text(&tree))),
    }
}

fn again(line: &str) -> String {
    let tree = second::read(&from_hex(line)).expect("an accepted text");
    let normal = second::normal_text(&tree);
    let holds = second::read(&normal).is_ok_and(|other| {
        second::agree(&second::store(&tree), &second::store(&other))
            && second::normal_text(&other) == normal
    });
    u8::from(holds).to_string()
}

/// A call's answer: its refusal, or how much of each buffer holds what it gives.
fn called(text: &[u8], answer: Result<Held, Refusal>) -> String {
    match answer {
        Err(refusal) => refused(text, refusal),
        Ok(held) => format!("0 {} {} {}", held.words, held.texts, held.output),
    }
}

fn read_lend(line: &str) -> String {
    let mut parts = line.split(' ');
    let mut part = || parts.next().unwrap_or("");
    let mut records = lent_words(part());
    let mut texts = lent_bytes(part());
    let text = from_hex(part());
    let answer = second::read_into(&text, &mut records, &mut texts);
    format!(
        "A {} | {} | {}",
        called(&text, answer),
        to_words(&records),
        to_hex(&texts)
    )
}

fn lend(line: &str) -> String {
    let mut parts = line.split(' ');
    let mut part = || parts.next().unwrap_or("");
    let mut records = lent_words(part());
    let mut texts = lent_bytes(part());
    let mut output = lent_bytes(part());
    let text = from_hex(part());
    let answer = second::normal_into(&text, &mut records, &mut texts, &mut output);
    format!(
        "A {} | {} | {} | {}",
        called(&text, answer),
        to_words(&records),
        to_hex(&texts),
        to_hex(&output)
    )
}

fn print(line: &str) -> String {
    to_hex(&second::printed(&from_hex(line)))
}

fn tree(line: &str, root: Root) -> String {
    let [(words, texts)] = &trees(line)[..] else {
        panic!("one tree a line: {line}");
    };
    u8::from(second::is_tree(words, texts, root)).to_string()
}

fn compare(line: &str) -> String {
    let [(left, left_texts), (right, right_texts)] = &trees(line)[..] else {
        panic!("two trees a line: {line}");
    };
    match second::structurally_eq((left, left_texts), (right, right_texts)) {
        Err(refusal) => format!("R {}", refused(&[], refusal)),
        Ok(equal) => format!("E {}", u8::from(equal)),
    }
}

fn main() -> io::Result<()> {
    let arguments: Vec<String> = std::env::args().skip(1).collect();
    let arguments: Vec<&str> = arguments.iter().map(String::as_str).collect();
    let answer: fn(&str) -> String = match arguments[..] {
        [] | ["read"] => read,
        ["normal"] => normal,
        ["again"] => again,
        ["read-lend"] => read_lend,
        ["lend"] => lend,
        ["print"] => print,
        ["tree", "expression"] => |line| tree(line, Root::Expression),
        ["tree", "grammar"] => |line| tree(line, Root::Grammar),
        ["compare"] => compare,
        _ => {
            eprintln!(
                "usage: second [read | normal | lend | tree expression | tree grammar | compare]"
            );
            std::process::exit(2);
        }
    };
    let mut out = BufWriter::new(io::stdout().lock());
    for line in io::stdin().lock().lines() {
        writeln!(out, "{}", answer(line?.trim_end_matches(['\r', '\n'])))?;
    }
    out.flush()
}
