//! The oracle: what the unchanged `parse_grammar` answers, as refusals and stored records.
//!
//! Standard input has one text a line, its bytes in hexadecimal (an empty line is the empty text).
//! Standard output has one line for each:
//!
//! - `R cause place line column`: refused; the cause's number follows from the message;
//! - `T word,word,.. | bytes`: accepted; the words of all records and the bytes of all texts in
//!   hexadecimal;
//! - `N`: no answer, since a text that is not UTF-8 is no `&str`.
//!
//! `oracle compare` takes two texts a line with a space between, both accepted and with a top rule, and
//! answers with `structurally_eq` of the bodies of their first top rules, after the records of both:
//! `words|texts|words|texts E 1`, or `E 0`.
//!
//! `oracle classes` reads nothing and prints the spans of all codes for which this toolchain says
//! `char::is_alphabetic`, on one line and with commas between (first code, code past the last, and
//! so on), those of `char::is_whitespace` on a second, and `CharClass::ranges` of the six classes on a
//! third, each ended by 0.
//!
//! The limits of levels, repeats and bytes are not the Rust's: causes 1, 2 and 3 never appear here.

mod causes;
mod error;
mod hex;
mod node;
mod parse;
mod reading;
mod records;

use hex::{from_hex, to_hex, to_words};
use std::io::{self, BufRead, BufWriter, Write};

// parse.rs asks for it at the crate's root.
pub use error::GeneratorError;

fn answer(line: &str) -> String {
    let text = from_hex(line);
    let Ok(source) = std::str::from_utf8(&text) else {
        return "N".to_owned();
    };
    match reading::read(source) {
        Err((cause, place, line, column)) => format!("R {cause} {place} {line} {column}"),
        Ok(stored) => format!("T {} | {}", to_words(&stored.words), to_hex(&stored.texts)),
    }
}

/// The body of a text's first top rule.
fn body(text: &str) -> node::Expression {
    let source = String::from_utf8(from_hex(text)).expect("UTF-8");
    let mut grammar = parse::parse_grammar(&source, None).expect("an accepted text");
    grammar.top_rules.swap_remove(0).expression
}

fn compare(line: &str) -> String {
    let (left, right) = line.split_once(' ').expect("two texts");
    let (left, right) = (body(left), body(right));
    let equal = left.structurally_eq(&right);
    let [left, right] = [left, right].map(|expression| {
        let stored = records::of_expression(&expression);
        format!("{}|{}", to_words(&stored.words), to_hex(&stored.texts))
    });
    format!("{left}|{right} E {}", u8::from(equal))
}

/// The ends of all spans of codes that have a property.
fn spans(has: fn(char) -> bool) -> Vec<u32> {
    let inside = |code: u32| char::from_u32(code).is_some_and(has);
    (0..0x11_0001)
        .filter(|&code| inside(code) != (code > 0 && inside(code - 1)))
        .collect()
}

fn class_ranges() -> Vec<u32> {
    use node::CharClass::{AsciiLetter, AsciiLowercase, AsciiUppercase, Digit, Eof, Whitespace};
    let mut ends = Vec::new();
    for class in [
        AsciiLetter,
        AsciiLowercase,
        AsciiUppercase,
        Digit,
        Whitespace,
        Eof,
    ] {
        ends.extend(
            class
                .ranges()
                .iter()
                .flat_map(|&(first, past)| [first, past]),
        );
        ends.push(0);
    }
    ends
}

fn run() -> io::Result<()> {
    let mode = std::env::args().nth(1);
    let answer = match mode.as_deref() {
        None => answer,
        Some("compare") => compare,
        Some("classes") => {
            println!("{}", to_words(&spans(char::is_alphabetic)));
            println!("{}", to_words(&spans(char::is_whitespace)));
            println!("{}", to_words(&class_ranges()));
            return Ok(());
        }
        Some(_) => {
            eprintln!("usage: oracle [compare | classes]");
            std::process::exit(2);
        }
    };
    let mut out = BufWriter::new(io::stdout().lock());
    for line in io::stdin().lock().lines() {
        writeln!(out, "{}", answer(line?.trim_end()))?;
    }
    out.flush()
}

fn main() -> io::Result<()> {
    // parse_grammar has no limit of levels, so deeply nested texts need a deep stack.
    std::thread::Builder::new()
        .stack_size(1 << 30)
        .spawn(run)?
        .join()
        .expect("the oracle does not panic")
}
