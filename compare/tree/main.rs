//! The answers of crates/tree, one line for each line of standard input, in the forms of the second program.
//!
//! - `held tree expression` or `held tree grammar`: `words|texts`. `1` for one tree, else `0`.
//! - `held compare`: `words|texts|words|texts`. `E 0` or `E 1`, or `R 25 0 1 0`.
//! - `held times`: reads nothing; answers and times for deep and wide trees, and beside the Rust's `structurally_eq`.

mod error;
mod hex;
mod least;
mod node;
mod parse;
mod records;

// parse.rs asks for it at the crate's root.
pub use error::GeneratorError;
use hex::trees;
use std::hint::black_box;
use std::io::{self, BufRead, BufWriter, Write};
use std::time::Instant;

#[allow(improper_ctypes)]
unsafe extern "C" {
    fn tree_is_expression(records: &[u32], texts: &[u8]) -> bool;
    fn tree_is_grammar(records: &[u32], texts: &[u8]) -> bool;
    fn tree_structurally_eq(left: &[u32], lefts: &[u8], right: &[u32], rights: &[u8]) -> u32;
}

type Stored = (Vec<u32>, Vec<u8>);

fn compared(left: &Stored, right: &Stored) -> String {
    match unsafe { tree_structurally_eq(&left.0, &left.1, &right.0, &right.1) } {
        25 => "R 25 0 1 0".to_owned(),
        equal => format!("E {equal}"),
    }
}

/// A record of a kind, with a value, over children.
fn put(words: &mut Vec<u32>, kind: u32, value: u32, children: u32) {
    words.extend([kind, 9, 0, 0, value, 0, children]);
}

/// `levels` repeats one over another.
fn repeats(levels: u32) -> Stored {
    let mut words = Vec::new();
    put(&mut words, 39, 0, 0);
    for level in 0..levels {
        put(&mut words, 35, level % 3, 1);
    }
    (words, Vec::new())
}

/// `levels` choices one in another, each with one arm more before the inner choice or after it.
fn choices(levels: u32, before: bool) -> Stored {
    let mut words = Vec::new();
    if before {
        (0..levels).for_each(|_| put(&mut words, 39, 0, 0));
    }
    put(&mut words, 39, 0, 0);
    for _ in 0..levels {
        if !before {
            put(&mut words, 39, 0, 0);
        }
        put(&mut words, 33, 0, 2);
    }
    (words, Vec::new())
}

/// One choice of `arms`.
fn arms(arms: u32) -> Stored {
    let mut words = Vec::new();
    (0..arms).for_each(|_| put(&mut words, 39, 0, 0));
    put(&mut words, 33, 0, arms);
    (words, Vec::new())
}

fn timed(what: &str, tree: &Stored) {
    let begun = Instant::now();
    let one = unsafe { tree_is_expression(&tree.0, &tree.1) };
    let tested = begun.elapsed();
    let begun = Instant::now();
    let answer = compared(tree, tree);
    println!(
        "{what}: {} records, one tree {one} in {tested:.2?}, compared with itself {answer} in {:.2?}",
        tree.0.len() / 7,
        begun.elapsed()
    );
    assert!(one && answer == "E 1");
}

/// The time of a call that has to say yes, in microseconds.
fn least(mut call: impl FnMut() -> bool) -> f64 {
    least::least(50, 10, || assert!(black_box(call()))).as_secs_f64() * 1e6
}

/// The body of a top rule that has `times` this expression, compared with its like.
fn beside(what: &str, expression: &str, times: usize) {
    let body = |between: &str| {
        let source = format!("@top T{{{}}}", vec![expression; times].join(between));
        let grammar = parse::parse_grammar(&source, None).expect("a grammar");
        grammar.top_rules[0].expression.clone()
    };
    let (left, right) = (body(" "), body("  "));
    let (lefts, rights) = (records::of_expression(&left), records::of_expression(&right));
    let rust = least(|| black_box(&left).structurally_eq(black_box(&right)));
    let ours = least(|| unsafe {
        tree_structurally_eq(&lefts.words, &lefts.texts, &rights.words, &rights.texts) == 1
    });
    let test = least(|| unsafe { tree_is_expression(&lefts.words, &lefts.texts) });
    println!(
        "{what}: {} records, ours {ours:.1} µs, of which the tests of one tree take {:.1}; Rust's {rust:.1} µs; ratio {:.2}",
        lefts.words.len() / 7,
        2.0 * test,
        ours / rust
    );
}

fn times() {
    beside("6,000 names", "name", 6_000);
    beside("3,000 strings", "\"a string\"", 3_000);
    beside("1,000 choices of sets and repeats", "($[a-z0-9] | b* ~m c | \"d\"+)", 1_000);
    beside("1,000 inline rules with props", "n[p=q,@r=\"s\"]{a b}", 1_000);
    timed("a million stacked repeats", &repeats(1_000_000));
    timed("a choice of a million arms", &arms(1_000_000));
    timed("10,000 choices, the inner one first", &choices(10_000, false));
    timed("10,000 choices, the inner one last", &choices(10_000, true));
    let mut cut = repeats(1_000_000);
    cut.0.drain(..7);
    assert!(!unsafe { tree_is_expression(&cut.0, &cut.1) });
}

fn main() -> io::Result<()> {
    let arguments: Vec<String> = std::env::args().skip(1).collect();
    let arguments: Vec<&str> = arguments.iter().map(String::as_str).collect();
    let answer: fn(&[Stored]) -> String = match arguments[..] {
        ["tree", "expression"] => |t| u8::from(unsafe { tree_is_expression(&t[0].0, &t[0].1) }).to_string(),
        ["tree", "grammar"] => |t| u8::from(unsafe { tree_is_grammar(&t[0].0, &t[0].1) }).to_string(),
        ["compare"] => |t| compared(&t[0], &t[1]),
        ["times"] => {
            times();
            return Ok(());
        }
        _ => {
            eprintln!("usage: held [tree expression | tree grammar | compare | times]");
            std::process::exit(2);
        }
    };
    let mut out = BufWriter::new(io::stdout().lock());
    for line in io::stdin().lock().lines() {
        writeln!(out, "{}", answer(&trees(line?.trim_end_matches(['\r', '\n']))))?;
    }
    out.flush()
}
