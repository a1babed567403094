//! Holds the proved reader against the unchanged Rust and the second program, in one process.
//!
//! `parser held LIST SEED COUNT`: LIST has texts in hexadecimal, one a line; COUNT texts are made from SEED. Differences are printed,
//! with the smallest text found for each family of texts, and fail the run; so does a cause from 1 to 23 that no call gave.

mod causes;
mod error;
mod expected;
mod families;
mod held;
mod hex;
mod library;
mod node;
mod parse;
mod random;
mod reading;
mod records;
mod room;
mod runs;
mod second;
#[cfg(stand_in)]
mod stand_in;
mod texts;

// parse.rs asks for it at the crate's root.
pub use error::GeneratorError;
use held::{Lent, Reader};
use library::Answer;
use runs::{Run, notices};

/// The last cause that reading can give.
const LAST: usize = 23;

// -------------------------------------------------------------------- wrong readers

/// A reader with something wrong about it, by what it does to the proved one's answer and to the memory.
macro_rules! wrong {
    ($text:ident $words:ident $texts:ident $answer:ident $body:block) => {{
        fn reader($text: &[u8], $words: &mut [u32], $texts: &mut [u8]) -> Answer {
            #[allow(unused_mut)]
            let mut $answer = library::read($text, $words, $texts);
            $body
            $answer
        }
        reader
    }};
}

/// Readers that are each wrong in one way.
fn wrong_readers() -> Vec<(&'static str, Reader)> {
    fn set<T>(lent: &mut [T], at: usize, to: T) {
        if let Some(place) = lent.get_mut(at) {
            *place = to;
        }
    }
    vec![
        ("each refusal is 8", wrong!(text words texts answer { if answer.cause > 0 { answer.cause = 8 } })),
        ("place", wrong!(text words texts answer { if answer.cause == 17 { answer.place += 1 } })),
        ("line", wrong!(text words texts answer { if answer.cause > 3 { answer.line += 1 } })),
        ("column", wrong!(text words texts answer { if answer.line > 1 { answer.column += 1 } })),
        ("count of words", wrong!(text words texts answer { if answer.cause == 0 { answer.first += 7 } })),
        ("count of bytes", wrong!(text words texts answer { if answer.cause == 0 { answer.second += 1 } })),
        ("a start", wrong!(text words texts answer { if answer.cause == 0 { words[1] ^= 1 } })),
        ("the last word", wrong!(text words texts answer { if answer.cause == 0 { words[answer.first as usize - 1] += 1 } })),
        ("the last byte", wrong!(text words texts answer { if answer.cause == 0 { set(texts, (answer.second as usize).wrapping_sub(1), b'~') } })),
        ("a word past the tree", wrong!(text words texts answer { if answer.cause == 0 { set(words, answer.first as usize, 0) } })),
        ("a byte past the texts", wrong!(text words texts answer { if answer.cause == 0 { set(texts, answer.second as usize, b'~') } })),
        ("a word under a refusal", wrong!(text words texts answer { if answer.cause == 16 { set(words, 40, 0) } })),
        ("a byte under a refusal", wrong!(text words texts answer { if answer.cause == 16 { set(texts, 3, b'~') } })),
        ("a word under 23", wrong!(text words texts answer { if answer.cause == 23 { set(words, 0, 2) } })),
        ("23 before 22", wrong!(text words texts answer { if answer.cause == 22 && texts.is_empty() { answer.cause = 23 } })),
        ("22 with just enough room", |text, words, texts| match words.split_last_mut() {
            Some((_, fewer)) => library::read(text, fewer, texts),
            None => library::read(text, words, texts),
        }),
        ("23 with just enough room", |text, words, texts| match texts.split_last_mut() {
            Some((_, fewer)) => library::read(text, words, fewer),
            None => library::read(text, words, texts),
        }),
        ("each tree is one tree", |_, words, texts| library::read(b"@top T{}", words, texts)),
        ("nothing is read", |_, _, _| library::refused(8, 0, 1, 0)),
    ]
}

// -------------------------------------------------------------------- what is run

fn hold(list: &str, seed: u64, count: u64) -> bool {
    let hand = hex::lines(list);
    let wrong = wrong_readers().into_iter().map(|(what, reader)| (what, Lent::to(reader)));
    notices("readers", wrong.collect(), &hand);
    let mut run = Run::of(Lent::to(library::read));
    run.family("hand-chosen texts", |on| hand.iter().for_each(|text| on(text)));
    run.family("texts that are hard in one way", |mut on| families::of_four_sizes(&mut on));
    run.family("strings of up to 4 tokens of 30, in 5 surroundings", |mut on| texts::up_to_four(&mut on));
    run.family("strings of up to 3 tokens of 61, in 16 surroundings", |mut on| texts::up_to_three(&mut on));
    run.family(&format!("texts of seed {seed}"), |mut on| texts::seeded(seed, count, &hand, &mut on));
    run.done(LAST)
}

fn run() -> bool {
    let arguments: Vec<String> = std::env::args().skip(1).collect();
    let arguments: Vec<&str> = arguments.iter().map(String::as_str).collect();
    match arguments[..] {
        ["held", list, seed, count] => hold(list, seed.parse().expect("a seed"), count.parse().expect("a count")),
        _ => {
            eprintln!("usage: parser held LIST SEED COUNT");
            false
        }
    }
}

fn main() {
    runs::with_a_deep_stack(run)
}
