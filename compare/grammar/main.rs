//! Holds the proved calls of the static library against the unchanged Rust and the second program, in one process.
//!
//! - `grammar held LIST SEED COUNT EXAMPLE ..`: LIST has texts in hexadecimal, one a line; COUNT texts are made from SEED; each EXAMPLE is
//!   a grammar file. Every text is handed to `hemvuda_normal_text` with room of every sort (held.rs): all lent words and bytes and the
//!   answer have to be the second program's, whose tree or refusal has to be the Rust's wherever the Rust has one. Every text is
//!   measured too, with nothing lent: the sizes of its tree, or what stops its reading. Each accepted text has to meet demand 3 by the
//!   library's own answers. `hemvuda_structurally_eq` is held on a sample of bodies (bodies.rs).
//!   The run fails where something differs, which is printed with the smallest text found for each family of texts; where a library
//!   that is wrong (wrong.rs) is not found out; where a cause from 1 to 25 is given by no call; where no normal text is longer than any
//!   output; where no two texts share a normal text; and where a normal text that is respelled has another one.
//! - `grammar speed EXAMPLE ..`: times beside the Rust's, as tables.

mod bodies;
mod causes;
mod classes;
mod error;
mod expected;
mod families;
mod held;
mod hex;
mod least;
mod library;
mod node;
mod parse;
mod random;
mod reading;
mod records;
mod room;
mod runs;
mod second;
mod speed;
#[cfg(stand_in)]
mod stand_in;
mod texts;
mod wrong;

// parse.rs asks for it at the crate's root.
pub use error::GeneratorError;
use held::{Laws, Lent, PROVED};
use random::Random;
use runs::{Holds, Run, notices};

/// Stops unless all that is wrong is found out.
fn wrong_ones(hand: &[Vec<u8>]) {
    assert!(library::version() == library::VERSION, "another version is linked");
    let shams = wrong::shams().into_iter().map(|(what, calls)| (what, Laws::of(calls)));
    notices("by demand 3 alone", shams.collect(), hand);
    let libraries = wrong::libraries().into_iter().map(|(what, calls)| (what, Lent::to(calls)));
    notices("libraries", libraries.collect(), hand);
    let long = format!("@top T{{'{}'}}", "\"".repeat(33_000));
    assert!(Lent::to(PROVED).hold(long.as_bytes()).is_ok(), "too long, and refused");
    if Lent::to(wrong::without_limit()).hold(long.as_bytes()).is_ok() {
        println!("wrong and not noticed: a normal text without a limit");
        std::process::exit(1);
    }
}

/// The normal texts of the first texts of a seed in other words: the texts have been held, so that each of these meets its like.
fn respelled(seed: u64, count: u64, hand: &[Vec<u8>], on: &mut dyn FnMut(&[u8])) {
    let random = &mut Random::of(seed);
    texts::seeded(seed, count, hand, &mut |text| {
        if let (true, Ok(tree)) = (text.len() < 1000, second::read(text)) {
            let normal = String::from_utf8(second::normal_text(&tree)).expect("UTF-8");
            on(texts::respelled(random, &normal).as_bytes());
        }
    });
}

fn hold(list: &str, seed: u64, count: u64, examples: &[&str]) -> bool {
    let hand = hex::lines(list);
    wrong_ones(&hand);
    let mut run = Run::of(Lent::to(PROVED));
    run.family("hand-chosen texts", |on| hand.iter().for_each(|text| on(text)));
    run.family("examples", |on| examples.iter().for_each(|path| on(&std::fs::read(path).expect("a grammar"))));
    run.family("texts that are hard in one way", |mut on| families::of_four_sizes(&mut on));
    run.family("strings of up to 3 tokens of 61, in 16 surroundings", |mut on| texts::up_to_three(&mut on));
    run.family(&format!("texts of seed {seed}"), |mut on| texts::seeded(seed, count, &hand, &mut on));
    let many = run.holds.laws.classes.many();
    run.family("normal texts of some of these, respelled", |on| respelled(seed, count / 4, &hand, on));
    let none_new = run.holds.laws.classes.many() == many;
    let Lent { laws, bodies, too_long, .. } = &run.holds;
    println!("{too_long} normal texts are longer than any output may be");
    // Each of the three prints.
    let passed = [laws.classes.done(), bodies.done(), run.done(25), *too_long > 0, none_new];
    passed.into_iter().all(|passed| passed)
}

fn run() -> bool {
    let arguments: Vec<String> = std::env::args().skip(1).collect();
    let arguments: Vec<&str> = arguments.iter().map(String::as_str).collect();
    match &arguments[..] {
        ["held", list, seed, count, examples @ ..] => {
            hold(list, seed.parse().expect("a seed"), count.parse().expect("a count"), examples)
        }
        ["speed", examples @ ..] => {
            speed::measure(examples);
            true
        }
        _ => {
            eprintln!("usage: grammar held LIST SEED COUNT EXAMPLE .. | grammar speed EXAMPLE ..");
            false
        }
    }
}

fn main() {
    runs::with_a_deep_stack(run)
}
