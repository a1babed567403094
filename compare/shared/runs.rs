//! Families of texts, each text held by all: what is counted, and the smallest text on which something differs.

use std::time::{Duration, Instant};

/// What differs, with both answers.
pub type Difference = String;

/// The causes of all calls on a text: with ample room first (0 for none).
pub type Seen = Vec<usize>;

/// Whatever holds a text.
pub trait Holds {
    fn hold(&mut self, text: &[u8]) -> Result<Seen, Difference>;
}

/// The causes, and 0 for none.
const CAUSES: usize = 26;
/// After so many differences the rest of a family is left out.
const ENOUGH: u64 = 1000;

pub struct Run<H> {
    pub holds: H,
    /// Texts by their answer with ample room, and then calls by theirs.
    texts: [u64; CAUSES],
    calls: [u64; CAUSES],
    differ: u64,
}

impl<H: Holds> Run<H> {
    pub fn of(holds: H) -> Self {
        Run {
            holds,
            texts: [0; CAUSES],
            calls: [0; CAUSES],
            differ: 0,
        }
    }

    pub fn family(&mut self, name: &str, texts: impl FnOnce(&mut dyn FnMut(&[u8]))) {
        let begun = Instant::now();
        let before = self.texts;
        let (mut held, mut differ, mut smallest) = (0, 0, None::<Vec<u8>>);
        texts(&mut |text| {
            if differ == ENOUGH {
                return;
            }
            held += 1;
            match self.holds.hold(text) {
                Ok(seen) => {
                    self.texts[seen[0]] += 1;
                    seen.iter().for_each(|&cause| self.calls[cause] += 1);
                }
                Err(_) => {
                    differ += 1;
                    if smallest.as_ref().is_none_or(|other| text.len() < other.len()) {
                        smallest = Some(text.to_vec());
                    }
                }
            }
        });
        let accepted = self.texts[0] - before[0];
        println!("{name}: {held} texts, {accepted} accepted, {differ} differ, {:.0} s", begun.elapsed().as_secs_f64());
        if let Some(text) = smallest {
            let text = self.shrunk(text);
            let what = self.holds.hold(&text).expect_err("it still differs");
            println!("  on {:?}\n  {what}", String::from_utf8_lossy(&text));
        }
        self.differ += differ;
    }

    /// A text with parts left out that still differs, for as long as one is found soon.
    fn shrunk(&mut self, mut text: Vec<u8>) -> Vec<u8> {
        let begun = Instant::now();
        let mut size = text.len() / 2;
        while size > 0 && begun.elapsed() < Duration::from_secs(20) {
            let mut at = 0;
            while at + size <= text.len() {
                let mut shorter = text.clone();
                shorter.drain(at..at + size);
                if self.holds.hold(&shorter).is_err() {
                    text = shorter;
                } else {
                    at += size;
                }
            }
            size /= 2;
        }
        text
    }

    /// Prints what was answered how often, and says whether nothing differs and every cause up to the last was given.
    pub fn done(&self, last: usize) -> bool {
        tally("texts", &self.texts);
        tally("calls", &self.calls);
        let texts = self.texts.iter().sum::<u64>() + self.differ;
        println!("{texts} texts, {} calls, {} texts differ", self.calls.iter().sum::<u64>(), self.differ);
        let never: Vec<_> = (0..=last).filter(|&cause| self.calls[cause] == 0).collect();
        if !never.is_empty() {
            println!("never answered: {never:?}");
        }
        self.differ == 0 && never.is_empty()
    }
}

fn tally(what: &str, by_cause: &[u64; CAUSES]) {
    let given = (1..CAUSES).filter(|&cause| by_cause[cause] > 0);
    let causes = given.map(|cause| format!("{cause}: {}", by_cause[cause]));
    println!("{what}: {} accepted, {}", by_cause[0], causes.collect::<Vec<_>>().join(", "));
}

/// Stops unless each of these, which are wrong in one way, is found out on some of the texts.
pub fn notices<H: Holds>(what: &str, wrong: Vec<(&str, H)>, texts: &[Vec<u8>]) {
    let many = wrong.len();
    for (way, mut holds) in wrong {
        let short = texts.iter().filter(|text| text.len() < 2000);
        if short.filter(|text| holds.hold(text).is_err()).count() == 0 {
            println!("wrong and not noticed, {what}: {way}");
            std::process::exit(1);
        }
    }
    println!("{what}: {many} that are wrong are each found out");
}

/// Runs a comparison with a deep stack, since parse_grammar has no limit of levels, and ends with its result.
pub fn with_a_deep_stack(run: fn() -> bool) -> ! {
    let running = std::thread::Builder::new().stack_size(1 << 30).spawn(run).expect("a thread");
    let passed = running.join().expect("the comparison does not panic");
    std::process::exit(i32::from(!passed));
}
