//! What is held against what, how often, and how often it differs.

use std::fmt::Debug;

pub struct Tally {
    what: &'static str,
    pub held: u64,
    differ: u64,
}

impl Tally {
    pub fn new(what: &'static str) -> Self {
        Tally {
            what,
            held: 0,
            differ: 0,
        }
    }

    /// Counts a pair of answers; the first few that differ are printed, with what they are about.
    pub fn same<T: PartialEq + Debug>(&mut self, ours: T, theirs: T, on: impl FnOnce() -> String) {
        self.held += 1;
        if ours != theirs {
            self.differ += 1;
            if self.differ < 10 {
                println!("{}: {ours:?}, not {theirs:?}, on {}", self.what, on());
            }
        }
    }

    /// Prints the count, and says how many differ.
    pub fn done(self) -> u64 {
        println!("{:<40} {:>9} held, {} differ", self.what, self.held, self.differ);
        self.differ
    }
}
