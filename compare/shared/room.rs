//! Lent memory, twice: what is held lends its calls the one, and what it is held against the other.

use crate::runs::Difference;
use std::fmt::Debug;

/// Words or bytes that are there beyond what a call is told of.
const BEYOND: usize = 8;

/// Before each call a word or byte holds a number for its own place.
pub struct Room<T> {
    ours: Vec<T>,
    theirs: Vec<T>,
    fresh: Vec<T>,
    number: fn(usize) -> T,
    lent: usize,
}

impl<T: Copy + PartialEq + Debug> Room<T> {
    pub fn of(number: fn(usize) -> T) -> Self {
        Room {
            ours: Vec::new(),
            theirs: Vec::new(),
            fresh: Vec::new(),
            number,
            lent: 0,
        }
    }

    /// So much of both.
    pub fn lend(&mut self, length: usize) -> (&mut [T], &mut [T]) {
        if self.fresh.len() < length + BEYOND {
            self.fresh = (0..2 * length + BEYOND).map(self.number).collect();
            self.ours.clone_from(&self.fresh);
            self.theirs.clone_from(&self.fresh);
        }
        self.lent = length;
        (&mut self.ours[..length], &mut self.theirs[..length])
    }

    /// Where the two differ after a call, beyond what was lent too. Both are as before the call then.
    pub fn settle(&mut self, what: &str) -> Option<Difference> {
        let all = ..self.lent + BEYOND;
        let (ours, theirs) = (&self.ours[all], &self.theirs[all]);
        let differ = (ours != theirs).then(|| {
            let at = ours.iter().zip(theirs).take_while(|(one, two)| one == two).count();
            format!("{what}: {:?}, not {:?}, at {at} of {} lent", ours[at], theirs[at], self.lent)
        });
        self.ours[all].copy_from_slice(&self.fresh[all]);
        self.theirs[all].copy_from_slice(&self.fresh[all]);
        differ
    }
}

/// Room for words and for bytes.
pub fn words() -> Room<u32> {
    Room::of(|at| 1_000_000 + at as u32)
}

pub fn bytes() -> Room<u8> {
    Room::of(|at| (at % 251) as u8)
}
