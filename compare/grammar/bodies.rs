//! `structurally_eq` on the bodies of first top rules, against the Rust's, and on damaged words, against the second program's.
//! This is a sample: compare/tree holds it on many more.

use crate::held::Calls;
use crate::library::{self, Answer, Tree};
use crate::node::Expression;
use crate::random::Random;
use crate::runs::{Difference, Seen};
use crate::{parse, records, second};

/// One accepted text of so many is compared, with the bodies of so many before.
const ONE_IN: usize = 4;
const BEFORE: usize = 3;

struct Body {
    expression: Expression,
    stored: records::Stored,
}

fn body(text: &[u8]) -> Option<Body> {
    let source = std::str::from_utf8(text).expect("an accepted text");
    let mut grammar = parse::parse_grammar(source, None).expect("an accepted text");
    if grammar.top_rules.is_empty() {
        return None;
    }
    let expression = grammar.top_rules.swap_remove(0).expression;
    let stored = records::of_expression(&expression);
    Some(Body { expression, stored })
}

pub struct Bodies {
    calls: Calls,
    random: Random,
    before: Vec<Body>,
    texts: usize,
    /// How often different, equal and refused.
    given: [u64; 3],
}

impl Bodies {
    pub fn of(calls: Calls) -> Self {
        Bodies {
            calls,
            random: Random::of(1),
            before: Vec::new(),
            texts: 0,
            given: [0; 3],
        }
    }

    fn call(&self, left: Tree<'_>, right: Tree<'_>, expected: Answer) -> Result<usize, Difference> {
        let ours = (self.calls.structurally_eq)(left, right);
        if ours != expected {
            return Err(format!("answer of structurally_eq {ours:?}, not {expected:?}; on {left:?} and {right:?}"));
        }
        Ok(expected.cause as usize)
    }

    /// Two bodies, and both with one word changed or left out.
    fn pair(&mut self, left: &Body, right: &Body, seen: &mut Seen) -> Result<(), Difference> {
        let equal = left.expression.structurally_eq(&right.expression);
        let [left, right] = [left, right].map(|body| (&body.stored.words[..], &body.stored.texts[..]));
        let expected = library::said(usize::from(equal), 0);
        seen.push(self.call(left, right, expected)?);
        self.given[usize::from(equal)] += 1;
        for (one, two, first) in [(left, right, true), (right, left, false)] {
            let mut words = one.0.to_vec();
            let at = self.random.below(words.len());
            match self.random.below(6) {
                0 => words.truncate(at),
                1 => words[at] = words[at].wrapping_add(1),
                2 => words[at] = words[at].wrapping_sub(1),
                3 => drop(words.drain(..at / records::WIDTH * records::WIDTH)),
                _ => words[at] = self.random.below(44) as u32,
            }
            // Bytes behind the texts do not matter, one that is missing does.
            let mut texts = [one.1, b"past"].concat();
            texts.truncate(one.1.len() + self.random.below(5));
            if self.random.one_in(8) {
                texts.truncate(one.1.len().saturating_sub(1));
            }
            let damaged = (&words[..], &texts[..]);
            let (left, right) = if first { (damaged, two) } else { (two, damaged) };
            let expected = match second::structurally_eq(left, right) {
                Ok(equal) => library::said(usize::from(equal), 0),
                Err(refusal) => library::refused(refusal.cause, 0, 1, 0),
            };
            seen.push(self.call(left, right, expected)?);
            self.given[if expected.cause == 0 { expected.first as usize } else { 2 }] += 1;
        }
        Ok(())
    }

    /// The body of one text of some, with those of texts before and with that of its own normal text.
    pub fn hold(&mut self, text: &[u8], normal: &[u8]) -> Result<Seen, Difference> {
        let mut seen = Vec::new();
        self.texts += 1;
        if self.texts % ONE_IN != 0 {
            return Ok(seen);
        }
        let (Some(body), Some(again)) = (self::body(text), self::body(normal)) else {
            return Ok(seen);
        };
        self.pair(&body, &again, &mut seen)?;
        let before = std::mem::take(&mut self.before);
        let held = before.iter().try_for_each(|other| self.pair(&body, other, &mut seen));
        self.before = before;
        held?;
        if self.before.len() == BEFORE {
            self.before.remove(0);
        }
        self.before.push(body);
        Ok(seen)
    }

    /// Prints what was answered, and says whether each sort of answer was given.
    pub fn done(&self) -> bool {
        let [different, equal, refused] = self.given;
        println!("structurally_eq: {equal} pairs equal, {different} different, {refused} refused by 25");
        !self.given.contains(&0)
    }
}
