//! One text, whose normal text is written by all: what each answers, what every lent word and byte then holds, and demand 3.

use crate::bodies::Bodies;
use crate::classes::Classes;
use crate::library::{self, Answer, Tree};
use crate::room::{self, Room};
use crate::runs::{Difference, Holds, Seen};
use crate::second::{self, Node, Refusal};
use crate::{expected, records};

/// The library's calls, or others with their face.
#[derive(Clone, Copy)]
pub struct Calls {
    pub measure: fn(&[u8]) -> Answer,
    pub normal_text: fn(&[u8], &mut [u32], &mut [u8], &mut [u8]) -> Answer,
    pub structurally_eq: fn(Tree<'_>, Tree<'_>) -> Answer,
}

pub const PROVED: Calls = Calls {
    measure: library::measure,
    normal_text: library::normal_text,
    structurally_eq: library::structurally_eq,
};

/// How many words, bytes of texts and bytes of output are lent.
type Lengths = (usize, usize, usize);

/// Lent memory, and what is known of the texts before.
pub struct Lent {
    calls: Calls,
    words: Room<u32>,
    texts: Room<u8>,
    output: Room<u8>,
    pub laws: Laws,
    pub bodies: Bodies,
    /// Normal texts that are too long, whatever is lent.
    pub too_long: u64,
}

impl Lent {
    pub fn to(calls: Calls) -> Self {
        Lent {
            calls,
            words: room::words(),
            texts: room::bytes(),
            output: room::bytes(),
            laws: Laws::of(calls),
            bodies: Bodies::of(calls),
            too_long: 0,
        }
    }

    /// The answer that a text has, by the second program.
    fn answer<T>(text: &[u8], called: Result<T, Refusal>, said: impl FnOnce(T) -> Answer) -> Answer {
        match called {
            Ok(given) => said(given),
            Err(Refusal { cause, place }) => {
                let (line, column) = second::line_column(text, place);
                library::refused(cause, place, line, column)
            }
        }
    }

    /// Measures a text, for which nothing is lent: the sizes of its tree, or what stops its reading.
    fn measure(&self, text: &[u8], tree: &Result<Node, Refusal>) -> Result<usize, Difference> {
        let ours = (self.calls.measure)(text);
        let answer = Self::answer(text, tree.as_ref().map_err(|refusal| *refusal), |tree| {
            let stored = second::store(tree);
            library::said(stored.words.len(), stored.texts.len())
        });
        if ours != answer {
            return Err(format!("measured {ours:?}, not {answer:?}"));
        }
        Ok(answer.cause as usize)
    }

    /// Calls with so much lent, holds all of it against the second program's, and gives the cause.
    fn call(&mut self, text: &[u8], tree: &Result<Node, Refusal>, lent: Lengths) -> Result<usize, Difference> {
        let (our_words, words) = self.words.lend(lent.0);
        let (our_texts, texts) = self.texts.lend(lent.1);
        let (our_output, output) = self.output.lend(lent.2);
        let ours = (self.calls.normal_text)(text, our_words, our_texts, our_output);
        let stored = tree.as_ref().map_err(|refusal| *refusal);
        let written = stored.and_then(|tree| second::write_into(tree, words, texts, output));
        let answer = Self::answer(text, written, |held| library::said(held.output, 0));
        let differ = [self.words.settle("words"), self.texts.settle("texts"), self.output.settle("output")];
        if ours != answer {
            return Err(format!("answer {ours:?}, not {answer:?}; lent {lent:?}"));
        }
        match differ.into_iter().flatten().next() {
            Some(differ) => Err(format!("{differ}; lent {lent:?}")),
            None => Ok(answer.cause as usize),
        }
    }

    /// Room of every sort: ample, none, exactly full, each one short.
    fn rooms(&mut self, text: &[u8], tree: Option<&Node>) -> (Vec<Lengths>, Vec<u8>) {
        // With these bounds of a tree's words and texts neither 22 nor 23 may come.
        let ample = (28 * text.len() + 7, 6 * text.len(), 12 * text.len() + 100);
        let mut rooms = vec![ample, (0, 0, 0)];
        let Some(tree) = tree else {
            return (rooms, Vec::new());
        };
        let (stored, normal) = (second::store(tree), second::normal_text(tree));
        let (words, bytes, output) = (stored.words.len(), stored.texts.len(), normal.len());
        assert!(words <= ample.0 && bytes <= ample.1 && output <= ample.2, "more room is needed");
        self.too_long += u64::from(output > second::BYTES);
        rooms.extend([
            (words, bytes, output),
            (words - 1, bytes, output),
            (words - 1, bytes.saturating_sub(1), output - 1),
            (words, bytes, output - 1),
            (words, bytes, 0),
        ]);
        if bytes > 0 {
            rooms.extend([(words, bytes - 1, output), (words, bytes - 1, 0), (ample.0, 0, ample.2)]);
        }
        (rooms, normal)
    }
}

impl Holds for Lent {
    fn hold(&mut self, text: &[u8]) -> Result<Seen, Difference> {
        let read = expected::read(text)?;
        let (rooms, normal) = self.rooms(text, read.as_ref().ok());
        let mut seen = Vec::with_capacity(rooms.len() + 2);
        for lent in rooms {
            seen.push(self.call(text, &read, lent)?);
        }
        seen.push(self.measure(text, &read)?);
        if seen[0] == 0 {
            let again = expected::read(&normal)?;
            let stored = second::store(read.as_ref().expect("accepted"));
            seen.push(self.call(&normal, &again, (stored.words.len(), stored.texts.len(), normal.len()))?);
            self.laws.hold(text)?;
            seen.extend(self.bodies.hold(text, &normal)?);
        }
        Ok(seen)
    }
}

// -------------------------------------------------------------------- demand 3

/// Demand 3 by the library's own answers alone: a text reads as it measures; a normal text is accepted with as much lent, its tree agrees, and it is its own normal
/// text; and of all texts so far those have the same normal text whose trees agree, and no others.
pub struct Laws {
    calls: Calls,
    pub classes: Classes,
}

struct Written {
    answer: Answer,
    words: Vec<u32>,
    texts: Vec<u8>,
    output: Vec<u8>,
}

impl Written {
    /// The words but for the starts.
    fn agreeing(&self) -> Vec<u32> {
        let mut words = self.words.clone();
        words.iter_mut().skip(1).step_by(records::WIDTH).for_each(|start| *start = 0);
        words
    }
}

impl Laws {
    pub fn of(calls: Calls) -> Self {
        Laws {
            calls,
            classes: Classes::default(),
        }
    }

    fn written(&self, text: &[u8], words: usize, texts: usize, output: usize) -> Written {
        let (mut words, mut texts, mut output) = (vec![0; words], vec![0; texts], vec![0; output]);
        let answer = (self.calls.normal_text)(text, &mut words, &mut texts, &mut output);
        Written { answer, words, texts, output }
    }
}

impl Holds for Laws {
    fn hold(&mut self, text: &[u8]) -> Result<Seen, Difference> {
        let (mut words, mut texts) = (vec![0; 28 * text.len() + 7], vec![0; 6 * text.len()]);
        let read = library::read(text, &mut words, &mut texts);
        let measured = (self.calls.measure)(text);
        if read != measured {
            return Err(format!("measured {measured:?}, and read {read:?}"));
        }
        if read.cause != 0 {
            return Ok(vec![read.cause as usize]);
        }
        let (words, texts) = (read.first as usize, read.second as usize);
        let first = self.written(text, words, texts, second::BYTES);
        if first.answer.cause == 24 {
            return Ok(vec![24]);
        }
        if first.answer.cause != 0 || first.answer.first as usize > second::BYTES {
            return Err(format!("read, and then {:?}", first.answer));
        }
        let normal = &first.output[..first.answer.first as usize];
        let again = self.written(normal, words, texts, normal.len());
        if again.answer != first.answer || again.output != normal {
            return Err(format!("its normal text's is {:?} {:?}", again.answer, String::from_utf8_lossy(&again.output)));
        }
        let agreeing = first.agreeing();
        if again.agreeing() != agreeing || again.texts != first.texts {
            return Err("its normal text's tree does not agree".to_owned());
        }
        self.classes.add(text, normal, (&agreeing, &first.texts))?;
        Ok(vec![0])
    }
}
