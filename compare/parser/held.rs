//! One text, read by all three: what each answers, and what every lent word and byte then holds.

use crate::library::{self, Answer};
use crate::room::{self, Room};
use crate::runs::{Difference, Holds, Seen};
use crate::second::{self, Node, Refusal};
use crate::expected;

/// A reader with the library's face.
pub type Reader = fn(&[u8], &mut [u32], &mut [u8]) -> Answer;

pub struct Lent {
    words: Room<u32>,
    texts: Room<u8>,
    reader: Reader,
}

impl Lent {
    pub fn to(reader: Reader) -> Self {
        Lent {
            words: room::words(),
            texts: room::bytes(),
            reader,
        }
    }

    /// Reads a text into so many words and bytes, holds it against the second program's, and gives the cause.
    fn call(&mut self, text: &[u8], tree: &Result<Node, Refusal>, words: usize, bytes: usize) -> Result<usize, Difference> {
        let (our_words, words) = self.words.lend(words);
        let (our_texts, texts) = self.texts.lend(bytes);
        let ours = (self.reader)(text, our_words, our_texts);
        let stored = tree.as_ref().map_err(|refusal| *refusal);
        let answer = match stored.and_then(|tree| second::store_into(tree, words, texts)) {
            Ok(held) => library::said(held.words, held.texts),
            Err(Refusal { cause, place }) => {
                let (line, column) = second::line_column(text, place);
                library::refused(cause, place, line, column)
            }
        };
        let differ = [self.words.settle("words"), self.texts.settle("texts")];
        if ours != answer {
            return Err(format!("answer {ours:?}, not {answer:?}"));
        }
        match differ.into_iter().flatten().next() {
            Some(differ) => Err(differ),
            None => Ok(answer.cause as usize),
        }
    }
}

impl Holds for Lent {
    /// Holds a text with room of every sort: ample, and where there is a tree exactly full, one short and none.
    fn hold(&mut self, text: &[u8]) -> Result<Seen, Difference> {
        let read = expected::read(text)?;
        let ample = (28 * text.len() + 7, 6 * text.len());
        let mut rooms = vec![ample, (0, 0)];
        if let Ok(tree) = &read {
            let stored = second::store(tree);
            let (words, bytes) = (stored.words.len(), stored.texts.len());
            assert!(words <= ample.0 && bytes <= ample.1, "more room is needed");
            rooms.extend([(words, bytes), (words - 1, bytes), (words - 1, bytes.saturating_sub(1))]);
            if bytes > 0 {
                rooms.extend([(words, bytes - 1), (ample.0, 0)]);
            }
        }
        rooms.into_iter().map(|(words, bytes)| self.call(text, &read, words, bytes)).collect()
    }
}
