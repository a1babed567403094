//! What a text gives where there is room.
//!
//! A program that uses this module has `mod reading;` and what that needs, and `mod second;`, at its root.

use crate::runs::Difference;
use crate::second::{Node, Refusal};
use crate::{reading, second};

/// The second program's answer. It has to be the Rust's too, which has no limits: the Rust is asked where the second program does not
/// answer with 1, 2 or 3.
pub fn read(text: &[u8]) -> Result<Result<Node, Refusal>, Difference> {
    let read = second::read(text);
    if matches!(read, Err(Refusal { cause: 1..=3, .. })) {
        return Ok(read);
    }
    let source = std::str::from_utf8(text).expect("refused by 2 otherwise");
    let rust = reading::read(source).map(|stored| (stored.words, stored.texts));
    let other = match &read {
        Err(Refusal { cause, place }) => {
            let (line, column) = second::line_column(text, *place);
            Err((*cause, *place, line, column))
        }
        Ok(tree) => {
            let stored = second::store(tree);
            Ok((stored.words, stored.texts))
        }
    };
    if other != rust {
        return Err(format!("the second program {other:?}, the Rust {rust:?}"));
    }
    Ok(read)
}
