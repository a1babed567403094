//! What the unchanged `parse_grammar` answers, as a refusal or stored records.
//!
//! A program that uses this module has `mod causes;`, `mod node;`, `mod parse;` and `mod records;` at its root.

use crate::causes::cause;
use crate::parse::parse_grammar;
use crate::records::{Stored, of_grammar};

/// Cause, place, line and column.
pub type Refusal = (u32, usize, usize, usize);

pub fn read(source: &str) -> Result<Stored, Refusal> {
    match parse_grammar(source, None) {
        Ok(grammar) => Ok(of_grammar(&grammar)),
        Err(error) => {
            let message = error.message();
            let place = error.position().expect("each error here has a place");
            let (line, column) = line_column(message);
            Err((cause(message), place, line, column))
        }
    }
}

/// A message ends with `(line:column)`, since no file name was given.
fn line_column(message: &str) -> (usize, usize) {
    message
        .rsplit_once('(')
        .and_then(|(_, place)| place.strip_suffix(')'))
        .and_then(|place| place.split_once(':'))
        .and_then(|(line, column)| Some((line.parse().ok()?, column.parse().ok()?)))
        .unwrap_or_else(|| panic!("no line and column: {message}"))
}
