//! Prints the normal text of each grammar file that is named, or why it has none. Status: 0 if all have one, 1 if some are refused, 2 if some
//! cannot be read or the output cannot be written. `--bodies A B` says instead whether the rules of two texts of one rule each are equal.

// Not every function of it is called here.
#[allow(dead_code)]
mod hemvuda;

use hemvuda::{LONGEST, RECORD, Refusal, Tree, records_for, texts_for};
use std::io::{self, Read, Write};
use std::process::ExitCode;
use std::{env, fs};

/// One byte more than a text may have is read, so that a longer one is refused with 1 and not cut.
fn text_of(name: &str) -> io::Result<Vec<u8>> {
    let mut text = Vec::new();
    fs::File::open(name)?.take(LONGEST as u64 + 1).read_to_end(&mut text)?;
    Ok(text)
}

fn print_normal_text(name: &str) -> io::Result<Result<(), Refusal>> {
    let text = text_of(name)?;
    // With so much lent no text is ever refused with 22 or 23.
    let (mut records, mut texts) = (vec![0; records_for(text.len())], vec![0; texts_for(text.len())]);
    let mut output = vec![0; LONGEST];
    match hemvuda::normal_text(&text, &mut records, &mut texts, &mut output) {
        Ok(normal) => io::stdout().write_all(normal).map(Ok),
        Err(refusal) => Ok(Err(refusal)),
    }
}

/// The body of a text that is one top rule without props or params: all of its records but the last two, the rule's and the grammar's. Its
/// texts are the first, so their places are right as they are.
fn body(rule: &[u8]) -> Result<(Vec<u32>, Vec<u8>), Refusal> {
    let sizes = hemvuda::measure(rule)?;
    let (mut records, mut texts) = (vec![0; sizes.words], vec![0; sizes.bytes]);
    hemvuda::read(rule, &mut records, &mut texts)?;
    records.truncate(sizes.words - 2 * RECORD);
    Ok((records, texts))
}

fn have_equal_bodies(left: &[u8], right: &[u8]) -> Result<bool, Refusal> {
    let (left, right) = (body(left)?, body(right)?);
    hemvuda::structurally_eq(Tree { records: &left.0, texts: &left.1 }, Tree { records: &right.0, texts: &right.1 })
}

fn main() -> ExitCode {
    let arguments: Vec<String> = env::args().skip(1).collect();
    if let [option, left, right] = &arguments[..]
        && option == "--bodies"
    {
        return match have_equal_bodies(left.as_bytes(), right.as_bytes()) {
            Ok(equal) => {
                println!("{}", if equal { "same" } else { "different" });
                u8::from(!equal).into()
            }
            Err(refusal) => {
                eprintln!("{refusal}");
                2.into()
            }
        };
    }
    let mut status = 0;
    for name in &arguments {
        match print_normal_text(name) {
            Ok(Ok(())) => {}
            Ok(Err(refusal)) => {
                eprintln!("{name}: {refusal}");
                status = status.max(1);
            }
            Err(error) => {
                eprintln!("{name}: {error}");
                status = 2;
            }
        }
    }
    status.into()
}
