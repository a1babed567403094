//! The second program under the names of the proved calls: to try a comparison itself, without the library.

use crate::library::{self, Answer};
use crate::second::{self, Held, Refusal};
use std::slice::{from_raw_parts, from_raw_parts_mut};

fn answer<T>(text: &[u8], called: Result<T, Refusal>, said: impl FnOnce(T) -> Answer) -> Answer {
    match called {
        Ok(given) => said(given),
        Err(Refusal { cause, place }) => {
            let (line, column) = second::line_column(text, place);
            library::refused(cause, place, line, column)
        }
    }
}

#[unsafe(no_mangle)]
extern "C" fn hemvuda_version() -> u32 {
    library::VERSION
}

#[unsafe(no_mangle)]
unsafe extern "C" fn hemvuda_measure(text: *const u8, text_len: usize) -> Answer {
    let text = unsafe { from_raw_parts(text, text_len) };
    answer(text, second::read(text), |tree| {
        let stored = second::store(&tree);
        library::said(stored.words.len(), stored.texts.len())
    })
}

#[unsafe(no_mangle)]
unsafe extern "C" fn hemvuda_read(
    text: *const u8,
    text_len: usize,
    records: *mut u32,
    records_len: usize,
    texts: *mut u8,
    texts_len: usize,
) -> Answer {
    let text = unsafe { from_raw_parts(text, text_len) };
    let (records, texts) = unsafe { (from_raw_parts_mut(records, records_len), from_raw_parts_mut(texts, texts_len)) };
    answer(text, second::read_into(text, records, texts), |held: Held| library::said(held.words, held.texts))
}

#[unsafe(no_mangle)]
unsafe extern "C" fn hemvuda_normal_text(
    text: *const u8,
    text_len: usize,
    records: *mut u32,
    records_len: usize,
    texts: *mut u8,
    texts_len: usize,
    output: *mut u8,
    output_len: usize,
) -> Answer {
    let text = unsafe { from_raw_parts(text, text_len) };
    let (records, texts) = unsafe { (from_raw_parts_mut(records, records_len), from_raw_parts_mut(texts, texts_len)) };
    let output = unsafe { from_raw_parts_mut(output, output_len) };
    answer(text, second::normal_into(text, records, texts, output), |held: Held| library::said(held.output, 0))
}

#[unsafe(no_mangle)]
unsafe extern "C" fn hemvuda_structurally_eq(
    left: *const u32,
    left_len: usize,
    lefts: *const u8,
    lefts_len: usize,
    right: *const u32,
    right_len: usize,
    rights: *const u8,
    rights_len: usize,
) -> Answer {
    let left = unsafe { (from_raw_parts(left, left_len), from_raw_parts(lefts, lefts_len)) };
    let right = unsafe { (from_raw_parts(right, right_len), from_raw_parts(rights, rights_len)) };
    answer(&[], second::structurally_eq(left, right), |equal| library::said(usize::from(equal), 0))
}
