//! The proved calls, as crates/hemvuda exports them. All that is known here of their face stands in this file.

unsafe extern "C" {
    fn hemvuda_version() -> u32;
    fn hemvuda_measure(text: *const u8, text_len: usize) -> Answer;
    fn hemvuda_read(
        text: *const u8,
        text_len: usize,
        records: *mut u32,
        records_len: usize,
        texts: *mut u8,
        texts_len: usize,
    ) -> Answer;
    fn hemvuda_normal_text(
        text: *const u8,
        text_len: usize,
        records: *mut u32,
        records_len: usize,
        texts: *mut u8,
        texts_len: usize,
        output: *mut u8,
        output_len: usize,
    ) -> Answer;
    fn hemvuda_structurally_eq(
        left_records: *const u32,
        left_records_len: usize,
        left_texts: *const u8,
        left_texts_len: usize,
        right_records: *const u32,
        right_records_len: usize,
        right_texts: *const u8,
        right_texts_len: usize,
    ) -> Answer;
}

/// An answer: number, place, line, column, and what the call says.
#[repr(C)]
#[derive(Clone, Copy, Debug, PartialEq, Eq)]
pub struct Answer {
    pub cause: u64,
    pub place: u64,
    pub line: u64,
    pub column: u64,
    pub first: u64,
    pub second: u64,
    pub third: u64,
}

/// The words and texts of a stored tree.
pub type Tree<'a> = (&'a [u32], &'a [u8]);

/// The version that is linked.
pub const VERSION: u32 = 10_000;

pub fn version() -> u32 {
    unsafe { hemvuda_version() }
}

/// The answer says how many words and bytes hold the tree.
pub fn measure(text: &[u8]) -> Answer {
    unsafe { hemvuda_measure(text.as_ptr(), text.len()) }
}

/// The answer says how many words and bytes hold the tree.
pub fn read(text: &[u8], records: &mut [u32], texts: &mut [u8]) -> Answer {
    unsafe { hemvuda_read(text.as_ptr(), text.len(), records.as_mut_ptr(), records.len(), texts.as_mut_ptr(), texts.len()) }
}

/// The answer says how many bytes the normal text has, and 0.
pub fn normal_text(text: &[u8], records: &mut [u32], texts: &mut [u8], output: &mut [u8]) -> Answer {
    unsafe {
        hemvuda_normal_text(
            text.as_ptr(),
            text.len(),
            records.as_mut_ptr(),
            records.len(),
            texts.as_mut_ptr(),
            texts.len(),
            output.as_mut_ptr(),
            output.len(),
        )
    }
}

/// The answer says 1 or 0, and 0.
pub fn structurally_eq(left: Tree<'_>, right: Tree<'_>) -> Answer {
    unsafe {
        hemvuda_structurally_eq(
            left.0.as_ptr(),
            left.0.len(),
            left.1.as_ptr(),
            left.1.len(),
            right.0.as_ptr(),
            right.0.len(),
            right.1.as_ptr(),
            right.1.len(),
        )
    }
}

/// The answer that says these two numbers.
pub fn said(first: usize, second: usize) -> Answer {
    Answer { cause: 0, place: 0, line: 0, column: 0, first: first as u64, second: second as u64, third: 0 }
}

/// The answer that means a refusal.
pub fn refused(cause: u32, place: usize, line: usize, column: usize) -> Answer {
    let [place, line, column] = [place, line, column].map(|number| number as u64);
    Answer { cause: u64::from(cause), place, line, column, first: 0, second: 0, third: 0 }
}
