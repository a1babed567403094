//! The library's calls as safe functions. include/hemvuda.h says what they promise.

use std::fmt;

/// What a call answers, as C has it.
#[repr(C)]
#[derive(Clone, Copy)]
struct Answer {
    cause: u64,
    place: u64,
    line: u64,
    column: u64,
    first: u64,
    second: u64,
    third: u64,
}

unsafe extern "C" {
    safe fn hemvuda_version() -> u32;
    fn hemvuda_measure(text: *const u8, text_len: usize) -> Answer;
    fn hemvuda_read(
        text: *const u8,
        text_len: usize,
        records: *mut u32,
        records_len: usize,
        texts: *mut u8,
        texts_len: usize,
    ) -> Answer;
    fn hemvuda_normal_text(
        text: *const u8,
        text_len: usize,
        records: *mut u32,
        records_len: usize,
        texts: *mut u8,
        texts_len: usize,
        output: *mut u8,
        output_len: usize,
    ) -> Answer;
    fn hemvuda_structurally_eq(
        left_records: *const u32,
        left_records_len: usize,
        left_texts: *const u8,
        left_texts_len: usize,
        right_records: *const u32,
        right_records_len: usize,
        right_texts: *const u8,
        right_texts_len: usize,
    ) -> Answer;
}

/// The most bytes that a text or a normal text may have.
pub const LONGEST: usize = 65_535;
/// Words of a record.
pub const RECORD: usize = 7;

/// The most words that the tree of a text of so many bytes takes.
pub const fn records_for(bytes: usize) -> usize {
    28 * bytes + 7
}

/// The most bytes that its texts take.
pub const fn texts_for(bytes: usize) -> usize {
    6 * bytes
}

/// The version of the library that is linked: major · 10,000 + minor · 100 + patch.
pub fn version() -> u32 {
    hemvuda_version()
}

/// Why there is no answer: the cause by its number, and where.
#[derive(Clone, Copy, Debug, PartialEq, Eq)]
pub struct Refusal {
    pub cause: u64,
    pub place: usize,
    pub line: usize,
    pub column: usize,
}

impl fmt::Display for Refusal {
    fn fmt(&self, f: &mut fmt::Formatter<'_>) -> fmt::Result {
        write!(f, "refused {} at {} line {} column {}", self.cause, self.place, self.line, self.column)
    }
}

impl std::error::Error for Refusal {}

/// How many words and bytes a tree takes.
#[derive(Clone, Copy, Debug, PartialEq, Eq)]
pub struct Sizes {
    pub words: usize,
    pub bytes: usize,
}

/// A stored tree.
#[derive(Clone, Copy)]
pub struct Tree<'a> {
    pub records: &'a [u32],
    pub texts: &'a [u8],
}

impl Answer {
    fn said(self) -> Result<[usize; 2], Refusal> {
        match self {
            Answer { cause: 0, first, second, .. } => Ok([first as usize, second as usize]),
            Answer { cause, place, line, column, .. } => {
                Err(Refusal { cause, place: place as usize, line: line as usize, column: column as usize })
            }
        }
    }

    fn sizes(self) -> Result<Sizes, Refusal> {
        self.said().map(|[words, bytes]| Sizes { words, bytes })
    }
}

// Each call below is sound: a slice's pointer is not null and valid for its length, and what is written to is borrowed by none else.

/// How many words and bytes the tree of a text takes.
pub fn measure(text: &[u8]) -> Result<Sizes, Refusal> {
    unsafe { hemvuda_measure(text.as_ptr(), text.len()) }.sizes()
}

/// Stores the tree of a text over the front of `records` and `texts`.
pub fn read(text: &[u8], records: &mut [u32], texts: &mut [u8]) -> Result<Sizes, Refusal> {
    let (words, bytes) = (records.len(), texts.len());
    unsafe { hemvuda_read(text.as_ptr(), text.len(), records.as_mut_ptr(), words, texts.as_mut_ptr(), bytes) }.sizes()
}

/// Writes the normal text of a text over the front of `output`: that front. The tree is stored as `read` does.
pub fn normal_text<'a>(text: &[u8], records: &mut [u32], texts: &mut [u8], output: &'a mut [u8]) -> Result<&'a [u8], Refusal> {
    let answer = unsafe {
        hemvuda_normal_text(
            text.as_ptr(),
            text.len(),
            records.as_mut_ptr(),
            records.len(),
            texts.as_mut_ptr(),
            texts.len(),
            output.as_mut_ptr(),
            output.len(),
        )
    };
    let [bytes, _] = answer.said()?;
    Ok(&output[..bytes])
}

/// Whether two stored expressions are equal in all but starts and the `@` of a prop.
pub fn structurally_eq(left: Tree<'_>, right: Tree<'_>) -> Result<bool, Refusal> {
    let answer = unsafe {
        hemvuda_structurally_eq(
            left.records.as_ptr(),
            left.records.len(),
            left.texts.as_ptr(),
            left.texts.len(),
            right.records.as_ptr(),
            right.records.len(),
            right.texts.as_ptr(),
            right.texts.len(),
        )
    };
    let [equal, _] = answer.said()?;
    Ok(equal != 0)
}
