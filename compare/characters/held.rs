// Appended to a copy of parse.rs, so that the functions held against ours can be called.
pub mod held {
    pub fn is_punctuation(c: char) -> bool {
        super::is_punctuation(c)
    }

    pub fn is_word(c: char) -> bool {
        super::is_word(c)
    }

    pub fn is_ecmascript_whitespace(c: char) -> bool {
        super::is_ecmascript_whitespace(c)
    }

    pub fn is_line_terminator(c: char) -> bool {
        super::is_line_terminator(c)
    }

    pub fn scan_word(source: &str, from: usize) -> usize {
        super::scan_while(source, from, super::is_word)
    }

    pub fn line_info(source: &str, position: usize) -> (usize, usize) {
        super::line_info(source, position)
    }
}
