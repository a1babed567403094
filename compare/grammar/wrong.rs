//! Libraries that are each wrong in one way.

use crate::held::{Calls, PROVED};
use crate::library::{self, Answer};
use crate::second;

/// A normal text with something wrong about it, by what it does to the proved one's answer and to the memory.
macro_rules! wrong {
    ($text:ident $words:ident $texts:ident $output:ident $answer:ident $body:block) => {{
        fn normal_text($text: &[u8], $words: &mut [u32], $texts: &mut [u8], $output: &mut [u8]) -> Answer {
            #[allow(unused_mut)]
            let mut $answer = library::normal_text($text, $words, $texts, $output);
            $body
            $answer
        }
        Calls { normal_text, ..PROVED }
    }};
}

/// The proved call with other lengths lent or another text.
macro_rules! other {
    ($text:ident $words:ident $texts:ident $output:ident $body:block) => {{
        fn normal_text($text: &[u8], $words: &mut [u32], $texts: &mut [u8], $output: &mut [u8]) -> Answer $body
        Calls { normal_text, ..PROVED }
    }};
}

/// A measure with something wrong about it.
macro_rules! mismeasured {
    ($text:ident $answer:ident $body:block) => {{
        fn measure($text: &[u8]) -> Answer {
            let mut $answer = library::measure($text);
            $body
            $answer
        }
        Calls { measure, ..PROVED }
    }};
}

/// A comparison with something wrong about it.
macro_rules! miscompared {
    ($left:ident $right:ident $answer:ident $body:block) => {{
        fn structurally_eq($left: library::Tree<'_>, $right: library::Tree<'_>) -> Answer {
            let mut $answer = library::structurally_eq($left, $right);
            $body
            $answer
        }
        Calls { structurally_eq, ..PROVED }
    }};
}

fn set<T>(lent: &mut [T], at: usize, to: T) {
    if let Some(place) = lent.get_mut(at) {
        *place = to;
    }
}

fn fewer<T>(lent: &mut [T]) -> &mut [T] {
    let length = lent.len().saturating_sub(1);
    &mut lent[..length]
}

/// Puts another normal text in the place of the one that is there.
fn instead(bytes: &[u8], output: &mut [u8], answer: &mut Answer) {
    if answer.cause == 0 && bytes.len() <= output.len() {
        output[..bytes.len()].copy_from_slice(bytes);
        answer.first = bytes.len() as u64;
    }
}

/// Those that demand 3 shuts out: a law has to find them out without another program's answer.
pub fn shams() -> Vec<(&'static str, Calls)> {
    vec![
        ("copies its input", wrong!(text words texts output answer { instead(text, output, &mut answer) })),
        ("constant", wrong!(text words texts output answer { instead(b"@top T { }\n", output, &mut answer) })),
        ("only its first line", wrong!(text words texts output answer {
            let end = output.iter().position(|&byte| byte == b'\n').map_or(0, |at| at + 1);
            if answer.cause == 0 { answer.first = answer.first.min(end as u64) }
        })),
        ("a name is another", wrong!(text words texts output answer {
            if answer.cause == 0 { output.iter_mut().filter(|byte| **byte == b'b').for_each(|byte| *byte = b'a') }
        })),
        ("measures a word too many", mismeasured!(text answer { if answer.cause == 0 { answer.first += 1 } })),
    ]
}

/// What is wrong about an answer, or about what is stored or left.
pub fn libraries() -> Vec<(&'static str, Calls)> {
    let mut wrong = shams();
    wrong.extend([
        ("one space is two", wrong!(text words texts output answer {
            if let (0, Some(at)) = (answer.cause, output.iter().position(|&byte| byte == b' ')) {
                let end = answer.first as usize;
                if end < output.len() {
                    output.copy_within(at..end, at + 1);
                    answer.first += 1;
                }
            }
        })),
        ("24 with just enough room", other!(text words texts output { library::normal_text(text, words, texts, fewer(output)) })),
        ("23 with just enough room", other!(text words texts output { library::normal_text(text, words, fewer(texts), output) })),
        ("22 with just enough room", other!(text words texts output { library::normal_text(text, fewer(words), texts, output) })),
        ("output touched under 24", wrong!(text words texts output answer { if answer.cause == 24 { set(output, 0, b'@') } })),
        ("tree not stored under 24", other!(text words texts output {
            let before = (words.to_vec(), texts.to_vec());
            let answer = library::normal_text(text, words, texts, output);
            if answer.cause == 24 {
                words.copy_from_slice(&before.0);
                texts.copy_from_slice(&before.1);
            }
            answer
        })),
        ("tree not stored at all", other!(text words texts output {
            library::normal_text(text, &mut words.to_vec(), &mut texts.to_vec(), output)
        })),
        ("a byte past the normal text", wrong!(text words texts output answer { if answer.cause == 0 { set(output, answer.first as usize, b'~') } })),
        ("a byte past the texts", wrong!(text words texts output answer {
            if answer.cause == 0 && texts.len() > text.len() { set(texts, text.len(), b'~') }
        })),
        ("the last word that is lent", wrong!(text words texts output answer { if let Some(last) = words.last_mut() { *last = 0 } })),
        ("a word under a refusal", wrong!(text words texts output answer { if answer.cause == 16 { set(words, 40, 0) } })),
        ("a byte of the output under a refusal", wrong!(text words texts output answer { if answer.cause == 17 { set(output, 3, b'~') } })),
        ("a byte of the output under 23", wrong!(text words texts output answer { if answer.cause == 23 { set(output, 0, b'@') } })),
        ("each refusal is 8", wrong!(text words texts output answer { if answer.cause > 0 { answer.cause = 8 } })),
        ("23 before 22", wrong!(text words texts output answer { if answer.cause == 22 && texts.is_empty() { answer.cause = 23 } })),
        ("24 before 23", wrong!(text words texts output answer { if answer.cause == 23 && output.is_empty() { answer.cause = 24 } })),
        ("place", wrong!(text words texts output answer { if answer.cause == 17 { answer.place += 1 } })),
        ("line", wrong!(text words texts output answer { if answer.cause > 3 { answer.line += 1 } })),
        ("column", wrong!(text words texts output answer { if answer.line > 1 { answer.column += 1 } })),
        ("a place where nothing is refused", wrong!(text words texts output answer { if answer.cause == 0 { answer.place = 1 } })),
        ("a length under 24", wrong!(text words texts output answer { if answer.cause == 24 { answer.first = 1 } })),
        ("the second number", wrong!(text words texts output answer { if answer.cause == 0 { answer.second = 1 } })),
        ("the third number", wrong!(text words texts output answer { answer.third = 1 })),
        ("a start", wrong!(text words texts output answer { if answer.cause == 0 { words[1] ^= 1 } })),
        ("the last byte of the normal text", wrong!(text words texts output answer { if answer.cause == 0 { output[answer.first as usize - 1] = b' ' } })),
        ("measures words for bytes", mismeasured!(text answer { answer.second = answer.first })),
        ("measures bytes for words", mismeasured!(text answer { answer.first = answer.second })),
        ("measures no more than 100 records", mismeasured!(text answer { answer.first = answer.first.min(700) })),
        ("measures one tree for all", Calls { measure: |_| library::measure(b"@top T{}"), ..PROVED }),
        ("measures texts that are refused", mismeasured!(text answer { if answer.cause == 17 { answer = library::said(21, 1) } })),
        ("measures a refusal without its line", mismeasured!(text answer { if answer.cause > 3 { answer.line = 1 } })),
        ("measures only where memory is lent", mismeasured!(text answer { if answer.cause == 0 { answer = library::refused(22, 0, 1, 0) } })),
        ("always equal", miscompared!(left right answer { if answer.cause == 0 { answer.first = 1 } })),
        ("starts compared", miscompared!(left right answer { if left.0 != right.0 { answer.first = 0 } })),
        ("different instead of 25", miscompared!(left right answer { if answer.cause == 25 { answer = library::said(0, 0) } })),
        ("only the left tree tested", miscompared!(left right answer {
            if answer.cause == 25 && second::is_tree(left.0, left.1, second::Root::Expression) { answer = library::said(0, 0) }
        })),
    ]);
    wrong
}

/// A normal text of more than 65,535 bytes, written where so much is lent.
pub fn without_limit() -> Calls {
    other!(text words texts output {
        let mut answer = library::normal_text(text, words, texts, output);
        if answer.cause == 24 {
            let normal = second::normal_text(&second::read(text).expect("accepted"));
            answer = library::said(0, 0);
            instead(&normal, output, &mut answer);
        }
        answer
    })
}
