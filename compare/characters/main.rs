// Holds the proved functions of crates/characters against Rust's own, and measures both. Any difference is printed and fails the run.
mod error;
mod least;
mod node;
mod parse;
mod random;
mod tally;

// parse.rs asks for it at the crate's root.
pub use error::GeneratorError;
use parse::held;
use random::Random;
use std::hint::black_box;
use tally::Tally;

#[allow(improper_ctypes)]
unsafe extern "C" {
    fn characters_check(text: &[u8]) -> usize;
    fn characters_scan_word(text: &[u8], from: usize) -> usize;
    fn error_line(text: &[u8], place: usize) -> usize;
    fn error_column(text: &[u8], place: usize) -> usize;
    fn characters_put(out: &mut [u8], at: usize, code: u32) -> usize;
    fn characters_is_scalar(code: u32) -> bool;
    fn characters_is_alphabetic(code: u32) -> bool;
    fn characters_is_whitespace(code: u32) -> bool;
    fn characters_is_ascii_digit(code: u32) -> bool;
    fn characters_is_ascii_hexdigit(code: u32) -> bool;
    fn characters_is_punctuation(code: u32) -> bool;
    fn characters_is_word(code: u32) -> bool;
    fn characters_is_ecmascript_whitespace(code: u32) -> bool;
    fn characters_is_line_terminator(code: u32) -> bool;
}

trait Bytes {
    fn character(&mut self) -> char;
    fn bytes(&mut self) -> Vec<u8>;
}

impl Bytes for Random {
    fn character(&mut self) -> char {
        let top = [0x80, 0x80, 0x800, 0x1_0000, 0x11_0000][self.below(5)];
        char::from_u32(self.below(top) as u32).unwrap_or('\u{D7FF}')
    }

    // up to 64 bytes: characters, of which some bytes are replaced, left out or doubled
    fn bytes(&mut self) -> Vec<u8> {
        let want = self.below(65);
        let mut text = Vec::new();
        let mut buffer = [0; 4];
        while text.len() < want {
            text.extend_from_slice(self.character().encode_utf8(&mut buffer).as_bytes());
        }
        text.truncate(want);
        for _ in 0..self.below(4) {
            if text.is_empty() {
                break;
            }
            let at = self.below(text.len());
            match self.below(4) {
                0 => text[at] = self.below(256) as u8,
                1 => {
                    text[at] =
                        [0x80, 0xBF, 0xC0, 0xC1, 0xE0, 0xED, 0xF0, 0xF4, 0xF5, 0xFF][self.below(10)]
                }
                2 => drop(text.remove(at)),
                _ if text.len() < 64 => text.insert(at, text[at]),
                _ => {}
            }
        }
        text
    }
}

fn valid_upto(text: &[u8]) -> usize {
    std::str::from_utf8(text).map_or_else(|e| e.valid_up_to(), |s| s.len())
}

fn classes() -> u64 {
    type Class = (
        &'static str,
        unsafe extern "C" fn(u32) -> bool,
        fn(char) -> bool,
    );
    let all: [Class; 8] = [
        (
            "is_alphabetic",
            characters_is_alphabetic,
            char::is_alphabetic,
        ),
        (
            "is_whitespace",
            characters_is_whitespace,
            char::is_whitespace,
        ),
        ("is_ascii_digit", characters_is_ascii_digit, |c| {
            c.is_ascii_digit()
        }),
        ("is_ascii_hexdigit", characters_is_ascii_hexdigit, |c| {
            c.is_ascii_hexdigit()
        }),
        (
            "is_punctuation",
            characters_is_punctuation,
            held::is_punctuation,
        ),
        ("is_word", characters_is_word, held::is_word),
        (
            "is_ecmascript_whitespace",
            characters_is_ecmascript_whitespace,
            held::is_ecmascript_whitespace,
        ),
        (
            "is_line_terminator",
            characters_is_line_terminator,
            held::is_line_terminator,
        ),
    ];
    let mut differ = 0;
    for (what, ours, theirs) in all {
        let mut tally = Tally::new(what);
        // A surrogate is no char; it lies in no class.
        for code in 0..0x11_0000 {
            tally.same(
                unsafe { ours(code) },
                char::from_u32(code).is_some_and(theirs),
                || format!("{code:#X}"),
            );
        }
        differ += tally.done();
    }
    let mut tally = Tally::new("is_scalar");
    for code in 0..0x11_0100 {
        tally.same(
            unsafe { characters_is_scalar(code) },
            char::from_u32(code).is_some(),
            || format!("{code:#X}"),
        );
    }
    differ + tally.done()
}

fn encoded() -> u64 {
    let mut tally = Tally::new("put");
    for code in 0..0x11_0100 {
        let mut ours = [0x2E; 8];
        let mut theirs = [0x2E; 8];
        let at = code as usize % 7;
        let n = unsafe { characters_put(&mut ours, at, code) };
        let mut buffer = [0; 4];
        let bytes = char::from_u32(code).map_or(&[][..], |c| c.encode_utf8(&mut buffer).as_bytes());
        if at + bytes.len() <= theirs.len() {
            theirs[at..at + bytes.len()].copy_from_slice(bytes);
        }
        tally.same((n, ours), (bytes.len(), theirs), || {
            format!("{code:#X} at {at}")
        });
    }
    tally.done()
}

fn checked() -> u64 {
    let mut tally = Tally::new("check");
    let mut words = Tally::new("scan_word");
    let mut one = |text: &[u8], from: usize| {
        let upto = valid_upto(text);
        tally.same(unsafe { characters_check(text) }, upto, || {
            format!("{text:02X?}")
        });
        // The Rust scans text that is UTF-8: what comes before the first ill-formed sequence.
        let source = std::str::from_utf8(&text[..upto]).unwrap();
        let from = (from..=upto)
            .find(|&i| source.is_char_boundary(i))
            .unwrap_or(upto);
        words.same(
            unsafe { characters_scan_word(text, from) },
            held::scan_word(source, from),
            || format!("{text:02X?} from {from}"),
        );
    };
    one(&[], 0);
    for a in 0..=255 {
        one(&[a], 0);
        for b in 0..=255 {
            one(&[a, b], 0);
        }
    }
    let mut random = Random::of(1);
    for _ in 0..1_000_000 {
        let text = random.bytes();
        let from = random.below(text.len() + 1);
        one(&text, from);
    }
    // longer ones, for the steps of many bytes
    for _ in 0..20_000 {
        let mut text = vec![b'a'; random.below(200)];
        text.extend(random.bytes());
        text.extend(std::iter::repeat_n(b'-', random.below(200)));
        one(&text, random.below(40));
    }
    tally.done() + words.done()
}

fn lined() -> u64 {
    let mut tally = Tally::new("line_info");
    let mut random = Random::of(2);
    for _ in 0..200_000 {
        let text: String = (0..random.below(40))
            .map(|_| {
                if random.below(5) == 0 {
                    '\n'
                } else {
                    random.character()
                }
            })
            .collect();
        // The Rust cuts the text at the place, which has to stand between characters or past the end.
        let place = random.below(text.len() + 3);
        if text.is_char_boundary(place) || text.len() < place {
            let ours = unsafe {
                (
                    error_line(text.as_bytes(), place),
                    error_column(text.as_bytes(), place),
                )
            };
            tally.same(ours, held::line_info(&text, place), || {
                format!("{text:?} at {place}")
            });
        }
    }
    tally.done()
}

// the least time of a call in nanoseconds, over many rounds
fn least<T>(call: impl FnMut() -> T) -> f64 {
    least::least(400, 10, call).as_secs_f64() * 1e9
}

fn measured() {
    const SIZE: usize = 65_536;
    let fitted = |piece: &str| {
        let mut text = piece.repeat(SIZE / piece.len());
        while text.len() < SIZE {
            text.push(' ');
        }
        text
    };
    let grammar = "@top Program { statement* }\nstatement { Name \"=\" expression \";\" | @specialize<Name, \"if\"> }\n";
    let texts = [
        ("check, ASCII", fitted(grammar)),
        ("check, one in ten not ASCII", fitted("abcdefgh é")),
        ("check, two bytes each", fitted("слово")),
        ("check, three bytes each", fitted("単語")),
    ];
    println!("64 KB, in microseconds: ours, Rust's, ratio");
    for (what, text) in &texts {
        let bytes = text.as_bytes();
        let ours = least(|| {
            black_box(unsafe { characters_check(black_box(bytes)) });
        });
        let theirs = least(|| {
            black_box(std::str::from_utf8(black_box(bytes)).is_ok());
        });
        println!(
            "  {what:<28} {:>8.2} {:>8.2} {:>6.2}",
            ours / 1e3,
            theirs / 1e3,
            ours / theirs
        );
    }
    let words = [
        (
            "words, ASCII",
            fitted("identifier_one-2nd").replace(' ', "a"),
        ),
        ("words, two bytes each", fitted("слово").replace(' ', "a")),
    ];
    for (what, text) in &words {
        let ours = least(|| {
            black_box(unsafe { characters_scan_word(black_box(text.as_bytes()), 0) });
        });
        let theirs = least(|| {
            black_box(held::scan_word(black_box(text), 0));
        });
        println!(
            "  {what:<28} {:>8.2} {:>8.2} {:>6.2}",
            ours / 1e3,
            theirs / 1e3,
            ours / theirs
        );
    }
}

fn main() {
    let differ = classes() + encoded() + checked() + lined();
    measured();
    if differ != 0 {
        println!("{differ} differ");
        std::process::exit(1);
    }
}
