// Holds the proved lexer against the unchanged lexer of the Rust and against the second program, on texts from a seed, and measures
// both. Any difference is printed and fails the run.
//
// A text may be any bytes, and a place any number. From a place the characters go on to the first ill-formed sequence, so the others
// are asked of that part of the text alone.
mod causes;
mod error;
mod least;
mod node;
mod parse;
mod random;
mod second;
mod tally;

use least::least;
use random::Random;
use std::hint::black_box;
use std::time::Duration;
use tally::Tally;

// parse.rs asks for it at the crate's root.
pub use error::GeneratorError;

#[allow(improper_ctypes)]
unsafe extern "C" {
    fn lexer_next(source: &[u8], from: usize, out: &mut [u64]);
    fn lexer_decode_string(body: &[u8], out: &mut [u8]) -> usize;
    fn lexer_parse_set_ranges(body: &[u8], out: &mut [u32]) -> u64;
}

type Seen = Result<(u64, usize, usize, String), (u64, usize)>;

fn next(source: &[u8], from: usize) -> [u64; 6] {
    let mut words = [0; 6];
    unsafe { lexer_next(source, from, &mut words) };
    words
}

fn decode_string(body: &[u8], out: &mut [u8]) -> usize {
    unsafe { lexer_decode_string(body, out) }
}

fn parse_set_ranges(body: &[u8], out: &mut [u32]) -> Result<usize, u64> {
    match unsafe { lexer_parse_set_ranges(body, out) } {
        0xFFFF_FFFF_FFFF_FFFE => Err(20),
        0xFFFF_FFFF_FFFF_FFFF => Err(21),
        count => Ok(count as usize),
    }
}

// -------------------------------------------------------------------- texts from a seed

const PIECES: [&str; 64] = [
    " ", "\n", "\t", "\r", "\u{b}", "\u{a0}", "\u{2028}", "\u{2029}", "\u{feff}", "\u{85}", "\u{3000}", "//", "/*", "*/", "/", "*",
    "\"", "\"", "'", "'", "\\", "\\", "\\", "\\\"", "\\\\", "\\u{", "\\u{41}", "\\U00e9", "\\x4f", "\\X", "\\u{110000}", "\\u{10FFFF}",
    "\\n", "\\0", "}", "@", "@top", "$[", "$[", "![", "]", "]", "-", "a-z", "A-", "--", "0", "9", "af", "F", "_", "é", "ß", "中", "𝒳",
    "\u{1F600}", "{", "(", "|", "$", "!", "~", "=", "\u{0}",
];

fn text(random: &mut Random) -> Vec<u8> {
    let mut text = String::new();
    for _ in 0..random.below(24) {
        text.push_str(random.pick(&PIECES));
    }
    let mut bytes = text.into_bytes();
    // One text in eight is damaged.
    if random.below(8) == 0 && !bytes.is_empty() {
        let place = random.below(bytes.len());
        bytes[place] = random.below(256) as u8;
    }
    bytes
}

// A body of characters apart from one another, mostly.
fn body(random: &mut Random) -> String {
    let mut body = String::new();
    let base = [0x20, 0x100, 0x4E00, 0xD700, 0x10FF00][random.below(5)];
    for _ in 0..random.below(40) {
        match random.below(12) {
            0 => body.push('-'),
            1 => body.push_str(random.pick(&PIECES)),
            2 => body.push_str(&format!("\\u{{{:X}}}", random.below(0x110000))),
            _ => body.extend(char::from_u32((base + random.below(0x400)) as u32)),
        }
    }
    body
}

// -------------------------------------------------------------------- what is held against what

// What the lexer answers, in the words of the others: a string's value and not its part.
fn seen(source: &[u8], from: usize) -> Seen {
    let [kind, start, end, a, e, extra] = next(source, from);
    let part = || &source[a as usize..e as usize];
    let utf8 = |bytes: &[u8]| String::from_utf8(bytes.to_vec()).expect("a part is well-formed");
    let value = match kind {
        1 => {
            assert_eq!(extra, u64::from(source[start as usize]));
            let mut out = vec![0; decode_string(part(), &mut [])];
            decode_string(part(), &mut out);
            utf8(&out)
        }
        2 | 5 => utf8(part()),
        3 => format!("{extra}{}", utf8(part())),
        4 => char::from_u32(extra as u32).expect("a character").to_string(),
        6 => return Ok((6, start as usize, start as usize, String::new())),
        _ => return Err((end, start as usize)),
    };
    Ok((kind, start as usize, end as usize, value))
}

fn well_formed(bytes: &[u8]) -> &str {
    match std::str::from_utf8(bytes) {
        Ok(text) => text,
        Err(error) => std::str::from_utf8(&bytes[..error.valid_up_to()]).expect("its well-formed part"),
    }
}

fn moved(seen: Seen, by: usize) -> Seen {
    match seen {
        Ok((kind, start, end, value)) => Ok((kind, start + by, end + by, value)),
        Err((cause, place)) => Err((cause, place + by)),
    }
}

fn pairs(random: &mut Random, count: u64) -> u64 {
    let mut rust = Tally::new("tokens against the Rust");
    let mut program = Tally::new("tokens against the second program");
    while rust.held < count {
        let text = text(random);
        for from in 0..text.len() + 3 {
            let rest = well_formed(text.get(from..).unwrap_or_default());
            let ours = seen(&text, from);
            let on = || format!("{:?}", (String::from_utf8_lossy(&text), from));
            rust.same(ours.clone(), moved(parse::next_at(rest, 0), from), on);
            program.same(ours, moved(second::first_token(rest), from), on);
        }
    }
    rust.done() + program.done()
}

// The bytes that are written where each character is written that fits.
fn written(value: &str, room: usize) -> Vec<u8> {
    let mut out = vec![0xEE; room];
    for (place, c) in value.char_indices() {
        if place + c.len_utf8() <= room {
            c.encode_utf8(&mut out[place..]);
        }
    }
    out
}

fn strings(random: &mut Random, count: u64) -> u64 {
    let mut tally = Tally::new("strings, with room and without");
    while tally.held < count {
        let text = text(random);
        let body = well_formed(&text);
        let value = parse::string_value(body);
        for room in [0, value.len() / 2, value.len().saturating_sub(1), value.len(), value.len() + 2] {
            let mut out = vec![0xEE; room];
            let length = decode_string(body.as_bytes(), &mut out);
            tally.same((length, out), (value.len(), written(&value, room)), || format!("{body:?}"));
        }
    }
    tally.done()
}

fn set(tally: &mut [Tally; 2], body: &str) {
    for (tally, theirs) in tally.iter_mut().zip([parse::set_ranges(body), second::set_ranges(body)]) {
        let spans = theirs.clone().unwrap_or_default();
        for room in [0, (2 * spans.len()).saturating_sub(1), 2 * spans.len(), 2 * spans.len() + 3] {
            let mut out = vec![7; room];
            let ours = parse_set_ranges(body.as_bytes(), &mut out);
            let mut words = vec![7; room];
            if room >= 2 * spans.len() {
                for (i, &(first, past)) in spans.iter().enumerate() {
                    words[2 * i..2 * i + 2].copy_from_slice(&[first, past]);
                }
            }
            tally.same((ours, out), (theirs.clone().map(|spans| spans.len()), words), || format!("{body:?}"));
        }
    }
}

fn sets(random: &mut Random, count: u64) -> u64 {
    let mut tally = [Tally::new("sets against the Rust"), Tally::new("sets against the second program")];
    while tally[0].held < count {
        set(&mut tally, &body(random));
    }
    // Sets of many blocks: sound, with two equal characters far apart, and with a reversed span before or after them.
    for n in [15, 16, 17, 255, 256, 257, 512, 513, 3000] {
        for order in 0..3 {
            let chars = distinct(n, order);
            let sound: String = chars.iter().collect();
            set(&mut tally, &sound);
            for _ in 0..20 {
                let mut twice = chars.clone();
                let (from, to) = (random.below(n), random.below(n));
                twice[to] = chars[from];
                let late = random.below(n);
                let mut turned: Vec<char> = twice.clone();
                turned.splice(late..late, ['z', '-', 'b']);
                set(&mut tally, &twice.iter().collect::<String>());
                set(&mut tally, &turned.iter().collect::<String>());
            }
        }
    }
    tally.map(Tally::done).iter().sum()
}

// -------------------------------------------------------------------- times

// n characters apart, none special in a set: ascending, descending, or in no order.
fn distinct(n: usize, order: usize) -> Vec<char> {
    let mut chars: Vec<char> = (0..)
        .filter_map(char::from_u32)
        .filter(|c| !"\\]-".contains(*c) && !c.is_ascii_alphabetic())
        .take(n)
        .collect();
    match order {
        0 => {}
        1 => chars.reverse(),
        _ => {
            let mut random = Random::of(1);
            for i in (1..n).rev() {
                chars.swap(i, random.below(i + 1));
            }
        }
    }
    chars
}

fn ratio(what: &str, ours: Duration, theirs: Duration) {
    let ratio = ours.as_secs_f64() / theirs.as_secs_f64();
    println!("{what:<44} {:>10.1?} {:>10.1?}  {ratio:>6.2}", ours, theirs);
}

fn times() {
    println!("{:<44} {:>10} {:>10}  {:>6}", "time of", "proved", "Rust", "ratio");
    let mut out = vec![0u32; 65_536];
    // The longest body of a text of 65,535 bytes, `@top T{$[` and `]}` around it.
    let room = 65_535 - 11;
    for (order, name) in ["ascending", "descending", "in no order"].iter().enumerate() {
        let mut size = 0;
        let mut all = distinct(30_000, 0);
        all.retain(|c| {
            size += c.len_utf8();
            size <= room
        });
        let n = all.len();
        let body: String = distinct(n, order).iter().collect();
        ratio(
            &format!("one set of {n} characters, {name}"),
            least(5, 1, || parse_set_ranges(body.as_bytes(), &mut out)),
            least(3, 1, || parse::set_ranges(&body)),
        );
    }
    for n in [1, 2, 4, 8, 16, 17, 20, 32, 64, 128, 256, 257, 300, 512, 1024, 4096] {
        for (order, name) in ["ascending", "descending", "in no order"].iter().enumerate() {
            let body: String = distinct(n, order).iter().collect();
            let count = room / (body.len() + 4);
            let ours = least(7, 1, || (0..count).map(|_| parse_set_ranges(black_box(body.as_bytes()), &mut out)).filter(Result::is_ok).count());
            let theirs = least(5, 1, || (0..count).map(|_| parse::set_ranges(black_box(&body))).filter(Result::is_ok).count());
            ratio(&format!("{count} sets of {n}, {name}"), ours, theirs);
        }
    }
    let wide: String = std::iter::once("\\u{10000}-\\u{10FFFF}".to_owned()).chain(distinct(600, 2).iter().map(char::to_string)).collect();
    let count = room / (wide.len() + 4);
    ratio(
        &format!("{count} sets of a wide span and 600 codes"),
        least(7, 1, || (0..count).map(|_| parse_set_ranges(black_box(wide.as_bytes()), &mut out)).filter(Result::is_ok).count()),
        least(5, 1, || (0..count).map(|_| parse::set_ranges(black_box(&wide))).filter(Result::is_ok).count()),
    );
    let rule = "rule { \"key\\n\" (Other | $[a-zA-Z_]+ !eq)* ~amb @specialize<id, 'x'> } // a comment\n/* and one more */\n";
    let grammar = rule.repeat(65_535 / rule.len());
    let ours = || {
        let (mut at, mut n) = (0, 0);
        loop {
            let [kind, _, end, _, _, _] = next(grammar.as_bytes(), at);
            if kind == 6 {
                return n;
            }
            (at, n) = (end as usize, n + 1);
        }
    };
    let theirs = || {
        let (mut at, mut n) = (0, 0);
        loop {
            let Ok((kind, _, end, _)) = parse::next_at(&grammar, at) else {
                return 0;
            };
            if kind == 6 {
                return n;
            }
            (at, n) = (end, n + 1);
        }
    };
    assert_eq!(ours(), theirs());
    ratio(&format!("{} tokens of {} bytes", ours(), grammar.len()), least(20, 1, ours), least(20, 1, theirs));
    let long: String = "an ordinary text \\n with \\u{e9} and \\\" in it, é中. ".repeat(1000);
    let mut bytes = vec![0; long.len()];
    ratio(
        &format!("a string of {} bytes", long.len()),
        least(20, 1, || decode_string(long.as_bytes(), &mut bytes)),
        least(20, 1, || parse::string_value(&long)),
    );
}

fn main() {
    let numbers: Vec<u64> = std::env::args().skip(1).filter_map(|word| word.parse().ok()).collect();
    let count = numbers.first().copied().unwrap_or(2_000_000);
    let seed = numbers.get(1).copied().unwrap_or(1);
    let mut random = Random::of(seed);
    println!("seed {seed}");
    let differ = pairs(&mut random, count) + strings(&mut random, count / 4) + sets(&mut random, count / 4);
    times();
    if differ != 0 {
        std::process::exit(1);
    }
}
