//! Texts to read: every short string of tokens, and seeded ones.

use crate::random::Random;

// -------------------------------------------------------------------- strings of tokens

/// Tokens of every sort, for strings of up to four.
const FEW: [&str; 30] = [
    "a", "std", "from", "@top", "@precedence", "@conflict", "@else", "@extend", "@digit", "\"s\"", "\"\"", "$[a]", "$[aa]",
    "[", "]", "(", ")", "~", "!", "*", "{", "}", "<", ">", ".", ",", "|", "=", ":", "@",
];

const FEW_AROUND: [(&str, &str); 5] = [
    ("@top T{", "}"),
    ("@top T{}r{a ", "|b}"),
    ("@tokens{", "}@top T{}"),
    ("@top T{}", ""),
    ("@external tokens x from\"y\"{", "}@top T{}"),
];

/// All words that mean something, all marks, and all that is refused, for strings of up to three.
const MANY: [&str; 61] = [
    "a", "_", "std", "digit", "from", "as", "tokens", "prop", "propSource", "extend", "specialize", "@top", "@tokens", "@local",
    "@context", "@external", "@dialects", "@precedence", "@detectDelim", "@skip", "@else", "@conflict", "@left", "@right", "@cut",
    "@specialize", "@extend", "@eof", "@foo", "\"s\"", "\"\"", "'\\x41'", "$[a]", "![]", "$[b-a]", "$[aa]", "[", "]", "(", ")", "!",
    "~", "+", "*", "?", "{", "}", "<", ">", ".", ",", "|", ":", "$", "=", "#", "\"", "@", "$[", "/*", "//",
];

const MANY_AROUND: [(&str, &str); 16] = [
    ("", ""),
    ("@top T{", "}"),
    ("@top T ", "{}"),
    ("@top T[", "]{}"),
    ("@top T[p=", "]{}"),
    ("@top T{a", ">}"),
    ("@top T{@extend", "}"),
    ("@tokens{", "}@top T{}"),
    ("@tokens{@precedence{", "}}@top T{}"),
    ("@tokens{@conflict{", "}}@top T{}"),
    ("@local tokens{", "}@top T{}"),
    ("@top T{}@precedence{", "}"),
    ("@top T{}@external ", "{}"),
    ("@top T{}@external prop ", ""),
    ("@skip{", "}{}@top T{}"),
    ("@skip{}{@top T{}", "}"),
];

fn strings(tokens: &[&str], longest: usize, around: &[(&str, &str)], on: &mut impl FnMut(&[u8])) {
    for (before, after) in around {
        for length in 0..=longest {
            let mut chosen = vec![0; length];
            loop {
                let mut text = String::from(*before);
                for &token in &chosen {
                    text.push_str(tokens[token]);
                    text.push(' ');
                }
                text.push_str(after);
                on(text.as_bytes());
                let Some(place) = chosen.iter().rposition(|&token| token + 1 < tokens.len()) else {
                    break;
                };
                chosen[place] += 1;
                chosen[place + 1..].fill(0);
            }
        }
    }
}

pub fn up_to_four(on: &mut impl FnMut(&[u8])) {
    strings(&FEW, 4, &FEW_AROUND, on);
}

pub fn up_to_three(on: &mut impl FnMut(&[u8])) {
    strings(&MANY, 3, &MANY_AROUND, on);
}

// -------------------------------------------------------------------- texts from forms

/// The forms of each sort of text. `%` and a letter stand for a text of that sort; one that stands here twice is twice as likely.
fn forms(sort: char) -> &'static [&'static str] {
    match sort {
        'n' => &["a", "b", "c", "T", "x-1", "_y", "std", "from", "as", "tokens", "é", "λ9", "_anon", "prop", "日本", "__"],
        's' => &[
            "\"s\"", "'q'", "\"\"", "''", "\"\\u{41}\"", "\"\\\"\"", "'\"'", "\"\\\\\"", "\"a b\"", "\"\\n\\x41\\q\"", "\"é\"", "\"\n\"",
            "\"\\u{110000}\"", "\"\\uD800\"", "\"\u{1F600}\"", "\"//\"", "\"/*\"", "'\\0\\U{0041}'",
        ],
        't' => &[
            "$[a-z]", "![b]", "$[]", "$[-a]", "$[a-]", "$[+--]", "$[\\u{61}-\\x7a_]", "![\\]\\\\]", "$[é-€]", "$[zyx]", "$[\\n\\t ]",
            "$[0-9a-fA-F]", "$[hgfedcba0987654321]", "$[aa]", "$[b-a]", "$[a-cb-d]",
        ],
        'c' => &["asciiLetter", "asciiLowercase", "asciiUppercase", "digit", "whitespace", "eof"],
        ' ' => &[" ", " ", " ", "", "\n", "\t", "/*c*/", "//l\n", "\r\n", "\u{a0}", "\u{feff}", "\u{2028}", "/**/"],
        ',' => &[" ", ","],
        // props and their parts
        'P' => &["", "", "", "[]", "[%p]", "[%p,%p]"],
        'p' => &["%n", "@%n", "%n=%v", "@%n=%v", "%n=%v%v"],
        'v' => &["b", "\"v\"", ".", "{n}", "'w'", "b.c", "", "%s", "{%n}"],
        // expressions
        'E' => &[
            "%e", "%e %E", "(%E)", "%E*", "%E+?", "%E %E", "%E~m %E", "%E !p %E", "%E/**/%E", "%E|%E", "%E | %E | %E", "%I",
            "@specialize%P<%E,%E>", "@extend%P<%E,%e>", "f<%E>", "f<%E,%E>", "%E ~k",
        ],
        'e' => &[
            "a", "b", "foo", "é", "%n ", "%s", "%s", "%t", "@%c", "std.%c", "std.@%c", "@extend<\"k\">", "@specialize[p]<'k'>",
            "@specialize<a>", "_", "()", "c<,>", "c<a,>", "f<>", "std", "(~m)", "!p", "()*", "_[a]{b}",
        ],
        'I' => &["n%P{%E}", "m[]{%E}", "[q]{%E}", "[]{}", "x{%e}", "n{%e}", "n[]%M{%e}"],
        'B' => &["{%E}", "{%E}", "{%E}", "{%e}", "{}"],
        // declarations
        'M' => &["", "", "", "", "<>", "<%n>", "<%n,%n>"],
        'R' => &["%n%P%M%B", "a{%e}"],
        'r' => &["a", "é", "\"s\"", "f<a>", "(b)", "'t'", "f<,>", "%e"],
        'k' => &["@precedence{}", "@precedence{%r}", "@precedence{%r%,%r}", "@precedence{%r,%r %r}"],
        'm' => &["%R", "%R", "%k", "@conflict{%r%,%r}", "%s%P", "%m%m"],
        'l' => &["%R", "%k", "@else %n%P", "%l%l"],
        'x' => &["%n%P", "%n%P%,%n", "@conflict{%n%,%n}", "@conflict{}", "%x%,%x"],
        'N' => &["", "%n%P", "%n%P%,%n%P", "%n,%n,%n"],
        'i' => &["%n", "%n@left", "%n @right", "%n @cut", "%i%,%i"],
        'f' => &[" from %s "],
        'S' => &["", "%R", "@top %R", "%R%R", "@top %R%R"],
        'D' => &[
            "@top %R", "@top %R", "%R", "%R", "%R%R", "@tokens{%m}", "@tokens{}", "@local tokens{%l}", "@local tokens{%l%l}",
            "@context %n%f", "@external tokens %n%f{%x}", "@external tokens %n%f{}", "@external extend%B%n%f{%N}",
            "@external specialize%B%n%f{%N}", "@external propSource %n%f", "@external prop %n%f", "@external prop %n as %n%f",
            "@precedence{%i}", "@precedence{}", "@skip%B", "@skip%B{%S}", "@dialects{%n%,%n}", "@dialects{}", "@detectDelim",
        ],
        'G' => &[
            "@top T%B", "%D% @top T%B", "@top T%B% %D", "%D% @top T%B% %D", "%D% %D% @top T%B% %D% %D", "%D% %D", "%D% %D% %D% %D% @top T%B",
        ],
        // pieces to put anywhere
        'w' => &[
            "@top", "@tokens", "@local", "@context", "@external", "@dialects", "@precedence", "@detectDelim", "@skip", "@else",
            "@conflict", "@left", "@right", "@cut", "@specialize", "@extend", "@digit", "@eof", "@foo", "tokens", "prop", "propSource",
            "extend", "specialize", "from", "as", "std",
        ],
        '.' => &["[", "]", "(", ")", "!", "~", "+", "*", "?", "{", "}", "<", ">", ".", ",", "|", ":", "$", "="],
        '#' => &["@", "\"", "'", "$[", "![", "#", "/", "/*", "\u{85}", ";", "\\", "\0", "\u{b2}", "`"],
        'A' => &["%n", "%s", "%t", "%w", "% ", "%.", "%.", "%.", "%#", "@top T{}", "%D"],
        _ => panic!("no forms of {sort}"),
    }
}

/// Expressions this deep in one another have no expressions in them.
const DEEPEST: u32 = 6;

fn write(random: &mut Random, form: &str, depth: u32, out: &mut String) {
    let mut rest = form.chars();
    while let Some(c) = rest.next() {
        if c != '%' {
            out.push(c);
            continue;
        }
        let sort = rest.next().expect("a sort");
        let (sort, depth) = match sort {
            'E' if depth >= DEEPEST => ('e', depth),
            'E' => ('E', depth + 1),
            _ => (sort, depth),
        };
        let form = random.pick(forms(sort));
        write(random, form, depth, out);
    }
}

fn text(random: &mut Random, form: &str) -> Vec<u8> {
    let mut out = String::new();
    let depth = random.below(DEEPEST as usize) as u32;
    write(random, form, depth, &mut out);
    out.into_bytes()
}

// -------------------------------------------------------------------- damage

fn replace(text: &mut Vec<u8>, at: usize, bytes: usize, by: &[u8]) {
    let end = (at + bytes).min(text.len());
    text.splice(at..end, by.iter().copied());
}

/// One to three changes: a piece put in, bytes taken out, doubled, swapped or replaced, the end cut off.
fn damage(random: &mut Random, text: &mut Vec<u8>, others: &[&[u8]]) {
    for _ in 0..1 + random.below(3) {
        let at = random.below(text.len() + 1);
        match random.below(12) {
            0..=2 => replace(text, at, 0, &self::text(random, "%A")),
            3 => replace(text, at, 0, &self::text(random, " %A ")),
            4 | 5 => replace(text, at, 1 + random.below(3), &[]),
            6 => {
                let doubled = text[at..text.len().min(at + 1 + random.below(4))].to_vec();
                replace(text, at, 0, &doubled);
            }
            7 if at + 1 < text.len() => text.swap(at, at + 1),
            8 => {
                let byte = [b' ', b'a', b'{', b'}', b'"', b'\\', b'@', random.below(256) as u8][random.below(8)];
                replace(text, at, 1, &[byte]);
            }
            9 => replace(text, at, 1, &self::text(random, "%.")),
            10 => text.truncate(at),
            _ => {
                let other = random.pick(others);
                let begin = random.below(other.len() + 1);
                let end = other.len().min(begin + 1 + random.below(12));
                replace(text, at, 0, &other[begin..end]);
            }
        }
    }
}

// -------------------------------------------------------------------- near the limits

/// Levels and stacked repeats close to 64, opened in every way that opens a level.
fn nested(random: &mut Random) -> Vec<u8> {
    const WAYS: [(&str, &str); 12] = [
        ("(", ")"),
        ("f<", ">"),
        ("f<b,", ">"),
        ("n{", "}"),
        ("[]{", "}"),
        ("@extend<", ",a>"),
        ("@extend<a,", ">"),
        ("(a ", ")"),
        ("(~m ", ")"),
        ("(a|", ")"),
        ("(", ")*"),
        ("(", ")?+"),
    ];
    // What stands around, and how many levels may be opened there.
    const AROUND: [(&str, &str, usize); 7] = [
        ("@top T{", "}", 63),
        ("@skip{", "}@top T{}", 63),
        ("@tokens{@precedence{", "}}@top T{}", 64),
        ("@external extend{", "}a from ''{}@top T{}", 63),
        ("@tokens{@conflict{a ", "}}@top T{}", 64),
        ("@skip{}{@top T{", "}}", 63),
        ("@local tokens{r{", "}}@top T{}", 63),
    ];
    let (before, after, levels) = AROUND[random.below(AROUND.len())];
    let mut inside = String::new();
    if random.below(9) < 5 {
        let chosen = [0; 3].map(|_| WAYS[random.below(WAYS.len())]);
        let used: Vec<_> = (0..levels + random.below(5) - 2).map(|_| chosen[random.below(3)]).collect();
        let middle = random.pick(&[
            "a", "()", "a<>", "a<b>", "_", "\"s\"", "", ")", "}", "#", "\"", "@", "$[aa]", "x{}", "|", "~m", "a*", "[",
        ]);
        inside.extend(used.iter().map(|way| way.0));
        inside.push_str(middle);
        inside.extend(used.iter().rev().map(|way| way.1));
    } else {
        // Runs of marks with brackets between, 62 to 67 in all.
        inside.push_str(random.pick(&["a", "(a b)", "x{c*}", "()", "\"s\"", "(a*|b)", "f<a*>"]));
        let mut left = 62 + random.below(6);
        while left > 0 {
            let run = left.min(random.pick(&[&1, &3, &10, &40, &64, &65]).to_owned());
            let marks: String = (0..run).map(|_| random.pick(&["*", "+", "?"])).collect();
            let other = if random.one_in(33) { " z" } else { "" };
            inside = format!("({inside}{marks}{other})");
            left -= run;
        }
        inside.push_str(random.pick(&["", "", "#", "\"", "*"]));
    }
    let mut text = format!("{before}{inside}{after}").into_bytes();
    if random.one_in(10) {
        text.truncate(random.below(text.len()));
    }
    text
}

/// Characters of all lengths in a text, of which some bytes are changed, cut or put in.
fn ill_formed(random: &mut Random) -> Vec<u8> {
    const EDGES: [u8; 26] = [
        0x00, 0x41, 0x7F, 0x80, 0x8F, 0x90, 0x9F, 0xA0, 0xBF, 0xC0, 0xC1, 0xC2, 0xDF, 0xE0, 0xE1, 0xEC, 0xED, 0xEE, 0xEF, 0xF0, 0xF1,
        0xF3, 0xF4, 0xF5, 0xF8, 0xFF,
    ];
    const WIDE: [&str; 12] = [
        "\u{7F}", "\u{80}", "\u{7FF}", "\u{800}", "\u{D7FF}", "\u{E000}", "\u{FFFF}", "\u{10000}", "\u{10FFFF}", "é", "€", "\u{1F600}",
    ];
    let mut text = self::text(random, "@top T{\n%e}// ");
    for _ in 0..1 + random.below(4) {
        let wide = random.pick(&WIDE).as_bytes();
        let at = random.below(text.len() + 1);
        replace(&mut text, at, 0, wide);
    }
    for _ in 0..random.below(3) {
        let at = random.below(text.len() + 1);
        let edge = EDGES[random.below(EDGES.len())];
        match random.below(4) {
            0 => replace(&mut text, at, 1, &[edge]),
            1 => replace(&mut text, at, 1, &[]),
            2 => replace(&mut text, at, 0, &[edge]),
            _ => text.truncate(at),
        }
    }
    text
}

/// A text of close to 65,535 bytes: something long, and then one of the short ones.
fn long(random: &mut Random) -> Vec<u8> {
    let last = self::text(random, "% %G");
    let bytes = 65_534 + random.below(3);
    let unit = random.pick(&[" ", "\n", "//c\n", "/* */", "a{b c}", "@skip{}{}", "r{x*|y}\n", "é{}", "@dialects{a}", "s[p=\"q\"]{$[a-f]}"]);
    let mut text = unit.repeat(bytes.saturating_sub(last.len()) / unit.len()).into_bytes();
    text.extend(&last);
    let fill = if random.one_in(2) { b' ' } else { b'/' };
    text.resize(bytes.max(text.len()), fill);
    text
}

/// A normal text with other blanks, comments and escapes, which mean the same.
pub fn respelled(random: &mut Random, normal: &str) -> String {
    const BLANKS: [&str; 10] = [" ", " ", "  ", "\n", "\t", "\r\n", "/*c*/", "//l\n", "\u{a0}", " /**/\u{feff}"];
    let mut out = String::new();
    let mut inside = false;
    let mut rest = normal.chars();
    while let Some(c) = rest.next() {
        inside ^= c == '"';
        match c {
            ' ' | '\n' if !inside => out.push_str(random.pick(&BLANKS)),
            '\\' if inside => out.extend([c, rest.next().expect("an escaped character")]),
            _ if inside && c != '"' && random.one_in(3) => out.push_str(&format!("\\u{{{:x}}}", u32::from(c))),
            _ => out.push(c),
        }
    }
    out
}

/// Texts of all sorts, those of a list damaged among them.
pub fn seeded(seed: u64, count: u64, hand: &[Vec<u8>], on: &mut impl FnMut(&[u8])) {
    let random = &mut Random::of(seed);
    let others: Vec<&[u8]> = hand.iter().map(|text| &text[..]).filter(|text| text.len() < 300).collect();
    let mut made = 0;
    while made < count {
        let text = match random.below(1000) {
            0 => long(random),
            1..=29 => nested(random),
            30..=69 => ill_formed(random),
            70..=99 => text(random, "%A%A%A %A%A%A %A%A%A"),
            100..=299 => {
                let mut text = random.pick(&others).to_vec();
                damage(random, &mut text, &others);
                text
            }
            300..=549 => text(random, "%G"),
            550..=699 => text(random, "@top T{%E}"),
            700..=899 => {
                let mut text = text(random, "%G");
                damage(random, &mut text, &others);
                text
            }
            _ => {
                let mut text = text(random, "@top T{%E %E}");
                damage(random, &mut text, &others);
                text
            }
        };
        if text.len() <= 500 || text.len() > 60_000 {
            on(&text);
            made += 1;
        }
    }
}
