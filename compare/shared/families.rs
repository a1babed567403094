//! Texts that are hard in one way each, of some size.

/// What stands before, what is repeated, and what stands after.
const FAMILIES: [(&str, &str, &str, &str); 38] = [
    ("declarations of alternating kinds", "@top T{}", ALTERNATING, ""),
    ("rules", "@top T{}", "a{b}", ""),
    ("top rules and rules by turns", "", "@top T{}a{}", ""),
    ("rules with props and params", "@top T{}", "r[p=q]<x,y>{x}", ""),
    ("`@local tokens` blocks", "@top T{}", "@local tokens{a{b}@else c}", ""),
    ("`@external tokens` blocks", "@top T{}", "@external tokens a from\"b\"{c}", ""),
    ("`@external specialize` blocks", "@top T{}", "@external specialize{a}b from\"c\"{d}", ""),
    ("`@external prop`", "@top T{}", "@external prop a from\"b\" ", ""),
    ("`@external propSource`", "@top T{}", "@external propSource a from\"b\" ", ""),
    ("scoped skips", "@top T{}", "@skip{a}{b{c}}", ""),
    ("`@dialects`, each replacing the one before", "@top T{}", "@dialects{a}", ""),
    ("`@detectDelim`", "@top T{}", "@detectDelim ", ""),
    ("one `@tokens`, members by turns", "@top T{}@tokens{", "a{b}@precedence{a}\"c\"@conflict{a b}", "}"),
    ("one `@local tokens`, members by turns", "@top T{}@local tokens{", "a{b}@precedence{a}", "}"),
    ("one scoped skip, rules by turns", "@skip{}{", "a{}@top b{}", "}"),
    ("one `@external tokens`, members by turns", "@top T{}@external tokens a from\"b\"{", "c @conflict{d}", "}"),
    ("external tokens", "@top T{}@external tokens a from\"b\"{", "c ", "}"),
    ("precedence items", "@top T{}@precedence{", "a@left ", "}"),
    ("names in a token precedence", "@top T{}@tokens{@precedence{", "a ", "}}"),
    ("dialects in one list", "@top T{}@dialects{", "a ", "}"),
    ("params", "@top T<a", ",a", ">{}"),
    ("props", "@top T[a", ",a=b", "]{}"),
    ("parts of one prop", "@top T[a=", "b.", "]{}"),
    ("names in a sequence", "@top T{", "a ", "}"),
    ("markers in a sequence", "@top T{", "~a ", "}"),
    ("arms of a choice", "@top T{a", "|a", "}"),
    ("arguments", "@top T{a<b", ",b", ">}"),
    ("inline rules", "@top T{", "[]{}", "}"),
    ("specializations of one part", "@top T{", "@extend<\"a\">", "}"),
    ("stacked repeats, 64 each", "@top T{", REPEATS, "}"),
    ("brackets, 63 deep", "@top T{", BRACKETS, "}"),
    ("choices, 63 deep", "@top T{", CHOICES, "}"),
    ("small sets", "@top T{", "$[a-z]", "}"),
    ("sets of 16", "@top T{", "$[zyxwvutsrqponmlk]", "}"),
    ("short strings", "@top T{", "\"a\"", "}"),
    ("one string", "@top T{\"", "an ordinary text ", "\"}"),
    ("one comment", "@top T{}/*", "an ordinary text ", "*/"),
    ("comments and blanks", "@top T{}", " //a\n\t/*b*/", ""),
];

const ALTERNATING: &str = "a{b}@local tokens{c{d}}@external prop e from\"f\"@skip{g}{h{i}}@external tokens j from\"k\"{l}\
@dialects{m}@external extend{n}o from\"p\"{q}@external propSource r from\"s\"@top t{u}@detectDelim ";
const REPEATS: &str = "a****************************************************************";
const BRACKETS: &str = "(((((((((((((((((((((((((((((((((((((((((((((((((((((((((((((((\
a)))))))))))))))))))))))))))))))))))))))))))))))))))))))))))))))";
const CHOICES: &str = "(a|(a|(a|(a|(a|(a|(a|(a|(a|(a|(a|(a|(a|(a|(a|(a|(a|(a|(a|(a|(a|(a|(a|(a|(a|(a|(a|(a|(a|(a|(a|(a|(a|(a|(a|(a|\
(a|(a|(a|(a|(a|(a|(a|(a|(a|(a|(a|(a|(a|(a|(a|(a|(a|(a|(a|(a|(a|(a|(a|(a|(a|(a|(a|\
b)))))))))))))))))))))))))))))))))))))))))))))))))))))))))))))))";

/// One set of characters that are apart from one another, in descending order.
fn one_set(bytes: usize) -> String {
    let (before, after) = ("@top T{$[", "]}");
    let mut room = bytes - before.len() - after.len();
    let mut set = Vec::new();
    for c in (0x100..).filter_map(char::from_u32) {
        if c.len_utf8() > room {
            break;
        }
        room -= c.len_utf8();
        set.push(c);
    }
    set.reverse();
    format!("{before}{}{after}", set.iter().collect::<String>())
}

/// All families at a size, none longer.
pub fn texts(bytes: usize) -> Vec<(&'static str, String)> {
    let mut texts: Vec<_> = FAMILIES
        .iter()
        .map(|&(name, before, unit, after)| {
            let times = (bytes - before.len() - after.len()) / unit.len();
            (name, format!("{before}{}{after}", unit.repeat(times)))
        })
        .collect();
    texts.push(("one set, descending", one_set(bytes)));
    texts
}

/// All families at four sizes, the limit of bytes among them.
pub fn of_four_sizes(on: &mut impl FnMut(&[u8])) {
    for bytes in [400, 4_000, 32_767, 65_535] {
        texts(bytes).iter().for_each(|(_, text)| on(text.as_bytes()));
    }
}
