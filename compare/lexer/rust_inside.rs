
// Appended to a copy of parse.rs below target/: the lexer as it is, seen from inside.

/// The first token from a place on: its number, start, end and value; or cause and place.
pub fn next_at(source: &str, from: usize) -> Result<(u64, usize, usize, String), (u64, usize)> {
    let token = Token {
        kind: TokenKind::Eof,
        start: 0,
        end: from,
    };
    let mut input = Input {
        source,
        file_name: None,
        token,
    };
    if let Err(error) = input.next() {
        return Err((cause(error.message()), error.position().unwrap()));
    }
    let Token { kind, start, end } = input.token;
    let (number, value) = match kind {
        TokenKind::String(value) => (1, value),
        TokenKind::At(name) => (2, name),
        TokenKind::Set { source, inverted } => (3, format!("{}{source}", u8::from(inverted))),
        TokenKind::Punctuation(mark) => (4, mark.to_string()),
        TokenKind::Identifier(name) => (5, name),
        TokenKind::Eof => (6, String::new()),
    };
    Ok((number, start, end, value))
}

/// The spans of a set's body in ascending order, or the cause.
pub fn set_ranges(body: &str) -> Result<Vec<(u32, u32)>, u64> {
    parse_set_ranges(body, 0, None, "").map_err(|error| cause(error.message()))
}

pub fn string_value(body: &str) -> String {
    decode_string(body)
}

fn cause(message: &str) -> u64 {
    crate::causes::cause(message).into()
}
