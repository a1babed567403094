
// Appended to a copy of second.rs below target/: its tokens and sets, in the form that the comparison uses.

/// The first token of a text: its number, start, end and value; or cause and place.
pub fn first_token(text: &str) -> Result<(u64, usize, usize, String), (u64, usize)> {
    let start = match blank(text) {
        Ok(start) => start,
        Err(place) => return Err((4, place)),
    };
    let (next, bytes) = token(&text[start..]);
    let (number, value) = match next {
        Token::Quoted(body) => (1, decoded(body)),
        Token::At(name) => (2, name.to_owned()),
        Token::Set { inverted, body } => (3, format!("{}{body}", u8::from(inverted))),
        Token::Mark(mark) => (4, mark.to_string()),
        Token::Word(name) => (5, name.to_owned()),
        Token::End => (6, String::new()),
        Token::Bad(cause) => return Err((u64::from(cause), start)),
    };
    Ok((number, start, start + bytes, value))
}

pub fn set_ranges(body: &str) -> Result<Vec<(u32, u32)>, u64> {
    spans(body).map(|spans| spans.into_iter().collect()).map_err(u64::from)
}
