//! The causes that the messages of parse.rs stand for.

/// How each message begins, with its cause.
const MESSAGES: [(&str, u32); 19] = [
    ("Unexpected character", 4),
    ("Unterminated string", 5),
    ("@ without a name", 6),
    ("Unterminated character set", 7),
    ("Unexpected token", 8),
    ("Top rules must have a name", 9),
    ("Multiple @tokens", 10),
    ("Multiple precedence", 11),
    ("Multiple @context", 12),
    ("Multiple top-level skip", 13),
    ("Missing @top", 14),
    ("Inline rules can't have parameters", 15),
    ("@specialize requires two arguments", 16),
    ("@extend requires two arguments", 16),
    ("Empty expression in choice", 17),
    ("Invalid expression in token precedences", 18),
    ("Invalid expression in token conflict", 19),
    ("Invalid character range", 20),
    ("Overlapping character range", 21),
];

pub fn cause(message: &str) -> u32 {
    MESSAGES
        .iter()
        .find(|(beginning, _)| message.starts_with(beginning))
        .unwrap_or_else(|| panic!("unknown message: {message}"))
        .1
}
