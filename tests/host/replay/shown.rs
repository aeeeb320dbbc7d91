//! How a text is shown where something differs.

/// A longer text is shown by its ends only.
const SHOWN: usize = 4_000;

pub fn shown(text: &[u8]) -> String {
    if text.len() <= SHOWN {
        return text.escape_ascii().to_string();
    }
    let (head, tail) = (&text[..SHOWN / 2], &text[text.len() - SHOWN / 2..]);
    format!("{} .. {}", head.escape_ascii(), tail.escape_ascii())
}
