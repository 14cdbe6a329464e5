//! Tokens of WIT text.

#[derive(Clone, Copy, PartialEq, Eq, Debug)]
pub enum Token<'a> {
    /// A word without its `%`, and whether it had one: then it is no keyword.
    Word(&'a str, bool),
    Number(&'a str),
    Quoted(&'a str),
    Arrow,
    Mark(u8),
}

/// A token, and the byte at which it begins.
pub type Placed<'a> = (Token<'a>, usize);

fn is_in_word(b: u8) -> bool {
    b.is_ascii_alphanumeric() || b == b'-'
}

/// The end of what is passed over in front of a token: spaces, and comments to the end of their line.
fn passed(bytes: &[u8], mut at: usize) -> usize {
    loop {
        while at < bytes.len() && matches!(bytes[at], b' ' | b'\t' | b'\r' | b'\n') {
            at += 1;
        }
        if !bytes[at..].starts_with(b"//") {
            return at;
        }
        while at < bytes.len() && bytes[at] != b'\n' {
            at += 1;
        }
    }
}

fn quoted(text: &str, at: usize) -> Option<usize> {
    let bytes = text.as_bytes();
    let mut end = at + 1;
    while end < bytes.len() {
        match bytes[end] {
            b'"' => return Some(end),
            b'\\' => end += 2,
            _ => end += 1,
        }
    }
    None
}

/// All tokens of a text, or the byte at which none begins.
pub fn tokens(text: &str) -> Result<Vec<Placed<'_>>, usize> {
    let bytes = text.as_bytes();
    let mut all = Vec::with_capacity(bytes.len() / 4);
    let mut at = passed(bytes, 0);
    while at < bytes.len() {
        let (token, end) = match bytes[at] {
            b'%' | b'a'..=b'z' | b'A'..=b'Z' => {
                let is_escaped = bytes[at] == b'%';
                let start = at + usize::from(is_escaped);
                let mut end = start;
                while end < bytes.len() && is_in_word(bytes[end]) && !bytes[end..].starts_with(b"->") {
                    end += 1;
                }
                if end == start || bytes[end - 1] == b'-' {
                    return Err(at);
                }
                (Token::Word(&text[start..end], is_escaped), end)
            }
            b'0'..=b'9' => {
                let mut end = at;
                while end < bytes.len() && (is_in_word(bytes[end]) || matches!(bytes[end], b'.' | b'+')) {
                    end += 1;
                }
                // `1.0.0.{a}`: the last point is no part of a version.
                while bytes[end - 1] == b'.' {
                    end -= 1;
                }
                (Token::Number(&text[at..end]), end)
            }
            b'"' => {
                let end = quoted(text, at).ok_or(at)?;
                (Token::Quoted(&text[at + 1..end]), end + 1)
            }
            b'-' if bytes[at..].starts_with(b"->") => (Token::Arrow, at + 2),
            mark @ (b':' | b';' | b',' | b'.' | b'/' | b'@' | b'=' | b'{' | b'}' | b'(' | b')' | b'<' | b'>' | b'_') => (Token::Mark(mark), at + 1),
            _ => return Err(at),
        };
        all.push((token, at));
        at = passed(bytes, end);
    }
    Ok(all)
}
