//! A script line in pieces: words, brackets, and bytes in quotes.

/// A piece of a line.
#[derive(Clone, Debug, PartialEq)]
pub(crate) enum Piece {
    Word(String),
    Open,
    Close,
    Bytes(Vec<u8>),
}

/// The pieces of a line that are still to be read.
pub(crate) struct Pieces {
    pub(crate) rest: std::vec::IntoIter<Piece>,
}

impl Pieces {
    /// Parts a line at blanks, brackets and quoted bytes.
    pub(crate) fn of(line: &str) -> Result<Self, String> {
        let mut pieces = Vec::new();
        let mut word = String::new();
        let mut chars = line.chars();
        while let Some(c) = chars.next() {
            let whole = match c {
                '[' => Some(Piece::Open),
                ']' => Some(Piece::Close),
                '"' => Some(Piece::Bytes(unquoted(&mut chars)?)),
                c if c.is_whitespace() => None,
                c => {
                    word.push(c);
                    continue;
                }
            };
            if !word.is_empty() {
                pieces.push(Piece::Word(std::mem::take(&mut word)));
            }
            pieces.extend(whole);
        }
        if !word.is_empty() {
            pieces.push(Piece::Word(word));
        }
        let rest = pieces.into_iter();
        Ok(Self { rest })
    }

    pub(crate) fn word(&mut self, wanted: &str) -> Result<String, String> {
        match self.rest.next() {
            Some(Piece::Word(word)) => Ok(word),
            Some(_) | None => Err(format!("{wanted} wanted")),
        }
    }

    /// Nothing more may stand on the line.
    pub(crate) fn end(&mut self) -> Result<(), String> {
        match self.rest.next() {
            None => Ok(()),
            Some(_) => Err("too many arguments".to_owned()),
        }
    }
}

/// Reads up to the closing quote. Escapes: `\\`, `\"` and `\xHH`.
fn unquoted(chars: &mut std::str::Chars<'_>) -> Result<Vec<u8>, String> {
    let mut bytes = Vec::new();
    let mut buffer = [0; 4];
    loop {
        match chars.next() {
            None => return Err("a closing quote is missing".to_owned()),
            Some('"') => return Ok(bytes),
            Some('\\') => match chars.next() {
                Some(c @ ('\\' | '"')) => bytes.push(c as u8),
                Some('x') => {
                    let pair: String = chars.by_ref().take(2).collect();
                    bytes.push(
                        hex(&pair, 2).ok_or("two hexadecimal digits wanted after \\x")? as u8,
                    );
                }
                _ => return Err("an escape is \\\\, \\\" or \\xHH".to_owned()),
            },
            Some(c) => bytes.extend_from_slice(c.encode_utf8(&mut buffer).as_bytes()),
        }
    }
}

/// Bytes in quotes, each printable one as it is, all others as `\xHH`.
pub(crate) fn quoted(bytes: &[u8]) -> String {
    let mut text = String::from("\"");
    for &b in bytes {
        match b {
            b'"' | b'\\' => text.extend(['\\', char::from(b)]),
            0x20..=0x7e => text.push(char::from(b)),
            _ => text.push_str(&format!("\\x{b:02x}")),
        }
    }
    text.push('"');
    text
}

/// Exactly so many hexadecimal digits.
pub(crate) fn hex(text: &str, digits: usize) -> Option<u64> {
    let fits = text.len() == digits && text.bytes().all(|b| b.is_ascii_hexdigit());
    fits.then(|| u64::from_str_radix(text, 16).ok()).flatten()
}
