//! How each kind of argument is read from a script line and written.

use crate::line::{Piece, Pieces, hex, quoted};
use crate::refs::{AnyRef, FuncRef, StrRef, TableRef, ThreadRef, UdRef, UpvalRef};
use crate::value::Value;

/// Index and generation after a kind's letter.
fn numbers(text: &str, letter: char) -> Option<(u32, u32)> {
    let (index, generation) = text.strip_prefix(letter)?.split_once('.')?;
    Some((decimal(index)?, decimal(generation)?))
}

/// Decimal digits only: no sign, no blank.
fn decimal(text: &str) -> Option<u32> {
    let digits = !text.is_empty() && text.bytes().all(|b| b.is_ascii_digit());
    digits.then(|| text.parse().ok()).flatten()
}

/// An argument of a command.
pub(crate) trait Field: Sized {
    fn take(pieces: &mut Pieces) -> Result<Self, String>;
    fn show(&self) -> String;
}

macro_rules! handle_fields {
    ($($name:ident $what:literal),*) => {
        $(impl Field for $name {
            fn take(pieces: &mut Pieces) -> Result<Self, String> {
                let word = pieces.word($what)?;
                numbers(&word, Self::LETTER)
                    .map(|(index, generation)| Self::new(index, generation))
                    .ok_or(format!("{} wanted, not {word}", $what))
            }
            fn show(&self) -> String {
                self.to_string()
            }
        })*

        /// A handle by its letter.
        fn any_handle(word: &str) -> Option<AnyRef> {
            $(if let Some((index, generation)) = numbers(word, $name::LETTER) {
                return Some($name::new(index, generation).into());
            })*
            None
        }
    };
}

handle_fields!(
    StrRef "a string (s0.0)",
    TableRef "a table (t0.0)",
    FuncRef "a closure (f0.0)",
    UpvalRef "an upvalue (u0.0)",
    UdRef "a userdata (d0.0)",
    ThreadRef "a thread (h0.0)"
);

impl Field for AnyRef {
    fn take(pieces: &mut Pieces) -> Result<Self, String> {
        let word = pieces.word("a handle")?;
        any_handle(&word).ok_or(format!("a handle wanted, not {word}"))
    }
    fn show(&self) -> String {
        self.to_string()
    }
}

/// A value by its word.
fn value(word: &str) -> Option<Value> {
    let simple = match word {
        "nil" => Some(Value::Nil),
        "true" => Some(Value::Bool(true)),
        "false" => Some(Value::Bool(false)),
        _ => None,
    };
    let bits = |prefix: &str| word.strip_prefix(prefix).and_then(|h| hex(h, 16));
    let held = || match any_handle(word)? {
        AnyRef::Str(r) => Some(Value::Str(r)),
        AnyRef::Table(r) => Some(Value::Table(r)),
        AnyRef::Func(r) => Some(Value::Function(r)),
        AnyRef::Ud(r) => Some(Value::Userdata(r)),
        AnyRef::Thread(r) => Some(Value::Thread(r)),
        AnyRef::Upval(_) => None,
    };
    simple
        .or_else(|| bits("n:").map(Value::Number))
        .or_else(|| bits("l:").map(Value::Light))
        .or_else(held)
}

impl Field for Value {
    fn take(pieces: &mut Pieces) -> Result<Self, String> {
        let word = pieces.word("a value")?;
        value(&word).ok_or(format!("a value wanted, not {word}"))
    }
    fn show(&self) -> String {
        self.to_string()
    }
}

impl Field for u32 {
    fn take(pieces: &mut Pieces) -> Result<Self, String> {
        let word = pieces.word("a number")?;
        decimal(&word).ok_or(format!("a number from 0 to 4294967295 wanted, not {word}"))
    }
    fn show(&self) -> String {
        self.to_string()
    }
}

impl Field for i64 {
    fn take(pieces: &mut Pieces) -> Result<Self, String> {
        let word = pieces.word("a signed number")?;
        word.parse()
            .map_err(|_| format!("a signed number of 64 bits wanted, not {word}"))
    }
    fn show(&self) -> String {
        self.to_string()
    }
}

/// A limit: a number of 64 bits below the last, which the source keeps for "none".
impl Field for Option<u64> {
    fn take(pieces: &mut Pieces) -> Result<Self, String> {
        let word = pieces.word("a limit or none")?;
        if word == "none" {
            return Ok(None);
        }
        let number = word.parse().ok().filter(|n| *n < u64::MAX);
        number
            .map(Some)
            .ok_or(format!("a limit or none wanted, not {word}"))
    }
    fn show(&self) -> String {
        self.map_or_else(|| "none".to_owned(), |n| n.to_string())
    }
}

impl Field for Option<TableRef> {
    fn take(pieces: &mut Pieces) -> Result<Self, String> {
        let word = pieces.word("a table or none")?;
        if word == "none" {
            return Ok(None);
        }
        let named = numbers(&word, TableRef::LETTER).map(|(i, g)| TableRef::new(i, g));
        named
            .map(Some)
            .ok_or(format!("a table or none wanted, not {word}"))
    }
    fn show(&self) -> String {
        self.map_or_else(|| "none".to_owned(), |t| t.to_string())
    }
}

/// How a finalizer ended: `ok` or `fail`.
impl Field for bool {
    fn take(pieces: &mut Pieces) -> Result<Self, String> {
        match pieces.word("ok or fail")?.as_str() {
            "ok" => Ok(true),
            "fail" => Ok(false),
            word => Err(format!("ok or fail wanted, not {word}")),
        }
    }
    fn show(&self) -> String {
        if *self { "ok" } else { "fail" }.to_owned()
    }
}

/// Bytes in quotes.
impl Field for Vec<u8> {
    fn take(pieces: &mut Pieces) -> Result<Self, String> {
        match pieces.rest.next() {
            Some(Piece::Bytes(bytes)) => Ok(bytes),
            _ => Err("bytes in quotes wanted".to_owned()),
        }
    }
    fn show(&self) -> String {
        quoted(self)
    }
}

/// A list in brackets.
macro_rules! list_fields {
    ($($item:ty),*) => {
        $(impl Field for Vec<$item> {
            fn take(pieces: &mut Pieces) -> Result<Self, String> {
                if pieces.rest.next() != Some(Piece::Open) {
                    return Err("a list in brackets wanted".to_owned());
                }
                let mut items = Vec::new();
                while let Some(first) = pieces.rest.as_slice().first() {
                    if *first == Piece::Close {
                        pieces.rest.next();
                        return Ok(items);
                    }
                    items.push(<$item as Field>::take(pieces)?);
                }
                Err("a closing bracket is missing".to_owned())
            }
            fn show(&self) -> String {
                let items: Vec<String> = self.iter().map(Field::show).collect();
                format!("[{}]", items.join(" "))
            }
        })*
    };
}

list_fields!(Value, UpvalRef, u32);
