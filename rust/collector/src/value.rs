//! Lua values.

use crate::answer::odd;
use crate::{FunctionRef, StringRef, TableRef, ThreadRef, UserdataRef};
use core::fmt;

/// A Lua value: what stacks, tables, upvalues and constants hold.
///
/// Calls that take a value take whatever turns into one: a bool, a number, a handle, or an `Option`
/// of these with `None` for nil.
///
/// ```
/// use collector::{Heap, Sizes, Value};
///
/// let mut heap = Heap::new(Sizes::default())?;
/// let lease = heap.make_userdata()?;
/// heap.push(lease)?;
/// heap.push(12.5)?;
/// heap.push(Value::Nil)?;
/// assert_eq!(heap.stack_get(0)?, Value::Userdata(lease));
/// assert_eq!(heap.stack_get(1)?, Value::Number(12.5));
/// assert!(heap.stack_get(2)?.is_nil());
/// # Ok::<(), collector::Refusal>(())
/// ```
#[derive(Clone, Copy, Debug, Default, PartialEq)]
pub enum Value {
    /// Nil.
    #[default]
    Nil,
    /// A boolean.
    Bool(bool),
    /// A light userdata: 64 bits that mean something to the host alone.
    Light(u64),
    /// A number. Its 64 bits are stored as they are, also those of a NaN.
    Number(f64),
    /// A string.
    String(StringRef),
    /// A table.
    Table(TableRef),
    /// A closure, of Lua or of Rust.
    Function(FunctionRef),
    /// A userdata.
    Userdata(UserdataRef),
    /// A thread.
    Thread(ThreadRef),
}

/// The low and the high word of 64 bits.
const fn halves(n: u64) -> [u32; 2] {
    [n as u32, (n >> 32) as u32]
}

impl Value {
    /// Whether it is nil.
    ///
    /// ```
    /// use collector::Value;
    /// assert!(Value::Nil.is_nil());
    /// assert!(!Value::from(false).is_nil());
    /// ```
    #[must_use]
    pub const fn is_nil(self) -> bool {
        matches!(self, Self::Nil)
    }

    /// Tag, low and high word, as the engine takes them.
    pub(crate) fn words(self) -> [u32; 3] {
        let (tag, [low, high]) = match self {
            Self::Nil => (0, [0, 0]),
            Self::Bool(b) => (1, [b.into(), 0]),
            Self::Light(bits) => (2, halves(bits)),
            Self::Number(n) => (3, halves(n.to_bits())),
            Self::String(r) => (4, [r.index(), r.generation()]),
            Self::Table(r) => (5, [r.index(), r.generation()]),
            Self::Function(r) => (6, [r.index(), r.generation()]),
            Self::Userdata(r) => (7, [r.index(), r.generation()]),
            Self::Thread(r) => (8, [r.index(), r.generation()]),
        };
        [tag, low, high]
    }

    /// The value that the engine answers in these words.
    pub(crate) fn of(words: [u32; 3]) -> Self {
        let [tag, low, high] = words;
        let bits = u64::from(low) | u64::from(high) << 32;
        match tag {
            0 => Self::Nil,
            1 => Self::Bool(low != 0),
            2 => Self::Light(bits),
            3 => Self::Number(f64::from_bits(bits)),
            4 => Self::String(StringRef::new(low, high)),
            5 => Self::Table(TableRef::new(low, high)),
            6 => Self::Function(FunctionRef::new(low, high)),
            7 => Self::Userdata(UserdataRef::new(low, high)),
            8 => Self::Thread(ThreadRef::new(low, high)),
            _ => odd(&words),
        }
    }
}

/// The accessors of one variant each, and the conversions to and from it.
macro_rules! variants {
    ($($variant:ident($held:ty): $as:ident, $word:literal, $example:literal;)*) => {
        impl Value {$(
            #[doc = concat!("The ", $word, ", if it is one.")]
            ///
            /// ```
            /// use collector::*;
            #[doc = concat!("let held = ", $example, ";")]
            #[doc = concat!("let value = Value::", stringify!($variant), "(held);")]
            #[doc = concat!("assert_eq!(value.", stringify!($as), "(), Some(held));")]
            #[doc = concat!("assert_eq!(Value::Nil.", stringify!($as), "(), None);")]
            /// ```
            #[must_use]
            pub const fn $as(self) -> Option<$held> {
                match self {
                    Self::$variant(held) => Some(held),
                    _ => None,
                }
            }
        )*}
    };
}

variants! {
    Bool(bool): as_bool, "boolean", "true";
    Light(u64): as_light, "light userdata", "0x7fff_0000_1234";
    Number(f64): as_number, "number", "2.5";
    String(StringRef): as_string, "string's handle", "StringRef::new(1, 0)";
    Table(TableRef): as_table, "table's handle", "TableRef::new(1, 0)";
    Function(FunctionRef): as_function, "function's handle", "FunctionRef::new(1, 0)";
    Userdata(UserdataRef): as_userdata, "userdata's handle", "UserdataRef::new(1, 0)";
    Thread(ThreadRef): as_thread, "thread's handle", "ThreadRef::new(1, 0)";
}

macro_rules! from {
    ($($held:ty: $variant:ident;)*) => {$(
        impl From<$held> for Value {
            fn from(held: $held) -> Self {
                Self::$variant(held.into())
            }
        }
    )*};
}

// A u64 turns into no value by itself: it could be a number or a light userdata.
from! {
    bool: Bool;
    f64: Number;
    f32: Number;
    i32: Number;
    u32: Number;
    StringRef: String;
    TableRef: Table;
    FunctionRef: Function;
    UserdataRef: Userdata;
    ThreadRef: Thread;
}

impl<T: Into<Value>> From<Option<T>> for Value {
    fn from(held: Option<T>) -> Self {
        held.map_or(Self::Nil, Into::into)
    }
}

impl fmt::Display for Value {
    fn fmt(&self, f: &mut fmt::Formatter<'_>) -> fmt::Result {
        match self {
            Self::Nil => f.write_str("nil"),
            Self::Bool(b) => b.fmt(f),
            Self::Light(bits) => write!(f, "light userdata {bits:#x}"),
            Self::Number(n) => n.fmt(f),
            Self::String(r) => r.fmt(f),
            Self::Table(r) => r.fmt(f),
            Self::Function(r) => r.fmt(f),
            Self::Userdata(r) => r.fmt(f),
            Self::Thread(r) => r.fmt(f),
        }
    }
}
