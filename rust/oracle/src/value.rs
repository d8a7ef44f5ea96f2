//! Values as scripts write them. Numbers and light userdata are 64-bit patterns, so that every
//! NaN and both zeros can be told apart.

use crate::refs::{FuncRef, StrRef, TableRef, ThreadRef, UdRef};
use crate::vm::value::Val;
use std::fmt;

/// A value of the heap.
#[derive(Clone, Copy, Debug, PartialEq, Eq, PartialOrd, Ord, Hash)]
pub enum Value {
    Nil,
    Bool(bool),
    /// The bits of a 64-bit float.
    Number(u64),
    /// Light userdata.
    Light(u64),
    Str(StrRef),
    Table(TableRef),
    Function(FuncRef),
    Userdata(UdRef),
    Thread(ThreadRef),
}

impl Value {
    /// The number value of a float.
    #[must_use]
    pub fn number(n: f64) -> Self {
        Self::Number(n.to_bits())
    }

    pub(crate) fn is_nan(self) -> bool {
        matches!(self, Self::Number(bits) if f64::from_bits(bits).is_nan())
    }

    pub(crate) fn val(self) -> Val {
        match self {
            Self::Nil => Val::Nil,
            Self::Bool(b) => Val::Bool(b),
            Self::Number(bits) => Val::Num(f64::from_bits(bits)),
            Self::Light(bits) => Val::LightUserdata(bits as usize),
            Self::Str(r) => Val::Str(r.gc()),
            Self::Table(r) => Val::Table(r.gc()),
            Self::Function(r) => Val::Function(r.gc()),
            Self::Userdata(r) => Val::Userdata(r.gc()),
            Self::Thread(r) => Val::Thread(r.gc()),
        }
    }
}

impl From<Val> for Value {
    fn from(val: Val) -> Self {
        match val {
            Val::Nil => Self::Nil,
            Val::Bool(b) => Self::Bool(b),
            Val::Num(n) => Self::Number(n.to_bits()),
            Val::LightUserdata(p) => Self::Light(p as u64),
            Val::Str(r) => Self::Str(r.into()),
            Val::Table(r) => Self::Table(r.into()),
            Val::Function(r) => Self::Function(r.into()),
            Val::Userdata(r) => Self::Userdata(r.into()),
            Val::Thread(r) => Self::Thread(r.into()),
        }
    }
}

impl fmt::Display for Value {
    fn fmt(&self, f: &mut fmt::Formatter<'_>) -> fmt::Result {
        match self {
            Self::Nil => f.write_str("nil"),
            Self::Bool(b) => b.fmt(f),
            Self::Number(bits) => write!(f, "n:{bits:016x}"),
            Self::Light(bits) => write!(f, "l:{bits:016x}"),
            Self::Str(r) => r.fmt(f),
            Self::Table(r) => r.fmt(f),
            Self::Function(r) => r.fmt(f),
            Self::Userdata(r) => r.fmt(f),
            Self::Thread(r) => r.fmt(f),
        }
    }
}
