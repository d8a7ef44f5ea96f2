//! What a call answers.

use crate::line::quoted;
use crate::refs::{AnyRef, FuncRef, StrRef, TableRef, ThreadRef, UdRef, UpvalRef};
use crate::snapshot::{Colour, Snapshot};
use crate::value::Value;
use std::fmt;

/// A refusal by its number in document 01's table. Numbers 1 and 8 speak of damaged buffers,
/// which this heap does not have.
#[derive(Clone, Copy, Debug, PartialEq, Eq)]
pub struct Refusal(pub u8);

/// A handle names no occupied slot.
pub(crate) const STALE: u8 = 2;
/// No slot or number is left.
pub(crate) const FULL: u8 = 3;
/// An index, length or size outside its range.
pub(crate) const RANGE: u8 = 4;
/// The call does not fit what is there.
pub(crate) const UNFIT: u8 = 5;
/// The tracked total would pass its bound.
pub(crate) const TOTAL: u8 = 6;
/// The total is above the limit.
pub(crate) const LIMIT: u8 = 7;

/// `Ok` if it holds, else the refusal.
pub(crate) fn ensure(holds: bool, number: u8) -> Result<(), Refusal> {
    if holds { Ok(()) } else { Err(Refusal(number)) }
}

/// What a collector call or a finish answers.
#[derive(Clone, Copy, Debug, PartialEq, Eq)]
pub enum Step {
    /// One single step, with its cost.
    Stepped(u64),
    /// A budgeted step that did not reach Pause.
    Unfinished,
    /// A cycle ended.
    Ended,
    /// The check found the total within the limit.
    Passed,
    /// A finalizer is out: userdata and method.
    Handed(UdRef, Value),
    /// A finalizer is out, so no step was made.
    Busy,
    /// The finalizer failed and the call ended with it.
    Failed,
    Refused(Refusal),
}

/// What any command answers.
#[derive(Clone, Debug, PartialEq)]
pub enum Answer {
    Done,
    Refused(Refusal),
    Handle(AnyRef),
    Value(Value),
    Number(u64),
    /// A limit, `none` for no limit.
    Limit(Option<u64>),
    Flag(bool),
    Step(Step),
    Colour(Colour),
    Text(String),
    Snapshot(Box<Snapshot>),
}

impl fmt::Display for Step {
    fn fmt(&self, f: &mut fmt::Formatter<'_>) -> fmt::Result {
        match self {
            Self::Stepped(cost) => write!(f, "stepped {cost}"),
            Self::Unfinished => f.write_str("unfinished"),
            Self::Ended => f.write_str("ended"),
            Self::Passed => f.write_str("passed"),
            Self::Handed(userdata, method) => write!(f, "handed {userdata} {method}"),
            Self::Busy => f.write_str("busy"),
            Self::Failed => f.write_str("failed"),
            Self::Refused(refusal) => refusal.fmt(f),
        }
    }
}

impl fmt::Display for Refusal {
    fn fmt(&self, f: &mut fmt::Formatter<'_>) -> fmt::Result {
        write!(f, "refused {}", self.0)
    }
}

impl fmt::Display for Answer {
    fn fmt(&self, f: &mut fmt::Formatter<'_>) -> fmt::Result {
        match self {
            Self::Done => f.write_str("done"),
            Self::Refused(refusal) => refusal.fmt(f),
            Self::Handle(r) => r.fmt(f),
            Self::Value(v) => v.fmt(f),
            Self::Number(n) | Self::Limit(Some(n)) => n.fmt(f),
            Self::Limit(None) => f.write_str("none"),
            Self::Flag(b) => f.write_str(if *b { "yes" } else { "no" }),
            Self::Step(step) => step.fmt(f),
            Self::Colour(colour) => colour.fmt(f),
            Self::Text(text) => f.write_str(text),
            Self::Snapshot(snapshot) => f.write_str(snapshot.to_string().trim_end()),
        }
    }
}

macro_rules! answers {
    ($($given:ty, $made:ident => $answer:expr;)*) => {
        $(impl From<$given> for Answer {
            fn from($made: $given) -> Self {
                $answer
            }
        })*
    };
}

answers! {
    (), _made => Self::Done;
    StrRef, made => Self::Handle(made.into());
    TableRef, made => Self::Handle(made.into());
    FuncRef, made => Self::Handle(made.into());
    UpvalRef, made => Self::Handle(made.into());
    UdRef, made => Self::Handle(made.into());
    ThreadRef, made => Self::Handle(made.into());
    Value, read => Self::Value(read);
    u32, number => Self::Number(number.into());
    Option<u64>, limit => Self::Limit(limit);
    bool, flag => Self::Flag(flag);
    Colour, colour => Self::Colour(colour);
    String, text => Self::Text(text);
    Vec<u8>, bytes => Self::Text(quoted(&bytes));
    Snapshot, whole => Self::Snapshot(Box::new(whole));
}

/// A refused step is a refusal like any other.
impl From<Step> for Answer {
    fn from(step: Step) -> Self {
        match step {
            Step::Refused(refusal) => Self::Refused(refusal),
            step => Self::Step(step),
        }
    }
}

impl<T: Into<Answer>> From<Result<T, Refusal>> for Answer {
    fn from(result: Result<T, Refusal>) -> Self {
        match result {
            Ok(given) => given.into(),
            Err(refusal) => Self::Refused(refusal),
        }
    }
}
