//! Values, handles that may be missing, and when two keys are equal.

use crate::buffers::{Heap, Told, unless};
use heap::ask::Kind;

/// Index and generation.
pub(crate) type Handle = (u32, u32);

/// Three words in the one form that each value has.
#[derive(Clone, Copy, Debug, PartialEq, Eq)]
pub(crate) struct Value {
    pub tag: u32,
    pub low: u32,
    pub high: u32,
}

pub(crate) const NIL: Value = Value {
    tag: 0,
    low: 0,
    high: 0,
};

const NUMBER: u32 = 3;

impl Value {
    /// Stored words: an unknown tag is nil, a boolean's low word not 0 is true.
    pub fn read(tag: u32, low: u32, high: u32) -> Self {
        match tag {
            1 => Self {
                tag,
                low: u32::from(low != 0),
                high: 0,
            },
            2..=8 => Self { tag, low, high },
            _ => NIL,
        }
    }

    /// Given words: a tag above 8 is 4.
    pub fn given(tag: u32, low: u32, high: u32) -> Told<Self> {
        unless(tag <= 8, 4)?;
        Ok(Self::read(tag, low, high))
    }

    pub fn words(self) -> [u32; 3] {
        [self.tag, self.low, self.high]
    }

    pub fn is_nil(self) -> bool {
        self == NIL
    }

    fn number(self) -> Option<f64> {
        let bits = u64::from(self.low) | u64::from(self.high) << 32;
        (self.tag == NUMBER).then(|| f64::from_bits(bits))
    }

    pub fn is_nan(self) -> bool {
        self.number().is_some_and(f64::is_nan)
    }

    /// By kind and payload; 0 equals -0, and NaN nothing.
    pub fn equals(self, other: Self) -> bool {
        match (self.number(), other.number()) {
            (Some(one), Some(another)) => one == another,
            _ => self == other,
        }
    }

    /// What it refers to, if to an object.
    pub fn object(self) -> Option<(Kind, Handle)> {
        let kind = match self.tag {
            4 => Kind::Strings,
            5 => Kind::Tables,
            6 => Kind::Functions,
            7 => Kind::Userdata,
            8 => Kind::Threads,
            _ => return None,
        };
        Some((kind, (self.low, self.high)))
    }
}

impl Heap<'_> {
    pub fn value(&self, place: usize) -> Value {
        Value::read(
            self.words[place],
            self.words[place + 1],
            self.words[place + 2],
        )
    }

    pub fn set_value(&mut self, place: usize, value: Value) {
        self.words[place..place + 3].copy_from_slice(&value.words());
    }

    pub fn handle(&self, place: usize) -> Handle {
        (self.words[place], self.words[place + 1])
    }

    pub fn set_handle(&mut self, place: usize, (index, generation): Handle) {
        self.words[place] = index;
        self.words[place + 1] = generation;
    }

    /// A handle that may be missing: index + 1, 0 for none.
    pub fn optional(&self, place: usize) -> Option<Handle> {
        let index = self.words[place].checked_sub(1)?;
        Some((index, self.words[place + 1]))
    }

    pub fn set_optional(&mut self, place: usize, handle: Option<Handle>) {
        let stored = handle.map_or((0, 0), |(index, generation)| {
            (index.wrapping_add(1), generation)
        });
        self.set_handle(place, stored);
    }
}
