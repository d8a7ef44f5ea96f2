//! What the engine answers, from codes and words to types.

use crate::{
    FunctionRef, Item, Refusal, StringRef, TableRef, ThreadRef, UpvalueRef, UserdataRef, Value,
};

/// Words that the engine answers in no case: only libraries of another version can.
#[cold]
pub(crate) fn odd(words: &[u32]) -> ! {
    panic!("the static libraries are of another version than this crate: they answer {words:?}")
}

/// What a code says: 0 is done, any other the number of a refusal.
pub(crate) fn answered(code: u32) -> Result<(), Refusal> {
    if code == 0 {
        return Ok(());
    }
    Err(Refusal::from_number(code).unwrap_or_else(|| odd(&[code])))
}

/// The words that a call gives beside its code.
pub(crate) fn gives<const N: usize>(
    call: impl FnOnce(&mut [u32]) -> u32,
) -> Result<[u32; N], Refusal> {
    let mut out = [0; N];
    answered(call(&mut out))?;
    Ok(out)
}

/// 64 bits from the low word and the high one.
pub(crate) fn joined([low, high]: [u32; 2]) -> u64 {
    u64::from(low) | u64::from(high) << 32
}

/// A table's handle that may be missing, as calls take it.
pub(crate) fn maybe(table: Option<TableRef>) -> [u32; 3] {
    table.map_or([0; 3], |t| [1, t.index(), t.generation()])
}

/// What a read answers: which kind of answer it is, and its words.
pub(crate) struct Read(pub(crate) [u32; 4]);

impl Read {
    pub(crate) fn number(self) -> u64 {
        match self.0 {
            [0, low, high, _] => joined([low, high]),
            words => odd(&words),
        }
    }

    /// A number that the header says fits one word.
    pub(crate) fn small(self) -> u32 {
        match self.0 {
            [0, low, 0, _] => low,
            words => odd(&words),
        }
    }

    pub(crate) fn byte(self) -> u8 {
        let words = self.0;
        u8::try_from(self.small()).unwrap_or_else(|_| odd(&words))
    }

    pub(crate) fn flag(self) -> bool {
        self.small() != 0
    }

    /// A number that is stored plus 1, with 0 for none.
    pub(crate) fn place(self) -> Option<u32> {
        self.small().checked_sub(1)
    }

    pub(crate) fn value(self) -> Value {
        match self.0 {
            [1, tag, low, high] => Value::of([tag, low, high]),
            words => odd(&words),
        }
    }

    pub(crate) fn table(self) -> Option<TableRef> {
        self.handle(2).map(TableRef::of)
    }

    pub(crate) fn string(self) -> Option<StringRef> {
        self.handle(3).map(StringRef::of)
    }

    pub(crate) fn userdata(self) -> Option<UserdataRef> {
        self.handle(6).map(UserdataRef::of)
    }

    /// A handle that may be missing, of the kind of answer that says so.
    fn handle(self, kind: u32) -> Option<[u32; 2]> {
        match self.0 {
            [k, 0, ..] if k == kind => None,
            [k, 1, index, generation] if k == kind => Some([index, generation]),
            words => odd(&words),
        }
    }

    pub(crate) fn upvalue(self) -> UpvalueRef {
        match self.0 {
            [4, index, generation, _] => UpvalueRef::new(index, generation),
            words => odd(&words),
        }
    }

    pub(crate) fn item(self) -> Item {
        match self.0 {
            [5, 5, index, generation] => Item::Table(TableRef::new(index, generation)),
            [5, 6, index, generation] => Item::Function(FunctionRef::new(index, generation)),
            [5, 7, index, generation] => Item::Userdata(UserdataRef::new(index, generation)),
            [5, 8, index, generation] => Item::Thread(ThreadRef::new(index, generation)),
            [5, 9, ..] => Item::Main,
            [5, ..] => Item::Unknown,
            words => odd(&words),
        }
    }
}
