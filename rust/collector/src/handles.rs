//! Handles: a type for each kind of object, so that a string's never passes for a table's.

use crate::Kind;
use core::fmt;

mod sealed {
    pub trait Sealed {}
}

/// What the six types of handles share. It is for calls that take a handle of any kind, and no
/// other type implements it.
///
/// ```
/// use collector::{Handle, Kind, UserdataRef};
///
/// fn place(handle: impl Handle) -> (Kind, u32) {
///     (handle.kind(), handle.index())
/// }
/// assert_eq!(place(UserdataRef::new(3, 0)), (Kind::Userdata, 3));
/// ```
pub trait Handle: Copy + fmt::Debug + fmt::Display + Eq + sealed::Sealed {
    /// The kind of object that it names.
    fn kind(self) -> Kind;
    /// The slot in the arena of that kind.
    fn index(self) -> u32;
    /// How often the slot had been freed, modulo 2^32, when the object was made.
    fn generation(self) -> u32;
}

macro_rules! handles {
    ($($(#[$doc:meta])* $name:ident: $kind:ident, $word:literal;)*) => {$(
        $(#[$doc])*
        ///
        /// It is an index and a generation. Once its slot was freed it names nothing, and calls
        /// that are given it answer [`Stale`](crate::Refusal::Stale); only after 2^32 frees of that
        /// slot may it name another object. A heap does not know its own handles: given to another
        /// heap, a handle names what has its index and generation there.
        ///
        /// ```
        #[doc = concat!("use collector::", stringify!($name), ";")]
        ///
        #[doc = concat!("let handle = ", stringify!($name), "::new(3, 1);")]
        /// assert_eq!((handle.index(), handle.generation()), (3, 1));
        #[doc = concat!("assert_eq!(handle.to_string(), \"", $word, " 3.1\");")]
        /// ```
        #[derive(Clone, Copy, Debug, PartialEq, Eq, Hash, PartialOrd, Ord)]
        pub struct $name {
            index: u32,
            generation: u32,
        }

        impl $name {
            /// The handle of a slot at a generation, as it stands in a dump. Any numbers will do:
            /// calls refuse a handle that names nothing.
            #[must_use]
            pub const fn new(index: u32, generation: u32) -> Self {
                Self { index, generation }
            }

            /// The slot.
            #[must_use]
            pub const fn index(self) -> u32 {
                self.index
            }

            /// How often the slot had been freed, modulo 2^32, when the object was made.
            #[must_use]
            pub const fn generation(self) -> u32 {
                self.generation
            }

            pub(crate) const fn of([index, generation]: [u32; 2]) -> Self {
                Self::new(index, generation)
            }
        }

        impl sealed::Sealed for $name {}

        impl Handle for $name {
            fn kind(self) -> Kind {
                Kind::$kind
            }

            fn index(self) -> u32 {
                self.index
            }

            fn generation(self) -> u32 {
                self.generation
            }
        }

        impl fmt::Display for $name {
            fn fmt(&self, f: &mut fmt::Formatter<'_>) -> fmt::Result {
                write!(f, concat!($word, " {}.{}"), self.index, self.generation)
            }
        }
    )*};
}

handles! {
    /// The handle of a string.
    StringRef: Strings, "string";
    /// The handle of a table.
    TableRef: Tables, "table";
    /// The handle of a closure, of Lua or of Rust.
    FunctionRef: Functions, "function";
    /// The handle of an upvalue.
    UpvalueRef: Upvalues, "upvalue";
    /// The handle of a userdata.
    UserdataRef: Userdata, "userdata";
    /// The handle of a thread.
    ThreadRef: Threads, "thread";
}

/// The number of a prototype. Prototypes are never freed, so it has no generation.
///
/// ```
/// use collector::{Heap, Proto, Sizes};
///
/// let mut heap = Heap::new(Sizes::default())?;
/// let proto = heap.make_proto(&[], &[])?;
/// assert_eq!(proto, Proto::new(0));
/// assert_eq!(proto.number(), 0);
/// # Ok::<(), collector::Refusal>(())
/// ```
#[derive(Clone, Copy, Debug, PartialEq, Eq, Hash, PartialOrd, Ord)]
pub struct Proto(u32);

impl Proto {
    /// The prototype of this number. Calls refuse one that is not made.
    #[must_use]
    pub const fn new(number: u32) -> Self {
        Self(number)
    }

    /// Its number.
    #[must_use]
    pub const fn number(self) -> u32 {
        self.0
    }
}

impl fmt::Display for Proto {
    fn fmt(&self, f: &mut fmt::Formatter<'_>) -> fmt::Result {
        write!(f, "prototype {}", self.0)
    }
}
