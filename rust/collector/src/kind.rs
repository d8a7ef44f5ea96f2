//! The six kinds of objects.

use core::fmt;

/// A kind of object. Each kind has an arena of its own.
///
/// ```
/// use collector::{Heap, Kind, Sizes};
///
/// let heap = Heap::new(Sizes::default())?;
/// assert_eq!(heap.occupied(Kind::Strings)?, 2, "the names __mode and __gc");
/// # Ok::<(), collector::Refusal>(())
/// ```
// In the order of the engine's numbers.
#[derive(Clone, Copy, Debug, PartialEq, Eq, Hash)]
pub enum Kind {
    /// Strings.
    Strings,
    /// Tables.
    Tables,
    /// Closures, of Lua or of Rust.
    Functions,
    /// Upvalues.
    Upvalues,
    /// Userdata.
    Userdata,
    /// Threads.
    Threads,
}

impl Kind {
    /// All six, in the order of the arenas.
    ///
    /// ```
    /// use collector::{Heap, Kind, Sizes};
    ///
    /// let heap = Heap::new(Sizes::default())?;
    /// for kind in Kind::ALL {
    ///     println!("{}: {}", kind, heap.occupied(kind)?);
    /// }
    /// # Ok::<(), collector::Refusal>(())
    /// ```
    pub const ALL: [Self; 6] = [
        Self::Strings,
        Self::Tables,
        Self::Functions,
        Self::Upvalues,
        Self::Userdata,
        Self::Threads,
    ];
}

impl fmt::Display for Kind {
    fn fmt(&self, f: &mut fmt::Formatter<'_>) -> fmt::Result {
        f.write_str(match self {
            Self::Strings => "strings",
            Self::Tables => "tables",
            Self::Functions => "functions",
            Self::Upvalues => "upvalues",
            Self::Userdata => "userdata",
            Self::Threads => "threads",
        })
    }
}
