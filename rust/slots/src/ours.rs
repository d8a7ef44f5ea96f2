//! The proved arena behind a safe interface. All that is unsafe in this crate stands here.

use proved::{Refused, answered};

/// Words of a slot's body in this comparison.
pub const STRIDE: usize = 2;
/// Bytes of a slot in this comparison.
pub const WIDTH: usize = 4;

/// The exported functions: each has the arena's buffers and place, its numbers, and words for the
/// answer where it gives any. `const` or `mut` says whether it may write to the bytes.
// A slice passes as a pointer and a length. Nothing checks these declarations against the Rattle
// source, so they are few, and `Ours` is compared with the source at every call.
macro_rules! exported {
    ($($visible:vis $method:ident: $name:ident $bytes:tt ($($number:ident),*) $(gives $out:ident)?;)*) => {
        mod exported {
            unsafe extern "C" {
                $(pub fn $name(
                    w: *mut u32,
                    w_len: usize,
                    b: *$bytes u8,
                    b_len: usize,
                    slots: usize,
                    stride: usize,
                    width: usize,
                    $($number: u32,)*
                    $($out: *mut u32, out_len: usize)?
                ) -> u32;)*
            }
        }

        impl Ours {
            $($visible fn $method(&mut self, $($number: u32,)* $($out: &mut [u32])?) -> Result<(), Refused> {
                let (w, b) = (&mut self.words, &mut self.bytes);
                // SAFETY: each pointer is that of a live slice, with its length; the function has
                // no requirement and writes only within the lengths given.
                answered(unsafe {
                    exported::$name(
                        w.as_mut_ptr(),
                        w.len(),
                        b.as_mut_ptr(),
                        b.len(),
                        self.slots,
                        STRIDE,
                        WIDTH,
                        $($number,)*
                        $($out.as_mut_ptr(), $out.len())?
                    )
                })
            })*
        }

        /// The name of each function and the types of its parameters.
        pub const DECLARED: &[(&str, &[&str])] = &[$((
            stringify!($name),
            &[
                "*mut u32",
                "usize",
                concat!("*", stringify!($bytes), " u8"),
                "usize",
                "usize",
                "usize",
                "usize",
                $(word(stringify!($number)),)*
                $(words(stringify!($out)), "usize",)?
            ],
        )),*];
    };
}

/// The type of a number, whatever its name.
const fn word(_: &str) -> &'static str {
    "u32"
}

/// The type of words for an answer, whatever their name.
const fn words(_: &str) -> &'static str {
    "*mut u32"
}

exported! {
    arena_take: sieddesan_arena_take const (colour, size) gives out;
    pub free: sieddesan_arena_free mut (index, generation);
    pub paint: sieddesan_arena_paint const (index, generation, colour);
    arena_sweep: sieddesan_arena_sweep mut (dead, white, start, most) gives out;
}

/// What a sweep did, where the next one starts, and whether it reached the end.
#[derive(Clone, Copy, Debug, PartialEq, Eq)]
pub struct Swept {
    pub freed: u32,
    pub next: u32,
    pub done: bool,
}

/// An arena in words and bytes of its own.
#[derive(Clone, Debug, PartialEq, Eq)]
pub struct Ours {
    pub slots: usize,
    pub words: Vec<u32>,
    pub bytes: Vec<u8>,
}

impl Ours {
    /// Zeroed words are an empty arena.
    pub fn new(slots: usize) -> Self {
        Self {
            slots,
            words: vec![0; 3 + (4 + STRIDE) * slots],
            bytes: vec![0; WIDTH * slots],
        }
    }

    pub fn take(&mut self, colour: u32) -> Result<(u32, u32), Refused> {
        let mut out = [0; 3];
        self.arena_take(colour, STRIDE as u32, &mut out)?;
        Ok((out[0], out[1]))
    }

    pub fn sweep(
        &mut self,
        dead: u32,
        white: u32,
        start: u32,
        most: u32,
    ) -> Result<Swept, Refused> {
        let mut out = [0; 3];
        self.arena_sweep(dead, white, start, most, &mut out)?;
        Ok(Swept {
            freed: out[0],
            next: out[1],
            done: out[2] == 1,
        })
    }

    /// The fresh index.
    pub fn fresh(&self) -> u32 {
        self.words[1]
    }

    /// The count of occupied slots.
    pub fn count(&self) -> u32 {
        self.words[2]
    }

    /// Generation and colour of slot `i`.
    pub fn slot(&self, i: usize) -> (u32, u32) {
        (self.words[3 + self.slots + i], self.words[3 + i])
    }

    /// The free chain from its head; a chain that turns back is cut after all slots.
    pub fn chain(&self) -> impl Iterator<Item = u32> {
        let link = |x: u32| self.words[3 + 2 * self.slots + x as usize - 1];
        std::iter::successors(Some(self.words[0]), move |&x| Some(link(x)))
            .take_while(|&x| x != 0)
            .take(self.slots + 1)
            .map(|x| x - 1)
    }

    /// The words and the bytes of slot `i`'s body.
    pub fn body(&mut self, i: usize) -> (&mut [u32], &mut [u8]) {
        let at = 3 + 4 * self.slots + STRIDE * i;
        (
            &mut self.words[at..at + STRIDE],
            &mut self.bytes[WIDTH * i..WIDTH * (i + 1)],
        )
    }
}
