//! How every call begins and ends: words for the answer, test 1, the damage mark, the work, the mark
//! again.

use crate::test1::accepted;
use heap::layout::{Layout, header};
use proved::Refused;

/// The two lent buffers, with every call.
pub struct Buffers<'a> {
    pub words: &'a mut [u32],
    pub bytes: &'a mut [u8],
}

/// A heap that test 1 has let in.
pub(crate) struct Heap<'a> {
    pub words: &'a mut [u32],
    pub bytes: &'a mut [u8],
    pub layout: Layout,
}

/// An answer, or a refusal.
pub(crate) type Told<T> = Result<T, Refused>;

/// A refusal unless the condition holds.
pub(crate) fn unless(condition: bool, number: u32) -> Told<()> {
    if condition {
        Ok(())
    } else {
        Err(Refused(number))
    }
}

impl Buffers<'_> {
    /// Rows 1 and 8, then the work; and 8 where the work set the mark, whatever it answered.
    fn entered<T>(&mut self, work: impl FnOnce(&mut Heap) -> Told<T>) -> Told<T> {
        let layout = accepted(self.words, self.bytes).ok_or(Refused(1))?;
        unless(self.words[header::DAMAGE] == 0, 8)?;
        let mut heap = Heap {
            words: self.words,
            bytes: self.bytes,
            layout,
        };
        let answer = work(&mut heap);
        unless(heap.words[header::DAMAGE] == 0, 8)?;
        answer
    }

    /// A call that answers only a code.
    pub(crate) fn call(&mut self, work: impl FnOnce(&mut Heap) -> Told<()>) -> u32 {
        code(self.entered(work))
    }

    /// A call that tells words: too few lent ones are 1 before all else, and a refusal leaves them.
    pub(crate) fn tell<const N: usize>(
        &mut self,
        out: &mut [u32],
        work: impl FnOnce(&mut Heap) -> Told<[u32; N]>,
    ) -> u32 {
        code(unless(N <= out.len(), 1).and_then(|()| {
            out[..N].copy_from_slice(&self.entered(work)?);
            Ok(())
        }))
    }
}

/// 0, or the number of a refusal.
pub(crate) fn code(answer: Told<()>) -> u32 {
    answer.err().map_or(0, |Refused(number)| number)
}

/// Numbers of 64 bits in two words, the low one first; counts as they are read; zeroed words.
impl Heap<'_> {
    pub fn long(&self, place: usize) -> u64 {
        u64::from(self.words[place]) | u64::from(self.words[place + 1]) << 32
    }

    pub fn set_long(&mut self, place: usize, number: u64) {
        let [low, high] = halves(number);
        self.words[place] = low;
        self.words[place + 1] = high;
    }

    /// A size or count outside its range reads as 0.
    pub fn count(&self, place: usize, most: usize) -> usize {
        let n = self.words[place] as usize;
        if n <= most { n } else { 0 }
    }

    pub fn zero(&mut self, place: usize, count: usize) {
        self.words[place..place + count].fill(0);
    }

    pub fn damage(&mut self) {
        self.words[header::DAMAGE] = 1;
    }
}

/// The low word and the high one.
pub(crate) fn halves(number: u64) -> [u32; 2] {
    [number as u32, (number >> 32) as u32]
}
