//! A new heap of ours held to the source's: every word and byte to the source's heap written out at
//! our places, and every read to what the source has.

use crate::ours::Words;
use crate::reading::read;
use crate::words::{Waiting, transcribed};
use oracle::{Oracle, Sizes, Snapshot, Value};

/// The first place at which two buffers differ, as far as the second goes.
fn difference<T: Copy + PartialEq>(ours: &[T], source: &[T]) -> Option<usize> {
    let same = ours.len() >= source.len() && ours[..source.len()] == *source;
    (!same).then(|| ours.iter().zip(source).take_while(|(a, b)| a == b).count())
}

/// Holds the two buffers to the snapshot written out.
fn compared_words(heap: &Words, source: &Snapshot) -> Result<(), String> {
    let image = transcribed(source, Waiting::default());
    if let Some(k) = difference(&heap.words, &image.words) {
        let (ours, source) = (heap.words.get(k), image.words.get(k));
        return Err(format!("word {k}: ours {ours:?}, the source's {source:?}"));
    }
    match difference(&heap.bytes, &image.bytes) {
        Some(k) => Err(format!("byte {k}: {:?}", heap.bytes.get(k))),
        None => Ok(()),
    }
}

/// Holds all that the exported reads answer to the snapshot, and to what it does not show of a
/// finalizer that is out.
///
/// # Errors
/// The first difference, in words.
pub fn compared_reads(heap: &Words, source: &Snapshot, waiting: Waiting) -> Result<(), String> {
    let (ours, ours_waiting) = read(heap)?;
    if ours_waiting != waiting {
        return Err(format!("ours {ours_waiting:?}, not {waiting:?}"));
    }
    let mut source = source.clone();
    source.out = source.out.map(|(d, _)| (d, Value::Nil));
    if ours == source {
        return Ok(());
    }
    let (ours, source) = (ours.to_string(), source.to_string());
    let line = ours.lines().zip(source.lines()).find(|(a, b)| a != b);
    Err(format!("ours and the source's: {line:?}"))
}

/// Holds a new heap of ours to the source's new heap of the same sizes.
///
/// # Errors
/// The first difference, in words.
pub fn compared(heap: &Words, sizes: [u32; 10]) -> Result<(), String> {
    let source =
        Oracle::new(Sizes::from(sizes)).map_err(|r| format!("the source refuses: {r:?}"))?;
    let source = source.snapshot();
    compared_words(heap, &source)?;
    compared_reads(heap, &source, Waiting::default())
}
