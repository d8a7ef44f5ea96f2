//! What is found: a call on which ours and the second reading differ, or one that took too long, as a
//! small description.

use crate::bound::Nearest;
use crate::judge::{ours, second};
use crate::rows::{Given, Row};
use crate::shrink::{reference, shrunk};
use heap::{Layout, Words};
use oracle::Sizes;
use std::fmt;
use steps::names;

/// So many places are shown.
const SHOWN: usize = 40;

/// The answer of a call: its code and the lent words.
#[derive(Clone, Debug, PartialEq, Eq)]
pub struct Told {
    pub code: u32,
    pub out: Vec<u32>,
}

/// A call on buffers.
#[derive(Clone)]
pub struct Case {
    pub row: &'static Row,
    pub given: Given,
    pub before: Words,
}

pub enum Finding {
    Differs(Case),
    Slow(Case, Nearest),
}

/// What both did.
pub(crate) struct Both {
    pub ours: (Told, Words),
    pub second: (Told, Words),
}

impl Case {
    pub(crate) fn both(&self) -> Both {
        let (mut one, mut other) = (self.before.clone(), self.before.clone());
        let told = ours(self.row, &mut one, &self.given).0;
        let theirs = second(self.row, &mut other, &self.given);
        Both {
            ours: (told, one),
            second: (theirs, other),
        }
    }

    pub(crate) fn differs(&self) -> bool {
        let both = self.both();
        both.ours != both.second
    }
}

/// The name of a word, if the sizes in the header say where it lies.
fn name(words: &[u32], place: usize) -> String {
    match reading::accepted(words, &[0; 4096 * 64]) {
        Some(_) => {
            let sizes: [u32; 10] = words[..10].try_into().expect("ten sizes");
            let layout = Layout::new(Sizes::from(sizes));
            if place < layout.words {
                names::word(&layout, words, place)
            } else {
                "past the heap".to_owned()
            }
        }
        None => "word".to_owned(),
    }
}

impl fmt::Display for Case {
    fn fmt(&self, f: &mut fmt::Formatter<'_>) -> fmt::Result {
        let Words { words, bytes } = &self.before;
        let base = reference(&self.before);
        writeln!(f, "{} given {:?}", self.row.name, self.given)?;
        writeln!(
            f,
            "{} words, {} bytes, sizes {:?}",
            words.len(),
            bytes.len(),
            words.get(..10)
        )?;
        writeln!(f, "other than in a new heap of these sizes, or than 0:")?;
        let odd = (0..words.len()).filter(|p| words[*p] != base.words[*p]);
        for place in odd.take(SHOWN) {
            writeln!(
                f,
                "  word {place} = {} ({})",
                words[place],
                name(words, place)
            )?;
        }
        let odd = (0..bytes.len()).filter(|p| bytes[*p] != base.bytes[*p]);
        for place in odd.take(SHOWN) {
            writeln!(f, "  byte {place} = {}", bytes[place])?;
        }
        Ok(())
    }
}

/// The answers and the places that differ.
fn differences(case: &Case, f: &mut fmt::Formatter<'_>) -> fmt::Result {
    let Both { ours, second } = case.both();
    writeln!(
        f,
        "ours answers {:?}, the second reading {:?}",
        ours.0, second.0
    )?;
    let (one, other) = (&ours.1, &second.1);
    let places = (0..one.words.len()).filter(|p| one.words[*p] != other.words[*p]);
    for place in places.take(SHOWN) {
        let (mine, theirs) = (one.words[place], other.words[place]);
        let name = name(&case.before.words, place);
        writeln!(
            f,
            "  word {place} ({name}): ours {mine}, the second reading {theirs}"
        )?;
    }
    let places = (0..one.bytes.len()).filter(|p| one.bytes[*p] != other.bytes[*p]);
    for place in places.take(SHOWN) {
        let (mine, theirs) = (one.bytes[place], other.bytes[place]);
        writeln!(
            f,
            "  byte {place}: ours {mine}, the second reading {theirs}"
        )?;
    }
    Ok(())
}

impl fmt::Display for Finding {
    fn fmt(&self, f: &mut fmt::Formatter<'_>) -> fmt::Result {
        match self {
            Self::Differs(case) => {
                let small = shrunk(case.clone());
                write!(f, "a difference: {small}")?;
                differences(&small, f)
            }
            Self::Slow(case, nearest) => write!(f, "over its bound: {nearest}\n{case}"),
        }
    }
}
