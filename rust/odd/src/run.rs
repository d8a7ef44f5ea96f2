//! Buffers of each kind by a seed, until so many calls are compared.

use crate::arbitrary::{accepted, arbitrary};
use crate::cut::cut;
use crate::damage::damaged;
use crate::good::heaps;
use crate::judge::{Found, Judge};
use crate::tally::Kind;
use calls::bend::EDGES;
use calls::heaps::{Chosen, Which, chosen};
use heap::Words;
use oracle::Sizes;
use oracle::random::Random;

/// The share of each kind of buffers in a hundred calls.
const SHARES: [(Kind, u64); 5] = [
    (Kind::Arbitrary, 5),
    (Kind::Accepted, 30),
    (Kind::Damaged, 40),
    (Kind::Walked, 20),
    (Kind::Cut, 5),
];

/// After so many calls on damaged heaps there is one of any sizes, up to the largest.
const LARGE: u64 = 40_000;

/// Calls one after the other on the same buffers.
const IN_TURN: u32 = 12;

/// For each buffers on which every call is made, so many others see only some calls in turn.
const OTHERS: u32 = 4;

/// A heap is damaged so often, and for each of these as often as there are others.
const COPIES: usize = 2;

/// Changes of one damaged heap, at most.
const CHANGES: u32 = 8;

/// A heap with something of each kind, small enough to walk and to be cut everywhere.
const FEW: [u32; 10] = [4, 3, 1, 2, 2, 1, 2, 3, 2, 2];

/// Commands that make a heap to be walked or cut.
const COMMANDS: u64 = 300;

/// A run on its way.
pub struct Run {
    pub judge: Judge,
    random: Random,
    /// The seed of the next script.
    seed: u64,
    /// Heaps of any sizes so far.
    large: u64,
    /// Heaps that wait to be damaged, and to be used as they were cut.
    good: Vec<Words>,
    cuts: Vec<Words>,
    /// The heap that is walked, and the next word of it.
    walked: Option<(Words, usize)>,
}

impl Run {
    #[must_use]
    pub fn new(seed: u64, timed: bool) -> Self {
        Self {
            judge: Judge::new(timed),
            random: Random::new(seed ^ 0x0dd),
            seed: seed.wrapping_mul(1_000_003),
            large: 0,
            good: Vec::new(),
            cuts: Vec::new(),
            walked: None,
        }
    }

    /// Compares so many calls, or somewhat more.
    ///
    /// # Errors
    /// The first finding.
    pub fn until(&mut self, calls: u64) -> Found {
        while self.judge.tally.total() < calls {
            match self.behind() {
                Kind::Arbitrary => self.all_on(Kind::Arbitrary, arbitrary)?,
                Kind::Accepted => self.all_on(Kind::Accepted, accepted)?,
                Kind::Damaged => self.damage()?,
                Kind::Walked => self.walk()?,
                Kind::Cut => self.cut()?,
                Kind::Slow => {}
            }
        }
        Ok(())
    }

    /// The kind that is furthest behind its share.
    fn behind(&self) -> Kind {
        let done = |(kind, share): &(Kind, u64)| self.judge.tally.of(*kind) * 100 / share;
        SHARES.iter().min_by_key(|s| done(s)).expect("some kinds").0
    }

    /// Every call on buffers; then some one after the other on these and on others of the kind.
    fn all_on(&mut self, kind: Kind, draw: impl Fn(&mut Random) -> Words) -> Found {
        let mut heap = draw(&mut self.random);
        self.judge.every(kind, &heap, &mut self.random)?;
        for _ in 0..OTHERS {
            self.judge.in_turn(kind, &heap, IN_TURN, &mut self.random)?;
            heap = draw(&mut self.random);
        }
        Ok(())
    }

    fn script(&mut self) -> u64 {
        self.seed = self.seed.wrapping_add(1);
        self.seed
    }

    /// The heaps of a script, each as often as it is damaged; one heap where it may be large.
    fn made(&mut self) -> Vec<Words> {
        let seed = self.script();
        if self.judge.tally.of(Kind::Damaged) >= LARGE * (self.large + 1) {
            self.large += 1;
            let Chosen { sizes, lines } = chosen(Which::Ends, seed);
            return heaps(sizes, seed, lines).pop().into_iter().collect();
        }
        let long = self.random.below(8) == 0;
        let which = if long { Which::Long } else { Which::Small };
        let Chosen { sizes, lines } = chosen(which, seed);
        let all = heaps(sizes, seed, lines).into_iter();
        all.flat_map(|heap| vec![heap; COPIES]).collect()
    }

    /// The next heap, with some words changed.
    fn damage(&mut self) -> Found {
        match self.good.pop() {
            Some(heap) => self.all_on(Kind::Damaged, |random| damaged(&heap, CHANGES, random)),
            None => {
                self.good = self.made();
                Ok(())
            }
        }
    }

    /// The last heap of a script on few slots.
    fn small(&mut self) -> Words {
        let seed = self.script();
        let mut all = heaps(Sizes::from(FEW), seed, COMMANDS);
        all.pop().expect("a script keeps a heap")
    }

    /// The next word of the walked heap is changed, and every call made on it.
    fn walk(&mut self) -> Found {
        let (heap, place) = match self.walked.take() {
            Some(walked) => walked,
            None => (self.small(), 0),
        };
        let mut odd = heap.clone();
        odd.words[place] = other(odd.words[place], &mut self.random);
        self.judge.every(Kind::Walked, &odd, &mut self.random)?;
        self.walked = (place + 1 < heap.words.len()).then_some((heap, place + 1));
        Ok(())
    }

    /// The next of the cut heaps.
    fn cut(&mut self) -> Found {
        let Some(heap) = self.cuts.pop() else {
            let heap = self.small();
            let layout = reading::accepted(&heap.words, &heap.bytes).expect("a heap");
            self.cuts = cut(&heap, &layout);
            return Ok(());
        };
        self.judge.every(Kind::Cut, &heap, &mut self.random)
    }
}

/// Another word.
fn other(old: u32, random: &mut Random) -> u32 {
    let new = match random.below(6) {
        0 => 0,
        1 => old.wrapping_add(1),
        2 => old.wrapping_sub(1),
        3 => random.pick(EDGES).unwrap_or(0),
        4 => 1 + random.below(9),
        _ => u32::MAX,
    };
    if new == old { !old } else { new }
}
