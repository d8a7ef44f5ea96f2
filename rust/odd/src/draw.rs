//! Arguments for a call, by chance and by what the words hold: mostly handles that name something and
//! places within their ranges, else edges and anything.

use crate::rows::{Given, Row, Takes};
use calls::bend::EDGES;
use heap::Words;
use heap::ask::Kind;
use heap::layout::{Layout, STRING, header};
use heap::sizes::{SMALLEST, outside, within};
use oracle::random::Random;

/// Texts that the collector looks for, or nearly.
const TEXTS: &[&[u8]] = &[b"", b"k", b"v", b"kv", b"__mode", b"__gc", b"a"];

/// The ends of 64 bits, and numbers that a budget or a limit may turn on.
const LONGS: &[u64] = &[
    0,
    1,
    100,
    2000,
    u64::MAX,
    u64::MAX - 1,
    1 << 63,
    (1 << 63) - 1,
    1 << 62,
    (1 << 32) - 1,
];

/// The high words of numbers: 0, -0, infinity and two NaN.
const HIGHS: &[u32] = &[0, 1 << 31, 0x7ff0_0000, 0x7ff8_0000, 0xfff0_0000];

/// What arguments are drawn from.
pub struct Draw<'a> {
    random: &'a mut Random,
    heap: &'a Words,
    /// None where test 1 refuses the words: arguments do not matter then.
    layout: Option<Layout>,
}

/// What a call is given on these buffers.
pub fn drawn(random: &mut Random, heap: &Words, row: &Row) -> Given {
    let layout = reading::accepted(&heap.words, &heap.bytes);
    let mut draw = Draw {
        random,
        heap,
        layout,
    };
    let mut given = Given {
        lent: draw.lent(row.tells),
        ..Given::default()
    };
    for takes in row.takes {
        draw.take(*takes, &mut given);
    }
    given
}

impl Draw<'_> {
    /// Nearly always as many words as are told.
    fn lent(&mut self, tells: usize) -> usize {
        match self.random.below(24) {
            0 => self.random.below(tells as u32 + 1) as usize,
            1 => tells + 2,
            _ => tells,
        }
    }

    fn take(&mut self, takes: Takes, given: &mut Given) {
        match takes {
            Takes::Handle(kind) => given.numbers.extend(self.handle(kind)),
            Takes::Value => given.numbers.extend(self.value()),
            Takes::Key => given.numbers.extend(self.key(given.numbers[0])),
            Takes::Maybe => given.numbers.extend(self.maybe()),
            Takes::Place(most) => given.numbers.push(self.place(most)),
            Takes::Proto => given.numbers.push(self.proto()),
            Takes::Number => given.numbers.push(self.number()),
            Takes::Long => given.long = self.long(),
            Takes::Values => given
                .lists
                .push(self.list(16, |draw| draw.value().to_vec())),
            Takes::Upvalues => {
                let handle = |draw: &mut Self| draw.handle(Kind::Upvalues).to_vec();
                given.lists.push(self.list(16, handle));
            }
            Takes::Protos => given.lists.push(self.list(8, |draw| vec![draw.proto()])),
            Takes::Sizes => given.lists.push(self.sizes()),
            Takes::Text => given.text = self.text(),
        }
    }

    fn number(&mut self) -> u32 {
        match self.random.below(4) {
            0 => self.random.bits() as u32,
            1 => self.random.below(1000),
            _ => self.random.pick(EDGES).unwrap_or(0),
        }
    }

    fn place(&mut self, most: u32) -> u32 {
        match self.random.below(20) {
            0 => self.number(),
            1 => most,
            2..6 => self.random.below(most + 1),
            _ => self.random.below(most.min(4)),
        }
    }

    /// Mostly one that is used.
    fn proto(&mut self) -> u32 {
        let used = match self.layout {
            Some(_) => self.heap.words[header::PROTOTYPES],
            None => 0,
        };
        match self.random.below(8) {
            0 => self.place(8),
            _ => self.random.below(used),
        }
    }

    fn long(&mut self) -> u64 {
        match self.random.below(4) {
            0 => self.random.pick(LONGS).unwrap_or(0),
            1 => self.random.bits(),
            _ => self.random.below(5000).into(),
        }
    }

    /// A slot of the arena with its generation, mostly an occupied one.
    fn slot(&mut self, kind: Kind) -> Option<[u32; 2]> {
        let a = self.layout.as_ref()?.arenas[kind as usize];
        let words = &self.heap.words;
        let fresh = words[a.top + 1];
        let occupied = |slot: &u32| (1..=4).contains(&words[a.base + *slot as usize]);
        let tries: Vec<u32> = (0..6).map(|_| self.random.below(fresh)).collect();
        let slot = *tries.iter().find(|slot| fresh > 0 && occupied(slot))?;
        Some([slot, words[a.base + a.slots + slot as usize]])
    }

    fn handle(&mut self, kind: Kind) -> [u32; 2] {
        let [index, generation] = self.slot(kind).unwrap_or([0, 0]);
        match self.random.below(24) {
            0 => [index, generation.wrapping_add(1)],
            1 => [index, generation.wrapping_sub(1)],
            2 => [self.number(), generation],
            3 => [self.number(), self.number()],
            4 => [self.random.below(8), self.random.below(2)],
            _ => [index, generation],
        }
    }

    fn maybe(&mut self) -> [u32; 3] {
        let [index, generation] = self.handle(Kind::Tables);
        match self.random.below(12) {
            0 => [self.number(), index, generation],
            1..3 => [0, index, generation],
            _ => [1, index, generation],
        }
    }

    /// The key of a node of this table; of a number sometimes the one of the other sign.
    fn present_key(&mut self, table: u32) -> Option<[u32; 3]> {
        let a = self.layout.as_ref()?.arenas[Kind::Tables as usize];
        let slot = (table as usize).min(a.slots - 1);
        let body = &self.heap.words[a.bodies + slot * a.stride..][..a.stride];
        let nodes = body[4..].get(3 * body[2] as usize..)?.chunks_exact(6);
        let count = (nodes.len() as u32).min(body[3]);
        let node = nodes.clone().nth(self.random.below(count) as usize)?;
        let sign = u32::from(node[0] == 3) * self.random.below(2);
        Some([node[0], node[1], node[2] ^ sign << 31])
    }

    fn key(&mut self, table: u32) -> [u32; 3] {
        let present = self.present_key(table);
        match (self.random.below(3), present) {
            (0, Some(key)) => key,
            _ => self.value(),
        }
    }

    fn value(&mut self) -> [u32; 3] {
        let of = |tag: u32, [low, high]: [u32; 2]| [tag, low, high];
        match self.random.below(20) {
            0..2 => [0, self.random.below(2), 0],
            2 => [1, self.random.below(3), self.random.below(2)],
            3 => [2, self.number(), self.number()],
            4..6 => [
                3,
                self.random.below(3),
                self.random.pick(HIGHS).unwrap_or(0),
            ],
            6 => [self.number(), self.number(), self.number()],
            7..11 => of(4, self.handle(Kind::Strings)),
            11..15 => of(5, self.handle(Kind::Tables)),
            15..17 => of(6, self.handle(Kind::Functions)),
            17..19 => of(7, self.handle(Kind::Userdata)),
            _ => of(8, self.handle(Kind::Threads)),
        }
    }

    /// Mostly short; now and then at the end of its range, past it, or no whole number of items.
    fn list(&mut self, most: u32, item: impl Fn(&mut Self) -> Vec<u32>) -> Vec<u32> {
        let count = match self.random.below(16) {
            0 => most + self.random.below(2),
            1 => self.random.below(most + 1),
            _ => self.random.below(3),
        };
        let mut words: Vec<u32> = (0..count).flat_map(|_| item(self)).collect();
        if self.random.below(24) == 0 {
            words.pop();
        }
        // No spare room: what is read past the end is then an error of memory.
        words.shrink_to_fit();
        words
    }

    /// Those of the heap itself, others, some outside their ranges, or not ten of them.
    fn sizes(&mut self) -> Vec<u32> {
        let own = self.heap.words.get(..10).map(<[u32]>::to_vec);
        match (self.random.below(8), own) {
            (0, _) => outside(self.random).to_vec(),
            (1, _) => within(self.random).to_vec(),
            (2, _) => SMALLEST[..self.random.below(10) as usize].to_vec(),
            (3..7, Some(own)) => own,
            _ => SMALLEST.to_vec(),
        }
    }

    /// A text that is present, one that is looked for, or any.
    fn text(&mut self) -> Vec<u8> {
        let slot = self.slot(Kind::Strings).zip(self.layout.as_ref());
        let present = slot.map(|([slot, _], layout)| {
            let length = self.heap.words[layout.arenas[0].bodies + slot as usize].min(64);
            self.heap.bytes[slot as usize * STRING..][..length as usize].to_vec()
        });
        match (self.random.below(4), present) {
            (0, Some(present)) => present,
            (1, _) => self.random.pick(TEXTS).unwrap_or(b"").to_vec(),
            (2, _) => (0..self.random.below(68)).map(|_| b'k').collect(),
            _ => (0..self.random.below(4))
                .map(|_| self.random.bits() as u8)
                .collect(),
        }
    }
}
