//! Random scripts for `heapscript`.
//!
//! The lines are played as they are written, so most of them name what is there. Scenes of several
//! lines bring about what single lines seldom would: userdata due their finalizers, weak tables that
//! lose entries, strings found again, full arenas. Bad lines stand between, about one in twelve.

mod bad;
mod scenes;

use super::Play;
use crate::random::Random;
use crate::value::Value;

/// Bytes that texts are made of: odd ones, and those that mean something elsewhere.
const ODD: &[u8] = b"\0\r\t \x7f\x80\xc3\xff#\"\\%'kv09";

/// Texts that are found again, names and modes among them.
const TEXTS: &[&str] = &[
    "a", "b", "c", "ab", "__gc", "__mode", "k", "v", "kv", "", "a ", " a", "__", "__gc ",
];

/// A script being written.
struct Writer {
    random: Random,
    play: Play,
    script: Vec<u8>,
    /// Lines still to be written.
    left: usize,
    /// Counts new texts, so that they differ.
    texts: u32,
}

/// What a number should name.
#[derive(Clone, Copy)]
enum Kind {
    Any,
    Table,
    /// A table with array places.
    Array,
    /// A table with nodes.
    Nodes,
    /// What can have a metatable.
    Owner,
}

/// A script of so many lines; one in ten has no newline at its end.
#[must_use]
pub fn script(seed: u64, lines: usize) -> Vec<u8> {
    let mut writer = Writer {
        random: Random::new(seed),
        play: Play::new(),
        script: Vec::new(),
        left: lines,
        texts: 0,
    };
    while writer.left > 0 {
        // A scene may end early, where no line or no slot is left.
        let _ = match writer.random.percent(12) {
            true => writer.scene(),
            false => writer.single(),
        };
    }
    if writer.random.below(10) == 0 {
        writer.script.pop();
    }
    writer.script
}

/// A script that makes as many objects as there are numbers, and some more.
#[must_use]
pub fn every_number() -> Vec<u8> {
    let mut script = b"ud\ntab 1 1\n".to_vec();
    (2..super::NUMBERS).for_each(|_| script.extend(b"str a\n"));
    script.extend(b"ud\nstr a\nstr b\ntab 0 0\npush 4096\npush 4097\nmeta 1 2\ncollect\nud\n");
    script
}

impl Writer {
    /// Writes a line and plays it; none if no line is left.
    fn write(&mut self, line: &[u8]) -> Option<()> {
        self.left = self.left.checked_sub(1)?;
        self.script.extend_from_slice(line);
        self.script.push(b'\n');
        self.play.line(line);
        Some(())
    }

    /// Writes a line, one in twelve times after a bad one.
    fn say(&mut self, line: impl AsRef<[u8]>) -> Option<()> {
        if self.random.below(11) == 0 {
            let bad = self.bad_line();
            self.write(&bad)?;
        }
        self.write(line.as_ref())
    }

    /// Writes a line that makes an object: its number, none if it is refused.
    fn make(&mut self, line: impl AsRef<[u8]>) -> Option<u32> {
        let before = self.play.made().len();
        self.say(line)?;
        let after = self.play.made().len();
        (after > before).then_some(after as u32)
    }

    /// A line by itself.
    fn single(&mut self) -> Option<()> {
        match self.random.below(100) {
            0..14 => {
                let line = self.text_line();
                self.say(line)
            }
            14..26 => self.table().map(drop),
            26..36 => self.say("ud"),
            36..47 => {
                let k = self.number(Kind::Any);
                self.say(format!("push {k}"))
            }
            47..58 => self.say("pop"),
            58..67 => self.store_in_array(),
            67..81 => self.store_in_node(),
            81..93 => {
                let (k, t) = (self.number(Kind::Owner), self.number(Kind::Table));
                let t = if self.random.percent(20) { 0 } else { t };
                self.say(format!("meta {k} {t}"))
            }
            _ => self.say("collect"),
        }
    }

    /// A `str` line: a text of the list, a new one, an odd one or a long one.
    fn text_line(&mut self) -> Vec<u8> {
        let mut line = b"str ".to_vec();
        match self.random.below(20) {
            0..11 => {
                let text = self.random.pick(TEXTS).unwrap_or("");
                line.extend(text.as_bytes());
            }
            11..16 => line.extend(self.new_text()),
            16..18 => {
                let length = self.random.below(6) as usize;
                self.extend_odd(&mut line, length);
            }
            18 => line.resize(line.len() + 62 + self.random.below(5) as usize, b'k'),
            _ => {
                let length = 63 + self.random.below(3) as usize;
                self.extend_odd(&mut line, length);
            }
        }
        line
    }

    fn extend_odd(&mut self, line: &mut Vec<u8>, length: usize) {
        let odd = (0..length).filter_map(|_| self.random.pick(ODD));
        line.extend(odd);
    }

    fn new_text(&mut self) -> Vec<u8> {
        self.texts += 1;
        format!("t{}", self.texts).into_bytes()
    }

    /// A table, mostly a small one.
    fn table(&mut self) -> Option<u32> {
        let array = match self.random.below(30) {
            0 => 64,
            1 => 65,
            n => n % 4,
        };
        let nodes = match self.random.below(30) {
            0 => 64,
            1 => 3,
            2 => 128,
            n => [0, 1, 2, 4, 8][n as usize % 5],
        };
        self.make(format!("tab {array} {nodes}"))
    }

    fn store_in_array(&mut self) -> Option<()> {
        let t = self.number(Kind::Array);
        let i = self.random.below(self.array_of(t)) + u32::from(self.random.percent(4));
        let k = self.value();
        self.say(format!("seti {t} {i} {k}"))
    }

    fn store_in_node(&mut self) -> Option<()> {
        let t = self.number(Kind::Nodes);
        let j = self.random.below(self.nodes_of(t)) + u32::from(self.random.percent(4));
        let (k, v) = (self.number(Kind::Any), self.value());
        match self.random.below(20) {
            0 => self.say(format!("setn {t} {j} 0 0")),
            1 => self.say(format!("setn {t} {j} 0 {v}")),
            _ => self.say(format!("setn {t} {j} {k} {v}")),
        }
    }

    /// Any number, or 0 now and then.
    fn value(&mut self) -> u32 {
        match self.random.below(8) {
            0 => 0,
            _ => self.number(Kind::Any),
        }
    }

    /// A made number of this kind, mostly of an object that is still there and made not long ago;
    /// 0 if there is none.
    fn number(&mut self, kind: Kind) -> u32 {
        let stale = self.random.percent(6);
        let fit: Vec<u32> = (1..=self.play.made().len() as u32)
            .filter(|n| stale || self.is_live(*n))
            .filter(|n| self.is(*n, kind))
            .collect();
        let recent = fit.len().saturating_sub(6);
        let some = match self.random.percent(50) {
            true => &fit[recent..],
            false => &fit[..],
        };
        self.random.pick(some).unwrap_or(0)
    }

    fn object(&self, number: u32) -> Value {
        let place = (number as usize).checked_sub(1);
        let made = place.and_then(|place| self.play.made().get(place));
        made.copied().unwrap_or(Value::Nil)
    }

    fn is_live(&self, number: u32) -> bool {
        self.play.heap().is_sound(self.object(number))
    }

    fn is(&self, number: u32, kind: Kind) -> bool {
        let object = self.object(number);
        let table = matches!(object, Value::Table(_));
        match kind {
            Kind::Any => true,
            Kind::Table => table,
            Kind::Array => table && (!self.is_live(number) || self.array_of(number) > 0),
            Kind::Nodes => table && (!self.is_live(number) || self.nodes_of(number) > 0),
            Kind::Owner => table || matches!(object, Value::Userdata(_)),
        }
    }

    /// The array places of the table of a number, 0 if it names none.
    fn array_of(&self, number: u32) -> u32 {
        match self.object(number) {
            Value::Table(t) => self
                .play
                .heap()
                .table(t)
                .map_or(0, |t| t.array_len() as u32),
            _ => 0,
        }
    }

    fn nodes_of(&self, number: u32) -> u32 {
        match self.object(number) {
            Value::Table(t) => self.play.heap().table(t).map_or(0, |t| t.hash_node_count()),
            _ => 0,
        }
    }
}
