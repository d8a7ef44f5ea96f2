//! Lines that the script's own rules refuse, or that come near to it.

use super::Writer;
use crate::value::Value;

/// Lines that are no command.
const NO_COMMAND: &[&[u8]] = &[
    b"",
    b" ",
    b"#",
    b"str",
    b"STR a",
    b"string a",
    b" str a",
    b"\tud",
    b"ud ",
    b"ud 1",
    b"uda",
    b"u",
    b"pop ",
    b"pop 1",
    b"pop\r",
    b"collect ",
    b"collect\r",
    b"collect 0",
    b"collectcollect",
    b"tab",
    b"tab ",
    b"tab 1",
    b"tab 1 ",
    b"tab  1 1",
    b"tab 1  1",
    b"tab 1 1 ",
    b"tab 1 1 1",
    b"tab\t1 1",
    b"tab 1 1\r",
    b"tab -1 1",
    b"tab +1 1",
    b"tab 1.0 1",
    b"tab 0x1 1",
    b"tab 4294967296 0",
    b"tab 0 18446744073709551616",
    b"tab 99999999999999999999999999999999 0",
    b"tab 65 0",
    b"tab 0 3",
    b"tab 0 128",
    b"tab 4294967295 4294967295",
    b"push",
    b"push ",
    b"push a",
    b"push 1x",
    b"push 4294967296",
    b"push 4294967297",
    b"seti 1",
    b"seti 1 0",
    b"seti 1 0 0 0",
    b"seti 1  0",
    b"setn 1 0 0",
    b"setn 1 0 0 0 0",
    b"meta",
    b"meta 1",
    b"meta 1 0 0",
    b"\xff\xfe",
    b"\0",
    b"ud\0",
    b"\xef\xbb\xbfud",
    b"push \xd9\xa1",
    b"pu\0sh 1",
];

impl Writer {
    /// A bad command, an unmade number or a wrong kind, mostly; zeros before a number are served.
    pub(super) fn bad_line(&mut self) -> Vec<u8> {
        let most = self.play.made().len() as u32;
        let unmade = most + 1 + self.random.below(3);
        let line = match self.random.below(16) {
            0..6 => return self.random.pick(NO_COMMAND).unwrap_or(b"").to_vec(),
            6 => return self.odd_line(),
            7 => format!("push {unmade}"),
            8 => format!("seti {unmade} 0 0"),
            9 => format!("setn {} 0 {unmade} 0", self.wanted(true)),
            10 => format!("meta {} {unmade}", self.wanted(true)),
            11 => format!("seti {} 0 0", self.wanted(false)),
            12 => format!("setn {} 0 0 0", self.wanted(false)),
            13 => format!("meta {} {}", self.wanted(true), self.wanted(false).max(1)),
            14 => format!("seti {} 4294967295 0", self.wanted(true)),
            _ => format!("push 0000000000{}", self.random.below(most + 1)),
        };
        line.into_bytes()
    }

    /// A number of a table, or of anything but a table; 0 if there is none.
    fn wanted(&mut self, table: bool) -> u32 {
        let is = |n: &u32| matches!(self.object(*n), Value::Table(_)) == table;
        let fit: Vec<u32> = (1..=self.play.made().len() as u32).filter(is).collect();
        self.random.pick(&fit).unwrap_or(0)
    }

    /// Odd bytes, or a line longer than any text may be.
    fn odd_line(&mut self) -> Vec<u8> {
        let mut line = Vec::new();
        match self.random.below(4) {
            0 => {
                line.extend(b"str ");
                line.resize(65 + self.random.below(600) as usize, b'x');
            }
            1 => {
                line.extend(b"push ");
                line.resize(60 + self.random.below(600) as usize, b'9');
            }
            _ => {
                let length = 1 + self.random.below(8) as usize;
                self.extend_odd(&mut line, length);
            }
        }
        line
    }
}
