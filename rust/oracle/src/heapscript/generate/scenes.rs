//! Scenes: lines that belong together.

use super::{Kind, Writer};

/// What a `__mode` may be: a `k` or a `v` anywhere in it counts.
const MODES: &[&str] = &["k", "v", "kv", "v", "k", "vk", "ok", "weak values", "K"];

impl Writer {
    pub(super) fn scene(&mut self) -> Option<()> {
        match self.random.below(40) {
            0..11 => self.due(),
            11..21 => self.weak(),
            21..24 => self.lost_method(),
            24..27 => self.due_key(),
            27..30 => self.found(),
            30..33 => self.full(),
            33..35 => self.ring(),
            35..38 => self.emptied(),
            _ => self.overflow(),
        }
    }

    /// A metatable whose `__gc` is what the number names, 0 for the name itself.
    fn finalizing(&mut self, method: u32) -> Option<u32> {
        let name = self.make("str __gc")?;
        let meta = self.make("tab 0 2")?;
        let place = self.random.below(2);
        let method = if method == 0 { name } else { method };
        self.say(format!("setn {meta} {place} {name} {method}"))?;
        Some(meta)
    }

    /// A table with a metatable that makes it weak, kept on the stack most times.
    fn weak_table(&mut self, mode: &str) -> Option<u32> {
        let name = self.make("str __mode")?;
        let mode = self.make(format!("str {mode}"))?;
        let meta = self.make("tab 0 1")?;
        self.say(format!("setn {meta} 0 {name} {mode}"))?;
        let weak = self.make("tab 2 4")?;
        self.say(format!("meta {weak} {meta}"))?;
        if !self.random.percent(10) {
            self.say(format!("push {weak}"))?;
        }
        Some(weak)
    }

    /// Userdata with a finalizer, dropped; some are named again, or lose their finalizer.
    fn due(&mut self) -> Option<()> {
        let method = match self.random.percent(30) {
            true => self.number(Kind::Any),
            false => 0,
        };
        let meta = self.finalizing(method)?;
        let holder = match self.random.percent(40) {
            true => self.number(Kind::Nodes),
            false => 0,
        };
        let mut last = 0;
        for _ in 0..=self.random.below(4) {
            last = self.make("ud")?;
            self.say(format!("meta {last} {meta}"))?;
            match self.random.below(10) {
                0 => self.say(format!("push {last}"))?,
                1..4 if holder != 0 => self.hold(holder, last)?,
                4 => self.say(format!("meta {last} 0"))?,
                _ => {}
            }
        }
        match self.random.below(10) {
            0 => self.say(format!("setn {meta} 0 0 0"))?,
            1 => self.say(format!("setn {meta} 1 0 0"))?,
            2 => self.say(format!("push {meta}"))?,
            _ => {}
        }
        self.say("collect")?;
        match self.random.below(4) {
            0 => self.say("collect"),
            1 => {
                self.say(format!("push {last}"))?;
                self.say("collect")?;
                self.say("pop")
            }
            _ => Some(()),
        }
    }

    /// Stores an object in a table: in an array place, as a value or as a key.
    fn hold(&mut self, table: u32, object: u32) -> Option<()> {
        let nodes = self.nodes_of(table);
        let j = self.random.below(nodes);
        let other = self.number(Kind::Any);
        match self.random.below(8) {
            0 => self.say(format!("setn {table} {j} {object} {object}")),
            1 | 2 => self.say(format!("setn {table} {j} {object} {other}")),
            3 | 4 => self.say(format!("setn {table} {j} {other} {object}")),
            _ => {
                let i = self.random.below(self.array_of(table));
                self.say(format!("seti {table} {i} {object}"))
            }
        }
    }

    /// A weak table that holds a few things, and what is left of it after a collection.
    fn weak(&mut self) -> Option<()> {
        let mode = self.random.pick(MODES).unwrap_or("k");
        let weak = self.weak_table(mode)?;
        let meta = match self.random.percent(50) {
            true => self.finalizing(0)?,
            false => 0,
        };
        let mut held = Vec::new();
        for _ in 0..2 + self.random.below(4) {
            let object = self.something()?;
            held.push(object);
            if meta != 0 && self.is(object, Kind::Owner) {
                self.say(format!("meta {object} {meta}"))?;
            }
            self.hold(weak, object)?;
            if self.random.percent(25) {
                self.say(format!("push {object}"))?;
            }
        }
        self.say("collect")?;
        if self.random.percent(25) {
            // What it holds now it holds for good.
            self.say(format!("meta {weak} 0"))?;
        }
        // A dead key stays: giving it to another node is 4, although it names nothing.
        for object in held {
            if self.random.percent(30) {
                self.hold(weak, object)?;
            }
        }
        self.say("collect")
    }

    fn something(&mut self) -> Option<u32> {
        match self.random.below(8) {
            0 => Some(self.number(Kind::Any)),
            1 | 2 => {
                let line = self.text_line();
                self.make(line)
            }
            3 => self.make("tab 1 1"),
            _ => self.make("ud"),
        }
    }

    /// A finalizer that only its metatable names, which is weak itself: due, and then without method.
    fn lost_method(&mut self) -> Option<()> {
        let method = match self.random.percent(50) {
            true => self.make("tab 0 0")?,
            false => self.make("ud")?,
        };
        let meta = self.finalizing(method)?;
        let mode = self.random.pick(MODES).unwrap_or("v");
        let weak = self.weak_table(mode)?;
        self.say("pop")?;
        self.say(format!("setn {weak} 3 0 0"))?;
        // The weak table's own metatable was made just before it.
        self.say(format!("meta {meta} {}", weak.saturating_sub(1)))?;
        let userdata = self.make("ud")?;
        self.say(format!("meta {userdata} {meta}"))?;
        if self.random.percent(30) {
            self.say(format!("meta {method} {meta}"))?;
        }
        self.say("collect")?;
        self.say("collect")
    }

    /// A userdata due its finalizer as key of a weak table: it stays for this cycle, and so does the
    /// value that only its node names.
    fn due_key(&mut self) -> Option<()> {
        let mode = self.random.pick(MODES).unwrap_or("k");
        let weak = self.weak_table(mode)?;
        let meta = self.finalizing(0)?;
        let key = self.make("ud")?;
        self.say(format!("meta {key} {meta}"))?;
        let value = match self.random.percent(50) {
            true => self.make("tab 0 0")?,
            false => self.make("ud")?,
        };
        self.say(format!("setn {weak} 0 {key} {value}"))?;
        (0..3).try_for_each(|_| self.say("collect"))
    }

    /// A string made, perhaps freed, and made again.
    fn found(&mut self) -> Option<()> {
        let line = [b"str ", &self.new_text()[..]].concat();
        self.make(&line)?;
        if self.random.percent(50) {
            self.say("collect")?;
        }
        let again = self.make(&line)?;
        if self.random.percent(60) {
            self.say(format!("push {again}"))?;
        }
        self.say("collect")?;
        self.make(&line).map(drop)
    }

    /// Objects of one kind until there is no slot, and one more; a string is found all the same.
    fn full(&mut self) -> Option<()> {
        let kind = self.random.below(3);
        let mut line = Vec::new();
        for _ in 0..16 {
            line = match kind {
                0 => [b"str ", &self.new_text()[..]].concat(),
                1 => b"tab 1 0".to_vec(),
                _ => b"ud".to_vec(),
            };
            if self.make(&line).is_none() {
                break;
            }
        }
        self.say(line)?;
        if kind == 0 {
            let made = self.random.below(self.texts) + 1;
            self.say(format!("str t{made}"))?;
            self.say("str __gc")?;
        }
        self.say("collect")
    }

    /// Two tables that hold each other.
    fn ring(&mut self) -> Option<()> {
        let (one, other) = (self.make("tab 1 1")?, self.make("tab 1 1")?);
        let value = self.value();
        self.say(format!("seti {one} 0 {other}"))?;
        self.say(format!("setn {other} 0 {one} {value}"))?;
        if self.random.percent(50) {
            self.say(format!("push {one}"))?;
        }
        self.say(format!("meta {one} {other}"))?;
        self.say("collect")
    }

    /// Pops to the bottom, and one more.
    fn emptied(&mut self) -> Option<()> {
        let depth = self.play.heap().snapshot().main.top;
        (0..=depth).try_for_each(|_| self.say("pop"))?;
        self.say("collect")
    }

    /// Pushes until the stack is full, and some more; then most are popped again.
    fn overflow(&mut self) -> Option<()> {
        let depth = self.play.heap().snapshot().main.top;
        for _ in depth..32 {
            let k = self.value();
            self.say(format!("push {k}"))?;
        }
        let any = self.random.below(self.play.made().len() as u32 + 1);
        let k = self.value();
        self.say(format!("push {k}"))?;
        self.say(format!("push {any}"))?;
        self.say("collect")?;
        (0..28).try_for_each(|_| self.say("pop"))
    }
}
