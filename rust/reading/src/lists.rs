//! The four working lists.

use crate::buffers::Heap;
use crate::value::Handle;
use heap::ask::{Kind, List};
use heap::layout::ITEM;

/// An item: what a list may hold, or nothing known.
#[derive(Clone, Copy, Debug)]
pub(crate) enum Item {
    Object(Kind, Handle),
    Main,
    Unknown,
}

impl Item {
    fn read(kind: u32, index: u32, generation: u32) -> Self {
        let object = |kind| Self::Object(kind, (index, generation));
        match kind {
            5 => object(Kind::Tables),
            6 => object(Kind::Functions),
            7 => object(Kind::Userdata),
            8 => object(Kind::Threads),
            9 => Self::Main,
            _ => Self::Unknown,
        }
    }

    pub fn words(self) -> [u32; 3] {
        match self {
            Self::Object(kind, (index, generation)) => [tag(kind), index, generation],
            Self::Main => [9, 0, 0],
            Self::Unknown => [0; 3],
        }
    }
}

/// The tag of a kind that lists hold.
fn tag(kind: Kind) -> u32 {
    match kind {
        Kind::Tables => 5,
        Kind::Functions => 6,
        Kind::Userdata => 7,
        Kind::Threads => 8,
        Kind::Strings | Kind::Upvalues => 0,
    }
}

impl Heap<'_> {
    pub fn length(&self, list: List) -> usize {
        self.words[self.layout.lists[list as usize].count] as usize
    }

    fn item_place(&self, list: List, at: usize) -> usize {
        self.layout.lists[list as usize].base + ITEM * at
    }

    pub fn item(&self, list: List, at: usize) -> Item {
        let place = self.item_place(list, at);
        Item::read(
            self.words[place],
            self.words[place + 1],
            self.words[place + 2],
        )
    }

    pub fn set_item(&mut self, list: List, at: usize, item: Item) {
        let place = self.item_place(list, at);
        self.words[place..place + ITEM].copy_from_slice(&item.words());
    }

    fn set_length(&mut self, list: List, length: usize) {
        self.words[self.layout.lists[list as usize].count] = length as u32;
    }

    /// A push onto a full list is left out and sets the damage mark.
    pub fn push(&mut self, list: List, item: Item) {
        let length = self.length(list);
        if length == self.layout.lists[list as usize].room {
            return self.damage();
        }
        self.set_item(list, length, item);
        self.set_length(list, length + 1);
    }

    /// The last item; its words become 0.
    pub fn pop(&mut self, list: List) -> Option<Item> {
        let last = self.length(list).checked_sub(1)?;
        let item = self.item(list, last);
        self.set_item(list, last, Item::Unknown);
        self.set_length(list, last);
        Some(item)
    }

    pub fn empty(&mut self, list: List) {
        let length = self.length(list);
        self.zero(self.item_place(list, 0), ITEM * length);
        self.set_length(list, 0);
    }
}
