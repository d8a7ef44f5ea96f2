//! Document 01's checked examples, on the second reading itself.

use heap::Layout;
use heap::layout::header;
use oracle::Sizes;
use reading::Buffers;

struct Heap {
    words: Vec<u32>,
    bytes: Vec<u8>,
    layout: Layout,
}

/// A new heap with so many strings and userdata, and 3 tables.
fn heap(strings: u32, userdata: u32) -> Heap {
    let sizes = [strings, 3, 0, 0, userdata, 0, 0, 2, 0, 1];
    let layout = Layout::new(Sizes::from(sizes));
    let mut heap = Heap {
        words: vec![7; layout.words],
        bytes: vec![7; layout.bytes],
        layout,
    };
    assert_eq!(heap.calls().make_heap(&sizes), 0);
    heap
}

impl Heap {
    fn calls(&mut self) -> Buffers<'_> {
        Buffers {
            words: &mut self.words,
            bytes: &mut self.bytes,
        }
    }

    fn long(&self, place: usize) -> u64 {
        u64::from(self.words[place]) | u64::from(self.words[place + 1]) << 32
    }

    /// The strings in slots 2 on: so many of them.
    fn strings(&mut self, count: u8) {
        for n in 0..count {
            assert_eq!(self.calls().make_string(&[n], &mut [0; 2]), 0);
        }
    }

    fn colour(&mut self, slot: usize, colour: u32) {
        let place = self.layout.arenas[0].base + slot;
        self.words[place] = colour;
    }

    /// In SweepString from its beginning, with this white. All that was made has white 1.
    fn sweeping(&mut self, white: u32) {
        self.words[header::PHASE] = 2;
        self.words[header::WHITE] = white;
        self.words[header::CURSOR..header::CURSOR + 2].fill(0);
    }
}

#[test]
fn a_new_heap_is_that_of_the_document() {
    let heap = heap(2, 0);
    assert_eq!(heap.words[header::PAUSE..header::CREATION], [200, 200]);
    assert_eq!(heap.words[header::TOTAL..=header::PEAK], [224, 224]);
    assert_eq!(heap.long(header::THRESHOLD), 65_536);
    assert_eq!(heap.long(header::LIMIT), u64::MAX);
    assert_eq!(heap.bytes[..6], *b"__mode");
    assert_eq!(heap.bytes[64..68], *b"__gc");
}

/// The budget for stepmul 200 is 2,000: a step that costs one less goes on.
#[test]
fn the_automatic_budget() {
    let mut heap = heap(4, 0);
    heap.words[header::PHASE] = 3;
    let mut out = [9; 6];
    assert_eq!(heap.calls().gc_step_auto(&mut out), 0);
    // Three sweep steps of 800: the budget is 2,000 and not 1,600 or less.
    assert_eq!(out[0], 1);
    assert_eq!(heap.words[header::CURSOR..header::CURSOR + 2], [3, 0]);
}

#[test]
fn thresholds_after_a_cycle() {
    for (estimate, pause, threshold) in [(4199, 100, 4100), (112, 200, 4096)] {
        let mut heap = heap(2, 0);
        heap.words[header::PHASE] = 4;
        heap.words[header::ESTIMATE] = estimate;
        heap.words[header::PAUSE] = pause;
        let mut out = [9; 6];
        assert_eq!(heap.calls().gc_step(1, &mut out), 0);
        assert_eq!((out[0], heap.long(header::THRESHOLD)), (2, threshold));
    }
}

#[test]
fn sweep_steps_of_80_and_81_slots() {
    let mut heap = heap(81, 0);
    heap.strings(78);
    heap.sweeping(1);
    assert_eq!(heap.calls().gc_singlestep(&mut [0; 6]), 0);
    assert_eq!(heap.words[header::PHASE], 3, "80 slots are one step");

    heap.strings(79);
    heap.colour(80, 0);
    heap.sweeping(1);
    assert_eq!(heap.calls().gc_singlestep(&mut [0; 6]), 0);
    assert_eq!(heap.words[header::PHASE], 2, "81 slots are two");
    assert_eq!(heap.words[header::CURSOR + 1], 80);
    assert_eq!(heap.calls().gc_singlestep(&mut [0; 6]), 0);
    assert_eq!(heap.words[header::PHASE], 3);
}

/// Five slots, 4 free, 1 and 3 dead: chain 3, 1, 4. A generation at the end of 32 bits becomes 0.
#[test]
fn the_chain_after_a_sweep() {
    let mut heap = heap(5, 0);
    heap.strings(3);
    let a = heap.layout.arenas[0];
    heap.sweeping(2);
    for slot in [0, 2] {
        heap.colour(slot, 4);
    }
    heap.colour(4, 0);
    heap.words[a.top] = 5;
    heap.words[a.base + a.slots + 1] = u32::MAX;
    assert_eq!(heap.calls().gc_singlestep(&mut [0; 6]), 0);
    let mut chain = Vec::new();
    let mut next = heap.words[a.top] as usize;
    while next != 0 {
        chain.push(next - 1);
        next = heap.words[a.base + 2 * a.slots + next - 1] as usize;
    }
    assert_eq!(chain, [3, 1, 4]);
    assert_eq!(heap.words[a.base + a.slots + 1], 0);
}

/// Creation numbers 4, 9, 7 queued: handed out 9, 7, 4.
#[test]
fn finalizers_newest_first() {
    let mut heap = heap(2, 3);
    let mut out = [0; 6];
    assert_eq!(heap.calls().make_table(0, 1, &mut out), 0);
    let method = [4, 1, 0, 1, 1, 0];
    let [a, b, c, d, e, f] = method;
    assert_eq!(heap.calls().table_set_node(2, 0, 0, a, b, c, d, e, f), 0);
    let bodies = heap.layout.arenas[4].bodies;
    for (slot, number) in [4, 9, 7].into_iter().enumerate() {
        assert_eq!(heap.calls().make_userdata(&mut out), 0);
        assert_eq!(heap.calls().ud_set_meta(slot as u32, 0, 1, 2, 0), 0);
        heap.words[bodies + 7 * slot + 4] = number;
    }
    assert_eq!(heap.calls().full_gc(&mut out), 0);
    let mut handed = Vec::new();
    while out[0] == 4 {
        handed.push(out[1]);
        assert_eq!(heap.calls().finish(1, &mut out), 0);
    }
    assert_eq!(handed, [1, 2, 0]);
}
