//! Buffers that are lent, dumped or damaged.

mod common;
mod everything;

use collector::{Heap, Phase, Refusal, Sizes, Value};
use common::{dropped, finalizing, heap, weak};
use everything::{Given, everything};

/// Numbers by chance, the same in every run.
struct Random(u64);

impl Random {
    fn next(&mut self) -> u32 {
        self.0 ^= self.0 << 13;
        self.0 ^= self.0 >> 7;
        self.0 ^= self.0 << 17;
        (self.0 >> 16) as u32
    }

    /// An odd word: an end, a small number, or any.
    fn word(&mut self) -> u32 {
        match self.next() % 4 {
            0 => u32::MAX - self.next() % 2,
            1 => self.next() % 8,
            2 => self.next() % 300,
            _ => self.next(),
        }
    }

    /// Mostly a number below `end`, else an odd word.
    fn mostly(&mut self, end: u32) -> u32 {
        if self.next().is_multiple_of(8) {
            return self.word();
        }
        self.next() % end
    }

    /// Handles and places that are there, mostly.
    fn given(&mut self) -> Given {
        Given {
            index: self.mostly(5),
            generation: self.mostly(1),
            place: self.mostly(4),
        }
    }
}

/// A heap with objects of every kind that hold each other.
fn rich() -> Result<Heap, Refusal> {
    let mut heap = heap();
    let table = weak(&mut heap, b"kv")?;
    dropped(&mut heap, 2)?;
    let metatable = finalizing(&mut heap)?;
    let userdata = heap.make_userdata()?;
    heap.userdata_set_metatable(userdata, metatable)?;
    heap.userdata_set_env(userdata, table)?;
    let text = heap.make_string(b"text")?;
    let (open, closed) = (heap.make_open_upvalue()?, heap.make_closed_upvalue(table)?);
    let inner = heap.make_proto(&[Value::String(text)], &[])?;
    let outer = heap.make_proto(&[Value::Table(table)], &[inner])?;
    let lua = heap.make_lua_closure(outer, table, &[open, closed])?;
    let rust = heap.make_rust_closure(None, &[Value::Userdata(userdata), Value::Function(lua)])?;
    let thread = heap.make_thread(metatable, 8)?;
    heap.thread_push(thread, rust)?;
    heap.thread_open_push(thread, open)?;
    heap.thread_suspended_push(thread, closed)?;
    heap.table_set_node(table, 0, thread, userdata)?;
    heap.table_set(table, 0, lua)?;
    heap.open_push(open)?;
    heap.push(thread)?;
    Ok(heap)
}

/// The heap at every stage of a cycle.
fn stages() -> Result<Vec<Heap>, Refusal> {
    let mut heap = rich()?;
    let mut stages = vec![heap.clone()];
    loop {
        std::mem::forget(heap.single_step()?);
        stages.push(heap.clone());
        drop(heap.reclaim_finalizer()?);
        if heap.phase()? == Phase::Pause {
            return Ok(stages);
        }
    }
}

fn changed(heap: &Heap, word: usize, to: u32) -> Heap {
    let (mut words, bytes) = heap.clone().into_parts();
    words[word] = to;
    Heap::from_parts(words, bytes)
}

#[test]
fn sound_heaps_take_every_call() -> Result<(), Refusal> {
    let mut random = Random(1);
    for mut heap in stages()? {
        for _ in 0..20 {
            everything(&mut heap, random.given());
            assert!(heap.phase().is_ok(), "calls leave a heap");
        }
    }
    Ok(())
}

#[test]
fn a_damaged_header_is_refused_or_read_and_never_panics() -> Result<(), Refusal> {
    let (mut random, stages) = (Random(2), stages()?);
    for word in 0..91 {
        for stage in stages.iter().step_by(7) {
            everything(&mut changed(stage, word, random.word()), random.given());
        }
    }
    Ok(())
}

#[test]
fn damaged_words_never_panic() -> Result<(), Refusal> {
    let (mut random, stages) = (Random(3), stages()?);
    for _ in 0..2000 {
        let stage = &stages[random.next() as usize % stages.len()];
        let (mut words, bytes) = stage.clone().into_parts();
        for _ in 0..8 {
            // The greater part of the words are unused bodies.
            let within = if random.next() % 2 == 0 {
                3000
            } else {
                words.len()
            };
            words[random.next() as usize % within] = random.word();
        }
        everything(&mut Heap::from_parts(words, bytes), random.given());
    }
    Ok(())
}

#[test]
fn buffers_of_noise_are_refused() {
    let mut random = Random(4);
    for length in [0, 1, 90, 91, 92, 5000] {
        let words: Vec<u32> = (0..length).map(|_| random.next()).collect();
        let mut noise = Heap::from_parts(words, vec![0xa5; length]);
        assert_eq!(noise.total(), Err(Refusal::BadBuffers));
        assert_eq!(noise.push(true), Err(Refusal::BadBuffers));
        assert_eq!(noise.collect().unwrap_err(), Refusal::BadBuffers);
        everything(&mut noise, random.given());
    }
}

#[test]
fn lent_buffers_hold_the_heap() -> Result<(), Refusal> {
    let sizes = Sizes {
        userdata: 3,
        main_stack: 2,
        ..Sizes::SMALLEST
    };
    let needed = sizes.needed()?;
    let mut words = vec![7; needed.words + 1];
    let mut bytes = vec![7; needed.bytes + 1];

    let mut heap = Heap::new_in(&mut words[..], &mut bytes[..], sizes)?;
    let lease = heap.make_userdata()?;
    heap.push(lease)?;
    assert_eq!(heap.sizes()?, sizes);

    assert_eq!(
        (words.last(), bytes.last()),
        (Some(&7), Some(&7)),
        "what is past its end stays"
    );
    let dump = Heap::from_parts(&words[..], &bytes[..]);
    assert_eq!(dump.stack_get(0)?, Value::Userdata(lease));
    assert!(dump.audit()?);

    let mut boxed = Heap::from_parts(words.into_boxed_slice(), bytes.into_boxed_slice());
    assert_eq!(boxed.pop()?, Value::Userdata(lease));
    Ok(())
}

#[test]
fn values_are_told_as_they_were_given() -> Result<(), Refusal> {
    let mut heap = heap();
    let nan = f64::from_bits(0x7ff0_dead_beef_0001);
    for value in [0.0, -0.0, f64::INFINITY, f64::MIN_POSITIVE, nan] {
        heap.stack_set(1, value)?;
        let told = heap.stack_get(1)?.as_number().map(f64::to_bits);
        assert_eq!(told, Some(value.to_bits()));
    }
    for value in [
        Value::Nil,
        true.into(),
        false.into(),
        Value::Light(u64::MAX - 1),
        7.into(),
    ] {
        heap.stack_set(1, value)?;
        assert_eq!(heap.stack_get(1)?, value);
    }
    heap.stack_set(1, None::<bool>)?;
    assert!(heap.stack_get(1)?.is_nil());
    Ok(())
}
