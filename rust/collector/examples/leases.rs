//! The maker's story: leases in a cinema server.
//!
//! The server's films lie on stripes of disks. A policy script holds each parity rebuild as a
//! userdata, a lease; as long as it is in use, no scrub may run onto the stripe. A planner rebuilds
//! block by block and gives the collector a turn after each. A scrub asks before it runs.
//!
//! `rust/collector/run-example` from a fresh clone, or `cargo run --offline -p collector --example
//! leases` in rust/.

use collector::{Heap, Item, List, Outcome, Refusal, Sizes, Step, TableRef, UserdataRef, Value};
use std::error::Error;
use std::io::{self, Write};

type Told<T> = Result<T, Box<dyn Error>>;

/// The stripes, by name; their places in the list of leases are from 0 on.
const STRIPES: [&str; 5] = ["A", "B", "C", "D", "E"];

/// What a turn of the collector may cost.
const BUDGET: i64 = 100;

/// What the scrub is told when it asks about a stripe.
#[derive(Clone, Copy, PartialEq, Eq)]
enum Asked {
    Leased,
    Ending,
    Broken,
    Free,
}

impl Asked {
    fn words(self) -> &'static str {
        match self {
            Self::Leased => "is leased: the scrub waits",
            Self::Ending => "is leased no more, but its rebuild is not closed yet: the scrub waits",
            Self::Broken => "has parity that could not be closed: the scrub leaves it alone",
            Self::Free => "is free: the scrub runs",
        }
    }
}

/// The stripe that a lease is for: the first place of its environment.
fn stripe_of(heap: &Heap, lease: UserdataRef) -> Result<u32, Refusal> {
    let env = heap.userdata_env(lease)?.ok_or(Refusal::Stale)?;
    let stripe = heap.table_get(env, 0)?.as_number();
    Ok(stripe.ok_or(Refusal::OutOfRange)? as u32)
}

fn name(stripe: u32) -> &'static str {
    STRIPES[stripe as usize]
}

/// The disks, outside the heap.
#[derive(Default)]
struct Disks {
    /// The stripe whose parity cannot be written now.
    stuck: Option<u32>,
    /// Stripes whose parity is not whole.
    broken: Vec<u32>,
}

impl Disks {
    /// What a lease's finalizer does: it closes the parity of its stripe.
    fn close(&mut self, heap: &Heap, lease: UserdataRef) -> Told<u32> {
        let stripe = stripe_of(heap, lease)?;
        if self.stuck == Some(stripe) {
            self.broken.push(stripe);
            return Err(format!("a disk of stripe {} does not answer", name(stripe)).into());
        }
        self.broken.retain(|s| *s != stripe);
        Ok(stripe)
    }
}

struct Server<'o> {
    heap: Heap,
    /// Leases by stripe. Its values are weak: it tells of a lease and does not hold it.
    leases: TableRef,
    /// The metatable of leases, with `__gc`.
    metatable: TableRef,
    disks: Disks,
    /// What the scrub was told of each stripe the last time.
    told: [Option<Asked>; STRIPES.len()],
    out: &'o mut dyn Write,
}

impl<'o> Server<'o> {
    fn new(out: &'o mut dyn Write) -> Told<Self> {
        let mut heap = Heap::new(Sizes::default())?;
        let script = heap.make_rust_closure(None, &[])?;
        heap.push(script)?;

        // What the registry holds is held for good.
        let registry = heap.registry()?.ok_or("no registry")?;
        let metatable = heap.make_table(0, 1)?;
        heap.table_set(registry, 0, metatable)?;
        let (gc, close) = (heap.gc_name()?, heap.make_rust_closure(None, &[])?);
        heap.table_set_node(metatable, 0, gc, close)?;

        let leases = heap.make_table(STRIPES.len() as u32, 0)?;
        heap.table_set(registry, 1, leases)?;
        let weak = heap.make_table(0, 1)?;
        heap.table_set_metatable(leases, weak)?;
        let (mode, values) = (heap.mode_name()?, heap.make_string(b"v")?);
        heap.table_set_node(weak, 0, mode, values)?;

        Ok(Self {
            heap,
            leases,
            metatable,
            disks: Disks::default(),
            told: [None; STRIPES.len()],
            out,
        })
    }

    /// The script takes a lease and keeps it on its stack.
    fn take(&mut self, stripe: u32) -> Told<UserdataRef> {
        let lease = self.heap.make_userdata()?;
        self.heap.push(lease)?;
        let env = self.heap.make_table(1, 0)?;
        self.heap.table_set(env, 0, stripe)?;
        self.heap.userdata_set_env(lease, env)?;
        self.heap.userdata_set_metatable(lease, self.metatable)?;
        self.heap.table_set(self.leases, stripe, lease)?;
        writeln!(
            self.out,
            "The script takes a lease on stripe {}.",
            name(stripe)
        )?;
        Ok(lease)
    }

    /// The script drops the lease that it took last.
    fn drop_last(&mut self) -> Told<()> {
        let lease = self.heap.pop()?.as_userdata().ok_or("no lease is left")?;
        let stripe = name(stripe_of(&self.heap, lease)?);
        writeln!(
            self.out,
            "The rebuild of stripe {stripe} is done, and the script drops its lease."
        )?;
        Ok(())
    }

    /// What the scrub has to know before it runs onto a stripe.
    fn ask(&self, stripe: u32) -> Told<Asked> {
        if let Value::Userdata(_) = self.heap.table_get(self.leases, stripe)? {
            return Ok(Asked::Leased);
        }
        // The list loses a lease before its finalizer has run; those in the queue wait for it.
        for i in 0..self.heap.list_len(List::Queue)? {
            if let Item::Userdata(lease) = self.heap.list_item(List::Queue, i)?
                && stripe_of(&self.heap, lease)? == stripe
            {
                return Ok(Asked::Ending);
            }
        }
        if self.disks.broken.contains(&stripe) {
            return Ok(Asked::Broken);
        }
        Ok(Asked::Free)
    }

    /// The scrub asks about every stripe and says what is new to it.
    fn scrub(&mut self) -> Told<()> {
        for stripe in 0..STRIPES.len() as u32 {
            let asked = self.ask(stripe)?;
            if self.told[stripe as usize].replace(asked) != Some(asked) {
                writeln!(self.out, "  Stripe {} {}.", name(stripe), asked.words())?;
            }
        }
        Ok(())
    }

    /// A turn of the collector. A finalizer that fails ends it; the others come with later turns.
    fn turn(&mut self) -> Told<Outcome> {
        let mut step = self.heap.step(BUDGET)?;
        loop {
            match step {
                Step::Done(outcome) => return Ok(outcome),
                Step::Finalizer(lease) => match self.disks.close(&lease, lease.userdata()) {
                    Ok(stripe) => {
                        writeln!(self.out, "The parity of stripe {} is closed.", name(stripe))?;
                        step = lease.finish()?;
                    }
                    Err(why) => {
                        // The guard is dropped here: the finalizer counts as failed.
                        writeln!(self.out, "The parity is not closed: {why}.")?;
                        return Ok(Outcome::Unfinished);
                    }
                },
            }
        }
    }

    /// The planner does its work bit by bit, with a turn of the collector and of the scrub after
    /// each, until the collector has come to the end of a cycle.
    fn plan(&mut self, work: &str) -> Told<()> {
        writeln!(self.out, "The planner {work}.")?;
        while self.turn()? != Outcome::Ended {
            self.scrub()?;
        }
        self.scrub()
    }
}

fn yes(holds: bool) -> &'static str {
    if holds { "Yes." } else { "No." }
}

fn first_night(server: &mut Server) -> Told<UserdataRef> {
    for stripe in [0, 1] {
        server.take(stripe)?;
    }
    let third = server.take(2)?;
    writeln!(server.out, "\nThe scrub comes by.")?;
    server.scrub()?;

    writeln!(server.out)?;
    server.drop_last()?;
    server.drop_last()?;
    server.disks.stuck = Some(1);
    server.plan("rebuilds stripe A, and lets the collector work after each block")?;
    Ok(third)
}

fn second_night(server: &mut Server, old: UserdataRef) -> Told<()> {
    writeln!(
        server.out,
        "\nThe disk is replaced, and stripe B is rebuilt again."
    )?;
    server.disks.stuck = None;
    server.take(1)?;
    server.plan("rebuilds stripes A and B, with the collector in between")?;
    let refusal = server.heap.push(old).expect_err("it was freed");
    writeln!(
        server.out,
        "Someone still has the lease of stripe C. It is refused: {refusal}."
    )?;

    writeln!(server.out)?;
    server.drop_last()?;
    server.drop_last()?;
    server.plan("has nothing to rebuild, and lets the collector work")?;
    let whole = server.told.iter().all(|asked| *asked == Some(Asked::Free));
    let (whole, sound) = (yes(whole), yes(server.heap.audit()?));
    writeln!(
        server.out,
        "\nIs every stripe whole? {whole} Does the heap pass its audit? {sound}"
    )?;
    Ok(())
}

/// The whole story.
///
/// # Errors
/// A refusal that is no part of it, or a failure to write.
pub fn story(out: &mut dyn Write) -> Told<()> {
    let mut server = Server::new(out)?;
    let old = first_night(&mut server)?;
    second_night(&mut server, old)
}

fn main() -> Told<()> {
    story(&mut io::stdout().lock())
}
