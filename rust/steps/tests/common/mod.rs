//! An engine that is wrong on purpose.

use oracle::{Command, Sizes};
use steps::StandIn;
use steps::engine::{Call, Engine, Told};

/// What is done to the words, the bytes and the answer after a call.
pub type Fault = fn(Call, &mut [u32], &mut [u8], &mut Told);

/// The stand-in, spoiled.
pub struct Faulty {
    inner: StandIn,
    fault: Fault,
}

impl Faulty {
    /// Makes engines with this fault.
    pub fn maker(fault: Fault) -> impl Fn(Sizes) -> Box<dyn Engine> {
        move |sizes| {
            let inner = StandIn::new(sizes);
            Box::new(Self { inner, fault })
        }
    }
}

macro_rules! spoiled {
    ($($method:ident($($number:ident: $kind:ty)?) $call:expr;)*) => {
        impl Engine for Faulty {
            $(fn $method(
                &mut self,
                w: &mut [u32],
                b: &mut [u8],
                $($number: $kind,)?
                out: &mut [u32],
            ) -> u32 {
                let code = self.inner.$method(w, b, $($number,)? out);
                let mut told = Told { code, out: std::array::from_fn(|k| out[k]) };
                (self.fault)($call, w, b, &mut told);
                out.copy_from_slice(&told.out);
                told.code
            })*

            fn follow(&mut self, command: &Command) {
                self.inner.follow(command);
            }
        }
    };
}

spoiled! {
    gc_singlestep() Call::Single;
    gc_step(budget: i64) Call::Budgeted(budget);
    gc_step_auto() Call::Automatic;
    gc_check() Call::Check;
    full_gc() Call::Full;
    finish(ok: u32) Call::Finish(ok != 0);
}
