//! Prototypes: the source counts references to them; the heap numbers them as they are made.

use crate::answer::{FULL, RANGE, Refusal, STALE, ensure};
use crate::heap::Oracle;
use crate::sizes;
use crate::value::Value;
use crate::vm::proto::{Proto, ProtoRef};

impl Oracle {
    /// A prototype; answers its number.
    pub fn make_proto(&mut self, constants: Vec<Value>, nested: Vec<u32>) -> Result<u32, Refusal> {
        let lengths = constants.len() <= sizes::CONSTANTS && nested.len() <= sizes::NESTED;
        ensure(lengths && self.can_nest(&nested), RANGE)?;
        self.need_sound(&constants)?;
        let number = self.kept.protos.len();
        ensure(number < self.sizes().prototypes as usize, FULL)?;
        let mut proto = Proto::new("");
        proto.constants = constants.into_iter().map(Value::val).collect();
        for n in nested {
            let child = &self.kept.protos[n as usize];
            proto.protos.push(ProtoRef::clone(child));
            self.kept.nested[n as usize] = true;
        }
        self.kept.protos.push(ProtoRef::new(proto));
        self.kept.nested.push(false);
        Ok(number as u32)
    }

    /// Every one is made, has no parent and is named once.
    fn can_nest(&self, nested: &[u32]) -> bool {
        nested.iter().enumerate().all(|(place, n)| {
            let free = self.kept.nested.get(*n as usize) == Some(&false);
            free && !nested[..place].contains(n)
        })
    }

    /// Refusal 2 unless all constants of a made prototype, nested ones too, are sound.
    pub(crate) fn need_constants(&self, number: usize) -> Result<(), Refusal> {
        ensure(self.sound_proto(&self.kept.protos[number]), STALE)
    }

    fn sound_proto(&self, proto: &Proto) -> bool {
        let own = proto.constants.iter().all(|v| self.is_sound((*v).into()));
        own && proto.protos.iter().all(|p| self.sound_proto(p))
    }

    /// The number of a prototype of this heap.
    pub(crate) fn proto_number(&self, proto: &ProtoRef) -> Option<u32> {
        let at = |p: &ProtoRef| ProtoRef::ptr_eq(p, proto);
        self.kept.protos.iter().position(at).map(|n| n as u32)
    }
}
