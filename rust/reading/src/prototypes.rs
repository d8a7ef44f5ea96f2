//! Prototypes: made in one call, never changed, named by numbers.

use crate::buffers::{Buffers, Heap, Told, halves, unless};
use crate::given::values;
use crate::records::{MOST_HELD, MOST_NESTED, PROTOTYPES};
use crate::value::Value;
use heap::layout::{PROTO, header};
use proved::Refused;

impl Heap<'_> {
    /// Nested ones are made, have no parent and are named once (4); constants name something (2).
    fn make_proto(&mut self, constants: &[Value], nested: &[u32]) -> Told<u32> {
        unless(nested.len() <= MOST_NESTED, 4)?;
        for (i, number) in nested.iter().enumerate() {
            let proto = self.proto(*number).ok_or(Refused(4))?;
            let free = self.words[proto + 2] == 0 && !nested[..i].contains(number);
            unless(free, 4)?;
        }
        constants.iter().try_for_each(|v| self.sound(*v))?;
        let number = self.words[header::PROTOTYPES];
        unless(number < self.words[6], 3)?;
        self.words[header::PROTOTYPES] = number + 1;
        self.write_proto(number, constants, nested);
        Ok(number)
    }

    fn write_proto(&mut self, number: u32, constants: &[Value], nested: &[u32]) {
        let proto = self.proto(number).expect("a used number");
        self.zero(proto, PROTO);
        self.words[proto] = constants.len() as u32;
        self.words[proto + 1] = nested.len() as u32;
        for (place, constant) in self.constants(proto).zip(constants) {
            self.set_value(place, *constant);
        }
        for (place, child) in self.nested(proto).zip(nested) {
            self.words[place] = *child;
            let child = self.proto(*child).expect("a made prototype");
            self.words[child + 2] = number + 1;
        }
    }

    /// The constants of a prototype and of all nested ones name something; one seen before does.
    pub fn sound_proto(&self, number: u32, seen: &mut [bool; PROTOTYPES]) -> Told<()> {
        if std::mem::replace(&mut seen[number as usize], true) {
            return Ok(());
        }
        let proto = self.proto(number).expect("a used number");
        self.constants(proto)
            .try_for_each(|place| self.sound(self.value(place)))?;
        let nested = self.nested(proto).map(|place| self.words[place]);
        nested
            .filter(|nested| *nested < number)
            .try_for_each(|nested| self.sound_proto(nested, seen))
    }
}

impl Buffers<'_> {
    pub fn make_proto(&mut self, constants: &[u32], nested: &[u32], out: &mut [u32]) -> u32 {
        self.tell(out, |h| {
            let constants = values(constants, MOST_HELD)?;
            h.make_proto(&constants, nested)
                .map(|number| halves(number.into()))
        })
    }
}
