//! The audit, by the direct reading of its sentence.

use crate::buffers::Buffers;
use audit::direct::View;

impl Buffers<'_> {
    pub fn audit(&mut self, out: &mut [u32]) -> u32 {
        self.tell(out, |h| Ok([View::new(h.words).passes().into()]))
    }
}
