// Beside the original's hazard.rs: which record a hazard pointer holds.
#![warn(warnings)]

use super::HazardPointer;
use crate::cells;

impl<F> HazardPointer<'_, F> {
    pub fn record(&self) -> u32 {
        cells::record_of(self.hazard.ptr.known_as())
    }
}
