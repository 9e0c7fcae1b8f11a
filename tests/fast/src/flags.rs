//! What the check and the ticks ask of the records, in one pass.

use crate::decoded::{Marking, Record};

#[inline]
pub(crate) fn is_due(r: &Record) -> bool {
    r.included & r.pending & r.bounded & (r.deadline == 0)
}

/// Where a set is not asked for, the compiler leaves it out of the pass.
pub(crate) struct Flags {
    pub excluded: u64,
    /// Bounded pending.
    pub busy: u64,
    pub due: u64,
}

impl Flags {
    #[inline]
    pub fn of(m: &Marking) -> Flags {
        let (mut excluded, mut busy, mut due) = (0, 0, 0);
        for (event, r) in m.used().iter().enumerate() {
            excluded |= u64::from(!r.included) << event;
            busy |= u64::from(r.pending & r.bounded) << event;
            due |= u64::from(is_due(r)) << event;
        }
        Flags {
            excluded,
            busy,
            due,
        }
    }
}
