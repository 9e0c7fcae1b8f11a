//! The effect of an event.

use crate::decoded::{Events, Marking, Relation};
use crate::process::Leads;

/// The event is executed: what its relations lead to, relations of it among which
/// its bounded responses are, and whether the table is firm.
#[inline]
pub(crate) fn execute<'a>(
    m: &mut Marking,
    event: u8,
    leads: Leads,
    own: impl Iterator<Item = &'a Relation>,
    firm: bool,
) {
    let r = m.of_mut(event);
    r.happened = true;
    r.count = r.count.saturating_add(1);
    r.age = 0;
    r.pending = false;
    r.bounded = false;
    r.deadline = 0;
    if leads.responses != 0 {
        for target in Events(leads.responses) {
            let r = m.of_mut(target);
            r.pending = true;
            // In a firm table the deadline that a target has is one of those of
            // which it gets the smallest.
            if !firm {
                r.bounded = false;
                r.deadline = 0;
            }
        }
        for k in own.filter(|k| k.kind == 2 && k.bounded) {
            let r = m.of_mut(k.right);
            // The deadline found first stands, then each that is smaller.
            if !r.bounded || k.time < r.deadline {
                r.deadline = k.time;
            }
            r.bounded = true;
        }
    }
    for target in Events(leads.excludes) {
        m.of_mut(target).included = false;
    }
    for target in Events(leads.includes) {
        m.of_mut(target).included = true;
    }
}
