//! An event happens: whatever its class, it is executed if enabled.

use crate::decoded::{only, Marking, Relation, Table};
use crate::effect::execute;
use crate::enabled::stops;
use crate::judge::judge_event;
use crate::process::Leads;

/// What the relations of an enabled event lead to; none where one of them stops it.
#[inline]
fn unless_stopped<'a>(own: impl Iterator<Item = &'a Relation>, m: &Marking) -> Option<Leads> {
    let mut leads = Leads::default();
    for k in own {
        match k.kind {
            2 => leads.responses |= only(k.right),
            3 => leads.includes |= only(k.right),
            4 => leads.excludes |= only(k.right),
            _ if stops(k, m) => return None,
            _ => {}
        }
    }
    Some(leads)
}

pub fn happen(t: &Table, m: &mut Marking, event: usize) -> u8 {
    if let Err(number) = judge_event(t, m, event) {
        return number;
    }
    let event = event as u8;
    if !m.of(event).included {
        return 10;
    }
    let own = t.used().iter().filter(|k| k.left == event);
    let Some(leads) = unless_stopped(own.clone(), m) else {
        return 10;
    };
    execute(m, event, leads, own, t.firm);
    0
}
