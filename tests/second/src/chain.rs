//! The whole chain of what stands in an event's way: its blocking relations, those
//! of their right events, and so on downwards.

use crate::decoded::{Marking, Table, MOST_RELATIONS};
use crate::enabled::{blocks, judge_event, Right};
use crate::event_set::EventSet;
use crate::judge::understand;
use crate::process::{Process, State};
use crate::refusal::{DONE, TOO_LONG_OR_SHORT};
use std::vec::IntoIter;

/// No relation is listed twice, so every chain has room in so many places. Fewer
/// are refused, also where they would do: whether a list is long enough is not to
/// depend on the marking.
const ROOM: usize = MOST_RELATIONS;

#[derive(Clone, Copy, PartialEq, Eq, Debug)]
pub struct ChainAnswer {
    pub number: u8,
    /// How many places of the lent list were written.
    pub count: usize,
}

/// A relation at the time it is visited. The asked event's own have depth 0.
struct Visit {
    relation: usize,
    depth: usize,
}

impl Visit {
    /// Relations are below 256. Depths are, too: each one further down opens an
    /// event more, and there are 64.
    fn place(&self) -> u16 {
        256 * self.relation as u16 + self.depth as u16
    }
}

/// What an event leads to, in table order. An excluded one leads nowhere.
fn blocking_relations(process: &Process, state: &State, event: usize) -> Vec<usize> {
    if !state.of[event].included {
        return Vec::new();
    }
    let links = process.relations.iter().enumerate();
    links
        .filter(|(_, link)| link.left == event && blocks(link, state, Right::AsItStands))
        .map(|(number, _)| number)
        .collect()
}

/// Each event on the way down has one entry on the stack: those of its relations
/// that are still to be visited.
fn visits(process: &Process, state: &State, asked: usize) -> Vec<Visit> {
    let open = |event| blocking_relations(process, state, event).into_iter();
    let mut visits = Vec::new();
    // An event counts as opened from before its relations are gone through, so a
    // relation that leads back to it ends there.
    let mut opened = EventSet::from([asked]);
    let mut way_down: Vec<IntoIter<usize>> = vec![open(asked)];
    while let Some(to_visit) = way_down.last_mut() {
        let Some(relation) = to_visit.next() else {
            way_down.pop();
            continue;
        };
        let depth = way_down.len() - 1;
        visits.push(Visit { relation, depth });
        let right = process.relations[relation].right;
        if opened.insert(right) {
            way_down.push(open(right));
        }
    }
    visits
}

fn attempt(table: &Table, marking: &Marking, event: usize, room: usize) -> Result<Vec<Visit>, u8> {
    let (process, state) = understand(table, marking)?;
    judge_event(&process, event)?;
    if room < ROOM {
        return Err(TOO_LONG_OR_SHORT);
    }
    Ok(visits(&process, &state, event))
}

/// Lists every relation that stands in the event's way, in visiting order: a
/// relation, all below it, then the next. A place is 256 × relation + depth.
pub fn chain(table: &Table, marking: &Marking, event: usize, list: &mut [u16]) -> ChainAnswer {
    match attempt(table, marking, event, list.len()) {
        Ok(visits) => {
            for (place, visit) in list.iter_mut().zip(&visits) {
                *place = visit.place();
            }
            ChainAnswer {
                number: DONE,
                count: visits.len(),
            }
        }
        Err(number) => ChainAnswer { number, count: 0 },
    }
}
