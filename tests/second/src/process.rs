//! What a judged table and marking mean. These types cannot hold a value that
//! breaks the rules, so everything built on them needs no further judging.

use crate::decoded::{Marking, Record};
use crate::event_set::EventSet;
use std::num::NonZeroU32;

/// Declared in this order so that `Eventually` compares as the largest.
#[derive(Clone, Copy, PartialEq, Eq, PartialOrd, Ord, Debug)]
pub enum Deadline {
    Within(u32),
    Eventually,
}

#[derive(Clone, Copy, PartialEq, Eq, Debug)]
pub enum Meaning {
    /// Left needs right at least `time` ago.
    Condition {
        time: u32,
    },
    /// Left makes right pending with this deadline.
    Response(Deadline),
    Includes,
    Excludes,
    /// Left has right as milestone.
    Milestone,
}

#[derive(Clone, Copy, PartialEq, Eq, Debug)]
pub struct Link {
    pub left: usize,
    pub right: usize,
    pub meaning: Meaning,
}

impl Link {
    /// Whether right is an inhibitor of left.
    pub fn inhibits(&self) -> bool {
        matches!(self.meaning, Meaning::Condition { .. } | Meaning::Milestone)
    }
}

/// A judged table: the relations in table order, the classes as sets.
#[derive(Clone, Debug)]
pub struct Process {
    pub events: usize,
    pub controllable: EventSet,
    pub causable: EventSet,
    pub relations: Vec<Link>,
    /// Whether a response leaves a smaller deadline that its target has.
    pub firm: bool,
}

impl Process {
    pub fn relations_of(&self, left: usize) -> impl Iterator<Item = &Link> {
        self.relations.iter().filter(move |link| link.left == left)
    }

    /// Right events of the event's conditions and milestones.
    pub fn inhibitors(&self, event: usize) -> EventSet {
        self.relations_of(event)
            .filter(|link| link.inhibits())
            .map(|link| link.right)
            .collect()
    }
}

/// What there is of an event that has happened.
#[derive(Clone, Copy, PartialEq, Eq, Debug)]
pub struct Happened {
    pub age: u32,
    /// How often, held at the largest value.
    pub count: NonZeroU32,
}

#[derive(Clone, Copy, PartialEq, Eq, Debug)]
pub struct EventState {
    /// None: not happened.
    pub happened: Option<Happened>,
    pub included: bool,
    /// None: not pending.
    pub pending: Option<Deadline>,
}

impl EventState {
    /// None: not happened.
    pub fn age(&self) -> Option<u32> {
        self.happened.map(|happened| happened.age)
    }

    pub fn is_due(&self) -> bool {
        self.included && self.pending == Some(Deadline::Within(0))
    }

    pub fn is_bounded_pending(&self) -> bool {
        matches!(self.pending, Some(Deadline::Within(_)))
    }

    fn record(&self) -> Record {
        let mut record = Record::EMPTY;
        record.included = self.included;
        if let Some(happened) = self.happened {
            record.happened = true;
            record.age = happened.age;
            record.count = happened.count.get();
        }
        if let Some(deadline) = self.pending {
            record.pending = true;
            if let Deadline::Within(ticks) = deadline {
                record.bounded = true;
                record.deadline = ticks;
            }
        }
        record
    }
}

/// A judged marking: one state for each event there is.
#[derive(Clone, PartialEq, Eq, Debug)]
pub struct State {
    pub of: Vec<EventState>,
}

impl State {
    /// Calls keep the places past the count, so the answer is laid over the
    /// marking that was handed in.
    pub fn over(&self, handed_in: &Marking) -> Marking {
        let mut marking = *handed_in;
        for (record, state) in marking.records.iter_mut().zip(&self.of) {
            *record = state.record();
        }
        marking
    }
}
