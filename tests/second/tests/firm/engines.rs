//! Engines that have the rule about deadlines that meet wrong, in what they answer
//! when something happens.

use second::case::{Answer, Case};
use second::*;

/// A response that meets a target.
pub struct Meeting {
    firm: bool,
    /// The target is the executing event.
    own: bool,
    /// The target before the execution.
    had: Record,
    /// None: eventually.
    new: Option<u32>,
}

impl Meeting {
    /// Whether the new deadline is the smaller one.
    fn sooner(&self) -> bool {
        match self.new {
            None => false,
            Some(new) => !self.had.bounded || new < self.had.deadline,
        }
    }

    /// Whether the target keeps what it had, by the rule as it should be.
    fn keeps(&self) -> bool {
        self.firm && !self.own && self.had.pending && !self.sooner()
    }
}

/// Whether the target keeps what it had.
pub type Rule = fn(&Meeting) -> bool;

pub const ENGINES: [(&str, Rule); 10] = [
    ("firm is ignored", |_| false),
    ("every table is firm", |met| {
        !met.own && met.had.pending && !met.sooner()
    }),
    ("firm the other way round", |met| {
        !met.firm && !met.own && met.had.pending && !met.sooner()
    }),
    ("not cleared before", |met| {
        met.firm && met.had.pending && !met.sooner()
    }),
    ("eventually is smallest", |met| {
        met.firm && !met.own && met.had.pending && met.had.deadline <= met.new.unwrap_or(0)
    }),
    ("a due event gets the new one", |met| {
        met.keeps() && !(met.had.bounded && met.had.deadline == 0)
    }),
    ("an excluded event gets the new one", |met| {
        met.keeps() && met.had.included
    }),
    ("the larger is kept", |met| {
        met.firm && !met.own && met.had.pending && met.sooner()
    }),
    ("the first is kept", |met| {
        met.firm && !met.own && met.had.pending
    }),
    ("what is not pending stays so", |met| {
        met.firm && !met.own && (!met.had.pending || !met.sooner())
    }),
];

/// What a target has before an event is executed, and the smallest deadline of
/// the event's responses to it. None: there is no response.
pub fn had_and_new(
    table: &Table,
    before: &Marking,
    event: usize,
    target: usize,
) -> Option<(Record, Option<u32>)> {
    let ends = (event as u8, target as u8);
    let responses: Vec<&Relation> = table.relations[..table.count]
        .iter()
        .filter(|relation| relation.kind == 2 && (relation.left, relation.right) == ends)
        .collect();
    let bounded = responses.iter().filter(|response| response.bounded);
    let new = bounded.map(|response| response.time).min();
    (!responses.is_empty()).then_some((before.records[target], new))
}

/// The answer of an engine with this rule to something that happens.
pub fn answer_of(keeps: Rule, case: &Case, good: &Answer) -> Option<Answer> {
    let (Case::Happen { pair, event }, Answer::Marking(done)) = (case, good) else {
        return None;
    };
    if done.number != 0 {
        return None;
    }
    let mut bad = done.clone();
    for target in 0..pair.table.events {
        let found = had_and_new(&pair.table, &pair.marking, *event, target);
        let Some((had, new)) = found else {
            continue;
        };
        let met = Meeting {
            firm: pair.table.firm,
            own: target == *event,
            had,
            new,
        };
        let record = &mut bad.marking.records[target];
        (record.pending, record.bounded, record.deadline) = if keeps(&met) {
            (had.pending, had.bounded, had.deadline)
        } else {
            (true, new.is_some(), new.unwrap_or(0))
        };
    }
    Some(Answer::Marking(bad))
}
