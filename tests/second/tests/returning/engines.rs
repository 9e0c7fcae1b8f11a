//! Engines that have it wrong what an event that is excluded would do, in what
//! they answer to a margin or a hold-up.
//!
//! No engine here includes all excluded events at once: a relation looks at its
//! own right event only, so that one would name the same relation.

use super::sorts::{ignored, inhibitions, right_of, would_block};
use second::case::{Answer, Case, Pair};
use second::*;

/// What an engine answers instead of the right margin.
type Margins = fn(MarginAnswer) -> MarginAnswer;

pub const MARGINS: [(&str, Margins); 8] = [
    ("ignored always says never", |good| match good {
        MarginAnswer::Ignored(_) => MarginAnswer::Ignored(Rest::Never),
        other => other,
    }),
    ("ignored never says never", |good| match good {
        MarginAnswer::Ignored(Rest::Never) => MarginAnswer::Ignored(Rest::By(0)),
        other => other,
    }),
    ("ignored never tells 0 ticks", |good| match good {
        MarginAnswer::Ignored(Rest::By(0)) => MarginAnswer::Ignored(Rest::Never),
        other => other,
    }),
    ("ignored has no sign", |good| match good {
        MarginAnswer::Ignored(Rest::By(by)) => MarginAnswer::Ignored(Rest::By(by.abs())),
        other => other,
    }),
    ("ignored is time minus age", |good| match good {
        MarginAnswer::Ignored(Rest::By(by)) => MarginAnswer::Ignored(Rest::By(-by)),
        other => other,
    }),
    ("ignored stops at 0", |good| match good {
        MarginAnswer::Ignored(Rest::By(by)) => MarginAnswer::Ignored(Rest::By(by.min(0))),
        other => other,
    }),
    ("nothing is ignored", |good| match good {
        MarginAnswer::Ignored(Rest::Never) => MarginAnswer::Never,
        MarginAnswer::Ignored(Rest::By(by)) => MarginAnswer::By(by),
        other => other,
    }),
    ("everything is ignored", |good| match good {
        MarginAnswer::Never => MarginAnswer::Ignored(Rest::Never),
        MarginAnswer::By(by) => MarginAnswer::Ignored(Rest::By(by)),
        other => other,
    }),
];

/// What an engine answers instead of the right hold-up of an event.
type HoldUps = fn(&Pair, usize, HoldUpAnswer) -> HoldUpAnswer;

/// The answer about an enabled event that names this relation, if any.
fn naming(number: Option<usize>) -> HoldUpAnswer {
    match number {
        Some(number) => HoldUpAnswer::EnabledUnless(number),
        None => HoldUpAnswer::Enabled,
    }
}

/// Another search over the relations, made for an enabled event only.
fn if_enabled(good: HoldUpAnswer, search: impl Fn() -> Option<usize>) -> HoldUpAnswer {
    match good {
        HoldUpAnswer::Enabled | HoldUpAnswer::EnabledUnless(_) => naming(search()),
        other => other,
    }
}

/// The lowest of the event's relations that would block it and of which this is
/// true.
fn lowest_where(pair: &Pair, event: usize, fits: impl Fn(usize) -> bool) -> Option<usize> {
    let mut own = inhibitions(&pair.table, event).into_iter();
    own.find(|&number| would_block(pair, number) && fits(number))
}

fn lowest_that_would(pair: &Pair, event: usize) -> Option<usize> {
    lowest_where(pair, event, |_| true)
}

fn kind_of(pair: &Pair, number: usize) -> u8 {
    pair.table.relations[number].kind
}

pub const HOLD_UPS: [(&str, HoldUps); 15] = [
    ("searches on the real inclusion", |pair, event, good| {
        if_enabled(good, || {
            lowest_where(pair, event, |number| right_of(pair, number).included)
        })
    }),
    ("names the highest", |pair, event, good| {
        if_enabled(good, || {
            let mut own = inhibitions(&pair.table, event).into_iter().rev();
            own.find(|&number| would_block(pair, number))
        })
    }),
    ("names the first that is ignored", |pair, event, good| {
        if_enabled(good, || ignored(pair, event).first().copied())
    }),
    ("names the first of the event", |pair, event, good| {
        if_enabled(good, || {
            let first = inhibitions(&pair.table, event).first().copied();
            lowest_that_would(pair, event).and(first)
        })
    }),
    ("names it by place among its own", |pair, event, good| {
        if_enabled(good, || {
            let mut own = inhibitions(&pair.table, event).into_iter();
            own.position(|number| would_block(pair, number))
        })
    }),
    ("looks at every event's relations", |pair, _, good| {
        if_enabled(good, || {
            (0..pair.table.count).find(|&number| would_block(pair, number))
        })
    }),
    ("takes left for right", |pair, event, good| {
        if_enabled(good, || {
            (0..pair.table.count).find(|&number| {
                usize::from(pair.table.relations[number].right) == event
                    && would_block(pair, number)
            })
        })
    }),
    ("looks at conditions only", |pair, event, good| {
        if_enabled(good, || {
            lowest_where(pair, event, |number| kind_of(pair, number) == 1)
        })
    }),
    ("looks at milestones only", |pair, event, good| {
        if_enabled(good, || {
            lowest_where(pair, event, |number| kind_of(pair, number) == 5)
        })
    }),
    ("looks at conditions first", |pair, event, good| {
        if_enabled(good, || {
            lowest_where(pair, event, |number| kind_of(pair, number) == 1)
                .or(lowest_that_would(pair, event))
        })
    }),
    ("forgets that a condition waits", |pair, event, good| {
        if_enabled(good, || {
            lowest_where(pair, event, |number| {
                kind_of(pair, number) == 5 || !right_of(pair, number).happened
            })
        })
    }),
    ("blocks by what is ignored", |_, _, good| match good {
        HoldUpAnswer::EnabledUnless(number) => HoldUpAnswer::Blocked(number),
        other => other,
    }),
    (
        "names the ignored for a blocked event",
        |pair, event, good| match good {
            HoldUpAnswer::Blocked(_) => naming(lowest_that_would(pair, event)),
            other => other,
        },
    ),
    (
        "blocks by the lower that is ignored",
        |pair, event, good| match (good, lowest_that_would(pair, event)) {
            (HoldUpAnswer::Blocked(_), Some(number)) => HoldUpAnswer::Blocked(number),
            (other, _) => other,
        },
    ),
    (
        "names for an excluded event",
        |pair, event, good| match good {
            HoldUpAnswer::Excluded => naming(lowest_that_would(pair, event)),
            other => other,
        },
    ),
];

/// The wrong answers to a case, each with the name of an engine that gives it.
pub fn wrong_answers(case: &Case, answer: &Answer) -> Vec<(&'static str, Answer)> {
    let mut wrong: Vec<(&str, Answer)> = match (case, answer) {
        (Case::Margin { .. }, Answer::Margin(good)) => MARGINS
            .iter()
            .map(|(name, engine)| (*name, Answer::Margin(engine(*good))))
            .collect(),
        // What is refused has no relations to look at.
        (Case::HoldUp { pair, event }, Answer::HoldUp(good)) if answer.number() == 0 => HOLD_UPS
            .iter()
            .map(|(name, engine)| (*name, Answer::HoldUp(engine(pair, *event, *good))))
            .collect(),
        _ => Vec::new(),
    };
    wrong.retain(|(_, bad)| bad != answer);
    wrong
}
