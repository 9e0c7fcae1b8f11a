//! What a margin and a hold-up say, of an excluded event also what would be if it
//! returned.

use super::{relations, CONDITION, MILESTONE};
use second::case::Pair;
use second::{HoldUpAnswer, MarginAnswer, Rest};

pub fn of_margin(answer: &MarginAnswer) -> &'static str {
    match answer {
        MarginAnswer::Refused(_) => "refused",
        MarginAnswer::NotACondition => "no condition",
        MarginAnswer::Ignored(Rest::Never) => "ignored, else never",
        MarginAnswer::Ignored(Rest::By(..=-1)) => "ignored, else below zero",
        MarginAnswer::Ignored(Rest::By(0)) => "ignored, else zero",
        MarginAnswer::Ignored(Rest::By(_)) => "ignored, else above zero",
        MarginAnswer::Never => "never",
        MarginAnswer::By(..=-1) => "below zero",
        MarginAnswer::By(0) => "zero",
        MarginAnswer::By(_) => "above zero",
    }
}

/// The conditions and milestones of an event, by their numbers in the table.
fn waits(pair: &Pair, event: usize) -> impl Iterator<Item = (usize, (u8, usize))> + '_ {
    relations(pair)
        .enumerate()
        .filter(move |(_, (kind, left, _))| [CONDITION, MILESTONE].contains(kind) && *left == event)
        .map(|(number, (kind, _, right))| (number, (kind, right)))
}

/// Of an enabled event: how many of its conditions and milestones have an excluded
/// right event.
fn of_rights(pair: &Pair, event: usize) -> Vec<&'static str> {
    let excluded = |right: usize| !pair.marking.records[right].included;
    let rights = waits(pair, event)
        .filter(|(_, (_, right))| excluded(*right))
        .count();
    let shapes = [
        ("enabled with an excluded right", rights > 0),
        ("enabled with 2 or more excluded rights", rights > 1),
        ("enabled with 8 or more excluded rights", rights > 7),
        ("enabled with 64 or more excluded rights", rights > 63),
    ];
    let there = shapes.into_iter().filter(|shape| shape.1);
    there.map(|shape| shape.0).collect()
}

/// Of an enabled event that this relation would block.
fn of_named(pair: &Pair, event: usize, named: usize) -> Vec<&'static str> {
    let milestone = pair.table.relations[named].kind == MILESTONE;
    let first = waits(pair, event).next().map(|(number, _)| number);
    let shapes = [
        ("enabled unless, by a condition", !milestone),
        ("enabled unless, by a milestone", milestone),
        ("enabled unless, not by its first", first != Some(named)),
    ];
    let there = shapes.into_iter().filter(|shape| shape.1);
    there.map(|shape| shape.0).collect()
}

pub fn of_hold_up(pair: &Pair, event: usize, answer: &HoldUpAnswer) -> Vec<&'static str> {
    let mut shapes = match answer {
        HoldUpAnswer::Refused(_) => return vec!["refused"],
        HoldUpAnswer::Excluded => return vec!["excluded"],
        HoldUpAnswer::Blocked(_) => return vec!["blocked"],
        HoldUpAnswer::Enabled => vec!["enabled, none named"],
        HoldUpAnswer::EnabledUnless(named) => of_named(pair, event, *named),
    };
    shapes.extend(of_rights(pair, event));
    shapes
}
