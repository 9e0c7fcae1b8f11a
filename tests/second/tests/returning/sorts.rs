//! The sorts of margins and hold-ups in which an event that is excluded counts.

use second::case::{Answer, Case, Pair};
use second::*;

pub const SORTS: [&str; 22] = [
    "ignored, never",
    "ignored, below 0",
    "ignored, 1 below 0",
    "ignored, at 0",
    "ignored, above 0",
    "ignored, by very much",
    "ignored, on itself",
    "a condition that never happened is named",
    "a condition that waits is named",
    "a milestone with a deadline is named",
    "a milestone pending eventually is named",
    "a milestone after a condition is named",
    "a condition after a milestone is named",
    "several are ignored",
    "a lower one is ignored and would not block",
    "a higher one would block, too",
    "a lower one of another event would block",
    "enabled, and nothing is ignored",
    "enabled, and what is ignored would not block",
    "enabled, with a relation to itself",
    "excluded, and an ignored one would block",
    "blocked, and a lower ignored one would block",
];

/// The event's conditions and milestones, by number.
pub fn inhibitions(table: &Table, event: usize) -> Vec<usize> {
    (0..table.count)
        .filter(|&number| {
            let relation = &table.relations[number];
            usize::from(relation.left) == event && [1, 5].contains(&relation.kind)
        })
        .collect()
}

pub fn right_of(pair: &Pair, number: usize) -> &Record {
    let right = usize::from(pair.table.relations[number].right);
    &pair.marking.records[right]
}

/// Those of its conditions and milestones whose right event is excluded.
pub fn ignored(pair: &Pair, event: usize) -> Vec<usize> {
    let mut numbers = inhibitions(&pair.table, event);
    numbers.retain(|&number| !right_of(pair, number).included);
    numbers
}

/// Whether the relation blocks its left event once its right event is included.
pub fn would_block(pair: &Pair, number: usize) -> bool {
    let relation = &pair.table.relations[number];
    let right = right_of(pair, number);
    match relation.kind {
        1 => !right.happened || right.age < relation.time,
        5 => right.pending,
        _ => false,
    }
}

fn of_margin(pair: &Pair, relation: usize, answer: &MarginAnswer) -> Vec<&'static str> {
    let MarginAnswer::Ignored(rest) = *answer else {
        return Vec::new();
    };
    let mut sorts = vec![match rest {
        Rest::Never => "ignored, never",
        Rest::By(by) if by < 0 => "ignored, below 0",
        Rest::By(0) => "ignored, at 0",
        Rest::By(_) => "ignored, above 0",
    }];
    match rest {
        Rest::By(-1) => sorts.push("ignored, 1 below 0"),
        Rest::By(by) if by.abs() > 900_000_000 => sorts.push("ignored, by very much"),
        _ => {}
    }
    let asked = &pair.table.relations[relation];
    if asked.left == asked.right {
        sorts.push("ignored, on itself");
    }
    sorts
}

/// What the relation that is named would wait for.
fn of_named(pair: &Pair, number: usize) -> &'static str {
    let right = right_of(pair, number);
    match pair.table.relations[number].kind {
        5 if right.bounded => "a milestone with a deadline is named",
        5 => "a milestone pending eventually is named",
        _ if right.happened => "a condition that waits is named",
        _ => "a condition that never happened is named",
    }
}

fn of_unless(pair: &Pair, event: usize, number: usize) -> Vec<&'static str> {
    let kind_of = |number: usize| pair.table.relations[number].kind;
    let ignored = ignored(pair, event);
    let lower = inhibitions(&pair.table, event)
        .into_iter()
        .take_while(|&other| other < number);
    let after: Vec<u8> = lower.map(kind_of).collect();
    let higher = |&other: &usize| other > number && would_block(pair, other);
    let of_another = |other: usize| {
        usize::from(pair.table.relations[other].left) != event
            && !right_of(pair, other).included
            && would_block(pair, other)
    };
    let facts = [
        (
            kind_of(number) == 5 && after.contains(&1),
            "a milestone after a condition is named",
        ),
        (
            kind_of(number) == 1 && after.contains(&5),
            "a condition after a milestone is named",
        ),
        (ignored.len() > 1, "several are ignored"),
        (
            ignored[0] < number,
            "a lower one is ignored and would not block",
        ),
        (ignored.iter().any(higher), "a higher one would block, too"),
        (
            (0..number).any(of_another),
            "a lower one of another event would block",
        ),
    ];
    let found = facts.iter().filter(|(fact, _)| *fact);
    let mut sorts: Vec<&str> = found.map(|(_, sort)| *sort).collect();
    sorts.push(of_named(pair, number));
    sorts
}

/// Of an enabled event, whatever is named.
fn of_enabled(pair: &Pair, event: usize) -> Vec<&'static str> {
    let mut own = inhibitions(&pair.table, event).into_iter();
    match own.any(|number| usize::from(pair.table.relations[number].right) == event) {
        true => vec!["enabled, with a relation to itself"],
        false => Vec::new(),
    }
}

fn of_hold_up(pair: &Pair, event: usize, answer: &HoldUpAnswer) -> Vec<&'static str> {
    match *answer {
        HoldUpAnswer::Refused(_) => Vec::new(),
        HoldUpAnswer::Enabled => {
            let mut sorts = of_enabled(pair, event);
            sorts.push(match ignored(pair, event).is_empty() {
                true => "enabled, and nothing is ignored",
                false => "enabled, and what is ignored would not block",
            });
            sorts
        }
        HoldUpAnswer::EnabledUnless(number) => {
            let mut sorts = of_enabled(pair, event);
            sorts.extend(of_unless(pair, event, number));
            sorts
        }
        HoldUpAnswer::Excluded => {
            let mut ignored = ignored(pair, event).into_iter();
            match ignored.any(|number| would_block(pair, number)) {
                true => vec!["excluded, and an ignored one would block"],
                false => Vec::new(),
            }
        }
        HoldUpAnswer::Blocked(number) => {
            let mut ignored = ignored(pair, event).into_iter();
            match ignored.any(|other| other < number && would_block(pair, other)) {
                true => vec!["blocked, and a lower ignored one would block"],
                false => Vec::new(),
            }
        }
    }
}

pub fn sorts_of(case: &Case, answer: &Answer) -> Vec<&'static str> {
    match (case, answer) {
        (Case::Margin { pair, relation }, Answer::Margin(answer)) => {
            of_margin(pair, *relation, answer)
        }
        (Case::HoldUp { pair, event }, Answer::HoldUp(answer)) => of_hold_up(pair, *event, answer),
        _ => Vec::new(),
    }
}
