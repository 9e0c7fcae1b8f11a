//! What a case has in it, so that a run can show that it went where a guarded
//! tick has much to do. Nothing is compared here.

mod chain;
mod counted;
mod firm;
mod quiet;
mod returned;
mod sleep;

use second::case::{Answer, Case, Pair};
use second::{check, due, guarded_tick, judge_table, Record, Relation, Table};
use std::collections::BTreeSet;

const CONDITION: u8 = 1;
const RESPONSE: u8 = 2;
const INCLUDES: u8 = 3;
const EXCLUDES: u8 = 4;
const MILESTONE: u8 = 5;

/// An image has 3 bits for a kind, 6 for an event, 30 for a time.
fn fits_image(relation: &Relation) -> bool {
    relation.kind < 8 && relation.left < 64 && relation.right < 64 && relation.time < 1 << 30
}

fn record_fits_image(record: &Record) -> bool {
    record.age < 1 << 30 && record.deadline < 1 << 30
}

/// Whether the table's used places hold a value that no image can hold.
fn table_past_an_image(table: &Table) -> bool {
    let mut relations = table.relations.iter().take(table.count);
    table.events > 127 || table.count > 511 || !relations.all(fits_image)
}

fn past_an_image(pair: &Pair) -> bool {
    let mut records = pair.marking.records.iter().take(pair.marking.events);
    table_past_an_image(&pair.table) || !records.all(record_fits_image)
}

fn relations(pair: &Pair) -> impl Iterator<Item = (u8, usize, usize)> + '_ {
    let used = pair.table.relations.iter().take(pair.table.count);
    used.map(|k| (k.kind, usize::from(k.left), usize::from(k.right)))
}

/// The events that a call has executed, in order.
fn executed(case: &Case, answer: &Answer) -> Vec<usize> {
    match (case, answer) {
        (Case::Happen { event, .. }, Answer::Marking(done)) if done.number == 0 => vec![*event],
        (_, Answer::Guarded(done)) => {
            let caused = &done.caused[..usize::from(done.count)];
            caused.iter().map(|&event| event.into()).collect()
        }
        (_, Answer::Sleep { end, list }) => {
            let caused = list[..end.count].iter();
            caused.map(|place| (place % 256) as usize).collect()
        }
        _ => Vec::new(),
    }
}

/// Whether the second of two events keeps the first from happening, if the
/// relation between them is of this kind. The pair is accepted, so conditions
/// of events that are looked at here have time 0.
fn blocks(pair: &Pair, kind: u8, right: usize) -> bool {
    let record = &pair.marking.records[right];
    let open = match kind {
        CONDITION => !record.happened,
        MILESTONE => record.pending,
        _ => false,
    };
    record.included && open
}

/// How many links the longest chain of blocking inhibitors has that leads to
/// each needed event; None for the others. The pair is accepted, so no chain
/// comes back to its start.
fn links(pair: &Pair) -> [Option<usize>; 64] {
    let set = due(&pair.table, &pair.marking).set;
    let mut links = [None; 64];
    for (event, length) in links.iter_mut().enumerate() {
        *length = (set >> event & 1 == 1).then_some(0);
    }
    loop {
        let before = links;
        for (kind, left, right) in relations(pair) {
            if let (Some(length), true) = (links[left], blocks(pair, kind, right)) {
                links[right] = links[right].max(Some(length + 1));
            }
        }
        if links == before {
            return links;
        }
    }
}

/// Of an accepted pair.
fn of_accepted(pair: &Pair) -> Vec<&'static str> {
    let due = due(&pair.table, &pair.marking).set.count_ones();
    let links = links(pair);
    let longest = links.iter().max().copied().flatten().unwrap_or(0);
    let all: BTreeSet<usize> = (0..64).filter(|&event| links[event].is_some()).collect();
    let within = |kind: u8, same: bool| -> BTreeSet<(usize, usize)> {
        relations(pair)
            .filter(|&(k, left, right)| k == kind && (left == right) == same)
            .filter(|(_, left, right)| all.contains(left) && all.contains(right))
            .map(|(_, left, right)| (left, right))
            .collect()
    };
    let exclusions = within(EXCLUDES, false);
    let mutual = exclusions
        .iter()
        .any(|&(a, b)| exclusions.contains(&(b, a)));
    let caused = usize::from(guarded_tick(&pair.table, &pair.marking).count);
    let shapes = [
        ("accepted", true),
        ("several due", due > 1),
        ("inhibitor needed", longest > 0),
        ("chain of 2 or more inhibitors", longest > 1),
        ("chain of 4 or more inhibitors", longest > 3),
        ("mutual exclusion needed", mutual),
        ("self-include needed", !within(INCLUDES, true).is_empty()),
        ("self-response needed", !within(RESPONSE, true).is_empty()),
        ("needed left out", caused < all.len()),
        ("2 or more caused", caused > 1),
        ("4 or more caused", caused > 3),
        ("16 or more caused", caused > 15),
    ];
    let there = shapes.into_iter().filter(|shape| shape.1);
    there.map(|shape| shape.0).collect()
}

const REASONS: [&str; 7] = [
    "no reason",
    "reason 1",
    "reason 2",
    "reason 3",
    "reason 4",
    "reason 5",
    "reason 6",
];

fn of_pair(pair: &Pair) -> Vec<&'static str> {
    let checked = check(&pair.table, &pair.marking);
    match checked.number {
        0 => of_accepted(pair),
        12 => vec![REASONS[usize::from(checked.reason)]],
        _ => Vec::new(),
    }
}

/// Of a table that is to be written, and the buffer lent for it. Past the limits
/// of its counts there are no places, and no length that a buffer could have.
fn of_written(table: &Table, buffer: &[u8]) -> Vec<&'static str> {
    let counted = table.events < 65 && table.count < 257;
    let (events, count) = (table.events.min(64), table.count.min(256));
    let length = 4 + events + 6 * count;
    let classes = u128::from(table.controllable | table.causable) >> events;
    let mut unused = table.relations[count..].iter();
    let fault = judge_table(table) != 0;
    let shapes = [
        ("past an image", table_past_an_image(table)),
        ("classes past the count", counted && classes != 0),
        (
            "relations past the count",
            counted && unused.any(|relation| *relation != Relation::EMPTY),
        ),
        ("room exact", counted && buffer.len() == length),
        ("one byte short", counted && buffer.len() + 1 == length),
        ("room to spare", counted && buffer.len() > length),
        (
            "a fault and too short",
            counted && fault && buffer.len() < length,
        ),
    ];
    let there = shapes.into_iter().filter(|shape| shape.1);
    let mut shapes = firm::of_table(table);
    shapes.extend(there.map(|shape| shape.0));
    shapes
}

/// The words for what is in the case and its answer.
pub fn of(case: &Case, answer: &Answer) -> Vec<&'static str> {
    match case {
        Case::WriteTable { table, buffer } => return of_written(table, buffer),
        Case::JudgeTable { table } => return firm::of_table(table),
        Case::CarryMarking {
            events,
            old,
            buffer,
        } => return counted::of_carried(*events, old, buffer, answer.number()),
        Case::JudgeMarking { marking, .. } | Case::WriteMarking { marking, .. }
            if answer.number() == 7 =>
        {
            return counted::of_refused(marking)
        }
        _ => {}
    }
    if let Answer::ReadTable(read) = answer {
        return firm::of_table(&read.table);
    }
    let Some(pair) = case.pair() else {
        return Vec::new();
    };
    let mut shapes = match (case, answer) {
        (Case::Closure { .. } | Case::Check { .. } | Case::GuardedTick { .. }, _) => of_pair(pair),
        (_, Answer::Margin(margin)) => vec![returned::of_margin(margin)],
        (Case::HoldUp { event, .. }, Answer::HoldUp(hold_up)) => {
            returned::of_hold_up(pair, *event, hold_up)
        }
        (
            Case::Chain { event, .. },
            Answer::Chain {
                number,
                count,
                list,
            },
        ) => chain::of(pair, *event, (*number, *count, list)),
        (Case::Sleep { ticks, .. }, Answer::Sleep { end, list }) => {
            sleep::of(pair, *ticks, end, list)
        }
        (_, Answer::Ticks(told)) => quiet::of(pair, told),
        _ => Vec::new(),
    };
    shapes.extend(firm::of_table(&pair.table));
    shapes.extend(firm::of_executed(case, answer, pair));
    shapes.extend(counted::of_executed(case, answer, pair));
    if answer.number() == 7 {
        shapes.extend(counted::of_refused(&pair.marking));
    }
    if past_an_image(pair) {
        shapes.push("past an image");
    }
    shapes
}

/// The sorts that come up in none of the questions.
#[cfg(test)]
fn missing(
    sorts: &[&'static str],
    questions: impl Iterator<Item = crate::compare::Question>,
) -> Vec<&'static str> {
    let seen: BTreeSet<&str> = questions.flat_map(|question| question.shapes).collect();
    let unseen = |sort: &&str| !seen.contains(sort);
    sorts.iter().copied().filter(unseen).collect()
}
