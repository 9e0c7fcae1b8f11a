//! What is promised of hold-ups.

use super::returning::{enabled_in, waits, with_included};
use super::{holds, Promise};
use second::case::Pair;
use second::*;

/// What the answers have in common that name a relation.
fn named_promise(table: &Table, event: usize, number: usize) -> Promise {
    holds(number < table.count, "no such relation")?;
    let relation = &table.relations[number];
    holds(
        usize::from(relation.left) == event && [1, 5].contains(&relation.kind),
        "named a relation that cannot block",
    )
}

fn blocked_promise(pair: &Pair, event: usize, number: usize) -> Promise {
    let Pair { table, marking } = pair;
    named_promise(table, event, number)?;
    holds(
        marking.records[event].included,
        "an excluded event is said to be blocked",
    )?;
    holds(
        waits(&table.relations[number], marking),
        "the relation does not block",
    )?;
    // Without the relations from there on, nothing blocks.
    let mut shorter = **table;
    shorter.count = number;
    holds(
        enabled_in(&shorter, marking, event)?,
        "a lower relation blocks",
    )
}

/// Whichever one event comes back, it stays enabled.
fn free_promise(table: &Table, marking: &Marking, event: usize) -> Promise {
    for back in 0..table.events {
        holds(
            enabled_in(table, &with_included(marking, back), event)?,
            "a relation that would block is not named",
        )?;
    }
    Ok(())
}

fn unless_promise(pair: &Pair, event: usize, number: usize) -> Promise {
    let Pair { table, marking } = pair;
    named_promise(table, event, number)?;
    let relation = &table.relations[number];
    let right = usize::from(relation.right);
    holds(
        !marking.records[right].included,
        "named a relation whose right event is included",
    )?;
    let back = with_included(marking, right);
    holds(waits(relation, &back), "the relation would not block")?;
    holds(
        !enabled_in(table, &back, event)?,
        "enabled although its right event came back",
    )?;
    // Without the relations from there on, no event that comes back blocks.
    let mut shorter = **table;
    shorter.count = number;
    free_promise(&shorter, marking, event).map_err(|_| "a lower relation would block".to_string())
}

pub fn hold_up_promise(pair: &Pair, event: usize, answer: &HoldUpAnswer) -> Promise {
    let Pair { table, marking } = pair;
    let refused = enabled(table, marking, event).number;
    if let HoldUpAnswer::Refused(number) = *answer {
        return holds(number != 0 && number == refused, "wrongly refused");
    }
    holds(refused == 0, "not refused")?;
    let free = enabled_in(table, marking, event)?;
    match *answer {
        HoldUpAnswer::Enabled => {
            holds(free, "not enabled after all")?;
            free_promise(table, marking, event)
        }
        HoldUpAnswer::EnabledUnless(number) => {
            holds(free, "not enabled after all, and more is said")?;
            unless_promise(pair, event, number)
        }
        HoldUpAnswer::Excluded => holds(!marking.records[event].included, "not excluded after all"),
        HoldUpAnswer::Blocked(number) => blocked_promise(pair, event, number),
        HoldUpAnswer::Refused(_) => Ok(()),
    }
}
