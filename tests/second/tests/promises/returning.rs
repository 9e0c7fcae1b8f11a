//! The marking in which one event came back, and what is enabled there.

use super::holds;
use second::{enabled, EnabledAnswer, Marking, Relation, Table};

/// This one event included, everything else as it is.
pub fn with_included(marking: &Marking, event: usize) -> Marking {
    let mut back = *marking;
    back.records[event].included = true;
    back
}

/// Whether the relation keeps its left event from happening in this marking, by
/// the words of the paper.
pub fn waits(relation: &Relation, marking: &Marking) -> bool {
    let right = &marking.records[usize::from(relation.right)];
    let satisfied = match relation.kind {
        1 => right.happened && right.age >= relation.time,
        5 => !right.pending,
        _ => true,
    };
    right.included && !satisfied
}

/// Whether an event that exists is enabled, by the call and by the words of the
/// paper alike.
pub fn enabled_in(table: &Table, marking: &Marking, event: usize) -> Result<bool, String> {
    let own = table.relations[..table.count]
        .iter()
        .filter(|relation| usize::from(relation.left) == event);
    let waiting = own.filter(|relation| waits(relation, marking)).count();
    let by_words = EnabledAnswer {
        number: 0,
        enabled: marking.records[event].included && waiting == 0,
    };
    holds(
        enabled(table, marking, event) == by_words,
        "enabled is not what the paper says",
    )?;
    Ok(by_words.enabled)
}
