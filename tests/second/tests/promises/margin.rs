//! What is promised of margins.

use super::returning::{enabled_in, with_included};
use super::{holds, judged, Promise};
use second::case::Pair;
use second::*;

/// The margin of a condition whose right event is included, by the words of the
/// paper.
fn of_included(condition: &Relation, right: &Record) -> Result<Rest, String> {
    if !right.happened {
        return Ok(Rest::Never);
    }
    let by = i64::from(right.age) - i64::from(condition.time);
    let by = i32::try_from(by).map_err(|error| error.to_string())?;
    Ok(Rest::By(by))
}

fn expected(pair: &Pair, relation: usize) -> Result<MarginAnswer, String> {
    match judged(pair) {
        0 if relation < pair.table.count => {}
        0 => return Ok(MarginAnswer::Refused(8)),
        number => return Ok(MarginAnswer::Refused(number)),
    }
    let asked = &pair.table.relations[relation];
    let right = &pair.marking.records[usize::from(asked.right)];
    if asked.kind != 1 {
        return Ok(MarginAnswer::NotACondition);
    }
    let rest = of_included(asked, right)?;
    Ok(match (right.included, rest) {
        (false, rest) => MarginAnswer::Ignored(rest),
        (true, Rest::Never) => MarginAnswer::Never,
        (true, Rest::By(by)) => MarginAnswer::By(by),
    })
}

/// What is ignored is what the margin would be, were right included.
fn ignored_promise(pair: &Pair, relation: usize, rest: Rest) -> Promise {
    let right = usize::from(pair.table.relations[relation].right);
    let back = with_included(&pair.marking, right);
    let would_be = match rest {
        Rest::Never => MarginAnswer::Never,
        Rest::By(by) => MarginAnswer::By(by),
    };
    holds(
        margin(&pair.table, &back, relation) == would_be,
        "the rest is not the margin of an included event",
    )?;
    waiting_promise(&pair.table, &back, relation, rest)
}

/// A condition that still waits keeps its left event from happening.
fn waiting_promise(table: &Table, marking: &Marking, relation: usize, rest: Rest) -> Promise {
    let still_waits = match rest {
        Rest::Never => true,
        Rest::By(by) => by < 0,
    };
    let left = usize::from(table.relations[relation].left);
    holds(
        !(still_waits && enabled_in(table, marking, left)?),
        "enabled although a condition waits",
    )
}

pub fn margin_promise(pair: &Pair, relation: usize, answer: &MarginAnswer) -> Promise {
    let Pair { table, marking } = pair;
    holds(*answer == expected(pair, relation)?, "the margin is wrong")?;
    match *answer {
        MarginAnswer::Refused(_) | MarginAnswer::NotACondition => Ok(()),
        MarginAnswer::Ignored(rest) => ignored_promise(pair, relation, rest),
        MarginAnswer::Never => waiting_promise(table, marking, relation, Rest::Never),
        MarginAnswer::By(by) => waiting_promise(table, marking, relation, Rest::By(by)),
    }
}
