//! What a case has to do with firm tables: whether its table is one, whether a
//! response meets a pending event, and whether firm decides the answer.

use super::{executed, relations, RESPONSE};
use crate::turned::turned;
use second::case::{Answer, Case, Pair};
use second::Table;

pub fn of_table(table: &Table) -> Vec<&'static str> {
    let shape = table.firm.then_some("firm table");
    shape.into_iter().collect()
}

/// Whether a response finds its target pending, once the event that responds was
/// cleared.
fn meets(case: &Case, answer: &Answer, pair: &Pair) -> bool {
    let mut pending = pair.marking.records.map(|record| record.pending);
    let mut met = false;
    for event in executed(case, answer) {
        pending[event] = false;
        let responses =
            relations(pair).filter(|&(kind, left, _)| (kind, left) == (RESPONSE, event));
        let targets: Vec<usize> = responses.map(|(_, _, right)| right).collect();
        met |= targets.iter().any(|&target| pending[target]);
        for target in targets {
            pending[target] = true;
        }
    }
    met
}

/// Whether the answer is another one where the table is turned.
fn decides(case: &Case, answer: &Answer) -> bool {
    turned(case).map_or(false, |other| other.answer() != *answer)
}

/// A sleep that is done and in which no response meets a pending event. To sleep again
/// takes long, and firm cannot matter.
fn unmet_sleep(answer: &Answer, met: bool) -> bool {
    matches!(answer, Answer::Sleep { end, .. } if end.number == 0) && !met
}

/// Of a call that may execute events.
pub fn of_executed(case: &Case, answer: &Answer, pair: &Pair) -> Vec<&'static str> {
    let (met, firm) = (meets(case, answer, pair), pair.table.firm);
    let shapes = [
        ("firm: response meets a pending event", met && firm),
        ("not firm: response meets a pending event", met && !firm),
        (
            "firm decides",
            !unmet_sleep(answer, met) && decides(case, answer),
        ),
    ];
    let there = shapes.into_iter().filter(|shape| shape.1);
    there.map(|shape| shape.0).collect()
}
