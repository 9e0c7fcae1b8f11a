//! The process P of the rules, in a table that is firm or not, and the traces in
//! which a leak comes, and comes again while its flush is still to be done.

use second::case::Pair;
use second::generate::relation;
use second::{fresh, run, Step, Table};

pub const LEAK: usize = 0;
pub const FLUSH: usize = 1;
pub const ISOLATE: usize = 2;
pub const STANDBY: usize = 3;
pub const DRAIN: usize = 4;
const EVENTS: usize = 5;

/// P, its marking fresh but for the flush, which is excluded.
pub fn pair(firm: bool) -> Pair {
    let relations = [
        relation(2, LEAK, FLUSH, Some(3)),
        relation(1, FLUSH, ISOLATE, Some(0)),
        relation(3, LEAK, FLUSH, None),
        relation(4, STANDBY, FLUSH, None),
        relation(5, FLUSH, DRAIN, None),
        relation(2, LEAK, DRAIN, None),
    ];
    let mut table = Table::EMPTY;
    table.events = EVENTS;
    table.count = relations.len();
    table.relations[..relations.len()].copy_from_slice(&relations);
    table.controllable = 1 << FLUSH | 1 << ISOLATE | 1 << DRAIN;
    table.causable = table.controllable;
    table.firm = firm;
    let mut marking = fresh(EVENTS).marking;
    marking.records[FLUSH].included = false;
    Pair {
        table: Box::new(table),
        marking: Box::new(marking),
    }
}

const fn step(kind: u8, event: usize) -> Step {
    let event = event as u8;
    Step { kind, event }
}

const LEAKS: Step = step(1, LEAK);
const STANDS_BY: Step = step(0, STANDBY);
const MINUTE: Step = step(3, 0);

/// A leak, two minutes, and the leak again: the flush was due in one minute.
pub fn repeated() -> Vec<Step> {
    vec![LEAKS, MINUTE, MINUTE, LEAKS]
}

/// A leak, a minute, a standby, five minutes, and the leak again: the flush comes
/// back, and it was to be done long ago.
pub fn brought_back() -> Vec<Step> {
    let mut steps = vec![LEAKS, MINUTE, STANDS_BY];
    steps.extend([MINUTE; 5]);
    steps.push(LEAKS);
    steps
}

/// A leak, a minute and a standby: the flush is excluded, and its date comes.
fn stood_by() -> Vec<Step> {
    vec![LEAKS, MINUTE, STANDS_BY]
}

/// The shop behind a trace.
fn behind(firm: bool, steps: &[Step]) -> Pair {
    let mut pair = pair(firm);
    let mut answers = vec![7; steps.len()];
    let end = run(&pair.table, &pair.marking, steps, &mut answers);
    assert_eq!((end.number, answers), (0, vec![0; steps.len()]));
    *pair.marking = end.marking;
    pair
}

/// The shop at its start and behind each of the traces, in a table that is not firm and
/// in one that is.
pub fn pairs() -> Vec<Pair> {
    let traces = [
        Vec::new(),
        vec![LEAKS],
        stood_by(),
        repeated(),
        brought_back(),
    ];
    let all = |firm| traces.iter().map(move |steps| behind(firm, steps));
    all(false).chain(all(true)).collect()
}

#[cfg(test)]
mod tests {
    use super::*;
    use second::generate::table_image;
    use second::Record;

    #[test]
    fn its_image_is_that_of_the_rules() {
        let image = table_image(&pair(false).table);
        assert_eq!(image[..9], [0x0A, 6, 0, 0, 0, 0xC0, 0xC0, 0, 0xC0]);
        let image = table_image(&pair(true).table);
        assert_eq!(image[..9], [0x0A, 6, 0x80, 0, 0, 0xC0, 0xC0, 0, 0xC0]);
    }

    fn flush(firm: bool, steps: &[Step]) -> Record {
        behind(firm, steps).marking.records[FLUSH]
    }

    #[test]
    fn a_second_leak_buys_time_in_a_table_that_is_not_firm() {
        let due_in = |deadline: u32| Record {
            included: true,
            pending: true,
            bounded: true,
            deadline,
            ..Record::EMPTY
        };
        assert_eq!(flush(false, &repeated()), due_in(3));
        assert_eq!(flush(true, &repeated()), due_in(1));
        assert_eq!(flush(false, &brought_back()), due_in(3));
        assert_eq!(flush(true, &brought_back()), due_in(0));
    }
}
