//! Pairs of 64 events and 256 relations that the check accepts, every event in
//! the closure: the most that one guarded tick can have before it. They are
//! cases at the limits.

use second::case::Pair;
use second::generate::relation;
use second::{Marking, Record, Table};

const EVENTS: usize = 64;

/// Each event has the next two as conditions and includes itself; responses
/// fill the rest.
pub fn table() -> Table {
    let next = (0..EVENTS - 1).map(|event| relation(1, event, event + 1, Some(0)));
    let next_but_one = (0..EVENTS - 2).map(|event| relation(1, event, event + 2, Some(0)));
    let itself = (0..EVENTS).map(|event| relation(3, event, event, None));
    let responses =
        (0..EVENTS + 3).map(|n| relation(2, n % EVENTS, (5 * n + 1) % EVENTS, Some(10)));
    let mut table = Table::EMPTY;
    table.events = EVENTS;
    table.controllable = u64::MAX;
    table.causable = u64::MAX;
    for relation in next.chain(next_but_one).chain(itself).chain(responses) {
        table.relations[table.count] = relation;
        table.count += 1;
    }
    table
}

/// The full table, and the same record for every event but the due ones.
fn pair(happened: bool, due: &[usize]) -> Pair {
    let mut marking = Marking::EMPTY;
    marking.events = EVENTS;
    let record = Record {
        included: true,
        happened,
        count: u32::from(happened),
        ..Record::EMPTY
    };
    marking.records = [record; EVENTS];
    for &event in due {
        marking.records[event].pending = true;
        marking.records[event].bounded = true;
    }
    Pair {
        table: Box::new(table()),
        marking: Box::new(marking),
    }
}

/// Nothing is due.
pub fn quiet() -> Pair {
    pair(true, &[])
}

/// One event is due, and nothing blocks it.
pub fn one_due() -> Pair {
    pair(true, &[40])
}

/// Every event is due, and none blocks another.
pub fn all_due() -> Pair {
    pair(true, &Vec::from_iter(0..EVENTS))
}

/// The first event is due, and each event blocks the one before it.
pub fn chain() -> Pair {
    pair(false, &[0])
}

/// Every event is due, in a firm table: of those to which another responds first, no
/// deadline is put off.
pub fn firm() -> Pair {
    let mut pair = all_due();
    pair.table.firm = true;
    pair
}

/// Refused by the first test that there is.
pub fn refused() -> Pair {
    let mut pair = chain();
    pair.table.events = 0;
    pair
}

/// The same pair with this count for every event, and so happened or not.
pub fn counted(mut pair: Pair, count: u32) -> Pair {
    for record in &mut pair.marking.records {
        record.count = count;
        record.happened = count > 0;
    }
    pair
}

pub fn pairs() -> Vec<Pair> {
    vec![quiet(), one_due(), all_due(), chain(), firm(), refused()]
}

#[cfg(test)]
mod tests {
    use super::*;
    use second::guarded_tick;

    /// How many events a guarded tick causes, if the check accepts.
    fn caused(pair: &Pair) -> Option<u8> {
        assert_eq!(pair.table.count, 256);
        let answer = guarded_tick(&pair.table, &pair.marking);
        (answer.number == 0).then_some(answer.count)
    }

    #[test]
    fn each_pair_causes_what_it_says() {
        let counts: Vec<Option<u8>> = pairs().iter().map(caused).collect();
        assert_eq!(
            counts,
            [Some(0), Some(1), Some(64), Some(64), Some(64), None]
        );
    }
}
