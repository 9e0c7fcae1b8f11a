//! Pairs to sleep through: dates that come and duties that come back, what they wait
//! for, events that are excluded, and repeats that put a date off unless the table is
//! firm; ages at their hold, and pairs that the check rejects.

use super::{table, LIMIT};
use crate::shop;
use second::case::Pair;
use second::generate::relation;
use second::{Record, Relation};

/// Events that are all included and causable, with these relations. Some are to be done
/// within so many ticks.
pub fn night(events: usize, relations: &[Relation], dates: &[(usize, u32)]) -> Pair {
    let mut table = table(events, 0);
    table.causable = u64::MAX;
    table.controllable = u64::MAX;
    table.count = relations.len();
    table.relations[..relations.len()].copy_from_slice(relations);
    let mut marking = second::fresh(events).marking;
    for &(event, ticks) in dates {
        set_date(&mut marking.records[event], ticks);
    }
    Pair {
        table: Box::new(table),
        marking: Box::new(marking),
    }
}

pub fn set_date(record: &mut Record, ticks: u32) {
    record.pending = true;
    record.bounded = true;
    record.deadline = ticks;
}

fn firm(mut pair: Pair) -> Pair {
    pair.table.firm = true;
    pair
}

pub fn without(mut pair: Pair, event: usize) -> Pair {
    pair.marking.records[event].included = false;
    pair
}

pub fn response(left: usize, right: usize, ticks: u32) -> Relation {
    relation(2, left, right, Some(ticks))
}

pub fn condition(left: usize, right: usize) -> Relation {
    relation(1, left, right, Some(0))
}

pub fn excludes(left: usize, right: usize) -> Relation {
    relation(4, left, right, None)
}

/// The last event is to be done once.
pub fn once(events: usize, ticks: u32) -> Pair {
    night(events, &[], &[(events - 1, ticks)])
}

/// The last event is to be done now, and again so many ticks later.
pub fn again(events: usize, ticks: u32) -> Pair {
    let last = events - 1;
    night(events, &[response(last, last, ticks)], &[(last, 0)])
}

/// Every event is to be done before every tick.
pub fn everybody() -> Pair {
    let own: Vec<Relation> = (0..64).map(|event| response(event, event, 1)).collect();
    let dates: Vec<(usize, u32)> = (0..64).map(|event| (event, 0)).collect();
    night(64, &own, &dates)
}

/// Every second tick event 5, and every third tick event 3, which comes first where
/// they meet.
fn crossing() -> Pair {
    night(
        6,
        &[response(5, 5, 2), response(3, 3, 3)],
        &[(5, 1), (3, 0)],
    )
}

/// Two events that make each other come back.
fn in_turn() -> Pair {
    night(2, &[response(0, 1, 2), response(1, 0, 3)], &[(1, 1)])
}

/// The first time event 0 needs both others done, and then none.
fn waiting() -> Pair {
    let relations = [condition(0, 1), condition(1, 2), response(0, 0, 4)];
    night(3, &relations, &[(0, 2)])
}

/// Event 0 waits for a milestone, which is pending without a date.
fn held_up() -> Pair {
    let relations = [relation(5, 0, 1, None), response(0, 0, 4)];
    let mut pair = night(2, &relations, &[(0, 2)]);
    pair.marking.records[1].pending = true;
    pair
}

/// Of two events that exclude each other the first is done, and the other one's date
/// stays.
fn rivals() -> Pair {
    let relations = [excludes(0, 1), excludes(1, 0), response(0, 0, 3)];
    night(2, &relations, &[(0, 1), (1, 1)])
}

/// Before its date comes, event 1 is excluded by event 0, which comes back.
fn sent_away() -> Pair {
    let relations = [excludes(0, 1), response(0, 0, 3)];
    night(2, &relations, &[(0, 2), (1, 4)])
}

/// An excluded event's date comes before, with and behind that of another event.
fn away(ticks: u32) -> Pair {
    let pair = night(2, &[response(1, 1, 5)], &[(0, ticks), (1, 4)]);
    without(pair, 0)
}

/// Event 0 brings event 1 back, which has no date: the check rejects one that has.
fn returning() -> Pair {
    let relations = [relation(3, 0, 1, None), response(0, 0, 3)];
    let mut pair = without(night(2, &relations, &[(0, 2)]), 1);
    pair.marking.records[1].pending = true;
    pair
}

/// Event 1 is to be done within 4 ticks. Event 0 comes back every second tick, and each
/// time event 1 is to be done within so many from then, or eventually.
fn put_off(ticks: Option<u32>) -> Pair {
    let relations = [response(0, 0, 2), relation(2, 0, 1, ticks)];
    night(2, &relations, &[(0, 0), (1, 4)])
}

/// In most of them something is caused. Each is slept through for so many ticks at most.
pub fn nights() -> Vec<(Pair, u64)> {
    let mut all = vec![
        (night(1, &[], &[]), 3),
        (once(1, 0), 3),
        (once(64, 4), 6),
        (again(1, 1), 6),
        (again(64, 1), 6),
        (again(7, 2), 9),
        (again(7, 10), 32),
        (everybody(), 4),
        (crossing(), 14),
        (in_turn(), 12),
        (waiting(), 12),
        (held_up(), 12),
        (rivals(), 9),
        (sent_away(), 9),
        (returning(), 9),
    ];
    all.extend([3, 4, 5, 9, 10].map(|ticks| (away(ticks), 11)));
    let put_off = [None, Some(1), Some(2), Some(3), Some(5), Some(LIMIT)].map(put_off);
    all.extend(put_off.map(|pair| (pair, 13)));
    let firm = all
        .clone()
        .into_iter()
        .map(|(pair, most)| (firm(pair), most));
    all.extend(firm);
    all
}

/// The longest ages and dates that there are, and some that come to be so in a million
/// ticks or in a few.
const AGES: [u32; 9] = [
    0,
    LIMIT - 1_000_001,
    LIMIT - 1_000_000,
    LIMIT - 999_999,
    LIMIT - 4,
    LIMIT - 3,
    LIMIT - 2,
    LIMIT - 1,
    LIMIT,
];

/// Two events of each age, one of them excluded, whose date comes when its age comes to
/// the hold. Nothing else is due within a million ticks.
pub fn ages() -> Pair {
    let mut pair = night(2 * AGES.len(), &[], &[]);
    let dates = [1_000_000, 1_000_001, LIMIT].iter().cycle();
    for (place, (&age, &date)) in AGES.iter().zip(dates).enumerate() {
        let mut record = Record {
            age,
            happened: true,
            included: true,
            count: 1,
            ..Record::EMPTY
        };
        set_date(&mut record, date);
        pair.marking.records[2 * place] = record;
        set_date(&mut record, LIMIT - age);
        record.included = false;
        pair.marking.records[2 * place + 1] = record;
    }
    pair
}

/// The shop, which has each reason in turn.
pub fn rejected() -> Vec<Pair> {
    let with = |relation: Relation| {
        let mut pair = shop::pair(false);
        pair.table.relations[pair.table.count] = relation;
        pair.table.count += 1;
        pair
    };
    let mut not_causable = shop::pair(false);
    not_causable.table.causable &= !(1 << shop::ISOLATE);
    let mut not_at_once = shop::pair(false);
    not_at_once.table.relations[1].time = 1;
    vec![
        with(excludes(shop::STANDBY, shop::LEAK)),
        not_causable,
        not_at_once,
        with(condition(shop::ISOLATE, shop::FLUSH)),
        with(relation(2, shop::ISOLATE, shop::DRAIN, None)),
        with(relation(3, shop::ISOLATE, shop::FLUSH, None)),
    ]
}

/// What a sleep that is done causes, tick and event.
#[cfg(test)]
pub fn caused(pair: Pair, ticks: u64) -> Vec<(u32, u32)> {
    let mut list = [0; 2_000];
    let end = second::sleep(&pair.table, &pair.marking, ticks, &mut list);
    assert_eq!(end.number, 0);
    let caused = list[..end.count].iter();
    caused.map(|place| (place / 256, place % 256)).collect()
}

#[cfg(test)]
mod tests {
    use super::*;

    #[test]
    fn duties_come_back() {
        assert_eq!(caused(again(1, 1), 3), [(1, 0), (2, 0), (3, 0)]);
        let every_tenth = [(1, 6), (11, 6), (21, 6), (31, 6)];
        assert_eq!(caused(again(7, 10), 32), every_tenth);
        let expected = [(1, 3), (2, 5), (4, 3), (4, 5), (6, 5), (7, 3)];
        assert_eq!(caused(crossing(), 7), expected);
        let expected = [(2, 1), (5, 0), (7, 1), (10, 0), (12, 1)];
        assert_eq!(caused(in_turn(), 12), expected);
        let all = (0..128).map(|n| (1 + n / 64, n % 64));
        assert_eq!(caused(everybody(), 2), Vec::from_iter(all));
    }

    #[test]
    fn what_a_duty_waits_for_comes_before_it() {
        let expected = [(3, 2), (3, 1), (3, 0), (7, 0), (11, 0)];
        assert_eq!(caused(waiting(), 12), expected);
        assert_eq!(caused(held_up(), 8), [(3, 1), (3, 0), (7, 0)]);
    }

    /// What is excluded at the end, and its date.
    fn excluded(pair: Pair, ticks: u64) -> Vec<(usize, u32)> {
        let end = second::sleep(&pair.table, &pair.marking, ticks, &mut [0; 9]);
        let records = end.marking.records[..end.marking.events].iter();
        let excluded = records.enumerate().filter(|(_, record)| !record.included);
        excluded.map(|(event, r)| (event, r.deadline)).collect()
    }

    #[test]
    fn a_date_of_an_excluded_event_runs_out_and_causes_nothing() {
        assert_eq!(caused(rivals(), 9), [(2, 0), (5, 0), (8, 0)]);
        assert_eq!(caused(sent_away(), 9), [(3, 0), (6, 0), (9, 0)]);
        assert_eq!(excluded(sent_away(), 3), [(1, 1)]);
        assert_eq!(excluded(sent_away(), 4), [(1, 0)]);
        for ticks in [3, 4, 5, 9, 10] {
            assert_eq!(caused(away(ticks), 11), [(5, 1), (10, 1)]);
            assert_eq!(excluded(away(ticks), 2), [(0, ticks - 2)]);
            assert_eq!(excluded(away(ticks), 11), [(0, 0)]);
        }
    }

    #[test]
    fn an_event_comes_back_and_is_not_caused() {
        assert_eq!(caused(returning(), 9), [(3, 0), (6, 0), (9, 0)]);
        assert_eq!(excluded(returning(), 2), [(1, 0)]);
        assert_eq!(excluded(returning(), 3), []);
    }

    /// When event 1 is caused that event 0 puts off every second tick.
    fn when(pair: Pair) -> Vec<u32> {
        let caused = caused(pair, 13).into_iter();
        caused.filter(|c| c.1 == 1).map(|c| c.0).collect()
    }

    #[test]
    fn in_a_firm_table_a_repeat_puts_nothing_off() {
        for (ticks, not_firm, firmly) in [
            (None, vec![], vec![5]),
            (Some(1), vec![2, 4, 6, 8, 10, 12], vec![2, 4, 6, 8, 10, 12]),
            (Some(2), vec![3, 7, 11], vec![3, 7, 11]),
            (Some(3), vec![], vec![4, 8, 12]),
            (Some(5), vec![], vec![5, 12]),
            (Some(LIMIT), vec![], vec![5]),
        ] {
            assert_eq!(when(put_off(ticks)), not_firm, "{ticks:?}");
            assert_eq!(when(firm(put_off(ticks))), firmly, "{ticks:?}");
        }
    }

    #[test]
    fn ages_are_held_and_dates_come() {
        let pair = ages();
        let end = second::sleep(&pair.table, &pair.marking, 1_000_000, &mut []).marking;
        for (two, &age) in end.records.chunks(2).zip(&AGES) {
            let held = LIMIT.min(age + 1_000_000);
            assert_eq!((two[0].age, two[1].age), (held, held));
            assert_eq!(two[1].deadline, (LIMIT - age).saturating_sub(1_000_000));
        }
        let dates = [0, 2, 4].map(|event| end.records[event].deadline);
        assert_eq!(dates, [0, 1, LIMIT - 1_000_000]);
    }

    #[test]
    fn each_reason_is_given() {
        for (reason, pair) in (1..).zip(rejected()) {
            let checked = second::check(&pair.table, &pair.marking);
            assert_eq!((checked.number, checked.reason), (12, reason));
        }
    }
}
