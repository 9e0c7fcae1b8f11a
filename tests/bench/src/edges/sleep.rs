//! Cases at the limits of a sleep: how many ticks, the room lent, what is refused and in
//! which order, nights in which much comes due, and the shop of the rules, slept
//! through.

use super::nights::{again, ages, everybody, night, nights, once, rejected, response, without};
use super::{faulty_pairs, full_cases};
use crate::shop;
use second::case::{Case, Pair};
use second::Record;

/// The most ticks that there are in one call.
const MOST: u64 = 1_000_000;

/// As many places as a list has on the wire.
const PLACES: usize = 2_000;

/// No sleep gives what is in the list before.
fn of(pair: Pair, ticks: u64, room: usize) -> Case {
    Case::Sleep {
        pair,
        ticks,
        list: (0..room).map(|place| u32::MAX - place as u32).collect(),
    }
}

/// How many places a sleep needs that is done where there is room enough.
fn needed(pair: &Pair, ticks: u64) -> usize {
    second::sleep(&pair.table, &pair.marking, ticks, &mut [0; 2 * PLACES]).count
}

/// None, as many as are needed, one less and some more; and about as many as there
/// would be with every event caused before every tick.
fn rooms(needed: usize, ticks: u64) -> Vec<usize> {
    let every = 64 * ticks as usize;
    let mut rooms = vec![0, 1, needed, needed + 1, needed + 7, every, every + 1];
    rooms.extend(
        [needed, every]
            .iter()
            .filter_map(|room| room.checked_sub(1)),
    );
    rooms.retain(|&room| room <= PLACES);
    rooms.sort_unstable();
    rooms.dedup();
    rooms
}

fn in_rooms(pair: &Pair, ticks: u64) -> Vec<Case> {
    let rooms = rooms(needed(pair, ticks), ticks);
    rooms
        .into_iter()
        .map(|room| of(pair.clone(), ticks, room))
        .collect()
}

/// Every number of ticks up to the most, in each of the rooms.
fn of_nights() -> Vec<Case> {
    let mut all = Vec::new();
    for (pair, most) in nights() {
        for ticks in 0..=most {
            all.extend(in_rooms(&pair, ticks));
        }
    }
    all
}

/// The longest lists that the wire has: as long as is needed, and one place too short.
fn of_long_lists() -> Vec<Case> {
    let mut all = Vec::new();
    for (pair, ticks) in [(again(1, 1), 2_000), (again(64, 10), 19_991)] {
        for (ticks, room) in [(ticks, PLACES), (ticks, PLACES - 1), (ticks + 10, PLACES)] {
            all.push(of(pair.clone(), ticks, room));
        }
    }
    for (ticks, room) in [(31, 1_984), (31, 1_983), (32, PLACES)] {
        all.push(of(everybody(), ticks, room));
    }
    all
}

/// Cut to 32 bits, those from 2^32 on are within the limit, but for the last.
const TICKS: [u64; 13] = [
    0,
    1,
    MOST - 1,
    MOST,
    MOST + 1,
    MOST + 2,
    1 << 24,
    (1 << 32) - 1,
    1 << 32,
    (1 << 32) + 5,
    (1 << 32) + MOST,
    1 << 63,
    u64::MAX,
];

/// Where nothing ever comes due, and where something is due now.
fn of_ticks() -> Vec<Case> {
    let mut all = Vec::new();
    for ticks in TICKS {
        all.push(of(night(1, &[], &[]), ticks, 0));
        all.push(of(once(2, 0), ticks, 1));
        all.push(of(once(2, 0), ticks, 0));
    }
    all
}

/// A date about the end of the longest sleeps. The second implementation goes by single
/// ticks, so these are few.
fn of_long_sleeps() -> Vec<Case> {
    let most = MOST as u32;
    vec![
        of(once(1, most - 2), MOST, 1),
        of(once(1, most - 1), MOST - 1, 1),
        of(once(1, most - 1), MOST, 1),
        of(once(1, most - 1), MOST, 0),
        of(once(1, most), MOST, 1),
        of(once(1, most + 1), MOST, 1),
        of(once(64, most - 1), MOST, 1),
        // Caused nine times, and quiet in between and behind the last.
        of(again(2, 111_112), MOST, 9),
        of(again(2, 111_112), MOST, 8),
        of(without(once(1, 500_000), 0), MOST, 0),
        of(ages(), MOST, 0),
    ]
}

/// Ages come to their hold, and dates of excluded events to 0.
fn of_ages() -> Vec<Case> {
    (0..=5).map(|ticks| of(ages(), ticks, 1)).collect()
}

/// An event comes back over the count's hold.
fn of_counts() -> Vec<Case> {
    let mut all = Vec::new();
    for ticks in 0..=6 {
        let mut pair = again(2, 2);
        let record = &mut pair.marking.records[1];
        record.happened = true;
        record.age = 3;
        record.count = u32::MAX - 2;
        all.push(of(pair, ticks, 4));
    }
    all
}

/// What stands past the counts stays, and nothing of it acts.
fn of_unused() -> Vec<Case> {
    let mut pair = again(2, 3);
    let rubbish = Record {
        age: u32::MAX,
        deadline: 1,
        happened: true,
        included: true,
        pending: true,
        bounded: true,
        count: 0,
    };
    pair.marking.records[2..].fill(rubbish);
    pair.table.relations[1..].fill(response(1, 0, 1));
    [0, 1, 4, 9].map(|ticks| of(pair.clone(), ticks, 4)).into()
}

/// Each reason without a tick, and where there are too many and no room.
fn of_reasons() -> Vec<Case> {
    let mut all = Vec::new();
    for pair in rejected() {
        for (ticks, room) in [(0, 0), (0, 9), (1, 9), (MOST, 0), (MOST + 1, 9)] {
            all.push(of(pair.clone(), ticks, room));
        }
    }
    all
}

/// Each fault with ticks that are few and too many, with room and without.
fn of_faults() -> Vec<Case> {
    let asked = |pair: Pair| {
        let some = [(0, 0), (3, 9), (MOST + 1, 9), (u64::MAX, 0)];
        some.map(|(ticks, room)| of(pair.clone(), ticks, room))
    };
    faulty_pairs().into_iter().flat_map(asked).collect()
}

/// Behind each of the traces up to eight minutes, and a whole night.
fn of_shop() -> Vec<Case> {
    let mut all = Vec::new();
    for pair in shop::pairs() {
        for ticks in 0..=8 {
            all.extend(in_rooms(&pair, ticks));
        }
        all.push(of(pair, 600, 3));
    }
    all
}

pub fn sleep() -> Vec<Case> {
    let mut cases = full_cases(&[0, 1, 2, 11, 12], |pair, ticks| {
        of(pair, ticks as u64, PLACES)
    });
    for more in [
        of_nights(),
        of_long_lists(),
        of_ticks(),
        of_long_sleeps(),
        of_ages(),
        of_counts(),
        of_unused(),
        of_reasons(),
        of_faults(),
        of_shop(),
    ] {
        cases.extend(more);
    }
    cases
}

#[cfg(test)]
mod tests {
    use super::super::nights::caused;
    use super::*;
    use second::case::Answer;
    use std::collections::BTreeSet;

    fn numbers(cases: Vec<Case>) -> Vec<u8> {
        cases.iter().map(|case| case.answer().number()).collect()
    }

    #[test]
    fn a_place_has_room_for_the_last_tick_and_the_last_event() {
        assert_eq!(caused(once(64, 999_999), MOST), [(1_000_000, 63)]);
        assert_eq!(numbers(of_long_lists()), [0, 14, 14, 0, 14, 14, 0, 14, 14]);
        let long = caused(again(64, 10), 19_991);
        assert_eq!((long.len(), long[1_999]), (PLACES, (19_991, 63)));
    }

    #[test]
    fn ticks_are_not_cut() {
        let expected = TICKS.map(|ticks| match ticks {
            0 => [0, 0, 0],
            1..=1_000_000 => [0, 0, 14],
            _ => [14, 14, 14],
        });
        assert_eq!(numbers(of_ticks()), expected.concat());
    }

    #[test]
    fn the_longest_sleeps_are_quiet_to_their_date() {
        let expected = [0, 0, 0, 14, 0, 0, 0, 0, 14, 0, 0];
        assert_eq!(numbers(of_long_sleeps()), expected);
        let once = |date| caused(once(1, date), MOST);
        assert_eq!(once(999_998), [(999_999, 0)]);
        assert_eq!(once(999_999), [(1_000_000, 0)]);
        assert_eq!(once(1_000_000), []);
        let nine = (0..9).map(|n| (1 + 111_112 * n, 1));
        assert_eq!(caused(again(2, 111_112), MOST), Vec::from_iter(nine));
    }

    #[test]
    fn a_count_is_held() {
        let counts = of_counts().into_iter().map(|case| match case.answer() {
            Answer::Sleep { end, .. } => u32::MAX - end.marking.records[1].count,
            _ => panic!("{} is another call", case.name()),
        });
        assert_eq!(Vec::from_iter(counts), [2, 1, 1, 0, 0, 0, 0]);
    }

    #[test]
    fn the_check_rejects_without_a_tick_too() {
        assert_eq!(numbers(of_reasons()), [12, 12, 12, 12, 14].repeat(6));
    }

    /// The images come first, then the ticks, the check and the room.
    #[test]
    fn the_numbers_come_in_their_order() {
        let mut seen = BTreeSet::new();
        for case in sleep() {
            let (pair, ticks, room) = match &case {
                Case::Sleep { pair, ticks, list } => (pair, *ticks, list.len()),
                _ => panic!("{} is another call", case.name()),
            };
            let expected = match second::check(&pair.table, &pair.marking).number {
                0 | 12 if ticks > MOST => 14,
                0 if room < needed(pair, ticks) => 14,
                number => number,
            };
            assert_eq!(case.answer().number(), expected);
            seen.insert((expected, ticks > MOST));
        }
        let either = [1, 3, 4, 5, 6, 7].map(|number| [(number, false), (number, true)]);
        let rest = [(12, false), (14, false), (14, true)];
        let expected = [&[(0, false)][..], &either.concat(), &rest].concat();
        assert_eq!(Vec::from_iter(seen), expected);
    }

    #[test]
    fn the_shop_is_slept_through() {
        let at = |tick| vec![(tick, 2), (tick, 4), (tick, 1)];
        let expected = [
            [vec![], at(4), vec![], at(4), at(4)],
            [vec![], at(4), vec![], at(2), at(1)],
        ];
        let pairs = shop::pairs().into_iter();
        let slept: Vec<Vec<(u32, u32)>> = pairs.map(|pair| caused(pair, 8)).collect();
        assert_eq!(slept, expected.concat());
    }
}
