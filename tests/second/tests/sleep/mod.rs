//! Sleeps and quiet ticks: what comes up in the cases, and engines that have them wrong.

mod lists;
mod quiets;
mod sorts;
mod walks;

use super::promises::{promise, sleep::MOST_TICKS};
use super::{all_come_up, all_noticed, count, for_each_case, Counts};
use lists::{Asked, Left, LISTS, REFUSALS};
use quiets::{QUIETS, REFUSED};
use second::case::{Answer, Case};
use second::rng::Rng;
use second::{generate, SleepAnswer, TicksAnswer};
use sorts::{sorts_of, SORTS};
use walks::{Ways, NUMBERS, RIGHT, WALKS};

const SLEEPS: usize = WALKS.len() + NUMBERS.len() + REFUSALS.len() + LISTS.len();
const QUIET: usize = QUIETS.len() + REFUSED.len();

/// The answer of an engine that passes the ticks in this way. None: there is no end to
/// it, or it passes none.
fn walked(asked: &Asked, ways: &Ways) -> Option<Left> {
    let passes = asked.ticks <= MOST_TICKS && [0, 14].contains(&asked.good.number);
    passes.then(|| asked.walked(asked.ticks, ways))?
}

fn answer_of(left: Left) -> Answer {
    let end = SleepAnswer {
        number: left.number,
        reason: left.reason,
        place: left.place,
        count: left.count,
        marking: left.marking,
    };
    Answer::Sleep {
        end: Box::new(end),
        list: left.list,
    }
}

fn asked<'a>(case: &'a Case, answer: &Answer) -> Option<Asked<'a>> {
    match (case, answer) {
        (Case::Sleep { pair, ticks, list }, Answer::Sleep { end, list: after }) => Some(Asked {
            pair,
            ticks: *ticks,
            before: list,
            good: Left {
                number: end.number,
                reason: end.reason,
                place: end.place,
                count: end.count,
                marking: end.marking,
                list: after.clone(),
            },
        }),
        _ => None,
    }
}

/// The wrong answers to a sleep, each with the name of an engine that gives it.
fn wrong_sleeps(case: &Case, answer: &Answer) -> Vec<(&'static str, Answer)> {
    let asked = asked(case, answer);
    asked.iter().flat_map(wrong_of).collect()
}

fn wrong_of(asked: &Asked) -> Vec<(&'static str, Answer)> {
    let walks = WALKS.iter().chain(&NUMBERS);
    let walked = walks.map(|(name, ways)| (*name, walked(asked, ways)));
    let others = REFUSALS.iter().chain(&LISTS);
    let others = others.map(|(name, engine)| (*name, engine(asked)));
    walked
        .chain(others)
        .filter_map(|(name, left)| Some((name, left?)))
        .filter(|(_, left)| *left != asked.good)
        .map(|(name, left)| (name, answer_of(left)))
        .collect()
}

/// The wrong answers to a question for quiet ticks.
fn wrong_ticks(case: &Case, answer: &Answer) -> Vec<(&'static str, Answer)> {
    let mut wrong: Vec<(&str, Answer)> = match (case, answer) {
        (Case::Quiet { pair }, Answer::Ticks(TicksAnswer { number: 0, ticks })) => {
            let asked = quiets::Asked {
                pair,
                ticks: *ticks,
            };
            let engines = QUIETS.iter();
            engines
                .map(|(name, engine)| (*name, Answer::Ticks(engine(&asked))))
                .collect()
        }
        (Case::Quiet { .. }, Answer::Ticks(TicksAnswer { number, .. })) => {
            let number = *number;
            let given = REFUSED.iter();
            given
                .map(|&(name, ticks)| (name, Answer::Ticks(TicksAnswer { number, ticks })))
                .collect()
        }
        _ => Vec::new(),
    };
    wrong.retain(|(_, bad)| bad != answer);
    wrong
}

/// The bias that makes them worth comparing.
#[test]
fn every_sort_comes_up() {
    all_come_up(sorts_of, &SORTS);
}

/// Among cases of any call they are drawn aside alone, so they take nothing from those
/// that follow.
#[test]
fn sleeps_leave_the_other_cases() {
    let mut seen = Counts::new();
    for seed in 0..600 {
        let mut rng = Rng::new(seed);
        let mut aside = rng.aside();
        let first = generate::any_case(&mut rng);
        // Past the numbers that decide for it, it is drawn aside.
        aside.next_u64();
        aside.next_u64();
        let drawn = match first {
            Case::Sleep { .. } => generate::sleep_case(&mut aside),
            Case::Quiet { .. } => {
                aside.next_u64();
                generate::quiet_case(&mut aside)
            }
            _ => continue,
        };
        assert_eq!(first, drawn);
        count(&mut seen, first.name());
    }
    assert_eq!(seen.len(), 2, "{seen:?}");
    assert!(
        seen.values().all(|times| (8..=60).contains(times)),
        "{seen:?}"
    );
}

/// The walk that the wrong engines vary gives the right answers as it is, so what is
/// noticed is the change.
#[test]
fn the_engine_without_a_fault_is_right() {
    let mut done = 0;
    for_each_case(|case, answer| {
        let asked = asked(case, answer);
        if let Some(left) = asked.and_then(|asked| walked(&asked, &RIGHT)) {
            assert_eq!(answer_of(left), *answer, "{case:?}");
            done += 1;
        }
    });
    assert!(done > 500, "{done}");
}

#[test]
fn engines_that_have_sleeps_wrong_are_noticed() {
    all_noticed(SLEEPS, wrong_sleeps);
}

#[test]
fn engines_that_have_quiet_ticks_wrong_are_noticed() {
    all_noticed(QUIET, wrong_ticks);
}

/// In 600 cases of each call, whatever the seed, each comes up.
#[test]
fn a_wrong_engine_is_found_fast() {
    for seed in 0..3 {
        let mut rng = Rng::new(seed);
        let mut found = Counts::new();
        for _ in 0..600 {
            let slept = generate::sleep_case(&mut rng);
            for (name, _) in wrong_sleeps(&slept, &slept.answer()) {
                count(&mut found, ("sleep", name));
            }
            let quiet = generate::quiet_case(&mut rng);
            for (name, _) in wrong_ticks(&quiet, &quiet.answer()) {
                count(&mut found, ("quiet", name));
            }
        }
        println!("seed {seed}: {found:?}");
        assert_eq!(found.len(), SLEEPS + QUIET, "seed {seed}: {found:?}");
    }
}

/// One small change to the answer of a sleep that is done, at any place.
fn changes(good: &Left, events: usize, rng: &mut Rng) -> Vec<(&'static str, Left)> {
    let event = rng.below(events);
    let any = rng.below(good.count);
    let other = rng.below(good.count);
    let past = rng.between(good.count, good.list.len());
    let mut changed = Vec::new();
    let mut change = |name, change: &dyn Fn(&mut Left)| {
        let mut left = good.clone();
        change(&mut left);
        changed.push((name, left));
    };
    change("a number", &|left| left.number = 14);
    change("a reason", &|left| left.reason = 1);
    change("a place of the check", &|left| left.place = 1);
    change("one more counted", &|left| left.count += 1);
    change("an age", &|left| left.marking.records[event].age ^= 1);
    change("a count", &|left| left.marking.records[event].count ^= 1);
    change("a date", &|left| left.marking.records[event].deadline ^= 1);
    change("bounded", &|left| {
        left.marking.records[event].bounded ^= true
    });
    change("pending", &|left| {
        left.marking.records[event].pending ^= true
    });
    change("included", &|left| {
        left.marking.records[event].included ^= true
    });
    change("happened", &|left| {
        left.marking.records[event].happened ^= true
    });
    if past < good.list.len() {
        change("a place past the count", &|left| left.list[past] ^= 1);
    }
    if good.count > 0 {
        change("one less counted", &|left| left.count -= 1);
        change("another event", &|left| left.list[any] ^= 1);
        change("a tick later", &|left| left.list[any] += 256);
        change("a tick sooner", &|left| left.list[any] -= 256);
        change("two swapped", &|left| left.list.swap(any, other));
        change("one left out", &|left| {
            left.list[any..good.count].rotate_left(1);
            left.count -= 1;
        });
    }
    changed
}

/// Every answer but one breaks the promises.
#[test]
fn any_other_answer_is_noticed() {
    let mut rng = Rng::new(11);
    let mut noticed = Counts::new();
    for_each_case(|case, answer| {
        let asked = asked(case, answer).filter(|asked| asked.good.number == 0);
        let changed = asked.map(|asked| changes(&asked.good, asked.pair.table.events, &mut rng));
        for (name, left) in changed.unwrap_or_default() {
            let bad = answer_of(left);
            if bad != *answer {
                assert!(
                    promise(case, &bad).is_err(),
                    "{name}\n{case:?}\n{answer:?}\n{bad:?}"
                );
                count(&mut noticed, name);
            }
        }
    });
    println!("{noticed:?}");
    assert_eq!(noticed.len(), 18);
}
