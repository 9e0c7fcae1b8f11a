//! The whole chain of what stands in an event's way: what comes up in the cases,
//! and engines that have it wrong.

mod engines;
pub mod sorts;

use super::promises::promise;
use super::{all_come_up, all_noticed, count, for_each_case, Counts};
use engines::{right_answer, wrong_answers, LISTS, VISITS, WALKS};
use second::case::{Answer, Case};
use second::generate;
use second::rng::Rng;
use sorts::{sorts_of, SORTS};

const ENGINES: usize = WALKS.len() + VISITS.len() + LISTS.len();

/// The bias that makes chains worth comparing.
#[test]
fn every_sort_comes_up() {
    all_come_up(sorts_of, &SORTS);
}

/// In 1,000 cases, whatever the seed.
#[test]
fn every_sort_comes_up_fast() {
    for seed in 0..10 {
        let mut rng = Rng::new(seed);
        let mut seen = Counts::new();
        for _ in 0..1000 {
            let case = generate::chain_case(&mut rng);
            for sort in sorts_of(&case, &case.answer()) {
                count(&mut seen, sort);
            }
        }
        println!("seed {seed}: {seen:?}");
        assert_eq!(seen.len(), SORTS.len(), "seed {seed}: {seen:?}");
    }
}

/// A chain among cases of any call is drawn aside alone, so it takes nothing from
/// those that follow.
#[test]
fn chains_leave_the_other_cases() {
    let mut chains = 0;
    for seed in 0..400 {
        let mut rng = Rng::new(seed);
        let mut aside = rng.aside();
        let first = generate::case(&mut rng);
        if let Case::Chain { .. } = first {
            chains += 1;
            // Past the number that decides for a chain, it is drawn aside.
            aside.next_u64();
            assert_eq!(first, generate::chain_case(&mut aside));
        }
    }
    assert!((10..=40).contains(&chains), "{chains}");
}

/// The walk that the wrong engines vary gives the right answers as it is, so what
/// is noticed is the change.
#[test]
fn the_engine_without_a_fault_is_right() {
    for_each_case(|case, answer| {
        if let (Case::Chain { .. }, 0) = (case, answer.number()) {
            assert_eq!(right_answer(case).as_ref(), Some(answer), "{case:?}");
        }
    });
}

#[test]
fn engines_that_have_it_wrong_are_noticed() {
    all_noticed(ENGINES, wrong_answers);
}

/// In 500 cases, whatever the seed, each comes up.
#[test]
fn a_wrong_engine_is_found_fast() {
    for seed in 0..5 {
        let mut rng = Rng::new(seed);
        let mut found = Counts::new();
        for _ in 0..500 {
            let case = generate::chain_case(&mut rng);
            for (name, _) in wrong_answers(&case, &case.answer()) {
                count(&mut found, name);
            }
        }
        println!("seed {seed}: {found:?}");
        assert_eq!(found.len(), ENGINES, "seed {seed}: {found:?}");
    }
}

/// One small change to what is listed, at any place.
fn changes(list: &[u16], count: usize, rng: &mut Rng) -> Vec<(&'static str, usize, Vec<u16>)> {
    let any = rng.below(count);
    let other = rng.below(count);
    let change = |change: &dyn Fn(&mut Vec<u16>)| {
        let mut list = list.to_vec();
        change(&mut list);
        list
    };
    let mut changed = vec![("counts one more", count + 1, list.to_vec())];
    if count == 0 {
        return changed;
    }
    changed.extend([
        ("counts one less", count - 1, list.to_vec()),
        ("swaps two", count, change(&|list| list.swap(any, other))),
        ("one deeper", count, change(&|list| list[any] += 1)),
        (
            "one less deep",
            count,
            change(&|list| list[any] = list[any].wrapping_sub(1)),
        ),
        (
            "another relation",
            count,
            change(&|list| list[any] = list[any].wrapping_add(256)),
        ),
        (
            "one instead of another",
            count,
            change(&|list| list[any] = list[other]),
        ),
        (
            "one moved to the end",
            count,
            change(&|list| list[any..count].rotate_left(1)),
        ),
        (
            "one moved to the front",
            count,
            change(&|list| list[..=any].rotate_right(1)),
        ),
        (
            "left out",
            count - 1,
            change(&|list| {
                // The last place is then past the count, and as it was.
                list[any..count].rotate_left(1);
            }),
        ),
    ]);
    changed
}

/// Every list but one breaks the promises.
#[test]
fn any_other_list_is_noticed() {
    let mut rng = Rng::new(11);
    let mut noticed = Counts::new();
    for _ in 0..3000 {
        let case = generate::chain_case(&mut rng);
        let answer = case.answer();
        let Answer::Chain {
            number: 0,
            count: listed,
            list,
        } = &answer
        else {
            continue;
        };
        for (name, count_of, list) in changes(list, *listed, &mut rng.aside()) {
            let bad = Answer::Chain {
                number: 0,
                count: count_of,
                list,
            };
            if bad != answer {
                assert!(
                    promise(&case, &bad).is_err(),
                    "{name}\n{case:?}\n{answer:?}\n{bad:?}"
                );
                count(&mut noticed, name);
            }
        }
    }
    println!("{noticed:?}");
    assert_eq!(noticed.len(), 10);
}

/// In a table of few events every list of the same relations is tried, at every
/// depth there is.
#[test]
fn one_list_only_keeps_the_promises() {
    let mut rng = Rng::new(5);
    let mut tried = 0;
    while tried < 60 {
        let case = generate::chain_case(&mut rng);
        let answer = case.answer();
        let Answer::Chain {
            number: 0,
            count: listed @ 3..=4,
            list,
        } = &answer
        else {
            continue;
        };
        tried += 1;
        let numbers: Vec<u16> = list[..*listed].iter().map(|place| place / 256).collect();
        let mut keeping = 0;
        for_each_list(&numbers, &mut Vec::new(), &mut |places| {
            let mut other = list.clone();
            other[..*listed].copy_from_slice(places);
            let other = Answer::Chain {
                number: 0,
                count: *listed,
                list: other,
            };
            if promise(&case, &other).is_ok() {
                assert_eq!(other, answer);
                keeping += 1;
            }
        });
        assert_eq!(keeping, 1, "{case:?}");
    }
}

/// Every order of these relations, each at every depth from 0 to 3.
fn for_each_list(numbers: &[u16], places: &mut Vec<u16>, look_at: &mut dyn FnMut(&[u16])) {
    if places.len() == numbers.len() {
        look_at(places);
        return;
    }
    for number in numbers {
        if places.iter().any(|place| place / 256 == *number) {
            continue;
        }
        for depth in 0..=3 {
            places.push(256 * number + depth);
            for_each_list(numbers, places, look_at);
            places.pop();
        }
    }
}
