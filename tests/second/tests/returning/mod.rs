//! What an event that is excluded would do if it came back: what comes up in the
//! cases, and engines that have it wrong.

mod engines;
pub mod sorts;

use super::promises::promise;
use super::{all_come_up, all_noticed, count, for_each_case, Counts};
use engines::{wrong_answers, HOLD_UPS, MARGINS};
use second::case::{Answer, Case};
use second::rng::Rng;
use second::*;
use sorts::{sorts_of, SORTS};

/// The bias that makes margins and hold-ups worth comparing.
#[test]
fn every_sort_comes_up() {
    all_come_up(sorts_of, &SORTS);
}

/// In 500 cases of each call, whatever the seed.
#[test]
fn every_sort_comes_up_fast() {
    for seed in 0..10 {
        let mut rng = Rng::new(seed);
        let mut seen = Counts::new();
        for _ in 0..500 {
            for case in [
                generate::margin_case(&mut rng),
                generate::hold_up_case(&mut rng),
            ] {
                for sort in sorts_of(&case, &case.answer()) {
                    count(&mut seen, sort);
                }
            }
        }
        println!("seed {seed}: {seen:?}");
        assert_eq!(seen.len(), SORTS.len(), "seed {seed}: {seen:?}");
    }
}

/// What is drawn for a margin or hold-up takes nothing from the cases that follow.
#[test]
fn drawing_aside_leaves_the_numbers() {
    let mut one = Rng::new(7);
    let mut other = Rng::new(7);
    for _ in 0..100 {
        let aside = one.aside().next_u64();
        let next = one.next_u64();
        assert_eq!(next, other.next_u64());
        assert_ne!(aside, next);
    }
    assert_eq!(one.aside().next_u64(), other.aside().next_u64());
}

#[test]
fn engines_that_have_it_wrong_are_noticed() {
    all_noticed(MARGINS.len() + HOLD_UPS.len(), wrong_answers);
}

/// Every other rest than the right one, near it and far off.
#[test]
fn a_changed_rest_is_noticed() {
    let others = |rest: Rest| match rest {
        Rest::Never => vec![
            ("never becomes 0", Rest::By(0)),
            ("never becomes -1", Rest::By(-1)),
            ("never becomes the least", Rest::By(i32::MIN)),
        ],
        Rest::By(by) => vec![
            ("a number becomes never", Rest::Never),
            ("one more", Rest::By(by + 1)),
            ("one less", Rest::By(by - 1)),
            ("another sign", Rest::By(-by - 1)),
        ],
    };
    all_noticed(7, |_, answer| match answer {
        Answer::Margin(MarginAnswer::Ignored(rest)) => others(*rest)
            .into_iter()
            .map(|(name, rest)| (name, Answer::Margin(MarginAnswer::Ignored(rest))))
            .collect(),
        _ => Vec::new(),
    });
}

/// Of an enabled event every answer but one breaks the promise, whichever
/// relation it names, one that there is or not.
#[test]
fn any_other_name_is_noticed() {
    let mut noticed = Counts::new();
    for_each_case(|case, answer| {
        let (Case::HoldUp { pair, .. }, Answer::HoldUp(good)) = (case, answer) else {
            return;
        };
        let sort = match good {
            HoldUpAnswer::Refused(_) => return,
            HoldUpAnswer::Enabled => "enabled",
            HoldUpAnswer::EnabledUnless(_) => "enabled unless",
            HoldUpAnswer::Excluded => "excluded",
            HoldUpAnswer::Blocked(_) => "blocked",
        };
        let past = [pair.table.count, 255, 256, usize::MAX];
        let named = (0..pair.table.count).chain(past);
        let mut others: Vec<HoldUpAnswer> = named
            .flat_map(|number| {
                [
                    HoldUpAnswer::EnabledUnless(number),
                    HoldUpAnswer::Blocked(number),
                ]
            })
            .collect();
        others.extend([HoldUpAnswer::Enabled, HoldUpAnswer::Excluded]);
        others.retain(|other| other != good);
        for other in others {
            assert!(
                promise(case, &Answer::HoldUp(other)).is_err(),
                "{other:?} instead of {good:?}\n{case:?}"
            );
            count(&mut noticed, sort);
        }
    });
    println!("{noticed:?}");
    assert_eq!(noticed.len(), 4);
}
