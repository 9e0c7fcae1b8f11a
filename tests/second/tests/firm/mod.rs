//! Firm tables: what comes up in the cases, and engines that have the rule wrong.

mod engines;

use super::promises::firm::{dates_promise, MOVED_OUT, NOT_CLEARED, NOT_NEW};
use super::promises::promise;
use super::promises::replay::replay;
use super::{all_noticed, count, for_each_case, written, Counts};
use engines::{answer_of, had_and_new, ENGINES};
use second::case::{Answer, Case};
use second::rng::Rng;
use second::*;

/// Whether the table of a case is firm, where it has one that is sound.
fn is_firm(case: &Case, answer: &Answer) -> Option<bool> {
    if let Some(pair) = case.pair() {
        return Some(pair.table.firm);
    }
    match case {
        Case::WriteTable { table, .. } | Case::JudgeTable { table } => Some(table.firm),
        Case::BuildTable { firm, .. } if *firm < 2 => Some(*firm == 1),
        Case::ReadTable { bytes: image }
        | Case::TellRelation { image, .. }
        | Case::TellClass { image, .. }
        | Case::Station { input: image }
            if answer.number() == 0 =>
        {
            Some(image[2] == 128)
        }
        _ => None,
    }
}

#[test]
fn half_of_the_tables_are_firm() {
    let mut tables = Counts::new();
    let mut firm = Counts::new();
    for_each_case(|case, answer| {
        if let Some(is_firm) = is_firm(case, answer) {
            count(&mut tables, case.name());
            if is_firm {
                count(&mut firm, case.name());
            }
        }
    });
    println!("{firm:?} of {tables:?}");
    assert_eq!(tables.len(), 22);
    for (call, &times) in &tables {
        let firm = firm.get(call).copied().unwrap_or(0);
        assert!(firm * 5 > times * 2, "{call}: {firm} of {times}");
        assert!(firm * 5 < times * 3, "{call}: {firm} of {times}");
    }
}

/// Firm and the 15 spare bits of an image's header.
fn last_of_header(case: &Case) -> Option<u16> {
    match case {
        Case::ReadTable { bytes: image }
        | Case::TellRelation { image, .. }
        | Case::TellClass { image, .. }
        | Case::Station { input: image } => {
            let bytes = image.get(2..4)?;
            Some(u16::from_be_bytes([bytes[0], bytes[1]]))
        }
        _ => None,
    }
}

#[test]
fn each_spare_bit_of_the_header_comes_up_alone() {
    let mut seen = Counts::new();
    for_each_case(|case, answer| {
        let Some(bits) = last_of_header(case) else {
            return;
        };
        let (firm, spare) = (bits >= 32_768, bits % 32_768);
        if spare.is_power_of_two() {
            assert_eq!(answer.number(), 2);
            count(&mut seen, (firm, spare));
        }
    });
    println!("{seen:?}");
    assert_eq!(seen.len(), 2 * 15);
}

#[test]
fn plain_numbers_of_every_sort_for_firm() {
    let mut rng = Rng::new(19);
    let mut seen = Counts::new();
    let mut but_for_firm = Counts::new();
    for _ in 0..4000 {
        let case = generate::build_table_case(&mut rng);
        let Case::BuildTable {
            events,
            firm,
            classes,
            relations,
            buffer,
        } = &case
        else {
            panic!("another case");
        };
        count(&mut seen, *firm);
        if *firm > 1 {
            assert_eq!(case.answer().number(), 2);
            // What would be wrong with the other numbers.
            let number = build_table(*events, 0, classes, relations, &mut buffer.clone());
            count(&mut but_for_firm, number);
        }
    }
    println!("{seen:?}, {but_for_firm:?}");
    for firm in [0, 1, 2, 128, 256, 257, 2_147_483_648, u32::MAX] {
        assert!(seen.contains_key(&firm), "{firm}: {seen:?}");
    }
    for number in [0, 1, 2, 3, 4, 5, 6, 14] {
        assert!(but_for_firm.contains_key(&number), "{but_for_firm:?}");
    }
}

/// The markings before the executions of a call, each with its event.
fn executions(case: &Case, answer: &Answer) -> Vec<(Marking, usize)> {
    match (case, answer) {
        (Case::Happen { pair, event }, Answer::Marking(done)) if done.number == 0 => {
            vec![(*pair.marking, *event)]
        }
        (Case::GuardedTick { pair }, Answer::Guarded(done)) if done.number == 0 => {
            let mut now = *pair.marking;
            let mut executions = Vec::new();
            for &event in &done.caused[..usize::from(done.count)] {
                executions.push((now, event.into()));
                now = happen(&pair.table, &now, event.into()).marking;
            }
            executions
        }
        _ => Vec::new(),
    }
}

/// How what a target had stands to what it is given.
fn sort_of(had: &Record, new: Option<u32>) -> &'static str {
    match (had.pending, had.bounded, new) {
        (false, _, None) => "none meets eventually",
        (false, _, Some(_)) => "none meets a deadline",
        (true, false, None) => "eventually meets eventually",
        (true, false, Some(_)) => "eventually meets a deadline",
        (true, true, None) if had.deadline == 0 => "0 meets eventually",
        (true, true, None) => "a deadline meets eventually",
        (true, true, Some(_)) if had.deadline == 0 => "0 meets a deadline",
        (true, true, Some(new)) if had.deadline < new => "a deadline meets a later one",
        (true, true, Some(new)) if had.deadline > new => "a deadline meets a sooner one",
        (true, true, Some(_)) => "a deadline meets the same",
    }
}

/// The bias that makes firm tables worth comparing.
#[test]
fn deadlines_meet_in_every_way() {
    let mut seen = Counts::new();
    for_each_case(|case, answer| {
        for (before, event) in executions(case, answer) {
            let table = &case.pair().expect("it executed an event").table;
            for target in 0..table.events {
                let Some((had, new)) = had_and_new(table, &before, event, target) else {
                    continue;
                };
                let whose = match (target == event, had.included) {
                    (true, _) => "its own",
                    (false, true) => "an included event's",
                    (false, false) => "an excluded event's",
                };
                count(&mut seen, (table.firm, whose, sort_of(&had, new)));
            }
        }
    });
    println!("{seen:?}");
    assert_eq!(seen.len(), 2 * 3 * 10);
}

/// The case as an engine sees it to which every table is firm, or none.
fn with_firm(case: &Case, firm: bool) -> Option<Case> {
    let mut case = case.clone();
    match &mut case {
        Case::Happen { pair, .. }
        | Case::GuardedTick { pair }
        | Case::Sleep { pair, .. }
        | Case::Remedies { pair, .. }
        | Case::Run { pair, .. }
        | Case::RunBytes { pair, .. } => pair.table.firm = firm,
        Case::Station { input } => {
            let byte = input.get_mut(2)?;
            *byte = *byte % 128 + 128 * u8::from(firm);
        }
        _ => return None,
    }
    Some(case)
}

/// In every call that executes events.
fn noticed_everywhere(firm: bool) {
    all_noticed(7, |case, answer| {
        // Only so much of a trace is replayed.
        if matches!(answer, Answer::Run { answers, .. } if answers.len() > 64) {
            return Vec::new();
        }
        let bad = with_firm(case, firm).map(|case| case.answer());
        bad.filter(|bad| bad != answer)
            .map(|bad| (case.name(), bad))
            .into_iter()
            .collect()
    });
}

#[test]
fn an_engine_that_ignores_firm_is_noticed_everywhere() {
    noticed_everywhere(false);
}

#[test]
fn an_engine_that_takes_every_table_for_firm_is_noticed_everywhere() {
    noticed_everywhere(true);
}

/// The wrong answers to a case, each with the name of an engine that gives it.
fn wrong_answers(case: &Case, answer: &Answer) -> Vec<(&'static str, Answer)> {
    ENGINES
        .iter()
        .filter_map(|(name, keeps)| Some((*name, answer_of(*keeps, case, answer)?)))
        .filter(|(_, bad)| bad != answer)
        .collect()
}

#[test]
fn engines_with_a_wrong_rule_are_noticed() {
    all_noticed(ENGINES.len(), wrong_answers);
}

/// And by the promise that is about it, before any other.
#[test]
fn each_breaks_the_promise_that_it_is_about() {
    let mut broken = Counts::new();
    for_each_case(|case, answer| {
        for (name, bad) in wrong_answers(case, answer) {
            let about = match name {
                "firm is ignored" => MOVED_OUT,
                "every table is firm" => NOT_NEW,
                "not cleared before" => NOT_CLEARED,
                _ => continue,
            };
            assert_eq!(promise(case, &bad), Err(about.to_string()), "{name}");
            count(&mut broken, name);
        }
    });
    assert_eq!(broken.len(), 3, "{broken:?}");
}

/// Within 2,000 cases, whatever the seed, and by what happens alone.
#[test]
fn a_wrong_rule_is_found_fast() {
    for seed in 0..5 {
        let mut rng = Rng::new(seed);
        let mut found = Counts::new();
        for _ in 0..2000 {
            let case = generate::case(&mut rng);
            for (name, _) in wrong_answers(&case, &case.answer()) {
                count(&mut found, name);
            }
        }
        println!("seed {seed}: {found:?}");
        assert_eq!(found.len(), ENGINES.len(), "seed {seed}: {found:?}");
    }
}

/// An engine that ignores firm lets ticks pass that an event had not left.
#[test]
fn dates_that_pass_are_noticed() {
    let mut noticed = 0;
    for_each_case(|case, answer| {
        let (Case::Run { pair, steps, .. }, 0) = (case, answer.number()) else {
            return;
        };
        if pair.table.firm {
            let ignored = Table {
                firm: false,
                ..*pair.table
            };
            let moments = replay(&ignored, &pair.marking, steps);
            noticed += usize::from(dates_promise(&pair.marking, &moments).is_err());
        }
    });
    assert!(noticed >= 5, "{noticed}");
}

#[test]
fn a_builder_that_forgets_firm_is_noticed() {
    all_noticed(1, |case, answer| match (case, answer) {
        (Case::BuildTable { firm: 1, .. }, Answer::Written { number: 0, buffer }) => {
            let mut bad = buffer.clone();
            bad[2] = 0;
            written(vec![("forgets firm", 0, bad)])
        }
        _ => Vec::new(),
    });
}

/// Of a table that is read, and of one that is refused and so empty.
#[test]
fn a_reader_that_has_firm_wrong_is_noticed() {
    all_noticed(3, |_, answer| match answer {
        Answer::ReadTable(read) => {
            let mut bad = read.clone();
            bad.table.firm ^= true;
            let name = match (read.number, read.table.firm) {
                (0, true) => "forgets firm",
                (0, false) => "takes a table for firm",
                _ => "leaves firm on a refusal",
            };
            vec![(name, Answer::ReadTable(bad))]
        }
        _ => Vec::new(),
    });
}
