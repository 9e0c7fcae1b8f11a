//! Many random cases: everything occurs, and what the rules' paper promises holds.

mod carriers;
mod chain;
mod counted;
mod firm;
mod happening;
mod promises;
mod returning;
mod sleep;

use promises::{accepts, member, promise};
use second::case::{Answer, Case};
use second::rng::Rng;
use second::{generate, *};
use std::collections::BTreeMap;
use std::sync::{Arc, Mutex};

const SEED: u64 = 2024;
const CASES: usize = 20_000;

type Answered = Vec<(Case, Answer)>;

/// The cases of all tests, drawn and answered once: a long sleep takes its time. Behind
/// them come the sleeps and the quiet ticks that the same seed gives.
fn answered_cases() -> Arc<Answered> {
    static ANSWERED: Mutex<Option<Arc<Answered>>> = Mutex::new(None);
    let draw = || {
        let mut rng = Rng::new(SEED);
        let cases = (0..CASES).map(|_| generate::case(&mut rng));
        let mut again = Rng::new(SEED);
        let others = (0..CASES).map(|_| generate::any_case(&mut again));
        let others = others.filter(|c| matches!(c, Case::Sleep { .. } | Case::Quiet { .. }));
        let cases = cases.chain(others);
        Arc::new(cases.map(|case| (case.clone(), case.answer())).collect())
    };
    ANSWERED.lock().unwrap().get_or_insert_with(draw).clone()
}

fn for_each_case(mut look_at: impl FnMut(&Case, &Answer)) {
    for (case, answer) in answered_cases().iter() {
        look_at(case, answer);
    }
}

/// Each sort of answer comes up at least five times, and no other does.
fn all_come_up(sorts_of: fn(&Case, &Answer) -> Vec<&'static str>, sorts: &[&str]) {
    let mut seen = Counts::new();
    for_each_case(|case, answer| {
        for sort in sorts_of(case, answer) {
            count(&mut seen, sort);
        }
    });
    println!("{seen:?}");
    for sort in sorts {
        let times = seen.get(sort).copied().unwrap_or(0);
        assert!(times >= 5, "{sort}: {seen:?}");
    }
    assert_eq!(seen.len(), sorts.len());
}

/// Every number that a call can give. Decoded values have no spare bits, so 2
/// is for those that read table images, or class bytes and firm as numbers.
const NUMBERS: [(&str, &[u8]); 29] = [
    ("read_table", &[0, 1, 2, 3, 4, 5, 6]),
    ("read_marking", &[0, 1, 3, 7]),
    ("write_marking", &[0, 3, 7, 14]),
    ("fresh", &[0, 3]),
    ("judge_table", &[0, 3, 4, 5, 6]),
    ("judge_marking", &[0, 1, 3, 7]),
    ("size", &[0]),
    ("lowest", &[0]),
    ("enabled", &[0, 1, 3, 4, 5, 6, 7, 8]),
    ("due", &[0, 1, 3, 4, 5, 6, 7]),
    ("happen", &[0, 1, 3, 4, 5, 6, 7, 8, 10]),
    ("plain_tick", &[0, 1, 3, 4, 5, 6, 7, 11]),
    ("margin", &[0, 1, 3, 4, 5, 6, 7, 8]),
    ("hold_up", &[0, 1, 3, 4, 5, 6, 7, 8]),
    ("chain", &[0, 1, 3, 4, 5, 6, 7, 8, 14]),
    ("closure", &[0, 1, 3, 4, 5, 6, 7]),
    ("check", &[0, 1, 3, 4, 5, 6, 7, 12]),
    ("guarded_tick", &[0, 1, 3, 4, 5, 6, 7, 12]),
    ("sleep", &[0, 1, 3, 4, 5, 6, 7, 12, 14]),
    ("quiet", &[0, 1, 3, 4, 5, 6, 7]),
    ("remedies", &[0, 1, 3, 4, 5, 6, 7, 13, 14]),
    ("run", &[0, 1, 3, 4, 5, 6, 7, 14]),
    ("run_bytes", &[0, 1, 3, 4, 5, 6, 7, 14]),
    ("station", &[0, 1, 2, 3, 4, 5, 6, 7, 14]),
    ("write_table", &[0, 3, 4, 5, 6, 14]),
    ("build_table", &[0, 1, 2, 3, 4, 5, 6, 14]),
    ("tell_relation", &[0, 1, 2, 3, 4, 5, 6, 8, 14]),
    ("tell_class", &[0, 1, 2, 3, 4, 5, 6, 8]),
    ("carry_marking", &[0, 1, 3, 7, 14]),
];

/// What the trace runner can answer for a step.
const STEP_NUMBERS: [u8; 6] = [0, 8, 10, 11, 12, 15];

type Counts<K> = BTreeMap<K, usize>;

fn count<K: Ord>(counts: &mut Counts<K>, key: K) {
    *counts.entry(key).or_insert(0) += 1;
}

/// The answer bytes of a trace that was run.
fn step_answers<'a>(case: &Case, answer: &'a Answer) -> &'a [u8] {
    match (case, answer) {
        (Case::Run { steps, .. }, Answer::Run { end, answers }) if end.number == 0 => {
            &answers[..steps.len()]
        }
        (Case::RunBytes { steps, .. }, Answer::Run { end, answers }) if end.number == 0 => {
            &answers[..steps.len() / 2]
        }
        (Case::Station { input }, Answer::Station(output)) if answer.number() == 0 => {
            let events = usize::from(input[0] / 2);
            &output[..output.len() - RECORD_BYTES * events]
        }
        _ => &[],
    }
}

#[test]
fn every_call_number_and_reason_occurs_and_no_other() {
    let mut numbers = Counts::new();
    let mut reasons = Counts::new();
    let mut steps = Counts::new();
    for_each_case(|case, answer| {
        count(&mut numbers, (case.name(), answer.number()));
        match answer {
            Answer::Check(answer) => count(&mut reasons, ("check", answer.reason)),
            Answer::Guarded(answer) => count(&mut reasons, ("guarded_tick", answer.reason)),
            Answer::Sleep { end, .. } => count(&mut reasons, ("sleep", end.reason)),
            _ => {}
        }
        for &number in step_answers(case, answer) {
            count(&mut steps, (case.name(), number));
        }
    });

    let mut given = numbers.keys().chain(steps.keys());
    assert!(given.all(|(_, number)| *number != 9), "9 is given");

    let occurred: Vec<(&str, u8)> = numbers.keys().copied().collect();
    let mut expected: Vec<(&str, u8)> = NUMBERS
        .iter()
        .flat_map(|(call, numbers)| numbers.iter().map(move |&number| (*call, number)))
        .collect();
    expected.sort();
    println!("numbers: {numbers:?}");
    assert_eq!(occurred, expected);

    println!("reasons: {reasons:?}");
    for call in ["check", "guarded_tick", "sleep"] {
        for reason in 0..=6 {
            assert!(reasons.contains_key(&(call, reason)), "{call} {reason}");
        }
    }
    assert_eq!(reasons.len(), 3 * 7);

    println!("steps: {steps:?}");
    for call in ["run", "run_bytes", "station"] {
        for number in STEP_NUMBERS {
            assert!(steps.contains_key(&(call, number)), "{call} {number}");
        }
    }
    assert_eq!(steps.len(), 3 * STEP_NUMBERS.len());
}

#[test]
fn the_promises_hold() {
    for_each_case(|case, answer| {
        if let Err(broken) = promise(case, answer) {
            panic!("{broken}\n{case:?}\n{answer:?}");
        }
    });
}

/// The bias that makes the cases worth comparing.
#[test]
fn the_check_accepts_often_and_there_is_much_to_do() {
    let mut sound = 0;
    let mut accepted = 0;
    let mut seen = Counts::new();
    for_each_case(|case, answer| {
        let Some(pair) = case.pair() else { return };
        let (table, marking) = (&*pair.table, &*pair.marking);
        if judge_table(table) != 0 || judge_marking(table.events, marking) != 0 {
            return;
        }
        sound += 1;
        if !accepts(table, marking) {
            return;
        }
        accepted += 1;

        let due = due(table, marking).set;
        if size(due) >= 2 {
            count(&mut seen, "several due events");
        }
        let relations = &table.relations[..table.count];
        let records = &marking.records[..marking.events];
        if records
            .iter()
            .any(|record| !record.included && record.bounded && record.deadline == 0)
        {
            count(&mut seen, "excluded at deadline 0");
        }
        if table.events == 64 {
            count(&mut seen, "64 events");
        }
        if table.count == 256 {
            count(&mut seen, "256 relations");
        }
        if let Answer::Guarded(guarded) = answer {
            let caused = &guarded.caused[..usize::from(guarded.count)];
            let of_caused = |kind: u8| {
                relations.iter().any(|relation| {
                    relation.kind == kind
                        && relation.left == relation.right
                        && caused.contains(&relation.left)
                })
            };
            if caused.len() >= 3 {
                count(&mut seen, "three or more caused");
            }
            if caused.iter().any(|&event| !member(due, event.into())) {
                count(&mut seen, "an inhibitor caused");
            }
            let inhibits = |right: u8, left: u8| {
                relations.iter().any(|relation| {
                    [1, 5].contains(&relation.kind)
                        && (relation.left, relation.right) == (left, right)
                })
            };
            if caused
                .windows(3)
                .any(|three| inhibits(three[0], three[1]) && inhibits(three[1], three[2]))
            {
                count(&mut seen, "a chain of inhibitors caused");
            }
            if caused.windows(2).any(|two| two[0] > two[1]) {
                count(&mut seen, "caused out of number order");
            }
            if (0..table.events).any(|event| member(due, event) && !caused.contains(&(event as u8)))
            {
                count(&mut seen, "a due event skipped");
            }
            if of_caused(2) {
                count(&mut seen, "a caused event responds to itself");
            }
            if of_caused(3) {
                count(&mut seen, "a caused event includes itself");
            }
            if of_caused(4) {
                count(&mut seen, "a caused event excludes itself");
            }
        }
        match answer {
            Answer::Remedy(answer) if answer.number == 0 && answer.length > 0 => {
                let list = if answer.from_fallback {
                    "fallback discharges"
                } else {
                    "preferred discharges"
                };
                count(&mut seen, list);
            }
            Answer::Remedy(answer) if answer.number == 0 => count(&mut seen, "empty start"),
            Answer::Margin(MarginAnswer::By(by)) if *by < 0 => count(&mut seen, "margin below"),
            Answer::Margin(MarginAnswer::By(0)) => count(&mut seen, "margin at 0"),
            Answer::Margin(MarginAnswer::By(_)) => count(&mut seen, "margin above"),
            Answer::Margin(MarginAnswer::Never) => count(&mut seen, "margin never"),
            Answer::Margin(MarginAnswer::Ignored(_)) => count(&mut seen, "margin ignored"),
            Answer::Margin(MarginAnswer::NotACondition) => count(&mut seen, "no condition"),
            Answer::HoldUp(HoldUpAnswer::Enabled) => count(&mut seen, "enabled"),
            Answer::HoldUp(HoldUpAnswer::EnabledUnless(_)) => count(&mut seen, "enabled unless"),
            Answer::HoldUp(HoldUpAnswer::Excluded) => count(&mut seen, "excluded"),
            Answer::HoldUp(HoldUpAnswer::Blocked(_)) => count(&mut seen, "blocked"),
            _ => {}
        }
    });
    println!("{accepted} of {sound} accepted: {seen:?}");
    assert!(accepted * 2 > sound, "{accepted} of {sound}");
    assert!((sound - accepted) * 8 > sound, "{accepted} of {sound}");
    let sorts = [
        "several due events",
        "excluded at deadline 0",
        "64 events",
        "256 relations",
        "three or more caused",
        "an inhibitor caused",
        "a chain of inhibitors caused",
        "caused out of number order",
        "a due event skipped",
        "a caused event responds to itself",
        "a caused event includes itself",
        "a caused event excludes itself",
        "fallback discharges",
        "preferred discharges",
        "empty start",
        "margin below",
        "margin at 0",
        "margin above",
        "margin never",
        "margin ignored",
        "no condition",
        "enabled",
        "enabled unless",
        "excluded",
        "blocked",
    ];
    for sort in sorts {
        assert!(
            seen.get(sort).copied().unwrap_or(0) >= 5,
            "{sort}: {seen:?}"
        );
    }
}

/// A generator that repeats itself or ignores its seed would make the rest of
/// these tests worth little.
#[test]
fn a_seed_decides_the_cases() {
    let cases = |seed| {
        let mut rng = Rng::new(seed);
        (0..50)
            .map(|_| generate::case(&mut rng))
            .collect::<Vec<Case>>()
    };
    assert_eq!(cases(1), cases(1));
    assert_ne!(cases(1), cases(2));
}

/// Answers of bad engines to guarded ticks. None where the answer happens to
/// be right.
fn bad_guarded_answers(case: &Case, good: &GuardedAnswer) -> Vec<(&'static str, GuardedAnswer)> {
    let pair = case.pair().unwrap();
    let handed_in = *pair.marking;
    let mut bad = Vec::new();

    let mut refuses = *good;
    refuses.number = 12;
    refuses.reason = 1;
    refuses.caused = [0; 64];
    refuses.count = 0;
    refuses.marking = handed_in;
    bad.push(("refuses everything", refuses));

    let mut does_nothing = refuses;
    does_nothing.number = 0;
    does_nothing.reason = 0;
    does_nothing.place = 0;
    bad.push(("does nothing", does_nothing));

    let mut constant = does_nothing;
    constant.marking = fresh(handed_in.events).marking;
    bad.push(("gives a constant answer", constant));

    if good.count >= 2 {
        let mut only_first = *good;
        only_first.count = 1;
        only_first.caused[1..].fill(0);
        bad.push(("leaves events out of the list", only_first));

        // The first event is settled, the rest is only claimed.
        let mut claims = *good;
        let first = usize::from(good.caused[0]);
        claims.marking = happen(&pair.table, &handed_in, first).marking;
        bad.push(("only claims the rest", claims));
    }
    if good.number == 0 && good.count < 64 {
        let mut invents = *good;
        invents.count += 1;
        bad.push(("invents the count", invents));
    }
    bad.retain(|(_, answer)| answer != good);
    bad
}

/// The promises can fail: bad answers put to them break them. So many kinds come
/// up, each five times or more, and none is missed.
fn all_noticed(kinds: usize, bad_of: impl Fn(&Case, &Answer) -> Vec<(&'static str, Answer)>) {
    let mut noticed = Counts::new();
    let mut missed = Counts::new();
    for_each_case(|case, answer| {
        for (name, bad) in bad_of(case, answer) {
            match promise(case, &bad) {
                Err(_) => count(&mut noticed, name),
                Ok(()) => count(&mut missed, name),
            }
        }
    });
    println!("noticed: {noticed:?}, missed: {missed:?}");
    assert!(missed.is_empty(), "{missed:?}");
    assert_eq!(noticed.len(), kinds);
    assert!(noticed.values().all(|&times| times >= 5), "{noticed:?}");
}

/// Of bad writers: a number and a buffer.
fn written(bad: Vec<(&'static str, u8, Vec<u8>)>) -> Vec<(&'static str, Answer)> {
    bad.into_iter()
        .map(|(name, number, buffer)| (name, Answer::Written { number, buffer }))
        .collect()
}

#[test]
fn bad_guarded_ticks_are_noticed() {
    all_noticed(6, |case, answer| match answer {
        Answer::Guarded(good) if good.number == 0 || good.number == 12 => {
            bad_guarded_answers(case, good)
                .into_iter()
                .map(|(name, bad)| (name, Answer::Guarded(Box::new(bad))))
                .collect()
        }
        _ => Vec::new(),
    });
}

/// The image of a table over as much of a buffer as there is, whatever stands
/// in the way.
fn image_over(table: &Table, buffer: &[u8]) -> Vec<u8> {
    let mut buffer = buffer.to_vec();
    for (place, byte) in buffer.iter_mut().zip(generate::table_image(table)) {
        *place = byte;
    }
    buffer
}

/// Answers of bad writers. None where the answer happens to be right.
fn bad_written_tables(
    table: &Table,
    before: &[u8],
    number: u8,
    after: &[u8],
) -> Vec<(&'static str, u8, Vec<u8>)> {
    let mut bad = vec![
        ("refuses everything", 14, before.to_vec()),
        ("does nothing", 0, before.to_vec()),
        ("gives a constant answer", 0, vec![0; before.len()]),
    ];
    if number != 0 {
        bad.push(("writes on a refusal", number, image_over(table, before)));
        bad.push(("writes what it should refuse", 0, image_over(table, before)));
    }
    let length = 4 + table.events.min(64) + 6 * table.count.min(256);
    if before.len() < length {
        bad.push(("gives 14 first", 14, before.to_vec()));
    }
    if number == 0 {
        let mut zeroed = after.to_vec();
        zeroed[length..].fill(0);
        bad.push(("zeroes later bytes", 0, zeroed));
        let mut spare = after.to_vec();
        spare[2..4].copy_from_slice(&before[2..4]);
        bad.push(("leaves spare bits as they were", 0, spare));
        // Classes of one set only, in both bits.
        let mut mixed = *table;
        mixed.causable = mixed.controllable;
        bad.push(("mixes the classes up", 0, image_over(&mixed, before)));
        let mut plain = *table;
        plain.firm = false;
        bad.push(("forgets firm", 0, image_over(&plain, before)));
        let mut fewer = *table;
        fewer.count = fewer.count.saturating_sub(1);
        bad.push((
            "leaves the last relation out",
            0,
            image_over(&fewer, before),
        ));
    }
    bad.retain(|(_, bad_number, buffer)| (*bad_number, buffer.as_slice()) != (number, after));
    bad
}

#[test]
fn bad_table_writers_are_noticed() {
    all_noticed(11, |case, answer| match (case, answer) {
        (
            Case::WriteTable {
                table,
                buffer: before,
            },
            Answer::Written { number, buffer },
        ) => written(bad_written_tables(table, before, *number, buffer)),
        _ => Vec::new(),
    });
}

/// Numbers cut down to their fields before they are judged, as a careless
/// builder would have them.
fn cut_down(relations: &[u32]) -> Vec<u32> {
    let widths = [3, 6, 6, 1, 30].iter().cycle();
    relations
        .iter()
        .zip(widths)
        .map(|(number, width)| number % 2u32.pow(*width))
        .collect()
}

#[test]
fn a_builder_that_cuts_numbers_down_is_noticed() {
    let mut noticed = Counts::new();
    for_each_case(|case, answer| {
        let Case::BuildTable {
            events,
            firm,
            classes,
            relations,
            buffer,
        } = case
        else {
            return;
        };
        let mut bad = buffer.clone();
        let number = build_table(*events, firm % 2, classes, &cut_down(relations), &mut bad);
        if number != answer.number() {
            let bad = Answer::Written {
                number,
                buffer: bad,
            };
            assert!(promise(case, &bad).is_err());
            count(&mut noticed, answer.number());
        }
    });
    println!("noticed: {noticed:?}");
    // Class bytes are not cut down, so 2 is for firm.
    for number in [2, 4, 5, 6] {
        assert!(noticed.contains_key(&number), "{noticed:?}");
    }
}

/// One small change to an answer, if there is a sort of it for this call.
fn tampered(answer: &Answer) -> Option<Answer> {
    let mut answer = answer.clone();
    match &mut answer {
        Answer::ReadTable(read) => {
            if read.number == 0 {
                read.table.causable ^= 1;
            } else {
                read.table.relations[255].time = 1;
            }
        }
        Answer::ReadMarking(read) => read.marking.records[0].included ^= true,
        Answer::Written { buffer, .. } => *buffer.last_mut()? ^= 1,
        Answer::Number(number) => *number = (*number + 1) % 16,
        Answer::Count(count) => *count += 1,
        Answer::Enabled(enabled) => enabled.enabled ^= true,
        Answer::Set(set) => set.set ^= 1,
        Answer::Marking(answer) => answer.marking.records[63].age ^= 1,
        Answer::Margin(margin) => {
            *margin = match *margin {
                MarginAnswer::By(by) => MarginAnswer::By(-by - 1),
                MarginAnswer::Ignored(Rest::By(by)) => MarginAnswer::Ignored(Rest::By(-by - 1)),
                MarginAnswer::Ignored(Rest::Never) => MarginAnswer::Ignored(Rest::By(0)),
                _ => MarginAnswer::By(0),
            }
        }
        Answer::HoldUp(hold_up) => {
            *hold_up = match *hold_up {
                HoldUpAnswer::Enabled => HoldUpAnswer::EnabledUnless(0),
                HoldUpAnswer::EnabledUnless(number) => HoldUpAnswer::EnabledUnless(number + 1),
                _ => HoldUpAnswer::Enabled,
            }
        }
        Answer::Chain { list, .. } => *list.last_mut()? ^= 1,
        Answer::Closure(closure) => closure.set ^= 1,
        Answer::Check(check) => check.place += 1,
        Answer::Guarded(guarded) => guarded.place += 1,
        Answer::Sleep { end, .. } => end.marking.records[63].age ^= 1,
        Answer::Ticks(answer) => answer.ticks ^= 1,
        Answer::Remedy(remedy) => remedy.length += 1,
        Answer::Run { answers, .. } => *answers.last_mut()? ^= 1,
        Answer::Station(output) => *output.last_mut()? ^= 1,
        Answer::ToldRelation { places, .. } => *places.last_mut()? ^= 1,
        Answer::ToldClass { place, .. } => *place ^= 1,
    }
    Some(answer)
}

#[test]
fn tampered_answers_are_noticed() {
    let mut noticed = Counts::new();
    for_each_case(|case, answer| {
        if let Some(tampered) = tampered(answer) {
            // Replaying traces is the slow part, so long ones are passed over.
            if matches!(answer, Answer::Run { answers, .. } if answers.len() > 64) {
                return;
            }
            if promise(case, &tampered).is_ok() {
                panic!("not noticed\n{case:?}\n{answer:?}\n{tampered:?}");
            }
            count(&mut noticed, case.name());
        }
    });
    assert_eq!(noticed.len(), NUMBERS.len(), "{noticed:?}");
}

/// And in particular: the right closure with a wrong size.
#[test]
fn a_wrong_closure_size_is_noticed() {
    let mut done = 0;
    let mut refused = 0;
    for_each_case(|case, answer| {
        let Answer::Closure(good) = answer else {
            return;
        };
        for size in [0, good.size.wrapping_sub(1), good.size + 1, u32::MAX] {
            let bad = ClosureAnswer { size, ..*good };
            if bad != *good {
                assert!(promise(case, &Answer::Closure(bad)).is_err());
            }
        }
        if good.number == 0 {
            done += 1;
        } else {
            refused += 1;
        }
    });
    assert!(done > 0 && refused > 0);
}
