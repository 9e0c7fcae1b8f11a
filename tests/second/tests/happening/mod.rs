//! Things that happen: what comes up in the cases, and engines in which the class
//! of the event still decides.

use super::promises::member;
use super::{all_noticed, count, Counts};
use second::case::{Answer, Case};
use second::rng::Rng;
use second::*;

#[test]
fn events_of_both_classes_are_done_and_answered_10() {
    let mut rng = Rng::new(7);
    let mut seen = Counts::new();
    for _ in 0..2000 {
        let case = generate::happen_case(&mut rng);
        if let (Case::Happen { pair, event }, number @ (0 | 10)) = (&case, case.answer().number()) {
            count(&mut seen, (member(pair.table.controllable, *event), number));
        }
    }
    assert_eq!(seen.len(), 4, "{seen:?}");
    assert!(seen.values().all(|&times| times >= 5), "{seen:?}");
}

/// Of kind 0 and of kind 1, each for an uncontrollable event and a controllable one:
/// what is answered because of the class, and then nothing is done.
type Engine = [[u8; 2]; 2];

/// Nothing because of the class.
const OK: u8 = 255;

const ENGINES: [(&str, Engine); 7] = [
    ("tests the class", [[9, OK], [OK, 9]]),
    ("only kind 0 is for both classes", [[OK, OK], [OK, 9]]),
    ("only kind 1 is for both classes", [[9, OK], [OK, OK]]),
    ("no kind 1 of a controllable one", [[OK, OK], [OK, 15]]),
    ("the other class is not enabled", [[10, OK], [OK, 10]]),
    ("the other class is passed over", [[0, OK], [OK, 0]]),
    ("no uncontrollable event happens", [[10, OK], [10, OK]]),
];

fn number_of(engine: &Engine, table: &Table, kind: u8, event: usize) -> Option<u8> {
    let of_kind = engine.get(usize::from(kind))?;
    let number = of_kind[usize::from(member(table.controllable, event))];
    (event < table.events && number != OK).then_some(number)
}

/// To such an engine the call is a step of one kind or the other. In a trace, what
/// it does not do is no step.
fn answers_of(engine: &Engine, case: &Case, answer: &Answer) -> Vec<Answer> {
    match (case, answer) {
        (Case::Happen { pair, event }, Answer::Marking(good)) if [0, 10].contains(&good.number) => {
            let marking = *pair.marking;
            [0, 1]
                .iter()
                .filter_map(|&kind| number_of(engine, &pair.table, kind, *event))
                .map(|number| Answer::Marking(Box::new(MarkingAnswer { number, marking })))
                .collect()
        }
        (Case::Run { pair, steps, .. }, Answer::Run { end, answers }) if end.number == 0 => {
            let of = |step: &Step| number_of(engine, &pair.table, step.kind, step.event.into());
            let mut taken = steps.clone();
            for step in taken.iter_mut().filter(|step| of(step).is_some()) {
                step.kind = 4;
            }
            let mut answers = answers.clone();
            let end = Box::new(run(&pair.table, &pair.marking, &taken, &mut answers));
            for (step, answer) in steps.iter().zip(&mut answers) {
                *answer = of(step).unwrap_or(*answer);
            }
            vec![Answer::Run { end, answers }]
        }
        _ => Vec::new(),
    }
}

#[test]
fn engines_in_which_the_class_decides_are_noticed() {
    for call in ["happen", "run"] {
        all_noticed(ENGINES.len(), |case, answer| {
            let engines = ENGINES.iter().filter(|_| case.name() == call);
            let wrong = engines.flat_map(|(name, engine)| {
                let answers = answers_of(engine, case, answer).into_iter();
                answers.map(|bad| (*name, bad))
            });
            wrong.filter(|(_, bad)| bad != answer).collect()
        });
    }
}
