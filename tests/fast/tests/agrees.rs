//! The second implementation and this one give the same whole answers, on random
//! cases and at the limits.

use bench::calls::CALLS;
use bench::turned::turned;
use second::case::{Answer, Case, Pair};
use second::rng::Rng;
use second::{
    generate, CheckAnswer, ClosureAnswer, EnabledAnswer, GuardedAnswer, HoldUpAnswer, MarginAnswer,
    MarkingAnswer, ReadMarking, ReadTable, RemedyAnswer, Rest, SetAnswer, SleepAnswer, Step,
    TicksAnswer,
};
use std::collections::BTreeSet;

/// The decoded values of one implementation as the other's: they have the same fields.
macro_rules! as_the_others {
    ($table:ident, $marking:ident, $from:ident, $to:ident) => {
        fn $table(t: &$from::Table) -> $to::Table {
            $to::Table {
                relations: t.relations.map(|k| $to::Relation {
                    kind: k.kind,
                    left: k.left,
                    right: k.right,
                    bounded: k.bounded,
                    time: k.time,
                }),
                controllable: t.controllable,
                causable: t.causable,
                events: t.events,
                count: t.count,
                firm: t.firm,
            }
        }

        fn $marking(m: &$from::Marking) -> $to::Marking {
            $to::Marking {
                records: m.records.map(|r| $to::Record {
                    age: r.age,
                    deadline: r.deadline,
                    happened: r.happened,
                    included: r.included,
                    pending: r.pending,
                    bounded: r.bounded,
                    count: r.count,
                }),
                events: m.events,
            }
        }
    };
}

as_the_others!(table, marking, second, fast);
as_the_others!(table_back, marking_back, fast, second);

fn decoded(pair: &Pair) -> (fast::Table, fast::Marking) {
    (table(&pair.table), marking(&pair.marking))
}

fn moved(number: u8, m: &fast::Marking) -> Box<MarkingAnswer> {
    Box::new(MarkingAnswer {
        number,
        marking: marking_back(m),
    })
}

fn read(number: u8, m: &fast::Marking) -> Answer {
    Answer::ReadMarking(Box::new(ReadMarking {
        number,
        marking: marking_back(m),
    }))
}

fn set(answer: Result<u64, u8>) -> Answer {
    Answer::Set(SetAnswer {
        number: answer.err().unwrap_or(0),
        set: answer.unwrap_or(0),
    })
}

fn checked(answer: Result<fast::Verdict, u8>) -> CheckAnswer {
    let (number, reason, place) = match answer {
        Err(number) => (number, 0, 0),
        Ok(fast::Verdict::Accepts) => (0, 0, 0),
        Ok(fast::Verdict::Rejects { reason, place }) => (12, reason, place as u16),
    };
    CheckAnswer {
        number,
        reason,
        place,
    }
}

fn run(pair: &Pair, steps: &[u8], answers: &[u8]) -> Answer {
    let (t, mut m) = decoded(pair);
    let mut answers = answers.to_vec();
    let number = fast::run_bytes(&t, &mut m, steps, &mut answers);
    Answer::Run {
        end: moved(number, &m),
        answers,
    }
}

/// The answer of this implementation to a case of a call that it has. What an
/// answer's marking and table hold beforehand must not matter, so it is rubbish.
fn answer(case: &Case) -> Option<Answer> {
    let rubbish = fast::Record {
        age: 7,
        deadline: 7,
        happened: true,
        included: true,
        pending: true,
        bounded: true,
        count: 7,
    };
    let mut m = fast::Marking {
        records: [rubbish; 64],
        events: 7,
    };
    Some(match case {
        Case::ReadTable { bytes } => {
            let mut t = fast::Table {
                events: 7,
                count: 7,
                firm: true,
                controllable: 7,
                causable: 7,
                relations: [fast::Relation {
                    kind: 7,
                    left: 7,
                    right: 7,
                    bounded: true,
                    time: 7,
                }; 256],
            };
            let number = fast::read_table(bytes, &mut t);
            Answer::ReadTable(Box::new(ReadTable {
                number,
                table: table_back(&t),
            }))
        }
        Case::ReadMarking { events, bytes } => {
            let number = fast::read_marking(*events, bytes, &mut m);
            read(number, &m)
        }
        Case::Fresh { events } => {
            let number = fast::fresh(*events, &mut m);
            read(number, &m)
        }
        Case::WriteMarking { marking: m, buffer } => {
            let mut buffer = buffer.clone();
            let number = fast::write_marking(&marking(m), &mut buffer);
            Answer::Written { number, buffer }
        }
        Case::WriteTable { table: t, buffer } => {
            let mut buffer = buffer.clone();
            let number = fast::write_table(&table(t), &mut buffer);
            Answer::Written { number, buffer }
        }
        Case::CarryMarking {
            events,
            old,
            buffer,
        } => {
            let mut buffer = buffer.clone();
            let number = fast::carry_marking(*events, old, &mut buffer);
            Answer::Written { number, buffer }
        }
        Case::JudgeTable { table: t } => Answer::Number(fast::judge_table(&table(t))),
        Case::JudgeMarking { events, marking: m } => {
            Answer::Number(fast::judge_marking(*events, &marking(m)))
        }
        Case::Enabled { pair, event } => {
            let (t, m) = decoded(pair);
            let enabled = fast::enabled(&t, &m, *event);
            Answer::Enabled(EnabledAnswer {
                number: enabled.err().unwrap_or(0),
                enabled: enabled.unwrap_or(false),
            })
        }
        Case::Due { pair } => {
            let (t, m) = decoded(pair);
            set(fast::due(&t, &m))
        }
        Case::Happen { pair, event } => {
            let (t, mut m) = decoded(pair);
            let number = fast::happen(&t, &mut m, *event);
            Answer::Marking(moved(number, &m))
        }
        Case::PlainTick { pair } => {
            let (t, mut m) = decoded(pair);
            let number = fast::plain_tick(&t, &mut m);
            Answer::Marking(moved(number, &m))
        }
        Case::Margin { pair, relation } => {
            let (t, m) = decoded(pair);
            Answer::Margin(match fast::margin(&t, &m, *relation) {
                Err(number) => MarginAnswer::Refused(number),
                Ok(fast::Margin::NotACondition) => MarginAnswer::NotACondition,
                Ok(fast::Margin::Ignored(fast::Rest::Never)) => MarginAnswer::Ignored(Rest::Never),
                Ok(fast::Margin::Ignored(fast::Rest::By(ticks))) => {
                    MarginAnswer::Ignored(Rest::By(ticks))
                }
                Ok(fast::Margin::Never) => MarginAnswer::Never,
                Ok(fast::Margin::By(ticks)) => MarginAnswer::By(ticks),
            })
        }
        Case::HoldUp { pair, event } => {
            let (t, m) = decoded(pair);
            Answer::HoldUp(match fast::hold_up(&t, &m, *event) {
                Err(number) => HoldUpAnswer::Refused(number),
                Ok(fast::HoldUp::Enabled) => HoldUpAnswer::Enabled,
                Ok(fast::HoldUp::EnabledUnless(relation)) => HoldUpAnswer::EnabledUnless(relation),
                Ok(fast::HoldUp::Excluded) => HoldUpAnswer::Excluded,
                Ok(fast::HoldUp::Blocked(relation)) => HoldUpAnswer::Blocked(relation),
            })
        }
        Case::Chain { pair, event, list } => {
            let (t, m) = decoded(pair);
            let mut list = list.clone();
            let told = fast::chain(&t, &m, *event, &mut list);
            Answer::Chain {
                number: told.err().unwrap_or(0),
                count: told.unwrap_or(0),
                list,
            }
        }
        Case::Closure { pair } => {
            let (t, m) = decoded(pair);
            Answer::Closure(match fast::closure(&t, &m) {
                Err(number) => ClosureAnswer {
                    number,
                    set: 0,
                    size: 0,
                },
                Ok(told) => ClosureAnswer {
                    number: 0,
                    set: told.set,
                    size: told.size,
                },
            })
        }
        Case::Check { pair } => {
            let (t, m) = decoded(pair);
            Answer::Check(checked(fast::check(&t, &m)))
        }
        Case::GuardedTick { pair } => {
            let (t, mut m) = decoded(pair);
            let mut caused = [7; 64];
            let told = fast::guarded_tick(&t, &mut m, &mut caused);
            Answer::Guarded(Box::new(GuardedAnswer {
                number: told.number,
                reason: told.reason,
                place: told.place as u16,
                caused,
                count: told.count as u8,
                marking: marking_back(&m),
            }))
        }
        Case::Sleep { pair, ticks, list } => {
            let (t, mut m) = decoded(pair);
            let mut list = list.clone();
            let told = fast::sleep(&t, &mut m, *ticks as usize, &mut list);
            let refused = told.err().unwrap_or(fast::Refused::from(0));
            Answer::Sleep {
                end: Box::new(SleepAnswer {
                    number: refused.number,
                    reason: refused.reason,
                    place: refused.place as u16,
                    count: told.unwrap_or(0),
                    marking: marking_back(&m),
                }),
                list,
            }
        }
        Case::Quiet { pair } => {
            let (t, m) = decoded(pair);
            let ticks = fast::quiet(&t, &m);
            Answer::Ticks(TicksAnswer {
                number: ticks.err().unwrap_or(0),
                ticks: ticks.unwrap_or(0).into(),
            })
        }
        Case::Remedies {
            pair,
            preferred,
            fallback,
        } => {
            let (t, m) = decoded(pair);
            let (number, from_fallback, stretch) = match fast::remedies(&t, &m, preferred, fallback)
            {
                Ok(fast::Remedy::Preferred(stretch)) => (0, false, stretch),
                Ok(fast::Remedy::Fallback(stretch)) => (0, true, stretch),
                Err(number) => (number, false, &[][..]),
            };
            let list = if from_fallback { fallback } else { preferred };
            assert!(list.starts_with(stretch));
            Answer::Remedy(RemedyAnswer {
                number,
                from_fallback,
                length: stretch.len(),
            })
        }
        Case::Run {
            pair,
            steps,
            answers,
        } => {
            let bytes: Vec<u8> = steps.iter().flat_map(|s| [s.kind, s.event]).collect();
            run(pair, &bytes, answers)
        }
        Case::RunBytes {
            pair,
            steps,
            answers,
        } => run(pair, steps, answers),
        Case::Size { .. }
        | Case::Lowest { .. }
        | Case::Station { .. }
        | Case::BuildTable { .. }
        | Case::TellRelation { .. }
        | Case::TellClass { .. } => return None,
    })
}

/// The second implementation's answer, where the case is of a call that this one
/// has: it gives the same.
fn agreed(case: &Case) -> Option<Answer> {
    let given = answer(case)?;
    let expected = case.answer();
    assert_eq!(given, expected, "{case:?}");
    Some(expected)
}

fn random_cases_agree(seed: u64) {
    let mut rng = Rng::new(seed);
    let asked = (0..40_000).filter(|_| agreed(&generate::case(&mut rng)).is_some());
    assert!(asked.count() > 30_000);
}

#[test]
fn random_cases_agree_1() {
    random_cases_agree(1);
}

#[test]
fn random_cases_agree_2() {
    random_cases_agree(2);
}

#[test]
fn random_cases_agree_3() {
    random_cases_agree(3);
}

#[test]
fn cases_at_the_limits_agree() {
    let mut asked = BTreeSet::new();
    for call in &CALLS {
        for case in (call.edges)() {
            if agreed(&case).is_some() {
                asked.insert(case.name());
            }
        }
    }
    assert_eq!(asked.len(), 23);
}

/// Firm decides in so many random cases of a call, or more; that of a firm table and
/// that of one that is not agree.
fn firm_decides(case: fn(&mut Rng) -> Case, times: usize) {
    firm_decides_among(8_000, case, times);
}

fn firm_decides_among(cases: usize, case: fn(&mut Rng) -> Case, times: usize) {
    let mut rng = Rng::new(7);
    let decides = |rng: &mut Rng| {
        let case = case(rng);
        let other = turned(&case).expect("the call executes events");
        agreed(&case) != agreed(&other)
    };
    let decided = (0..cases).filter(|_| decides(&mut rng)).count();
    assert!(decided >= times, "{decided}");
}

#[test]
fn firm_tables_and_others_agree() {
    firm_decides(generate::happen_case, 1000);
    firm_decides(generate::guarded_tick_case, 500);
    firm_decides(generate::remedies_case, 100);
    firm_decides(generate::run_bytes_case, 1000);
    firm_decides_among(1_000, generate::sleep_case, 50);
}

#[test]
fn what_would_be_if_events_returned_agrees() {
    let mut rng = Rng::new(8);
    let (mut never, mut by, mut unless) = (0, 0, 0);
    for _ in 0..20_000 {
        let margin = agreed(&generate::margin_case(&mut rng));
        if let Some(Answer::Margin(MarginAnswer::Ignored(rest))) = margin {
            match rest {
                Rest::Never => never += 1,
                Rest::By(_) => by += 1,
            }
        }
        let hold_up = agreed(&generate::hold_up_case(&mut rng));
        if let Some(Answer::HoldUp(HoldUpAnswer::EnabledUnless(_))) = hold_up {
            unless += 1;
        }
    }
    assert!(
        [never, by, unless].iter().all(|&n| n > 1000),
        "{never}, {by}, {unless}"
    );
}

/// How deep the deepest listed relation is.
fn deepest(count: usize, list: &[u16]) -> Option<u16> {
    list[..count].iter().map(|place| place % 256).max()
}

#[test]
fn random_chains_agree() {
    let mut rng = Rng::new(9);
    let (mut none, mut own, mut deeper, mut refused) = (0, 0, 0, 0);
    for _ in 0..20_000 {
        let agreed = agreed(&generate::chain_case(&mut rng));
        if let Some(Answer::Chain {
            number,
            count,
            list,
        }) = agreed
        {
            match (number, deepest(count, &list)) {
                (0, None) => none += 1,
                (0, Some(0)) => own += 1,
                (0, Some(_)) => deeper += 1,
                _ => refused += 1,
            }
        }
    }
    assert!(
        [none, own, deeper, refused].iter().all(|&n| n > 500),
        "{none}, {own}, {deeper}, {refused}"
    );
}

#[test]
fn random_sleeps_agree() {
    let mut rng = Rng::new(10);
    let (mut quiet, mut caused, mut rejected, mut refused) = (0, 0, 0, 0);
    for _ in 0..4_000 {
        if let Some(Answer::Sleep { end, .. }) = agreed(&generate::sleep_case(&mut rng)) {
            match (end.number, end.count) {
                (0, 0) => quiet += 1,
                (0, _) => caused += 1,
                (12, _) => rejected += 1,
                (14, _) => refused += 1,
                _ => {}
            }
        }
    }
    assert!(
        [quiet, caused, rejected, refused].iter().all(|&n| n > 200),
        "{quiet}, {caused}, {rejected}, {refused}"
    );
}

#[test]
fn random_quiet_ticks_agree() {
    let mut rng = Rng::new(11);
    let (mut none, mut some, mut all, mut refused) = (0, 0, 0, 0);
    for _ in 0..2_000 {
        if let Some(Answer::Ticks(told)) = agreed(&generate::quiet_case(&mut rng)) {
            match (told.number, told.ticks) {
                (0, 0) => none += 1,
                (0, 1_000_000) => all += 1,
                (0, _) => some += 1,
                _ => refused += 1,
            }
        }
    }
    assert!(
        [none, some, all, refused].iter().all(|&n| n > 100),
        "{none}, {some}, {all}, {refused}"
    );
}

/// How often each number comes up among the answers to steps of one kind.
#[derive(Default, Debug)]
struct Told([[usize; 16]; 4]);

impl Told {
    fn add(&mut self, steps: &[Step], answers: &[u8]) {
        for (step, &number) in steps.iter().zip(answers) {
            if let Some(of_kind) = self.0.get_mut(usize::from(step.kind)) {
                of_kind[usize::from(number)] += 1;
            }
        }
    }

    /// Each of these numbers came up so often for steps of this kind.
    fn shows(&self, kind: usize, numbers: &[usize], times: usize) {
        for &number in numbers {
            assert!(
                self.0[kind][number] >= times,
                "{number} for {kind}: {self:?}"
            );
        }
    }
}

#[test]
fn random_traces_agree() {
    let mut rng = Rng::new(4);
    let mut told = Told::default();
    for _ in 0..20_000 {
        let case = generate::run_case(&mut rng);
        if let (Case::Run { steps, .. }, Some(Answer::Run { end, answers })) =
            (&case, agreed(&case))
        {
            if end.number == 0 {
                told.add(steps, &answers);
            }
        }
    }
    told.shows(0, &[0, 8, 10], 1000);
    told.shows(1, &[0, 8, 10], 1000);
    told.shows(2, &[0, 11, 15], 1000);
    told.shows(3, &[0, 12, 15], 1000);
}

fn bit(event: usize) -> u64 {
    2u64.pow(event as u32)
}

/// A pair that the check accepts, made one that it rejects until some event is
/// executed: an uncontrollable event is excluded that another one includes, or an
/// event that is not causable is to happen within some time.
fn rejected_for_a_while(rng: &mut Rng) -> Option<Pair> {
    let mut pair = generate::sound_pair(rng);
    let (t, m) = (&mut *pair.table, &mut *pair.marking);
    if second::check(t, m).number != 0 || t.count == t.relations.len() {
        return None;
    }
    let event = rng.below(t.events);
    let record = &mut m.records[event];
    if t.controllable & bit(event) == 0 {
        record.included = false;
        t.relations[t.count] = generate::relation(3, rng.below(t.events), event, None);
        t.count += 1;
    } else if t.causable & bit(event) == 0 {
        record.pending = true;
        record.bounded = true;
        record.deadline = rng.below(40) as u32;
    }
    (second::check(t, m).number != 0).then_some(pair)
}

/// Steps that a process of so many events might be asked for, mostly guarded ticks and
/// events that happen.
fn many_steps(rng: &mut Rng, events: usize) -> Vec<Step> {
    let step = |rng: &mut Rng| {
        let event = rng.below(events) as u8;
        match rng.below(10) {
            0..=3 => Step { kind: 3, event: 0 },
            4 => Step { kind: 2, event: 0 },
            of_an_event => Step {
                kind: of_an_event as u8 % 2,
                event,
            },
        }
    };
    (0..rng.between(20, 120)).map(|_| step(rng)).collect()
}

/// Whether the check rejects, and then accepts, within one trace.
fn comes_to_accept(steps: &[Step], answers: &[u8]) -> bool {
    let mut of_guarded = steps
        .iter()
        .zip(answers)
        .filter(|(step, _)| step.kind == 3)
        .map(|(_, &number)| number);
    of_guarded.any(|number| number == 12) && of_guarded.any(|number| number == 0)
}

#[test]
fn traces_in_which_the_check_comes_to_accept_agree() {
    let mut rng = Rng::new(5);
    let mut came = 0;
    for _ in 0..20_000 {
        let Some(pair) = rejected_for_a_while(&mut rng) else {
            continue;
        };
        let steps = many_steps(&mut rng, pair.table.events);
        let answers = vec![7; steps.len()];
        let case = Case::Run {
            pair,
            steps: steps.clone(),
            answers,
        };
        if let Some(Answer::Run { answers, .. }) = agreed(&case) {
            came += usize::from(comes_to_accept(&steps, &answers));
        }
    }
    assert!(came > 1000, "{came}");
}

#[test]
fn random_remedies_agree() {
    let mut rng = Rng::new(6);
    let (mut preferred, mut fallback, mut longer, mut none) = (0, 0, 0, 0);
    for _ in 0..20_000 {
        if let Some(Answer::Remedy(a)) = agreed(&generate::remedies_case(&mut rng)) {
            match (a.number, a.from_fallback) {
                (0, false) => preferred += 1,
                (0, true) => fallback += 1,
                (13, _) => none += 1,
                _ => {}
            }
            longer += usize::from(a.length > 2);
        }
    }
    assert!([preferred, fallback, longer, none].iter().all(|&n| n > 500));
}
