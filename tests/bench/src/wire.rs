//! Arguments and answers as bytes, numbers little-endian. README.md has the
//! forms; the trial program reads and writes the same.

use second::case::{Answer, Case, Pair};
use second::{
    HoldUpAnswer, MarginAnswer, Marking, Record, Relation, RemedyAnswer, Rest, Step, Table,
};

/// The trial program's room for a payload.
pub const MOST_PAYLOAD: usize = 20_000;

fn put_number(out: &mut Vec<u8>, number: usize) {
    out.extend((number as u64).to_le_bytes());
}

fn put_length(out: &mut Vec<u8>, length: usize) {
    let length = u16::try_from(length).expect("a length fits two bytes");
    out.extend(length.to_le_bytes());
}

fn put_relation(out: &mut Vec<u8>, relation: &Relation) {
    out.extend([relation.kind, relation.left, relation.right]);
    out.push(u8::from(relation.bounded));
    out.extend(relation.time.to_le_bytes());
}

fn put_table(out: &mut Vec<u8>, table: &Table) {
    for relation in &table.relations {
        put_relation(out, relation);
    }
    out.extend(table.controllable.to_le_bytes());
    out.extend(table.causable.to_le_bytes());
    put_number(out, table.events);
    put_number(out, table.count);
    put_number(out, usize::from(table.firm));
}

fn put_record(out: &mut Vec<u8>, record: &Record) {
    out.extend(record.age.to_le_bytes());
    out.extend(record.deadline.to_le_bytes());
    out.push(u8::from(record.happened));
    out.push(u8::from(record.included));
    out.push(u8::from(record.pending));
    out.push(u8::from(record.bounded));
    out.extend(record.count.to_le_bytes());
}

fn put_marking(out: &mut Vec<u8>, marking: &Marking) {
    for record in &marking.records {
        put_record(out, record);
    }
    put_number(out, marking.events);
}

fn put_pair(out: &mut Vec<u8>, pair: &Pair) {
    put_table(out, &pair.table);
    put_marking(out, &pair.marking);
}

fn put_steps(out: &mut Vec<u8>, steps: &[Step]) {
    for step in steps {
        out.extend([step.kind, step.event]);
    }
}

/// A list behind its length, where another one follows.
fn put_list(out: &mut Vec<u8>, list: &[u8]) {
    put_length(out, list.len());
    out.extend(list);
}

/// The places of a list, to the end of what it stands in.
fn put_places(out: &mut Vec<u8>, places: &[u16]) {
    out.extend(places.iter().flat_map(|place| place.to_le_bytes()));
}

/// The same of a list with wider places.
fn put_wide_places(out: &mut Vec<u8>, places: &[u32]) {
    out.extend(places.iter().flat_map(|place| place.to_le_bytes()));
}

/// The arguments of a call.
pub fn payload(case: &Case) -> Vec<u8> {
    let mut out = Vec::new();
    match case {
        Case::ReadTable { bytes } => out.extend(bytes),
        Case::ReadMarking { events, bytes } => {
            put_number(&mut out, *events);
            out.extend(bytes);
        }
        Case::WriteMarking { marking, buffer } => {
            put_marking(&mut out, marking);
            out.extend(buffer);
        }
        Case::Fresh { events } => put_number(&mut out, *events),
        Case::JudgeTable { table } => put_table(&mut out, table),
        Case::JudgeMarking { events, marking } => {
            put_number(&mut out, *events);
            put_marking(&mut out, marking);
        }
        Case::Size { set } | Case::Lowest { set } => out.extend(set.to_le_bytes()),
        Case::Enabled { pair, event }
        | Case::Happen { pair, event }
        | Case::HoldUp { pair, event } => {
            put_pair(&mut out, pair);
            put_number(&mut out, *event);
        }
        Case::Margin { pair, relation } => {
            put_pair(&mut out, pair);
            put_number(&mut out, *relation);
        }
        Case::Chain { pair, event, list } => {
            put_pair(&mut out, pair);
            put_number(&mut out, *event);
            put_places(&mut out, list);
        }
        Case::Sleep { pair, ticks, list } => {
            put_pair(&mut out, pair);
            out.extend(ticks.to_le_bytes());
            put_wide_places(&mut out, list);
        }
        Case::Due { pair }
        | Case::PlainTick { pair }
        | Case::Closure { pair }
        | Case::Check { pair }
        | Case::GuardedTick { pair }
        | Case::Quiet { pair } => put_pair(&mut out, pair),
        Case::Remedies {
            pair,
            preferred,
            fallback,
        } => {
            put_pair(&mut out, pair);
            put_list(&mut out, preferred);
            out.extend(fallback);
        }
        Case::Run {
            pair,
            steps,
            answers,
        } => {
            let mut bytes = Vec::new();
            put_steps(&mut bytes, steps);
            put_pair(&mut out, pair);
            put_list(&mut out, &bytes);
            out.extend(answers);
        }
        Case::RunBytes {
            pair,
            steps,
            answers,
        } => {
            put_pair(&mut out, pair);
            put_list(&mut out, steps);
            out.extend(answers);
        }
        Case::Station { input } => out.extend(input),
        Case::WriteTable { table, buffer } => {
            put_table(&mut out, table);
            out.extend(buffer);
        }
        Case::CarryMarking {
            events,
            old,
            buffer,
        } => {
            put_number(&mut out, *events);
            put_list(&mut out, old);
            out.extend(buffer);
        }
        // The calls for C have a form of their own, in `boundary`.
        Case::BuildTable { .. } | Case::TellRelation { .. } | Case::TellClass { .. } => {
            unreachable!("{} is not on the wire", case.name())
        }
    }
    out
}

/// A frame for the trial program: the call's number, the payload behind its length.
pub fn frame(call: u8, payload: &[u8]) -> Vec<u8> {
    assert!(
        payload.len() <= MOST_PAYLOAD,
        "a payload of {} bytes",
        payload.len()
    );
    let mut out = vec![call];
    put_list(&mut out, payload);
    out
}

/// A frame of the trial program's: the answer behind its length.
pub fn answer_frame(answer: &[u8]) -> Vec<u8> {
    let mut out = Vec::new();
    put_list(&mut out, answer);
    out
}

/// The stretch of the operator's own list that an answer hands back.
fn stretch<'a>(case: &'a Case, answer: &RemedyAnswer) -> &'a [u8] {
    match case {
        Case::Remedies { fallback, .. } if answer.from_fallback => &fallback[..answer.length],
        Case::Remedies { preferred, .. } => &preferred[..answer.length],
        _ => &[],
    }
}

/// Which of its cases a margin is, and its value. C is told the same two numbers.
pub fn margin_case(answer: &MarginAnswer) -> (u8, i32) {
    match answer {
        MarginAnswer::Refused(_) | MarginAnswer::NotACondition => (0, 0),
        MarginAnswer::Ignored(Rest::Never) => (1, 0),
        MarginAnswer::Never => (2, 0),
        MarginAnswer::By(value) => (3, *value),
        MarginAnswer::Ignored(Rest::By(value)) => (4, *value),
    }
}

/// Which of its cases a hold-up is, and its relation. C is told the same two numbers.
pub fn hold_up_case(answer: &HoldUpAnswer) -> (u8, usize) {
    match answer {
        HoldUpAnswer::Refused(_) | HoldUpAnswer::Enabled => (0, 0),
        HoldUpAnswer::Excluded => (1, 0),
        HoldUpAnswer::Blocked(relation) => (2, *relation),
        HoldUpAnswer::EnabledUnless(relation) => (3, *relation),
    }
}

/// The whole answer, its number first, and the lent buffer afterwards.
pub fn answer(case: &Case, answer: &Answer) -> Vec<u8> {
    let mut out = vec![answer.number()];
    match answer {
        Answer::ReadTable(read) => put_table(&mut out, &read.table),
        Answer::ReadMarking(read) => put_marking(&mut out, &read.marking),
        Answer::Written { buffer, .. } => out.extend(buffer),
        Answer::Number(_) => {}
        // Of an event set, which is never refused.
        Answer::Count(count) => out = vec![*count],
        Answer::Enabled(answer) => out.push(u8::from(answer.enabled)),
        Answer::Set(answer) => out.extend(answer.set.to_le_bytes()),
        Answer::Closure(answer) => {
            out.extend(answer.set.to_le_bytes());
            out.extend(answer.size.to_le_bytes());
        }
        Answer::Marking(answer) => put_marking(&mut out, &answer.marking),
        Answer::Margin(answer) => {
            let (case, value) = margin_case(answer);
            out.push(case);
            out.extend(value.to_le_bytes());
        }
        Answer::HoldUp(answer) => {
            let (case, relation) = hold_up_case(answer);
            out.push(case);
            put_number(&mut out, relation);
        }
        Answer::Chain { count, list, .. } => {
            put_number(&mut out, *count);
            put_places(&mut out, list);
        }
        Answer::Check(answer) => {
            out.push(answer.reason);
            put_number(&mut out, usize::from(answer.place));
        }
        Answer::Guarded(answer) => {
            out.push(answer.reason);
            put_number(&mut out, usize::from(answer.place));
            out.extend(answer.caused);
            put_number(&mut out, usize::from(answer.count));
            put_marking(&mut out, &answer.marking);
        }
        Answer::Sleep { end, list } => {
            out.push(end.reason);
            put_number(&mut out, usize::from(end.place));
            put_number(&mut out, end.count);
            put_marking(&mut out, &end.marking);
            put_wide_places(&mut out, list);
        }
        Answer::Ticks(answer) => out.extend(answer.ticks.to_le_bytes()),
        Answer::Remedy(answer) => {
            out.push(u8::from(answer.from_fallback));
            put_number(&mut out, answer.length);
            out.extend(stretch(case, answer));
        }
        Answer::Run { end, answers } => {
            put_marking(&mut out, &end.marking);
            out.extend(answers);
        }
        Answer::Station(output) => out.clone_from(output),
        Answer::ToldRelation { .. } | Answer::ToldClass { .. } => {
            unreachable!("{} is not on the wire", case.name())
        }
    }
    out
}

#[cfg(test)]
mod tests {
    use super::*;
    use second::{SleepAnswer, TicksAnswer};

    #[test]
    fn a_table_and_a_marking_have_their_sizes() {
        let mut table = Vec::new();
        put_table(&mut table, &Table::EMPTY);
        assert_eq!(table.len(), 2088);
        let mut marking = Vec::new();
        put_marking(&mut marking, &Marking::EMPTY);
        assert_eq!(marking.len(), 1032);
    }

    #[test]
    fn a_table_ends_with_firm() {
        let mut table = Table::EMPTY;
        (table.count, table.firm) = (0x0102, true);
        let mut out = Vec::new();
        put_table(&mut out, &table);
        assert_eq!(
            out[2072..],
            [2, 1, 0, 0, 0, 0, 0, 0, 1, 0, 0, 0, 0, 0, 0, 0]
        );
    }

    #[test]
    fn a_record_ends_with_its_count() {
        let mut out = Vec::new();
        let record = Record {
            age: 1,
            deadline: 2,
            happened: true,
            included: false,
            pending: true,
            bounded: false,
            count: 0x0102_0304,
        };
        put_record(&mut out, &record);
        assert_eq!(out, [1, 0, 0, 0, 2, 0, 0, 0, 1, 0, 1, 0, 4, 3, 2, 1]);
    }

    #[test]
    fn a_carry_over_has_the_old_image_behind_its_length() {
        let case = Case::CarryMarking {
            events: 1,
            old: vec![0x80, 0, 0, 1, 0, 0, 0, 0],
            buffer: vec![7; 13],
        };
        let payload = payload(&case);
        assert_eq!(payload[..12], [1, 0, 0, 0, 0, 0, 0, 0, 8, 0, 0x80, 0]);
        assert_eq!(payload[18..], [7; 13]);
        let answered = answer(&case, &case.answer());
        assert_eq!(answered, [0, 0x80, 0, 0, 1, 0, 0, 0, 0, 0, 0, 0, 1, 7]);
    }

    fn on_the_wire(answered: Answer) -> Vec<u8> {
        // What was asked does not show in these answers.
        answer(&Case::Fresh { events: 1 }, &answered)
    }

    #[test]
    fn a_margin_is_its_case_and_its_value() {
        let of = |answer| on_the_wire(Answer::Margin(answer));
        assert_eq!(of(MarginAnswer::Refused(8)), [8, 0, 0, 0, 0, 0]);
        assert_eq!(of(MarginAnswer::NotACondition), [0, 0, 0, 0, 0, 0]);
        assert_eq!(of(MarginAnswer::Ignored(Rest::Never)), [0, 1, 0, 0, 0, 0]);
        assert_eq!(of(MarginAnswer::Never), [0, 2, 0, 0, 0, 0]);
        assert_eq!(of(MarginAnswer::By(-2)), [0, 3, 254, 255, 255, 255]);
        assert_eq!(of(MarginAnswer::Ignored(Rest::By(0))), [0, 4, 0, 0, 0, 0]);
        let late = MarginAnswer::Ignored(Rest::By(-2));
        assert_eq!(of(late), [0, 4, 254, 255, 255, 255]);
    }

    #[test]
    fn a_hold_up_is_its_case_and_its_relation() {
        let of = |answer| on_the_wire(Answer::HoldUp(answer));
        let told = |number, case, low, high| vec![number, case, low, high, 0, 0, 0, 0, 0, 0];
        assert_eq!(of(HoldUpAnswer::Refused(8)), told(8, 0, 0, 0));
        assert_eq!(of(HoldUpAnswer::Enabled), told(0, 0, 0, 0));
        assert_eq!(of(HoldUpAnswer::Excluded), told(0, 1, 0, 0));
        assert_eq!(of(HoldUpAnswer::Blocked(258)), told(0, 2, 2, 1));
        assert_eq!(of(HoldUpAnswer::EnabledUnless(258)), told(0, 3, 2, 1));
        assert_eq!(of(HoldUpAnswer::EnabledUnless(0)), told(0, 3, 0, 0));
    }

    #[test]
    fn a_chain_is_its_count_and_the_whole_lent_list() {
        let case = Case::Chain {
            pair: Pair {
                table: Box::new(Table::EMPTY),
                marking: Box::new(Marking::EMPTY),
            },
            event: 0x0102,
            list: vec![0x0304, 0x0506],
        };
        let payload = payload(&case);
        assert_eq!(payload.len(), 2088 + 1032 + 8 + 4);
        assert_eq!(payload[3120..], [2, 1, 0, 0, 0, 0, 0, 0, 4, 3, 6, 5]);
        let of = |number, count, list| {
            on_the_wire(Answer::Chain {
                number,
                count,
                list,
            })
        };
        let told = of(0, 1, vec![0x0304, 0x0506]);
        assert_eq!(told, [0, 1, 0, 0, 0, 0, 0, 0, 0, 4, 3, 6, 5]);
        assert_eq!(of(14, 0, vec![7]), [14, 0, 0, 0, 0, 0, 0, 0, 0, 7, 0]);
        assert_eq!(of(0, 256, vec![]), [0, 0, 1, 0, 0, 0, 0, 0, 0]);
    }

    #[test]
    fn a_sleep_is_its_count_and_marking_and_the_whole_lent_list() {
        let pair = Pair {
            table: Box::new(Table::EMPTY),
            marking: Box::new(Marking::EMPTY),
        };
        let list = vec![0x0102_0304, 5];
        let ticks = 0x0708_090A_0B0C_0D0E;
        let asked = payload(&Case::Sleep { pair, ticks, list });
        assert_eq!(asked.len(), 2088 + 1032 + 8 + 8);
        assert_eq!(asked[3120..3128], [14, 13, 12, 11, 10, 9, 8, 7]);
        assert_eq!(asked[3128..], [4, 3, 2, 1, 5, 0, 0, 0]);
        let mut marking = Marking::EMPTY;
        (marking.records[0].age, marking.events) = (6, 1);
        let end = Box::new(SleepAnswer {
            number: 12,
            reason: 3,
            place: 0x0102,
            count: 0x0304,
            marking,
        });
        let list = vec![0x0102_0304, 5];
        let told = on_the_wire(Answer::Sleep { end, list });
        assert_eq!(told[..10], [12, 3, 2, 1, 0, 0, 0, 0, 0, 0]);
        assert_eq!(told[10..18], [4, 3, 0, 0, 0, 0, 0, 0]);
        assert_eq!(told[18..22], [6, 0, 0, 0]);
        assert_eq!(told[1042..1050], [1, 0, 0, 0, 0, 0, 0, 0]);
        assert_eq!(told[1050..], [4, 3, 2, 1, 5, 0, 0, 0]);
    }

    #[test]
    fn quiet_ticks_are_a_number_of_8_bytes() {
        let of = |number, ticks| on_the_wire(Answer::Ticks(TicksAnswer { number, ticks }));
        assert_eq!(of(0, 1_000_000), [0, 64, 66, 15, 0, 0, 0, 0, 0]);
        assert_eq!(of(7, 0), [7, 0, 0, 0, 0, 0, 0, 0, 0]);
    }

    #[test]
    fn a_frame_says_its_length() {
        assert_eq!(frame(4, &[9; 300])[..4], [4, 44, 1, 9]);
    }
}
