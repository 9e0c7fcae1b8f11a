//! What the rules' paper promises of every answer, asked through the public calls
//! only. Each promise says what is broken, so that a test can also show that
//! it breaks.

mod carrying;
mod chain;
mod counts;
pub mod firm;
mod hold_up;
mod margin;
mod quiet;
pub mod replay;
mod returning;
pub mod sleep;
mod tables;

use replay::{replay, REPLAYED};
use second::case::{Answer, Case, Pair};
use second::{generate, *};
use std::collections::BTreeSet;

pub type Promise = Result<(), String>;

fn holds(fact: bool, broken: &str) -> Promise {
    if fact {
        Ok(())
    } else {
        Err(broken.to_string())
    }
}

pub fn member(set: u64, event: usize) -> bool {
    event < 64 && set & 2u64.pow(event as u32) != 0
}

pub fn accepts(table: &Table, marking: &Marking) -> bool {
    check(table, marking).number == 0
}

/// The number table and marking give before a call looks at anything else.
fn judged(pair: &Pair) -> u8 {
    match judge_table(&pair.table) {
        0 => judge_marking(pair.table.events, &pair.marking),
        number => number,
    }
}

fn unused_records_kept(before: &Marking, after: &Marking) -> bool {
    before.events == after.events
        && before.records[before.events..] == after.records[after.events..]
}

/// A marking that a call made: sound, and with the unused places kept.
fn made(table: &Table, before: &Marking, after: &Marking) -> Promise {
    holds(
        judge_marking(table.events, after) == 0,
        "a made marking is not sound",
    )?;
    holds(
        unused_records_kept(before, after),
        "unused places are not kept",
    )
}

/// The effect of an event, target by target.
pub fn effect(table: &Table, before: &Marking, event: usize) -> Marking {
    let mut after = *before;
    let record = &before.records[event];
    after.records[event] = Record {
        happened: true,
        included: record.included,
        count: counts::one_more(record.count),
        ..EMPTY_RECORD
    };
    let relations = &table.relations[..table.count];
    for target in 0..table.events {
        let to_target: Vec<&Relation> = relations
            .iter()
            .filter(|relation| {
                usize::from(relation.left) == event && usize::from(relation.right) == target
            })
            .collect();
        let has = |kind: u8| to_target.iter().any(|relation| relation.kind == kind);
        let record = &mut after.records[target];
        if has(3) {
            record.included = true;
        } else if has(4) {
            record.included = false;
        }
        if has(2) {
            let smallest = to_target
                .iter()
                .filter(|relation| relation.kind == 2 && relation.bounded)
                .map(|relation| relation.time)
                .min();
            if !firm::keeps_its_date(table, record, smallest) {
                record.pending = true;
                record.bounded = smallest.is_some();
                record.deadline = smallest.unwrap_or(0);
            }
        }
    }
    after
}

/// Executes an event if it is enabled, whatever its class.
fn execute(table: &Table, marking: &Marking, event: usize) -> Option<Marking> {
    enabled(table, marking, event)
        .enabled
        .then(|| effect(table, marking, event))
}

fn nothing_due(table: &Table, marking: &Marking) -> bool {
    due(table, marking).set == 0
}

fn ticked(before: &Record) -> Record {
    let mut after = *before;
    if after.happened {
        after.age = (after.age + 1).min(1_000_000_000);
    }
    if after.bounded {
        after.deadline = after.deadline.saturating_sub(1);
    }
    after
}

pub fn one_tick_later(before: &Marking) -> Marking {
    let mut after = *before;
    for record in after.records.iter_mut().take(before.events) {
        *record = ticked(record);
    }
    after
}

fn read_table_promise(bytes: &[u8], read: &ReadTable) -> Promise {
    firm::read_promise(bytes, read)?;
    if read.number != 0 {
        return holds(
            read.table.relations == [EMPTY_RELATION; 256]
                && (read.table.controllable, read.table.causable) == (0, 0)
                && (read.table.events, read.table.count) == (0, 0),
            "a refused table is not empty",
        );
    }
    holds(judge_table(&read.table) == 0, "a read table is not sound")?;
    holds(
        read.table.relations[read.table.count..]
            .iter()
            .all(|relation| *relation == EMPTY_RELATION),
        "unused relations are not empty",
    )?;
    holds(
        (read.table.events..64).all(|event| {
            !member(read.table.controllable, event) && !member(read.table.causable, event)
        }),
        "unused classes are not empty",
    )?;
    let mut written = vec![0; bytes.len()];
    holds(
        write_table(&read.table, &mut written) == 0 && written == bytes,
        "the image does not come back",
    )
}

const EMPTY_RELATION: Relation = Relation {
    kind: 0,
    left: 0,
    right: 0,
    bounded: false,
    time: 0,
};

const EMPTY_RECORD: Record = Record {
    age: 0,
    deadline: 0,
    happened: false,
    included: false,
    pending: false,
    bounded: false,
    count: 0,
};

/// The bytes of a record in a marking image.
const RECORD: usize = 12;

const EMPTY_MARKING: Marking = Marking {
    records: [EMPTY_RECORD; 64],
    events: 0,
};

fn read_marking_promise(events: usize, bytes: &[u8], read: &ReadMarking) -> Promise {
    if read.number != 0 {
        return holds(
            read.marking == EMPTY_MARKING,
            "a refused marking is not empty",
        );
    }
    holds(
        judge_marking(events, &read.marking) == 0,
        "a read marking is not sound",
    )?;
    holds(
        read.marking.records[events..] == EMPTY_MARKING.records[events..],
        "unused records are not empty",
    )?;
    let mut written = vec![0; bytes.len()];
    holds(
        write_marking(&read.marking, &mut written) == 0 && written == bytes,
        "the image does not come back",
    )
}

fn write_marking_promise(marking: &Marking, before: &[u8], number: u8, after: &[u8]) -> Promise {
    let judged = judge_marking(marking.events, marking);
    if number != 0 {
        holds(after == before, "a refused write left something")?;
        return holds(
            number == judged
                || (judged == 0 && number == 14 && before.len() < RECORD * marking.events),
            "a write is refused without cause",
        );
    }
    holds(judged == 0, "an unsound marking is written")?;
    let length = RECORD * marking.events;
    holds(
        after.len() == before.len() && after[length..] == before[length..],
        "later bytes are changed",
    )?;
    let read = read_marking(marking.events, &after[..length]);
    holds(
        read.number == 0
            && read.marking.records[..marking.events] == marking.records[..marking.events],
        "a written marking does not read back",
    )
}

fn fresh_promise(events: usize, answer: &ReadMarking) -> Promise {
    if answer.number != 0 {
        return holds(
            answer.marking == EMPTY_MARKING && !(1..=64).contains(&events),
            "a fresh marking is refused without cause",
        );
    }
    let mut expected = EMPTY_MARKING;
    expected.events = events;
    for record in &mut expected.records[..events] {
        record.included = true;
    }
    holds(answer.marking == expected, "a fresh marking is not fresh")
}

/// Judged as the reader would judge the image, where there is an image.
fn judge_table_promise(table: &Table, number: u8) -> Promise {
    let used = table.relations.iter().take(table.count);
    let has_image = table.events < 128
        && table.count < 512
        && used.into_iter().all(|relation| {
            relation.kind < 8
                && relation.left < 64
                && relation.right < 64
                && relation.time < 1_073_741_824
        });
    if has_image {
        let read = read_table(&generate::table_image(table));
        return holds(read.number == number, "judge and reader differ on a table");
    }
    holds(
        number == first_fault(table),
        "no image, and the wrong number",
    )
}

fn first_fault(table: &Table) -> u8 {
    if table.events == 0 || table.events > 64 || table.count > 256 {
        return 3;
    }
    for relation in &table.relations[..table.count] {
        let fits = match relation.kind {
            1 => relation.bounded && relation.time <= 1_000_000_000,
            2 if relation.bounded => relation.time > 0 && relation.time <= 1_000_000_000,
            2..=5 => !relation.bounded && relation.time == 0,
            _ => return 4,
        };
        if usize::from(relation.left.max(relation.right)) >= table.events {
            return 5;
        }
        if !fits {
            return 6;
        }
    }
    0
}

fn judge_marking_promise(events: usize, marking: &Marking, number: u8) -> Promise {
    let used = marking.records.iter().take(marking.events);
    let has_image = marking.events <= 64
        && used
            .into_iter()
            .all(|record| record.age < 1_073_741_824 && record.deadline < 1_073_741_824);
    if has_image {
        let read = read_marking(events, &generate::marking_image(marking));
        return holds(
            read.number == number,
            "judge and reader differ on a marking",
        );
    }
    let expected = if !(1..=64).contains(&events) {
        3
    } else if marking.events != events {
        1
    } else {
        7
    };
    holds(number == expected, "no image, and the wrong number")
}

fn enabled_promise(pair: &Pair, event: usize, answer: &EnabledAnswer) -> Promise {
    let hold_up = hold_up(&pair.table, &pair.marking, event);
    if answer.number != 0 {
        return holds(
            !answer.enabled && hold_up == HoldUpAnswer::Refused(answer.number),
            "a refused answer says more than its number",
        );
    }
    let free = matches!(
        hold_up,
        HoldUpAnswer::Enabled | HoldUpAnswer::EnabledUnless(_)
    );
    holds(answer.enabled == free, "enabled and hold-up differ")?;
    let by_words = returning::enabled_in(&pair.table, &pair.marking, event)?;
    holds(answer.enabled == by_words, "enabled is wrong")
}

fn due_promise(pair: &Pair, answer: &SetAnswer) -> Promise {
    for (event, record) in pair.marking.records.iter().enumerate() {
        let is_due = answer.number == 0
            && event < pair.marking.events
            && record.included
            && record.pending
            && record.bounded
            && record.deadline == 0;
        holds(member(answer.set, event) == is_due, "the due set is wrong")?;
    }
    Ok(())
}

const NINE: &str = "9 is given";
const STOPPED: &str = "an uncontrollable event is answered 10 under an accepting check";

/// What a request of a controllable event, or else a report of any other, was
/// granted when they were two. None: it was refused.
fn formerly(pair: &Pair, event: usize, controllable: bool) -> Option<Marking> {
    let fits = member(pair.table.controllable, event) == controllable;
    execute(&pair.table, &pair.marking, event).filter(|_| fits)
}

/// Granted as the one of the two was that fitted the class, or refused.
fn happen_promise(pair: &Pair, event: usize, answer: &MarkingAnswer) -> Promise {
    let Pair { table, marking } = pair;
    if let Some(granted) = formerly(pair, event, true).or(formerly(pair, event, false)) {
        holds(answer.number == 0, "what was granted is refused")?;
        firm::execution_promise(table, marking, event, &answer.marking)?;
        holds(answer.marking == granted, "the effect is wrong")?;
        return made(table, marking, &answer.marking);
    }
    let expected = match enabled(table, marking, event).number {
        0 => 10,
        number => number,
    };
    holds(answer.number == expected, "not refused with its number")?;
    holds(answer.marking == **marking, "a refusal did something")?;
    let stopped = expected == 10 && !member(table.controllable, event);
    holds(!(stopped && accepts(table, marking)), STOPPED)
}

fn plain_tick_promise(pair: &Pair, answer: &MarkingAnswer) -> Promise {
    let due = due(&pair.table, &pair.marking);
    if answer.number != 0 {
        let cause = due.number == answer.number || (answer.number == 11 && due.set != 0);
        return holds(
            cause && answer.marking == *pair.marking,
            "a plain tick is refused without cause",
        );
    }
    holds(
        due.number == 0 && due.set == 0,
        "a plain tick passes while an event is due",
    )?;
    holds(
        answer.marking == one_tick_later(&pair.marking),
        "a tick is not a tick",
    )
}

/// The least set that holds the busy events and is closed under inhibitors,
/// found by passing over all relations until nothing is added.
fn closure_promise(pair: &Pair, answer: &ClosureAnswer) -> Promise {
    if answer.number != 0 {
        return holds(
            answer.set == 0 && answer.size == 0,
            "a refusal gives a set or a size",
        );
    }
    let relations = &pair.table.relations[..pair.table.count];
    let mut expected: BTreeSet<u8> = (0..pair.marking.events)
        .filter(|&event| pair.marking.records[event].bounded)
        .map(|event| event as u8)
        .collect();
    for relation in relations {
        if relation.kind == 2 && relation.bounded {
            expected.insert(relation.right);
        }
    }
    loop {
        let before = expected.len();
        for relation in relations {
            if [1, 5].contains(&relation.kind) && expected.contains(&relation.left) {
                expected.insert(relation.right);
            }
        }
        if expected.len() == before {
            break;
        }
    }
    holds(
        (0..64).all(|event| member(answer.set, event) == expected.contains(&(event as u8))),
        "the closure is wrong",
    )?;
    holds(
        answer.size as usize == expected.len(),
        "the size of the closure is wrong",
    )
}

fn check_promise(pair: &Pair, answer: &CheckAnswer) -> Promise {
    let guarded = guarded_tick(&pair.table, &pair.marking);
    holds(
        (guarded.number, guarded.reason, guarded.place)
            == (answer.number, answer.reason, answer.place),
        "check and guarded tick differ",
    )?;
    holds(
        (answer.number == 12) == (answer.reason != 0)
            && (answer.number == 12 || answer.place == 0)
            && answer.reason <= 6,
        "the reason does not go with the number",
    )
}

/// The needed events in the order in which they are taken, if these are due: by passing
/// over all relations until nothing is added, and then taking one event at a time.
pub fn taken_in_turn(table: &Table, start: &Marking, due: u64) -> Vec<u8> {
    let inhibitions: Vec<&Relation> = table.relations[..table.count]
        .iter()
        .filter(|relation| [1, 5].contains(&relation.kind))
        .collect();
    let mut needed: BTreeSet<u8> = (0..64)
        .filter(|&event| member(due, usize::from(event)))
        .collect();
    loop {
        let before = needed.len();
        for relation in &inhibitions {
            let right = &start.records[usize::from(relation.right)];
            let blocks = right.included
                && match relation.kind {
                    1 => !right.happened,
                    _ => right.pending,
                };
            if blocks && needed.contains(&relation.left) {
                needed.insert(relation.right);
            }
        }
        if needed.len() == before {
            break;
        }
    }
    let mut turns = Vec::new();
    while let Some(&event) = needed.iter().find(|&&event| {
        !inhibitions
            .iter()
            .any(|relation| relation.left == event && needed.contains(&relation.right))
    }) {
        needed.remove(&event);
        turns.push(event);
    }
    turns
}

/// What a guarded tick executes, and the marking before the tick itself.
pub fn cause(table: &Table, start: &Marking) -> (Vec<u8>, Marking) {
    let mut caused = Vec::new();
    let mut now = *start;
    for event in taken_in_turn(table, start, due(table, start).set) {
        if now.records[usize::from(event)].included {
            now = effect(table, &now, usize::from(event));
            caused.push(event);
        }
    }
    (caused, now)
}

fn guarded_promise(pair: &Pair, answer: &GuardedAnswer) -> Promise {
    let Pair { table, marking } = pair;
    let check = check(table, marking);
    holds(
        (answer.number, answer.reason, answer.place) == (check.number, check.reason, check.place),
        "refused otherwise than the check says",
    )?;
    let count = usize::from(answer.count);
    holds(count <= 64, "more caused than there is room for")?;
    let (caused, rest) = answer.caused.split_at(count);
    holds(rest.iter().all(|&event| event == 0), "more than the count")?;
    if answer.number != 0 {
        return holds(
            count == 0 && answer.marking == **marking,
            "a refused guarded tick did something",
        );
    }

    let distinct: BTreeSet<&u8> = caused.iter().collect();
    holds(distinct.len() == count, "an event is caused twice")?;
    let closure = closure(table, marking).set;
    for &event in caused {
        let event = usize::from(event);
        holds(
            event < table.events && member(table.causable, event),
            "a caused event is not causable",
        )?;
        holds(
            member(closure, event),
            "a caused event is not in the closure",
        )?;
    }
    holds(
        (count == 0) == nothing_due(table, marking),
        "something is caused exactly when something is due",
    )?;

    holds(
        caused == cause(table, marking).0,
        "the caused events are not the needed ones in order",
    )?;

    if table.firm {
        firm::tick_promise(marking, caused, &answer.marking)?;
    }

    // The caused events can be executed one after another, and then a plain
    // tick gives the same marking.
    let mut now = **marking;
    for &event in caused {
        now = execute(table, &now, usize::from(event)).ok_or("a caused event is not enabled")?;
    }
    let tick = plain_tick(table, &now);
    holds(tick.number == 0, "an event is still due")?;
    holds(
        tick.marking == answer.marking,
        "the marking is not what the caused events and a tick give",
    )?;
    made(table, marking, &answer.marking)?;
    holds(
        accepts(table, &answer.marking),
        "the check no longer accepts",
    )
}

/// The shortest start that discharges, by trying every length anew.
fn shortest_start(pair: &Pair, list: &[u8]) -> Option<usize> {
    let table = &pair.table;
    (0..=list.len()).find(|&length| {
        let mut now = *pair.marking;
        for &event in &list[..length] {
            let event = usize::from(event);
            if event >= table.events || !member(table.causable, event) {
                return false;
            }
            match execute(table, &now, event) {
                Some(after) => now = after,
                None => return false,
            }
        }
        nothing_due(table, &now)
    })
}

fn remedies_promise(
    pair: &Pair,
    preferred: &[u8],
    fallback: &[u8],
    answer: &RemedyAnswer,
) -> Promise {
    let too_long = preferred.len() > 255 || fallback.len() > 255;
    let expected = match judged(pair) {
        0 if too_long => (14, false, 0),
        0 => match (
            shortest_start(pair, preferred),
            shortest_start(pair, fallback),
        ) {
            (Some(length), _) => (0, false, length),
            (None, Some(length)) => (0, true, length),
            (None, None) => (13, false, 0),
        },
        number => (number, false, 0),
    };
    holds(
        (answer.number, answer.from_fallback, answer.length) == expected,
        "the remedy is wrong",
    )
}

fn run_promise(
    pair: &Pair,
    steps: &[Step],
    before: &[u8],
    end: &MarkingAnswer,
    after: &[u8],
) -> Promise {
    let Pair { table, marking } = pair;
    if end.number != 0 {
        let expected = match judged(pair) {
            0 => 14,
            number => number,
        };
        return holds(
            end.number == expected && after == before && end.marking == **marking,
            "a trace is refused without cause, or left something",
        );
    }
    holds(
        judged(pair) == 0 && steps.len() <= 4096 && steps.len() <= before.len(),
        "a trace is run that should be refused",
    )?;
    holds(
        after.len() == before.len() && after[steps.len()..] == before[steps.len()..],
        "later answer bytes are changed",
    )?;
    holds(!after[..steps.len()].contains(&9), NINE)?;
    made(table, marking, &end.marking)?;

    let moments = replay(table, marking, steps);
    for (moment, &answer) in moments.iter().zip(after) {
        holds(
            answer == moment.number,
            "a step is answered otherwise than its call",
        )?;
    }
    if table.firm {
        firm::dates_promise(marking, &moments)?;
    }
    if steps.len() <= REPLAYED {
        let last = moments.last().map_or(**marking, |moment| moment.marking);
        holds(end.marking == last, "the end marking is wrong")?;
        counts::counts_promise(marking, &moments, &end.marking)?;
    }

    if accepts(table, marking) {
        for (step, &answer) in steps.iter().zip(after) {
            let controllable = member(table.controllable, step.event.into());
            holds(answer != 10 || controllable, STOPPED)?;
            holds(
                answer != 12,
                "the check came to reject in the course of a trace",
            )?;
        }
        holds(accepts(table, &end.marking), "the check no longer accepts")?;
    }

    let mut turned = steps.to_vec();
    for step in turned.iter_mut().filter(|step| step.kind < 2) {
        step.kind = 1 - step.kind;
    }
    let mut answers = before.to_vec();
    let turned = run(table, marking, &turned, &mut answers);
    holds(turned == *end && answers == after, "kinds 0 and 1 differ")
}

fn pairs_of(bytes: &[u8]) -> Vec<Step> {
    bytes
        .chunks_exact(2)
        .map(|pair| Step {
            kind: pair[0],
            event: pair[1],
        })
        .collect()
}

fn run_bytes_promise(
    pair: &Pair,
    bytes: &[u8],
    before: &[u8],
    end: &MarkingAnswer,
    after: &[u8],
) -> Promise {
    if bytes.len() % 2 == 1 {
        let expected = match judged(pair) {
            0 => 1,
            number => number,
        };
        return holds(
            end.number == expected && after == before && end.marking == *pair.marking,
            "an odd byte is not refused",
        );
    }
    run_promise(pair, &pairs_of(bytes), before, end, after)
}

/// The station gives what its parts give.
fn station_promise(input: &[u8], output: &[u8]) -> Promise {
    let refused = |number: u8| holds(output == [number], "not the refusal of its part");
    let whole = read_table(input);
    if [2, 3].contains(&whole.number) && [input[2] % 128, input[3]] != [0, 0] {
        return refused(2);
    }
    if input.len() < 4 {
        return refused(1);
    }
    let events = usize::from(input[0] / 2);
    let relations = usize::from(input[0] % 2) * 256 + usize::from(input[1]);
    if !(1..=64).contains(&events) || relations > 256 {
        return refused(3);
    }
    let length = 4 + events + 6 * relations;
    if input.len() < length {
        return refused(1);
    }
    let read = read_table(&input[..length]);
    if read.number != 0 {
        return refused(read.number);
    }
    let rest = &input[length..];
    let marking_length = rest.len().min(RECORD * events);
    let start = read_marking(events, &rest[..marking_length]);
    if start.number != 0 {
        return refused(start.number);
    }
    let steps = &rest[marking_length..];
    if steps.len() % 2 == 1 {
        return refused(1);
    }
    if steps.len() / 2 > 4096 {
        return refused(14);
    }
    holds(
        output.len() == steps.len() / 2 + RECORD * events,
        "the output has the wrong length",
    )?;
    let (answers, image) = output.split_at(steps.len() / 2);
    holds(!answers.contains(&9), NINE)?;
    let end = read_marking(events, image);
    holds(end.number == 0, "the end marking does not read back")?;
    let mut expected = vec![0; answers.len()];
    let expected_end = run_bytes(&read.table, &start.marking, steps, &mut expected);
    holds(
        answers == expected && end.marking == expected_end.marking,
        "the station does not give what the runner gives",
    )
}

/// Whether the answer keeps what the rules' paper promises for the case.
pub fn promise(case: &Case, answer: &Answer) -> Promise {
    holds(answer.number() != 9, NINE)?;
    if let Some(pair) = case.pair() {
        let number = judged(pair);
        if number != 0 {
            holds(
                answer.number() == number,
                "table and marking are not judged first",
            )?;
        }
    }
    match (case, answer) {
        (Case::ReadTable { bytes }, Answer::ReadTable(read)) => read_table_promise(bytes, read),
        (Case::ReadMarking { events, bytes }, Answer::ReadMarking(read)) => {
            read_marking_promise(*events, bytes, read)
        }
        (
            Case::WriteMarking { marking, buffer },
            Answer::Written {
                number,
                buffer: after,
            },
        ) => write_marking_promise(marking, buffer, *number, after),
        (Case::Fresh { events }, Answer::ReadMarking(answer)) => fresh_promise(*events, answer),
        (Case::JudgeTable { table }, Answer::Number(number)) => judge_table_promise(table, *number),
        (Case::JudgeMarking { events, marking }, Answer::Number(number)) => {
            judge_marking_promise(*events, marking, *number)
        }
        (Case::Size { set }, Answer::Count(count)) => holds(
            u32::from(*count) == set.count_ones(),
            "the size of a set is wrong",
        ),
        (Case::Lowest { set }, Answer::Count(event)) => holds(
            u32::from(*event) == set.trailing_zeros(),
            "the lowest of a set is wrong",
        ),
        (Case::Enabled { pair, event }, Answer::Enabled(answer)) => {
            enabled_promise(pair, *event, answer)
        }
        (Case::Due { pair }, Answer::Set(answer)) => due_promise(pair, answer),
        (Case::Happen { pair, event }, Answer::Marking(answer)) => {
            happen_promise(pair, *event, answer)
        }
        (Case::PlainTick { pair }, Answer::Marking(answer)) => plain_tick_promise(pair, answer),
        (Case::Margin { pair, relation }, Answer::Margin(answer)) => {
            margin::margin_promise(pair, *relation, answer)
        }
        (Case::HoldUp { pair, event }, Answer::HoldUp(answer)) => {
            hold_up::hold_up_promise(pair, *event, answer)
        }
        (
            Case::Chain { pair, event, list },
            Answer::Chain {
                number,
                count,
                list: after,
            },
        ) => {
            let answer = ChainAnswer {
                number: *number,
                count: *count,
            };
            chain::chain_promise(pair, *event, list, &answer, after)
        }
        (Case::Closure { pair }, Answer::Closure(answer)) => closure_promise(pair, answer),
        (Case::Check { pair }, Answer::Check(answer)) => check_promise(pair, answer),
        (Case::GuardedTick { pair }, Answer::Guarded(answer)) => guarded_promise(pair, answer),
        (Case::Sleep { pair, ticks, list }, Answer::Sleep { end, list: after }) => {
            sleep::sleep_promise(pair, *ticks, list, end, after)
        }
        (Case::Quiet { pair }, Answer::Ticks(answer)) => quiet::quiet_promise(pair, answer),
        (
            Case::Remedies {
                pair,
                preferred,
                fallback,
            },
            Answer::Remedy(answer),
        ) => remedies_promise(pair, preferred, fallback, answer),
        (
            Case::Run {
                pair,
                steps,
                answers,
            },
            Answer::Run {
                end,
                answers: after,
            },
        ) => run_promise(pair, steps, answers, end, after),
        (
            Case::RunBytes {
                pair,
                steps,
                answers,
            },
            Answer::Run {
                end,
                answers: after,
            },
        ) => run_bytes_promise(pair, steps, answers, end, after),
        (Case::Station { input }, Answer::Station(output)) => station_promise(input, output),
        (
            Case::WriteTable { table, buffer },
            Answer::Written {
                number,
                buffer: after,
            },
        ) => tables::write_table_promise(table, buffer, *number, after),
        (
            Case::BuildTable {
                events,
                firm,
                classes,
                relations,
                buffer,
            },
            Answer::Written {
                number,
                buffer: after,
            },
        ) => {
            let numbers = (*events, *firm, classes.as_slice(), relations.as_slice());
            tables::build_table_promise(numbers, buffer, *number, after)
        }
        (
            Case::TellRelation {
                image,
                relation,
                places,
            },
            Answer::ToldRelation {
                number,
                places: after,
            },
        ) => tables::tell_relation_promise(image, *relation, places, *number, after),
        (
            Case::TellClass {
                image,
                event,
                place,
            },
            Answer::ToldClass {
                number,
                place: after,
            },
        ) => tables::tell_class_promise(image, *event, *place, *number, *after),
        (
            Case::CarryMarking {
                events,
                old,
                buffer,
            },
            Answer::Written {
                number,
                buffer: after,
            },
        ) => carrying::carry_marking_promise(*events, old, buffer, *number, after),
        _ => Err("the answer is to another call".to_string()),
    }
}
