//! A case is one call with its whole arguments; its answer is everything the
//! call leaves behind, lent buffers included. Two implementations agree on a
//! case when their answers are equal.

use crate::{
    build_table, carry_marking, chain, check, closure, due, enabled, fresh, guarded_tick, happen,
    hold_up, judge_marking, judge_table, lowest, margin, plain_tick, quiet, read_marking,
    read_table, remedies, run, run_bytes, size, sleep, station, tell_class, tell_relation,
    write_marking, write_table, CheckAnswer, ClosureAnswer, EnabledAnswer, GuardedAnswer,
    HoldUpAnswer, MarginAnswer, Marking, MarkingAnswer, ReadMarking, ReadTable, RemedyAnswer,
    SetAnswer, SleepAnswer, Step, Table, TicksAnswer,
};

/// The table and marking that most calls are handed. They may be faulty.
#[derive(Clone, PartialEq, Eq, Debug)]
pub struct Pair {
    pub table: Box<Table>,
    pub marking: Box<Marking>,
}

#[derive(Clone, PartialEq, Eq, Debug)]
pub enum Case {
    ReadTable {
        bytes: Vec<u8>,
    },
    ReadMarking {
        events: usize,
        bytes: Vec<u8>,
    },
    WriteMarking {
        marking: Box<Marking>,
        buffer: Vec<u8>,
    },
    Fresh {
        events: usize,
    },
    JudgeTable {
        table: Box<Table>,
    },
    JudgeMarking {
        events: usize,
        marking: Box<Marking>,
    },
    Size {
        set: u64,
    },
    Lowest {
        set: u64,
    },
    Enabled {
        pair: Pair,
        event: usize,
    },
    Due {
        pair: Pair,
    },
    Happen {
        pair: Pair,
        event: usize,
    },
    PlainTick {
        pair: Pair,
    },
    Margin {
        pair: Pair,
        relation: usize,
    },
    HoldUp {
        pair: Pair,
        event: usize,
    },
    Chain {
        pair: Pair,
        event: usize,
        list: Vec<u16>,
    },
    Closure {
        pair: Pair,
    },
    Check {
        pair: Pair,
    },
    GuardedTick {
        pair: Pair,
    },
    Sleep {
        pair: Pair,
        ticks: u64,
        list: Vec<u32>,
    },
    Quiet {
        pair: Pair,
    },
    Remedies {
        pair: Pair,
        preferred: Vec<u8>,
        fallback: Vec<u8>,
    },
    Run {
        pair: Pair,
        steps: Vec<Step>,
        answers: Vec<u8>,
    },
    RunBytes {
        pair: Pair,
        steps: Vec<u8>,
        answers: Vec<u8>,
    },
    Station {
        input: Vec<u8>,
    },
    WriteTable {
        table: Box<Table>,
        buffer: Vec<u8>,
    },
    BuildTable {
        events: usize,
        firm: u32,
        classes: Vec<u8>,
        relations: Vec<u32>,
        buffer: Vec<u8>,
    },
    TellRelation {
        image: Vec<u8>,
        relation: usize,
        places: Vec<u32>,
    },
    TellClass {
        image: Vec<u8>,
        event: usize,
        place: u8,
    },
    CarryMarking {
        events: usize,
        old: Vec<u8>,
        buffer: Vec<u8>,
    },
}

#[derive(Clone, PartialEq, Eq, Debug)]
pub enum Answer {
    ReadTable(Box<ReadTable>),
    ReadMarking(Box<ReadMarking>),
    Written {
        number: u8,
        buffer: Vec<u8>,
    },
    Number(u8),
    /// Of an event set: how many, or which.
    Count(u8),
    Enabled(EnabledAnswer),
    Set(SetAnswer),
    Marking(Box<MarkingAnswer>),
    Margin(MarginAnswer),
    HoldUp(HoldUpAnswer),
    Chain {
        number: u8,
        count: usize,
        list: Vec<u16>,
    },
    Closure(ClosureAnswer),
    Check(CheckAnswer),
    Guarded(Box<GuardedAnswer>),
    Sleep {
        end: Box<SleepAnswer>,
        list: Vec<u32>,
    },
    Ticks(TicksAnswer),
    Remedy(RemedyAnswer),
    Run {
        end: Box<MarkingAnswer>,
        answers: Vec<u8>,
    },
    Station(Vec<u8>),
    ToldRelation {
        number: u8,
        places: Vec<u32>,
    },
    ToldClass {
        number: u8,
        place: u8,
    },
}

impl Answer {
    /// 0 for done, else the refusal number.
    pub fn number(&self) -> u8 {
        match self {
            Answer::ReadTable(answer) => answer.number,
            Answer::ReadMarking(answer) => answer.number,
            Answer::Written { number, .. }
            | Answer::Chain { number, .. }
            | Answer::ToldRelation { number, .. }
            | Answer::ToldClass { number, .. } => *number,
            Answer::Number(number) => *number,
            Answer::Count(_) => 0,
            Answer::Enabled(answer) => answer.number,
            Answer::Set(answer) => answer.number,
            Answer::Marking(answer) => answer.number,
            Answer::Margin(MarginAnswer::Refused(number)) => *number,
            Answer::Margin(_) => 0,
            Answer::HoldUp(HoldUpAnswer::Refused(number)) => *number,
            Answer::HoldUp(_) => 0,
            Answer::Closure(answer) => answer.number,
            Answer::Check(answer) => answer.number,
            Answer::Guarded(answer) => answer.number,
            Answer::Sleep { end, .. } => end.number,
            Answer::Ticks(answer) => answer.number,
            Answer::Remedy(answer) => answer.number,
            Answer::Run { end, .. } => end.number,
            // A record has more bytes than one, so a single byte can only be a
            // refusal.
            Answer::Station(output) => match output.as_slice() {
                [number] => *number,
                _ => 0,
            },
        }
    }
}

impl Case {
    pub fn name(&self) -> &'static str {
        match self {
            Case::ReadTable { .. } => "read_table",
            Case::ReadMarking { .. } => "read_marking",
            Case::WriteMarking { .. } => "write_marking",
            Case::Fresh { .. } => "fresh",
            Case::JudgeTable { .. } => "judge_table",
            Case::JudgeMarking { .. } => "judge_marking",
            Case::Size { .. } => "size",
            Case::Lowest { .. } => "lowest",
            Case::Enabled { .. } => "enabled",
            Case::Due { .. } => "due",
            Case::Happen { .. } => "happen",
            Case::PlainTick { .. } => "plain_tick",
            Case::Margin { .. } => "margin",
            Case::HoldUp { .. } => "hold_up",
            Case::Chain { .. } => "chain",
            Case::Closure { .. } => "closure",
            Case::Check { .. } => "check",
            Case::GuardedTick { .. } => "guarded_tick",
            Case::Sleep { .. } => "sleep",
            Case::Quiet { .. } => "quiet",
            Case::Remedies { .. } => "remedies",
            Case::Run { .. } => "run",
            Case::RunBytes { .. } => "run_bytes",
            Case::Station { .. } => "station",
            Case::WriteTable { .. } => "write_table",
            Case::BuildTable { .. } => "build_table",
            Case::TellRelation { .. } => "tell_relation",
            Case::TellClass { .. } => "tell_class",
            Case::CarryMarking { .. } => "carry_marking",
        }
    }

    /// The table and marking of the calls that take both.
    pub fn pair(&self) -> Option<&Pair> {
        match self {
            Case::Enabled { pair, .. }
            | Case::Due { pair }
            | Case::Happen { pair, .. }
            | Case::PlainTick { pair }
            | Case::Margin { pair, .. }
            | Case::HoldUp { pair, .. }
            | Case::Chain { pair, .. }
            | Case::Closure { pair }
            | Case::Check { pair }
            | Case::GuardedTick { pair }
            | Case::Sleep { pair, .. }
            | Case::Quiet { pair }
            | Case::Remedies { pair, .. }
            | Case::Run { pair, .. }
            | Case::RunBytes { pair, .. } => Some(pair),
            Case::ReadTable { .. }
            | Case::ReadMarking { .. }
            | Case::WriteMarking { .. }
            | Case::Fresh { .. }
            | Case::JudgeTable { .. }
            | Case::JudgeMarking { .. }
            | Case::Size { .. }
            | Case::Lowest { .. }
            | Case::Station { .. }
            | Case::WriteTable { .. }
            | Case::BuildTable { .. }
            | Case::TellRelation { .. }
            | Case::TellClass { .. }
            | Case::CarryMarking { .. } => None,
        }
    }

    /// Makes the call. The case keeps its own copy of every lent buffer.
    pub fn answer(&self) -> Answer {
        match self {
            Case::ReadTable { bytes } => Answer::ReadTable(Box::new(read_table(bytes))),
            Case::ReadMarking { events, bytes } => {
                Answer::ReadMarking(Box::new(read_marking(*events, bytes)))
            }
            Case::WriteMarking { marking, buffer } => {
                let mut buffer = buffer.clone();
                let number = write_marking(marking, &mut buffer);
                Answer::Written { number, buffer }
            }
            Case::Fresh { events } => Answer::ReadMarking(Box::new(fresh(*events))),
            Case::JudgeTable { table } => Answer::Number(judge_table(table)),
            Case::JudgeMarking { events, marking } => {
                Answer::Number(judge_marking(*events, marking))
            }
            Case::Size { set } => Answer::Count(size(*set)),
            Case::Lowest { set } => Answer::Count(lowest(*set)),
            Case::Enabled { pair, event } => {
                Answer::Enabled(enabled(&pair.table, &pair.marking, *event))
            }
            Case::Due { pair } => Answer::Set(due(&pair.table, &pair.marking)),
            Case::Happen { pair, event } => {
                Answer::Marking(Box::new(happen(&pair.table, &pair.marking, *event)))
            }
            Case::PlainTick { pair } => {
                Answer::Marking(Box::new(plain_tick(&pair.table, &pair.marking)))
            }
            Case::Margin { pair, relation } => {
                Answer::Margin(margin(&pair.table, &pair.marking, *relation))
            }
            Case::HoldUp { pair, event } => {
                Answer::HoldUp(hold_up(&pair.table, &pair.marking, *event))
            }
            Case::Chain { pair, event, list } => {
                let mut list = list.clone();
                let told = chain(&pair.table, &pair.marking, *event, &mut list);
                Answer::Chain {
                    number: told.number,
                    count: told.count,
                    list,
                }
            }
            Case::Closure { pair } => Answer::Closure(closure(&pair.table, &pair.marking)),
            Case::Check { pair } => Answer::Check(check(&pair.table, &pair.marking)),
            Case::GuardedTick { pair } => {
                Answer::Guarded(Box::new(guarded_tick(&pair.table, &pair.marking)))
            }
            Case::Sleep { pair, ticks, list } => {
                let mut list = list.clone();
                let end = sleep(&pair.table, &pair.marking, *ticks, &mut list);
                Answer::Sleep {
                    end: Box::new(end),
                    list,
                }
            }
            Case::Quiet { pair } => Answer::Ticks(quiet(&pair.table, &pair.marking)),
            Case::Remedies {
                pair,
                preferred,
                fallback,
            } => Answer::Remedy(remedies(&pair.table, &pair.marking, preferred, fallback)),
            Case::Run {
                pair,
                steps,
                answers,
            } => {
                let mut answers = answers.clone();
                let end = run(&pair.table, &pair.marking, steps, &mut answers);
                Answer::Run {
                    end: Box::new(end),
                    answers,
                }
            }
            Case::RunBytes {
                pair,
                steps,
                answers,
            } => {
                let mut answers = answers.clone();
                let end = run_bytes(&pair.table, &pair.marking, steps, &mut answers);
                Answer::Run {
                    end: Box::new(end),
                    answers,
                }
            }
            Case::Station { input } => Answer::Station(station(input)),
            Case::WriteTable { table, buffer } => {
                let mut buffer = buffer.clone();
                let number = write_table(table, &mut buffer);
                Answer::Written { number, buffer }
            }
            Case::BuildTable {
                events,
                firm,
                classes,
                relations,
                buffer,
            } => {
                let mut buffer = buffer.clone();
                let number = build_table(*events, *firm, classes, relations, &mut buffer);
                Answer::Written { number, buffer }
            }
            Case::TellRelation {
                image,
                relation,
                places,
            } => {
                let mut places = places.clone();
                let number = tell_relation(image, *relation, &mut places);
                Answer::ToldRelation { number, places }
            }
            Case::TellClass {
                image,
                event,
                place,
            } => {
                let mut place = *place;
                let number = tell_class(image, *event, &mut place);
                Answer::ToldClass { number, place }
            }
            Case::CarryMarking {
                events,
                old,
                buffer,
            } => {
                let mut buffer = buffer.clone();
                let number = carry_marking(*events, old, &mut buffer);
                Answer::Written { number, buffer }
            }
        }
    }
}
