//! The decoded values that callers hold. They may carry values no image can;
//! nothing here judges them.

use crate::refusal::DONE;

/// Most events a process can have.
pub const MOST_EVENTS: usize = 64;
/// Most relations a process can have.
pub const MOST_RELATIONS: usize = 256;
/// Largest time, age and deadline.
pub const TIME_LIMIT: u32 = 1_000_000_000;

#[derive(Clone, Copy, PartialEq, Eq, Debug)]
pub struct Relation {
    pub kind: u8,
    pub left: u8,
    pub right: u8,
    pub bounded: bool,
    pub time: u32,
}

impl Relation {
    pub const EMPTY: Relation = Relation {
        kind: 0,
        left: 0,
        right: 0,
        bounded: false,
        time: 0,
    };
}

#[derive(Clone, Copy, PartialEq, Eq, Debug)]
pub struct Table {
    pub relations: [Relation; MOST_RELATIONS],
    pub controllable: u64,
    pub causable: u64,
    pub events: usize,
    pub count: usize,
    pub firm: bool,
}

impl Table {
    pub const EMPTY: Table = Table {
        relations: [Relation::EMPTY; MOST_RELATIONS],
        controllable: 0,
        causable: 0,
        events: 0,
        count: 0,
        firm: false,
    };
}

#[derive(Clone, Copy, PartialEq, Eq, Debug)]
pub struct Record {
    pub age: u32,
    pub deadline: u32,
    pub happened: bool,
    pub included: bool,
    pub pending: bool,
    pub bounded: bool,
    pub count: u32,
}

impl Record {
    pub const EMPTY: Record = Record {
        age: 0,
        deadline: 0,
        happened: false,
        included: false,
        pending: false,
        bounded: false,
        count: 0,
    };
}

#[derive(Clone, Copy, PartialEq, Eq, Debug)]
pub struct Marking {
    pub records: [Record; MOST_EVENTS],
    pub events: usize,
}

impl Marking {
    pub const EMPTY: Marking = Marking {
        records: [Record::EMPTY; MOST_EVENTS],
        events: 0,
    };
}

#[derive(Clone, Copy, PartialEq, Eq, Debug)]
pub struct ReadTable {
    pub number: u8,
    pub table: Table,
}

#[derive(Clone, Copy, PartialEq, Eq, Debug)]
pub struct ReadMarking {
    pub number: u8,
    pub marking: Marking,
}

impl ReadMarking {
    /// No marking is handed in, so a refusal has only an empty one to give.
    pub(crate) fn from_result(result: Result<Marking, u8>) -> ReadMarking {
        match result {
            Ok(marking) => ReadMarking {
                number: DONE,
                marking,
            },
            Err(number) => ReadMarking {
                number,
                marking: Marking::EMPTY,
            },
        }
    }
}

#[derive(Clone, Copy, PartialEq, Eq, Debug)]
pub struct MarkingAnswer {
    pub number: u8,
    pub marking: Marking,
}

impl MarkingAnswer {
    /// A refusal gives back the marking that was handed in.
    pub(crate) fn from_result(result: Result<Marking, u8>, handed_in: &Marking) -> MarkingAnswer {
        match result {
            Ok(marking) => MarkingAnswer {
                number: DONE,
                marking,
            },
            Err(number) => MarkingAnswer {
                number,
                marking: *handed_in,
            },
        }
    }
}

#[derive(Clone, Copy, PartialEq, Eq, Debug)]
pub struct SetAnswer {
    pub number: u8,
    pub set: u64,
}
