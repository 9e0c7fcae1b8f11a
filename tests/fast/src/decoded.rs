//! The decoded values, laid out as the proved engine's are.

pub const TIME_LIMIT: u32 = 1_000_000_000;

/// The bytes of a record in a marking's image.
pub(crate) const RECORD_BYTES: usize = 12;

#[derive(Clone, Copy, PartialEq, Eq, Debug)]
pub struct Relation {
    pub kind: u8,
    pub left: u8,
    pub right: u8,
    pub bounded: bool,
    pub time: u32,
}

impl Relation {
    pub const EMPTY: Relation = Relation {
        kind: 0,
        left: 0,
        right: 0,
        bounded: false,
        time: 0,
    };
}

#[derive(Clone, Copy, PartialEq, Eq, Debug)]
pub struct Table {
    pub relations: [Relation; 256],
    pub controllable: u64,
    pub causable: u64,
    pub events: usize,
    pub count: usize,
    /// No response moves a deadline out.
    pub firm: bool,
}

impl Table {
    pub const EMPTY: Table = Table {
        relations: [Relation::EMPTY; 256],
        controllable: 0,
        causable: 0,
        events: 0,
        count: 0,
        firm: false,
    };

    /// The relations in use, of a table that is judged.
    #[inline]
    pub(crate) fn used(&self) -> &[Relation] {
        &self.relations[..self.count]
    }

    /// Its events, of a table that is judged.
    #[inline]
    pub(crate) fn all(&self) -> u64 {
        u64::MAX >> (64 - self.events)
    }
}

#[derive(Clone, Copy, PartialEq, Eq, Debug)]
pub struct Record {
    pub age: u32,
    pub deadline: u32,
    pub happened: bool,
    pub included: bool,
    pub pending: bool,
    pub bounded: bool,
    /// How often the event was executed, held at the largest number.
    pub count: u32,
}

impl Record {
    pub const EMPTY: Record = Record {
        age: 0,
        deadline: 0,
        happened: false,
        included: false,
        pending: false,
        bounded: false,
        count: 0,
    };
}

#[derive(Clone, Copy, PartialEq, Eq, Debug)]
pub struct Marking {
    pub records: [Record; 64],
    pub events: usize,
}

impl Marking {
    pub const EMPTY: Marking = Marking {
        records: [Record::EMPTY; 64],
        events: 0,
    };

    /// The records in use, of a marking that is judged.
    #[inline]
    pub(crate) fn used(&self) -> &[Record] {
        &self.records[..self.events]
    }

    #[inline]
    pub(crate) fn used_mut(&mut self) -> &mut [Record] {
        &mut self.records[..self.events]
    }

    /// Of an event number that is known to be one: the mask saves the test.
    #[inline]
    pub(crate) fn of(&self, event: u8) -> &Record {
        &self.records[usize::from(event & 63)]
    }

    #[inline]
    pub(crate) fn of_mut(&mut self, event: u8) -> &mut Record {
        &mut self.records[usize::from(event & 63)]
    }
}

/// The set of one event.
#[inline]
pub(crate) fn only(event: u8) -> u64 {
    1 << (event & 63)
}

/// The events of a set, lowest first.
pub(crate) struct Events(pub u64);

impl Iterator for Events {
    type Item = u8;

    #[inline]
    fn next(&mut self) -> Option<u8> {
        if self.0 == 0 {
            return None;
        }
        let lowest = self.0.trailing_zeros() as u8;
        self.0 &= self.0 - 1;
        Some(lowest)
    }
}
