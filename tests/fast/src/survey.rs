//! What one pass over the relations says of each event, as words.

use crate::decoded::{only, Relation, Table};

/// The right events of the relations with one event as left.
#[derive(Clone, Copy)]
pub(crate) struct Row {
    pub conditions: u64,
    pub milestones: u64,
    pub responses: u64,
    pub includes: u64,
}

impl Row {
    #[inline]
    pub fn inhibitors(&self) -> u64 {
        self.conditions | self.milestones
    }
}

/// An array of words for each part of a row: the compiler clears these at once,
/// where it would make an array of rows row by row.
pub(crate) struct Survey {
    conditions: [u64; 64],
    milestones: [u64; 64],
    responses: [u64; 64],
    includes: [u64; 64],
    /// Right of a bounded response.
    pub answers: u64,
    /// Right of an exclusion, or left of a condition or milestone.
    pub unreportable: u64,
    /// Left of a condition with time above 0.
    pub waiting: u64,
}

impl Survey {
    #[inline]
    pub fn of(t: &Table) -> Survey {
        Survey::with(t, |_, _| ())
    }

    /// Each relation is handed on, with its number.
    #[inline]
    pub fn with(t: &Table, mut hand_on: impl FnMut(usize, &Relation)) -> Survey {
        let mut s = Survey {
            conditions: [0; 64],
            milestones: [0; 64],
            responses: [0; 64],
            includes: [0; 64],
            answers: 0,
            unreportable: 0,
            waiting: 0,
        };
        let (mut answers, mut unreportable, mut waiting) = (0, 0, 0);
        for (number, k) in t.used().iter().enumerate() {
            let place = usize::from(k.left & 63);
            let (left, right) = (only(k.left), only(k.right));
            match k.kind {
                1 => {
                    s.conditions[place] |= right;
                    unreportable |= left;
                    if k.time > 0 {
                        waiting |= left;
                    }
                }
                2 => {
                    s.responses[place] |= right;
                    if k.bounded {
                        answers |= right;
                    }
                }
                3 => s.includes[place] |= right,
                4 => unreportable |= right,
                _ => {
                    s.milestones[place] |= right;
                    unreportable |= left;
                }
            }
            hand_on(number, k);
        }
        s.answers = answers;
        s.unreportable = unreportable;
        s.waiting = waiting;
        s
    }

    #[inline]
    pub fn row(&self, event: u8) -> Row {
        let place = usize::from(event & 63);
        Row {
            conditions: self.conditions[place],
            milestones: self.milestones[place],
            responses: self.responses[place],
            includes: self.includes[place],
        }
    }

    /// A set and, repeatedly, what the rows of its events lead to.
    #[inline]
    pub fn widened(&self, start: u64, leads: impl Fn(&Row) -> u64) -> u64 {
        widened(start, |event| leads(&self.row(event)))
    }
}

/// A set and, repeatedly, what its events lead to.
#[inline]
pub(crate) fn widened(start: u64, leads: impl Fn(u8) -> u64) -> u64 {
    let (mut set, mut unopened) = (start, start);
    while unopened != 0 {
        let event = unopened.trailing_zeros() as u8;
        unopened &= unopened - 1;
        let more = leads(event) & !set;
        set |= more;
        unopened |= more;
    }
    set
}
