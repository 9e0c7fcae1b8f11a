//! A table with all that many steps ask of it, worked out in one pass.

use crate::decoded::{only, Relation, Table};
use crate::survey::Survey;

/// What an effect asks and the survey does not say.
struct Links {
    excludes: [u64; 64],
    /// An event's last relation with a time above 0, and for each such relation
    /// the one before it with the same left: its number and 1, or 0 for none.
    last: [u16; 64],
    before: [u16; 256],
}

impl Links {
    #[inline]
    fn link(&mut self, number: usize, k: &Relation) {
        let place = usize::from(k.left & 63);
        if k.kind == 4 {
            self.excludes[place] |= only(k.right);
        }
        if k.time > 0 {
            self.before[number & 255] = self.last[place];
            self.last[place] = number as u16 + 1;
        }
    }
}

/// The right events of one event's responses, inclusions and exclusions.
#[derive(Clone, Copy, Default)]
pub(crate) struct Leads {
    pub responses: u64,
    pub includes: u64,
    pub excludes: u64,
}

pub(crate) struct Process<'a> {
    pub table: &'a Table,
    pub survey: &'a Survey,
    links: &'a Links,
}

impl Process<'_> {
    /// It is lent, and so never copied.
    #[inline]
    pub fn of<T>(table: &Table, then: impl FnOnce(&Process) -> T) -> T {
        let mut links = Links {
            excludes: [0; 64],
            last: [0; 64],
            before: [0; 256],
        };
        let survey = Survey::with(table, |number, k| links.link(number, k));
        then(&Process {
            table,
            survey: &survey,
            links: &links,
        })
    }

    #[inline]
    pub fn leads(&self, event: u8) -> Leads {
        let row = self.survey.row(event);
        Leads {
            responses: row.responses,
            includes: row.includes,
            excludes: self.links.excludes[usize::from(event & 63)],
        }
    }

    /// The event's relations with a time above 0: its conditions that may wait, and
    /// its bounded responses.
    #[inline]
    pub fn timed(&self, event: u8) -> impl Iterator<Item = &Relation> {
        let mut next = self.links.last[usize::from(event & 63)];
        std::iter::from_fn(move || {
            let number = usize::from(next.checked_sub(1)?) & 255;
            next = self.links.before[number];
            Some(&self.table.relations[number])
        })
    }
}
