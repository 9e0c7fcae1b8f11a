//! The duty engine of the rules' paper, written for speed: decoded values are
//! borrowed and changed in place, event sets are words, one pass turns the
//! relations into rows of words, nothing is allocated. A call that executes many
//! events has each event's own relations at hand; a run, a sleep and a trial go by
//! words and dates in place of records, and a run asks the check until it has
//! accepted once. It is what the proved engine's costs are held against.

#![forbid(unsafe_code)]

mod carry;
mod chain;
mod check;
mod decoded;
mod effect;
mod enabled;
mod flags;
mod guarded;
mod happen;
mod image;
mod judge;
mod process;
mod remedies;
mod sleep;
mod state;
mod survey;
mod time;
mod trace;

pub use carry::carry_marking;
pub use chain::chain;
pub use check::{check, closure, Closure, Verdict};
pub use decoded::{Marking, Record, Relation, Table};
pub use enabled::{enabled, hold_up, margin, HoldUp, Margin, Rest};
pub use guarded::{guarded_tick, Guarded};
pub use happen::happen;
pub use image::{fresh, read_marking, read_table, write_marking, write_table};
pub use judge::{judge_marking, judge_table};
pub use remedies::{remedies, Remedy};
pub use sleep::{quiet, sleep, Refused};
pub use time::{due, plain_tick};
pub use trace::run_bytes;
