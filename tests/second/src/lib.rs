//! The duty engine as a reference model: the rules of the rules' paper, written to
//! be read and compared with, not to be fast.

#![forbid(unsafe_code)]

mod bits;
mod carrying;
mod chain;
mod check;
mod closure;
mod decoded;
mod effect;
mod enabled;
mod event_set;
mod fresh;
mod guarded;
mod happen;
mod hold_up;
mod image;
mod judge;
mod margin;
mod plain_numbers;
mod process;
mod quiet;
mod record;
mod refusal;
mod remedies;
mod sleep;
mod station;
mod time;
mod trace;
mod writing;

pub mod case;
pub mod generate;
pub mod rng;

pub use carrying::{carry_marking, OLD_RECORD_BYTES};
pub use chain::{chain, ChainAnswer};
pub use check::{check, CheckAnswer};
pub use closure::{closure, ClosureAnswer};
pub use decoded::{
    Marking, MarkingAnswer, ReadMarking, ReadTable, Record, Relation, SetAnswer, Table,
};
pub use enabled::{enabled, EnabledAnswer};
pub use event_set::{lowest, size};
pub use fresh::fresh;
pub use guarded::{guarded_tick, GuardedAnswer};
pub use happen::happen;
pub use hold_up::{hold_up, HoldUpAnswer};
pub use image::{read_marking, read_table, RECORD_BYTES};
pub use judge::{judge_marking, judge_table};
pub use margin::{margin, MarginAnswer, Rest};
pub use plain_numbers::{build_table, tell_class, tell_firm, tell_relation};
pub use quiet::{quiet, TicksAnswer};
pub use record::record;
pub use remedies::{remedies, RemedyAnswer};
pub use sleep::{sleep, SleepAnswer};
pub use station::station;
pub use time::{due, plain_tick};
pub use trace::{run, run_bytes, Step};
pub use writing::{write_marking, write_table};
