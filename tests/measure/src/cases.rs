//! The cases, each of any size. What a case lends and reads is made once.

use crate::calls::Calls;
use crate::sized::{self, Size};
use second::case::{Case as Question, Pair};
use second::generate::{marking_image, old_marking_image, table_image};
use second::Step;

pub const SIZES: [Size; 9] = [
    Size::of(4, 8),
    Size::of(4, 64),
    Size::of(4, 256),
    Size::of(16, 8),
    Size::of(16, 64),
    Size::of(16, 256),
    Size::of(64, 8),
    Size::of(64, 64),
    Size::of(64, 256),
];

/// The sizes that are shown in full.
pub const GROWING: [Size; 3] = [Size::of(4, 8), Size::of(16, 64), Size::of(64, 256)];

pub const STEPS: usize = 4096;

/// The fewest places that a list of a chain may have.
const PLACES: usize = 256;

/// How many ticks a sleep has in which a duty comes back.
const TICKS: usize = 10_000;

/// What the cases of one size are made of.
pub struct Input {
    pub size: Size,
    table: Vec<u8>,
    rejected: Vec<u8>,
    firm: Vec<u8>,
    waiting: Vec<u8>,
    ladder: Vec<u8>,
    blocked: Vec<u8>,
    returning: Vec<u8>,
    quiet: Vec<u8>,
    still: Vec<u8>,
    away: Vec<u8>,
    one_due: Vec<u8>,
    chain: Vec<u8>,
    two_due: Vec<u8>,
    old: Vec<u8>,
    steps: Vec<u8>,
    repeats: Vec<u8>,
    buffer: Vec<u8>,
    list: Vec<u16>,
    /// Room for every event at every tick.
    ample: Vec<u32>,
    /// Room for an event at every tenth tick.
    scant: Vec<u32>,
}

impl Input {
    pub fn of(size: Size) -> Input {
        Input {
            size,
            table: table_image(&sized::table(size)),
            rejected: table_image(&sized::rejected_table(size)),
            firm: table_image(&sized::firm_table(size)),
            waiting: table_image(&sized::waiting_table(size)),
            ladder: table_image(&sized::ladder_table(size)),
            blocked: table_image(&sized::blocked_table(size)),
            returning: table_image(&sized::returning_table(size)),
            quiet: marking_image(&sized::quiet(size)),
            still: marking_image(&sized::still(size)),
            away: marking_image(&sized::away(size)),
            one_due: marking_image(&sized::one_due(size)),
            chain: marking_image(&sized::chain(size)),
            two_due: marking_image(&sized::two_due(size)),
            old: old_marking_image(&sized::quiet(size)),
            steps: sized::steps(size, STEPS),
            repeats: sized::repeats(size, STEPS),
            buffer: vec![0; STEPS],
            list: vec![0; PLACES],
            ample: vec![0; 64 * TICKS],
            scant: vec![0; TICKS / 10],
        }
    }
}

/// The runner's case as a question of the bench, over bytes or over a list of steps,
/// with room for so many answers.
pub fn run(size: Size, over_bytes: bool, room: usize) -> Question {
    let pair = Pair {
        table: Box::new(sized::table(size)),
        marking: Box::new(sized::quiet(size)),
    };
    let (steps, answers) = (sized::steps(size, STEPS), vec![0; room]);
    if over_bytes {
        return Question::RunBytes {
            pair,
            steps,
            answers,
        };
    }
    let list = steps.chunks_exact(2).map(|step| Step {
        kind: step[0],
        event: step[1],
    });
    Question::Run {
        pair,
        steps: list.collect(),
        answers,
    }
}

pub struct Case {
    pub name: &'static str,
    /// How many calls are counted: many of a short one, so that a difference by one evens out.
    pub times: usize,
    /// Makes so many calls on one side.
    pub run: fn(&mut Input, &dyn Calls, usize) -> u64,
}

const SLEEP_QUIET: Case = case("sleep, quiet", |i, side, n| {
    side.sleep(&i.table, &i.still, 1_000_000, &mut [], n)
});

const SLEEP_EVERY_TENTH: Case = Case {
    name: "sleep, every tenth",
    times: 1,
    run: |i, side, n| side.sleep(&i.returning, &i.one_due, TICKS, &mut i.ample, n),
};

const SLEEP_COUNTED: Case = Case {
    name: "sleep, every tenth, counted",
    times: 1,
    run: |i, side, n| side.sleep(&i.returning, &i.one_due, TICKS, &mut i.scant, n),
};

pub const CASES: [Case; 31] = [
    case("read_table", |i, side, n| side.read_table(&mut i.table, n)),
    case("write_table", |i, side, n| {
        side.write_table(&i.table, &mut i.buffer, n)
    }),
    case("read_marking", |i, side, n| {
        side.read_marking(i.size.events, &mut i.quiet, n)
    }),
    case("write_marking", |i, side, n| {
        side.write_marking(i.size.events, &i.quiet, &mut i.buffer, n)
    }),
    case("carry_marking", |i, side, n| {
        side.carry_marking(i.size.events, &mut i.old, &mut i.buffer, n)
    }),
    case("fresh", |_, side, n| side.fresh(n)),
    case("judge_table", |i, side, n| side.judge_table(&i.table, n)),
    case("judge_marking", |i, side, n| {
        side.judge_marking(i.size.events, &i.quiet, n)
    }),
    case("enabled", |i, side, n| side.enabled(&i.table, &i.quiet, n)),
    case("hold_up", |i, side, n| side.hold_up(&i.table, &i.quiet, n)),
    case("hold_up, enabled unless", |i, side, n| {
        side.hold_up(&i.waiting, &i.away, n)
    }),
    case("chain, ladder", |i, side, n| {
        side.chain(&i.ladder, &i.quiet, 0, &mut i.list, n)
    }),
    case("chain, one event", |i, side, n| {
        side.chain(&i.blocked, &i.quiet, 0, &mut i.list, n)
    }),
    case("margin", |i, side, n| side.margin(&i.table, &i.quiet, n)),
    case("margin, ignored", |i, side, n| {
        side.margin(&i.waiting, &i.away, n)
    }),
    case("due", |i, side, n| side.due(&i.table, &i.quiet, n)),
    case("happen", |i, side, n| {
        side.happen(&i.table, &i.quiet, i.size.events - 1, n)
    }),
    case("plain_tick", |i, side, n| {
        side.plain_tick(&i.table, &i.quiet, n)
    }),
    case("closure", |i, side, n| side.closure(&i.table, &i.quiet, n)),
    case("check, accepts", |i, side, n| {
        side.check(&i.table, &i.quiet, n)
    }),
    case("check, rejects", |i, side, n| {
        side.check(&i.rejected, &i.quiet, n)
    }),
    case("guarded_tick, quiet", |i, side, n| {
        side.guarded_tick(&i.table, &i.quiet, n)
    }),
    case("guarded_tick, one due", |i, side, n| {
        side.guarded_tick(&i.table, &i.one_due, n)
    }),
    case("guarded_tick, chain", |i, side, n| {
        side.guarded_tick_again(&i.table, &i.chain, n)
    }),
    SLEEP_QUIET,
    SLEEP_EVERY_TENTH,
    SLEEP_COUNTED,
    case("quiet", |i, side, n| side.quiet(&i.table, &i.quiet, n)),
    case("remedies", |i, side, n| {
        side.remedies(&i.table, &i.two_due, &sized::PREFERRED, &sized::FALLBACK, n)
    }),
    Case {
        name: "run_bytes, 4096 steps",
        times: 1,
        run: |i, side, n| side.run_bytes(&i.table, &i.quiet, &i.steps, &mut i.buffer, n),
    },
    Case {
        name: "run_bytes, firm, 4096 steps",
        times: 1,
        run: |i, side, n| side.run_bytes(&i.firm, &i.quiet, &i.repeats, &mut i.buffer, n),
    },
];

/// Those that are held against each other, or each against the baseline, with such as
/// stand in no table.
pub const COMPARED: [Case; 5] = [
    SLEEP_QUIET,
    case("sleep, quiet, 1000 ticks", |i, side, n| {
        side.sleep(&i.table, &i.still, 1000, &mut [], n)
    }),
    case("guarded_tick, the same", |i, side, n| {
        side.guarded_tick_again(&i.table, &i.still, n)
    }),
    SLEEP_EVERY_TENTH,
    SLEEP_COUNTED,
];

const fn case(name: &'static str, run: fn(&mut Input, &dyn Calls, usize) -> u64) -> Case {
    Case {
        name,
        times: 64,
        run,
    }
}

#[cfg(test)]
mod tests {
    use super::*;
    use crate::baseline::Baseline;
    use std::collections::BTreeSet;

    /// Or two sides might come to the same without making the calls.
    #[test]
    fn each_call_more_comes_to_another_sum() {
        for size in SIZES {
            let mut input = Input::of(size);
            for case in &CASES {
                let sums = (0..4).map(|times| (case.run)(&mut input, &Baseline, times));
                let name = case.name;
                assert_eq!(sums.collect::<BTreeSet<u64>>().len(), 4, "{name}, {size:?}");
            }
        }
    }
}
