//! Nanoseconds that the processor works for this thread: the two sides take turns,
//! and of each the best turn counts. Other programs on the machine then hardly
//! matter, also in a turn that is longer than the time between two switches.

use crate::proved::Proved;
use crate::table::Cost;
use measure::baseline::Baseline;
use measure::calls::Calls;
use measure::cases::{Case, Input, CASES, SIZES};
use std::hint::black_box;

const TURNS: usize = 25;
/// What a turn is to take at least, in nanoseconds.
const TURN: f64 = 400_000.0;

#[repr(C)]
struct Time {
    seconds: i64,
    nanoseconds: i64,
}

extern "C" {
    fn clock_gettime(clock: i32, time: *mut Time) -> i32;
}

/// The time that this thread has had, on Linux with 64 bits.
fn now() -> f64 {
    const THREAD: i32 = 3;
    let mut time = Time {
        seconds: 0,
        nanoseconds: 0,
    };
    // SAFETY: the C library writes one time, to where it is lent.
    unsafe { clock_gettime(THREAD, &mut time) };
    time.seconds as f64 * 1e9 + time.nanoseconds as f64
}

fn took(case: &Case, input: &mut Input, side: &dyn Calls, times: usize) -> f64 {
    let start = now();
    black_box((case.run)(input, side, times));
    now() - start
}

/// How many calls take a turn's time.
fn enough(case: &Case, input: &mut Input, side: &dyn Calls) -> usize {
    let mut times = 1;
    while took(case, input, side, times) < TURN {
        times *= 2;
    }
    times
}

fn cost(case: &Case, input: &mut Input) -> [f64; 2] {
    let sides = [&Proved as &dyn Calls, &Baseline];
    let times = sides.map(|side| enough(case, input, side));
    let mut best = [f64::MAX; 2];
    for _ in 0..TURNS {
        for n in 0..2 {
            let each = took(case, input, sides[n], times[n]) / times[n] as f64;
            best[n] = best[n].min(each);
        }
    }
    best
}

pub fn all() -> Vec<Cost> {
    let mut costs = Vec::new();
    for size in SIZES {
        let mut input = Input::of(size);
        for case in &CASES {
            let [proved, baseline] = cost(case, &mut input);
            costs.push(Cost {
                name: case.name,
                size,
                proved,
                baseline,
                copying: None,
            });
        }
    }
    costs
}
