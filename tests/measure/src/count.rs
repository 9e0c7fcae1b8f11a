//! Instructions, as valgrind's callgrind counts them: this program is run once
//! under it, and has it write down the count so far after each stretch of calls.

use crate::proved::Proved;
use crate::table::Cost;
use measure::baseline::Baseline;
use measure::calls::Calls;
use measure::cases::{Case, Input, CASES, COMPARED, GROWING, SIZES};
use measure::figures::{self, Row, Section};
use measure::sized::Size;
use std::collections::BTreeMap;
use std::hint::black_box;
use std::path::{Path, PathBuf};
use std::process::{Command, Stdio};

/// Callgrind writes the count down after each call of this.
#[no_mangle]
#[inline(never)]
extern "C" fn measure_mark() {
    black_box(());
}

/// What is counted: which cases, at which sizes, and of which sides.
pub struct Plan {
    name: &'static str,
    cases: &'static [Case],
    sizes: &'static [Size],
    sides: &'static [&'static (dyn Calls + Sync)],
}

/// Both sides, for the tables.
const BOTH: Plan = Plan {
    name: "both",
    cases: &CASES,
    sizes: &SIZES,
    sides: &[&Proved, &Baseline],
};

/// The proved side at the sizes that are shown in full, for the limits.
const PROVED: Plan = Plan {
    name: "proved",
    cases: &CASES,
    sizes: &GROWING,
    sides: &[&Proved],
};

/// Both sides of what is held against each other.
const COMPARING: Plan = Plan {
    name: "comparing",
    cases: &COMPARED,
    sizes: &GROWING,
    sides: &[&Proved, &Baseline],
};

/// The calls of a plan, under callgrind: each case with so many calls and with twice
/// as many.
pub fn run(plan: &str) -> Result<(), String> {
    let plans = [BOTH, PROVED, COMPARING];
    let plan = plans.into_iter().find(|p| p.name == plan);
    let plan = plan.ok_or("no such plan")?;
    for &size in plan.sizes {
        let mut input = Input::of(size);
        measure_mark();
        for case in plan.cases {
            for side in plan.sides {
                for times in [case.times, 2 * case.times] {
                    black_box((case.run)(&mut input, *side, times));
                    measure_mark();
                }
            }
        }
    }
    Ok(())
}

/// What callgrind has written down: all instructions, and those of the C library
/// that copy and clear.
#[derive(Clone, Copy, Default)]
struct Count {
    all: u64,
    copying: u64,
}

/// Callgrind's names: a name is told once, and then meant by its number.
#[derive(Default)]
struct Names(BTreeMap<String, bool>);

impl Names {
    /// Whether the function copies or clears: `(12) memcpy`, or `(12)`.
    fn copies(&mut self, word: &str) -> bool {
        let (number, name) = word.split_once(' ').unwrap_or((word, ""));
        if !name.is_empty() {
            let copies = ["memcpy", "memmove", "memset"]
                .iter()
                .any(|c| name.contains(c));
            self.0.insert(number.to_string(), copies);
        }
        self.0.get(number).copied().unwrap_or(false)
    }

    fn count(&mut self, text: &str) -> Count {
        let mut count = Count::default();
        let (mut copies, mut of_a_call) = (false, false);
        for line in text.lines() {
            if let Some(word) = line.strip_prefix("fn=") {
                copies = self.copies(word);
            } else if let Some(word) = line.strip_prefix("cfn=") {
                self.copies(word);
            } else if line.starts_with("calls=") {
                of_a_call = true;
            } else if let Some(cost) = line_cost(line) {
                // The line behind a call has what was called, which counts itself.
                if !of_a_call {
                    count.all += cost;
                    count.copying += if copies { cost } else { 0 };
                }
                of_a_call = false;
            }
        }
        count
    }
}

/// `+3 120`: a place, and the instructions there.
fn line_cost(line: &str) -> Option<u64> {
    let (place, cost) = line.split_once(' ')?;
    let placed = place
        .chars()
        .all(|c| c.is_ascii_digit() || "+-*".contains(c));
    cost.parse().ok().filter(|_| placed)
}

/// A folder that is there until this is dropped.
pub struct Folder(PathBuf);

impl Folder {
    pub fn new() -> Result<Folder, String> {
        let path = std::env::temp_dir().join(format!("measure-{}", std::process::id()));
        std::fs::create_dir(&path).map_err(|error| format!("{path:?}: {error}"))?;
        Ok(Folder(path))
    }

    pub fn file(&self, name: &str) -> PathBuf {
        self.0.join(name)
    }
}

impl Drop for Folder {
    fn drop(&mut self) {
        let _ = std::fs::remove_dir_all(&self.0);
    }
}

/// Callgrind, told to write down to this file.
pub fn callgrind(out: &Path) -> Command {
    // Callgrind counts each byte of a `rep stosb` as an instruction, so the C library is to go by vectors.
    let vectors = "glibc.cpu.x86_rep_movsb_threshold=65536:glibc.cpu.x86_rep_stosb_threshold=65536";
    let mut command = Command::new("valgrind");
    command
        .env("GLIBC_TUNABLES", vectors)
        .arg("--tool=callgrind")
        .arg(format!("--callgrind-out-file={}", out.display()))
        .stderr(Stdio::null());
    command
}

/// All instructions that a file of callgrind's has.
pub fn whole(file: &Path) -> Result<u64, String> {
    let text = std::fs::read_to_string(file).map_err(|error| format!("{file:?}: {error}"))?;
    Ok(Names::default().count(&text).all)
}

/// What one call of a case takes on one side.
#[derive(Clone, Copy)]
struct Each {
    all: f64,
    copying: f64,
}

/// By size, case and side.
fn counted(plan: &Plan) -> Result<Vec<Vec<Vec<Each>>>, String> {
    let program = std::env::current_exe().map_err(|error| error.to_string())?;
    let folder = Folder::new()?;
    let status = callgrind(&folder.file("out"))
        .arg("--dump-after=measure_mark")
        .arg(program)
        .args(["counted", plan.name])
        .status()
        .map_err(|error| format!("valgrind: {error}"))?;
    if !status.success() {
        return Err("valgrind failed".to_string());
    }
    let (mut number, mut names) = (0, Names::default());
    let mut next = || -> Result<Count, String> {
        number += 1;
        let file = folder.file(&format!("out.{number}"));
        let text = std::fs::read_to_string(&file).map_err(|error| format!("{file:?}: {error}"))?;
        Ok(names.count(&text))
    };
    let mut sizes = Vec::new();
    for _ in plan.sizes {
        next()?;
        let mut cases = Vec::new();
        for case in plan.cases {
            let mut sides = Vec::new();
            for _ in plan.sides {
                let (once, twice) = (next()?, next()?);
                let each = |once, twice| (twice as f64 - once as f64) / case.times as f64;
                sides.push(Each {
                    all: each(once.all, twice.all),
                    copying: each(once.copying, twice.copying),
                });
            }
            cases.push(sides);
        }
        sizes.push(cases);
    }
    Ok(sizes)
}

pub fn all() -> Result<Vec<Cost>, String> {
    let mut costs = Vec::new();
    for (&size, cases) in BOTH.sizes.iter().zip(counted(&BOTH)?) {
        for (case, sides) in CASES.iter().zip(cases) {
            costs.push(Cost {
                name: case.name,
                size,
                proved: sides[0].all,
                copying: Some(sides[0].copying),
                baseline: sides[1].all,
            });
        }
    }
    Ok(costs)
}

/// One side's figures of a case, a row of this name.
fn row(name: String, counted: &[Vec<Vec<Each>>], case: usize, side: usize) -> Row {
    let each = counted.iter().map(|cases| cases[case][side].all);
    Row {
        name,
        figures: each.map(|all| all.round() as u64).collect(),
    }
}

fn section(heading: String, plan: &Plan, rows: Vec<Row>) -> Section {
    Section {
        heading,
        columns: plan.sizes.iter().map(Size::to_string).collect(),
        rows,
    }
}

/// The proved side's, as figures.
pub fn proved() -> Result<Section, String> {
    let counted = counted(&PROVED)?;
    let names = PROVED.cases.iter().map(|case| case.name.to_string());
    let rows = names.enumerate().map(|(n, name)| row(name, &counted, n, 0));
    let heading = figures::instructions(std::env::consts::ARCH);
    Ok(section(heading, &PROVED, rows.collect()))
}

/// Both sides' of what is held against each other, as figures.
pub fn compared() -> Result<Section, String> {
    let counted = counted(&COMPARING)?;
    let mut rows = Vec::new();
    for (n, case) in COMPARING.cases.iter().enumerate() {
        rows.push(row(case.name.to_string(), &counted, n, 0));
        rows.push(row(format!("{}, baseline", case.name), &counted, n, 1));
    }
    Ok(section(figures::COMPARED.to_string(), &COMPARING, rows))
}
