//! `measure alike` has both sides make each case's calls and compares their sums;
//! `measure costs WORD..` prints what a call costs on both sides, in instructions
//! and in nanoseconds, and what the runners cost in the bench's program, which the
//! words run; `measure instructions` writes the proved side's as figures, and both
//! sides' of what is held against each other; `measure stack` reads a disassembly and
//! prints the stack that each exported call takes.

mod clock;
mod count;
mod proved;
mod table;
mod through;

use measure::baseline::Baseline;
use measure::calls::Calls;
use measure::cases::{Input, CASES, SIZES};
use measure::stack::{Program, CYCLES};
use proved::Proved;
use std::io::Read;
use std::process::ExitCode;

/// Every case of every size, so many calls on each side: what they come to.
fn alike() -> Result<(), String> {
    let mut compared = 0;
    for size in SIZES {
        let mut input = Input::of(size);
        for case in &CASES {
            let times = case.times.min(7);
            let sums =
                [&Proved as &dyn Calls, &Baseline].map(|side| (case.run)(&mut input, side, times));
            if sums[0] != sums[1] {
                let name = case.name;
                return Err(format!(
                    "{name}, {size:?}: proved {}, baseline {}",
                    sums[0], sums[1]
                ));
            }
            compared += 1;
        }
    }
    println!("measure: {compared} cases alike on both sides");
    Ok(())
}

fn costs(program: &[String]) -> Result<(), String> {
    alike()?;
    table::print("Instructions", &count::all()?);
    table::print_through(&through::rows(program)?);
    table::print("Nanoseconds", &clock::all());
    Ok(())
}

fn instructions() -> Result<(), String> {
    println!("{}\n{}", count::proved()?, count::compared()?);
    Ok(())
}

fn stack() -> Result<(), String> {
    let mut text = String::new();
    let read = std::io::stdin().read_to_string(&mut text);
    read.map_err(|error| error.to_string())?;
    println!("| call | bytes | deepest way |\n|---|---:|---|");
    for depth in Program::read(&text, &CYCLES)?.depths()? {
        let way = depth.way.join(", ");
        println!("| {} | {} | {way} |", depth.call, depth.bytes);
    }
    Ok(())
}

fn main() -> ExitCode {
    let words: Vec<String> = std::env::args().skip(1).collect();
    let (mode, rest) = words.split_first().unzip();
    let told = match (mode.map(String::as_str), rest.unwrap_or(&[])) {
        (Some("alike"), []) => alike(),
        (Some("costs"), program) if !program.is_empty() => costs(program),
        (Some("instructions"), []) => instructions(),
        (Some("counted"), [plan]) => count::run(plan),
        (Some("stack"), []) => stack(),
        _ => Err("usage: measure (alike | costs WORD.. | instructions | stack)".to_string()),
    };
    match told {
        Ok(()) => ExitCode::SUCCESS,
        Err(error) => {
            eprintln!("measure: {error}");
            ExitCode::FAILURE
        }
    }
}
