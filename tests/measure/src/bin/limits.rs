//! `limits stack FILE..` reads disassemblies, one of each archive, and writes the
//! stack that each exported call takes as figures. `limits hold LIMITS HEADER` holds
//! the figures on its standard input against the limits, against the ceilings, against
//! each other and against what the header tells, and exits 1 where one is not as it must
//! be, 3 where there are figures that the limits say nothing of. `limits write LIMITS
//! HEADER` writes them to the limits, but nothing where one is above its ceiling or its
//! ratio, and says what the header is to tell.

use measure::figures::{hold, read, renewed, Row, Section, Verdict, STACK};
use measure::stack::{Program, CYCLES};
use measure::{ceilings, header, ratios};
use std::io::Read;
use std::process::ExitCode;

const HEAD: &str = "\
# What the proved calls may cost: `tests/measure/run limits` holds them to it, `tests/measure/run limits --write` writes what it measures.
# Instructions of a call, of which a twentieth more is allowed, and bytes of stack at most. docs/BENCH.md says how both are measured.
# The calls for C, duty_.., have the stack alone, and include/duty.h tells it too. No stack passes tests/measure/src/ceilings.rs, and no
# call takes more for what another one takes, or the baseline, than tests/measure/src/ratios.rs says.
";

fn input() -> Result<String, String> {
    let mut text = String::new();
    let read = std::io::stdin().read_to_string(&mut text);
    read.map_err(|error| error.to_string())?;
    Ok(text)
}

fn text(file: &str) -> Result<String, String> {
    std::fs::read_to_string(file).map_err(|error| format!("{file}: {error}"))
}

/// A row for each call that an archive exports. Two archives have functions of the
/// same name that are not the same, so each is added up by itself.
fn rows(disassembly: &str) -> Result<Vec<Row>, String> {
    let depths = Program::read(disassembly, &CYCLES)?.depths()?;
    if depths.is_empty() {
        return Err("no exported call".to_string());
    }
    let rows = depths.into_iter().map(|depth| Row {
        name: depth.call,
        figures: vec![depth.bytes as u64],
    });
    Ok(rows.collect())
}

fn stack(files: &[&str]) -> Result<ExitCode, String> {
    let mut section = Section {
        heading: STACK.to_string(),
        columns: vec!["bytes".to_string()],
        rows: Vec::new(),
    };
    for file in files {
        let rows = rows(&text(file)?).map_err(|error| format!("{file}: {error}"))?;
        section.rows.extend(rows);
    }
    println!("{section}");
    Ok(ExitCode::SUCCESS)
}

fn limits(file: &str) -> Result<Vec<Section>, String> {
    read(&text(file)?).map_err(|error| format!("{file}: {error}"))
}

/// What is wrong whatever the limits say.
fn above(measured: &[Section]) -> Vec<String> {
    let mut faults = ceilings::faults(measured);
    faults.extend(ratios::faults(measured));
    faults
}

fn verdict(limits: &[Section], header: &str, measured: &[Section]) -> Verdict {
    let mut told = hold(limits, measured);
    told.faults.extend(above(measured));
    told.faults.extend(header::faults(header, measured));
    told
}

fn tell(faults: &[String]) {
    for fault in faults {
        println!("limits: {fault}");
    }
}

fn held(file: &str, header: &str) -> Result<ExitCode, String> {
    let told = verdict(&limits(file)?, &text(header)?, &read(&input()?)?);
    tell(&told.faults);
    for heading in &told.unheld {
        println!("limits: {heading}: not held, {file} has no figures for it");
    }
    println!("limits: {} figures are within {file}", told.within);
    Ok(match (told.faults.len(), told.unheld.len()) {
        (0, 0) => ExitCode::SUCCESS,
        (0, _) => ExitCode::from(3),
        _ => ExitCode::FAILURE,
    })
}

/// The text of the limits with what is measured in it; the faults where some of it is
/// above its ceiling or its ratio.
fn anew(old: Vec<Section>, measured: Vec<Section>) -> Result<String, Vec<String>> {
    let faults = above(&measured);
    if !faults.is_empty() {
        return Err(faults);
    }
    let mut text = HEAD.to_string();
    for section in renewed(old, measured) {
        text += &format!("\n{section}");
    }
    Ok(text)
}

fn written(file: &str, header: &str) -> Result<ExitCode, String> {
    let old = if std::path::Path::new(file).exists() {
        limits(file)?
    } else {
        Vec::new()
    };
    let measured = read(&input()?)?;
    tell(&header::faults(&text(header)?, &measured));
    let text = anew(old, measured).map_err(|faults| {
        tell(&faults);
        format!("{file} is not written")
    })?;
    std::fs::write(file, text).map_err(|error| format!("{file}: {error}"))?;
    println!("limits: {file} is written");
    Ok(ExitCode::SUCCESS)
}

fn main() -> ExitCode {
    let words: Vec<String> = std::env::args().skip(1).collect();
    let words: Vec<&str> = words.iter().map(String::as_str).collect();
    let told = match words[..] {
        ["stack", ref files @ ..] if !files.is_empty() => stack(files),
        ["hold", file, header] => held(file, header),
        ["write", file, header] => written(file, header),
        _ => Err(
            "usage: limits (stack FILE.. | hold LIMITS HEADER | write LIMITS HEADER)".to_string(),
        ),
    };
    told.unwrap_or_else(|error| {
        eprintln!("limits: {error}");
        ExitCode::FAILURE
    })
}

#[cfg(test)]
mod tests {
    use super::*;

    const MEASURED: &str = "stack | bytes
check | 14000
closure | 11000
chain | 26000
duty_run | 24000
";
    const TELLS: &str = "/*\n * Stack. Bytes:\n * duty_run 24,000\n */";
    const SLEEPS: &str = "
compared | 4×8 | 16×64 | 64×256
sleep, quiet | 9 | 9 | 9
sleep, quiet, 1000 ticks | 9 | 9 | 9
guarded_tick, the same | 9 | 9 | 9
sleep, every tenth | 9 | 9 | 9
sleep, every tenth, baseline | 9 | 9 | 9
sleep, every tenth, counted | 9 | 9 | 9
sleep, every tenth, counted, baseline | 9 | 9 | 9
";
    const TOO_MUCH: &str =
        "compared: sleep, quiet, 4×8: 9 is above 110% of 8, guarded_tick, the same";

    fn figures(text: &str) -> Vec<Section> {
        read(text).expect("figures")
    }

    fn faults(limits: &str, header: &str, measured: &str) -> Vec<String> {
        verdict(&figures(limits), header, &figures(measured)).faults
    }

    #[test]
    fn the_limits_the_ceilings_and_the_header_all_hold() {
        assert_eq!(faults(MEASURED, TELLS, MEASURED), [""; 0]);
        let limit = MEASURED.replace("24000", "23999");
        let above = "stack: duty_run, bytes: 24000 is above 23999";
        assert_eq!(faults(&limit, TELLS, MEASURED), [above]);
        let other = TELLS.replace("24,000", "24,008");
        let differs = "header: duty_run: 24,008 is told, 24,000 is measured";
        assert_eq!(faults(MEASURED, &other, MEASURED), [differs]);
        // A limit above the ceiling allows nothing.
        let much = MEASURED.replace("14000", "15000");
        let above = "stack: check: 15000 is above the ceiling of 14336";
        assert_eq!(faults(&much, TELLS, &much), [above]);
    }

    /// What is measured, with sleeps, where a guarded tick takes so much.
    fn with_sleeps(guarded_tick: u64) -> String {
        let row = format!("same | {guarded_tick} |");
        MEASURED.to_string() + &SLEEPS.replace("same | 9 |", &row)
    }

    #[test]
    fn the_ratios_hold() {
        assert_eq!(faults(MEASURED, TELLS, &with_sleeps(9)), [""; 0]);
        assert_eq!(faults(MEASURED, TELLS, &with_sleeps(8)), [TOO_MUCH]);
    }

    #[test]
    fn what_is_measured_is_written_and_the_rest_stays() {
        let old = "stack | bytes\ndue | 7\n\ninstructions on x86_64 | 4×8\ndue | 9\n";
        let text = anew(figures(old), figures(MEASURED)).expect("below the ceilings");
        assert!(text.starts_with(HEAD));
        let new = [figures(MEASURED), figures(old)[1..].to_vec()].concat();
        assert_eq!(figures(&text), new);
    }

    #[test]
    fn nothing_above_a_ceiling_is_written() {
        let much = MEASURED.replace("24000", "24577");
        let told = "stack: duty_run: 24577 is above the ceiling of 24576";
        assert_eq!(
            anew(Vec::new(), figures(&much)),
            Err(vec![told.to_string()])
        );
    }

    #[test]
    fn what_is_compared_is_not_written() {
        let text = anew(Vec::new(), figures(&with_sleeps(9))).expect("within the ratios");
        assert_eq!(figures(&text), figures(MEASURED));
    }

    #[test]
    fn nothing_above_a_ratio_is_written() {
        let much = figures(&with_sleeps(8));
        assert_eq!(anew(Vec::new(), much), Err(vec![TOO_MUCH.to_string()]));
    }

    #[test]
    fn an_archive_exports_a_call() {
        let code = "0000000000000000 <duty_one>:\n   0:\tsub    $0x20,%rsp\n";
        let row = Row {
            name: "duty_one".to_string(),
            figures: vec![8 + 0x20],
        };
        assert_eq!(rows(code), Ok(vec![row]));
        assert!(rows(&code.replace("duty_one", "one")).is_err());
    }
}
