//! Figures as text, and measured ones held against those that are allowed. A
//! section is a heading and its columns, then a line for each row, the cells apart
//! by bars; an empty line ends it, and a line that starts with `#` says nothing.

use std::fmt;

#[derive(Clone, PartialEq, Eq, Debug)]
pub struct Section {
    pub heading: String,
    pub columns: Vec<String>,
    pub rows: Vec<Row>,
}

#[derive(Clone, PartialEq, Eq, Debug)]
pub struct Row {
    pub name: String,
    pub figures: Vec<u64>,
}

/// The heading of what a call takes of the stack, in bytes.
pub const STACK: &str = "stack";

/// The calls of the measured stack and their bytes; none where it is not measured.
pub fn stack(measured: &[Section]) -> Option<Vec<(&str, u64)>> {
    let section = measured.iter().find(|section| section.heading == STACK)?;
    let mut calls = Vec::new();
    for row in &section.rows {
        calls.extend(row.figures.iter().map(|&bytes| (row.name.as_str(), bytes)));
    }
    Some(calls)
}

/// The heading of the instructions that calls take on such a machine.
pub fn instructions(machine: &str) -> String {
    format!("instructions on {machine}")
}

/// The heading of the instructions that are held against each other, and to no limits.
pub const COMPARED: &str = "compared";

fn has_limits(section: &Section) -> bool {
    section.heading != COMPARED
}

impl fmt::Display for Section {
    fn fmt(&self, out: &mut fmt::Formatter) -> fmt::Result {
        writeln!(out, "{} | {}", self.heading, self.columns.join(" | "))?;
        for row in &self.rows {
            let figures: Vec<String> = row.figures.iter().map(u64::to_string).collect();
            writeln!(out, "{} | {}", row.name, figures.join(" | "))?;
        }
        Ok(())
    }
}

/// The first cell of a line, and the others.
fn cells(line: &str) -> Option<(String, Vec<&str>)> {
    let mut cells = line.split('|').map(str::trim);
    let first = cells.next()?.to_string();
    Some((first, cells.collect()))
}

fn row(line: &str, columns: usize) -> Option<Row> {
    let (name, cells) = cells(line)?;
    let figures: Vec<u64> = cells.iter().map_while(|cell| cell.parse().ok()).collect();
    (cells.len() == columns && figures.len() == columns).then_some(Row { name, figures })
}

pub fn read(text: &str) -> Result<Vec<Section>, String> {
    let mut sections: Vec<Section> = Vec::new();
    let mut open = false;
    for line in text.lines().filter(|line| !line.starts_with('#')) {
        if line.trim().is_empty() {
            open = false;
            continue;
        }
        let unread = || format!("this line is no figure: {line}");
        match sections.last_mut().filter(|_| open) {
            Some(section) => {
                let row = row(line, section.columns.len()).ok_or_else(unread)?;
                section.rows.push(row);
            }
            None => {
                let (heading, columns) = cells(line).ok_or_else(unread)?;
                // Of two, only one would be held, and only one written.
                if sections.iter().any(|section| section.heading == heading) {
                    return Err(format!("two sections have this heading: {heading}"));
                }
                sections.push(Section {
                    heading,
                    columns: columns.into_iter().map(str::to_string).collect(),
                    rows: Vec::new(),
                });
                open = true;
            }
        }
    }
    Ok(sections)
}

/// What is said of measured figures, a line for each.
#[derive(Default, PartialEq, Eq, Debug)]
pub struct Verdict {
    /// How many figures are within what is allowed.
    pub within: usize,
    /// What is not.
    pub faults: Vec<String>,
    /// The headings under which nothing is allowed or forbidden.
    pub unheld: Vec<String>,
}

fn hold_row(heading: &str, columns: &[String], limits: &Row, measured: &Row, told: &mut Verdict) {
    // The stack is known to the byte; instructions may be a twentieth more.
    let (part, above) = if heading == STACK {
        (0, "above")
    } else {
        (1, "more than a twentieth above")
    };
    let figures = limits.figures.iter().zip(&measured.figures);
    for ((&limit, &figure), column) in figures.zip(columns) {
        if figure <= limit + part * limit / 20 {
            told.within += 1;
        } else {
            let name = &measured.name;
            let fault = format!("{heading}: {name}, {column}: {figure} is {above} {limit}");
            told.faults.push(fault);
        }
    }
}

fn hold_section(limits: &Section, measured: &Section, told: &mut Verdict) {
    let heading = &measured.heading;
    if limits.columns != measured.columns {
        told.faults.push(format!("{heading}: other columns"));
        return;
    }
    for row in &measured.rows {
        match limits.rows.iter().find(|limit| limit.name == row.name) {
            Some(limit) => hold_row(heading, &limits.columns, limit, row, told),
            None => {
                let fault = format!("{heading}: {} has no limit", row.name);
                told.faults.push(fault);
            }
        }
    }
    for limit in &limits.rows {
        if !measured.rows.iter().any(|row| row.name == limit.name) {
            let fault = format!("{heading}: {} has a limit and is not measured", limit.name);
            told.faults.push(fault);
        }
    }
}

pub fn hold(limits: &[Section], measured: &[Section]) -> Verdict {
    let mut told = Verdict::default();
    for section in measured.iter().filter(|section| has_limits(section)) {
        match limits.iter().find(|limit| limit.heading == section.heading) {
            Some(limit) => hold_section(limit, section, &mut told),
            None => told.unheld.push(section.heading.clone()),
        }
    }
    told
}

/// The limits with the measured sections in place of those of the same heading.
/// What cannot be measured on this machine stays.
pub fn renewed(limits: Vec<Section>, measured: Vec<Section>) -> Vec<Section> {
    let mut all = limits;
    for section in measured.into_iter().filter(has_limits) {
        match all.iter_mut().find(|old| old.heading == section.heading) {
            Some(old) => *old = section,
            None => all.push(section),
        }
    }
    all
}

#[cfg(test)]
mod tests {
    use super::*;

    const LIMITS: &str = "# What is allowed.
instructions on x86_64 | 4×8 | 16×64
check, accepts | 100 | 1000
due | 40 | 19

stack | bytes
check | 100
";

    fn limits() -> Vec<Section> {
        read(LIMITS).expect("figures")
    }

    /// What is said of the limits with one piece of their text changed.
    fn told(from: &str, to: &str) -> Verdict {
        assert!(LIMITS.contains(from));
        hold(
            &limits(),
            &read(&LIMITS.replace(from, to)).expect("figures"),
        )
    }

    fn fault(from: &str, to: &str) -> String {
        let told = told(from, to);
        assert_eq!((told.faults.len(), told.unheld.len()), (1, 0), "{told:?}");
        told.faults[0].clone()
    }

    #[test]
    fn figures_are_read_as_they_are_written() {
        let sections = limits();
        assert_eq!(sections.len(), 2);
        assert_eq!(sections[0].heading, instructions("x86_64"));
        assert_eq!(sections[1].heading, STACK);
        assert_eq!(sections[0].rows[0].figures, [100, 1000]);
        let written: Vec<String> = sections.iter().map(Section::to_string).collect();
        assert_eq!(read(&written.join("\n")), Ok(sections));
    }

    #[test]
    fn what_is_no_figure_is_refused() {
        for line in ["check | 100 | 200", "check", "check | much"] {
            assert!(
                read(&LIMITS.replace("check | 100\n", line)).is_err(),
                "{line}"
            );
        }
    }

    #[test]
    fn a_heading_stands_once() {
        let twice = LIMITS.replace(
            "instructions on x86_64 | 4×8 | 16×64",
            "stack | 4×8 | 16×64",
        );
        let told = "two sections have this heading: stack";
        assert_eq!(read(&twice), Err(told.to_string()));
    }

    #[test]
    fn the_stack_is_told_apart() {
        assert_eq!(stack(&limits()), Some(vec![("check", 100)]));
        assert_eq!(stack(&limits()[..1]), None);
    }

    #[test]
    fn instructions_may_be_a_twentieth_more() {
        assert_eq!(told("| 100 |", "| 105 |").within, 5);
        assert_eq!(told("| 100 |", "| 1 |").within, 5);
        let fault = fault("| 100 |", "| 106 |");
        let whole =
            "instructions on x86_64: check, accepts, 4×8: 106 is more than a twentieth above 100";
        assert_eq!(fault, whole);
        assert_eq!(told("| 100 |", "| 106 |").within, 4);
        // A twentieth of less than 20 is nothing.
        assert!(!told("| 19", "| 20").faults.is_empty());
    }

    #[test]
    fn the_stack_may_not_be_more() {
        assert_eq!(told("check | 100\n", "check | 99\n").within, 5);
        let fault = fault("check | 100\n", "check | 101\n");
        assert_eq!(fault, "stack: check, bytes: 101 is above 100");
    }

    #[test]
    fn each_call_has_a_limit_and_each_limit_a_call() {
        let new = "due | 40 | 19\nlowest | 1 | 1";
        assert!(fault("due | 40 | 19", new).contains("lowest has no limit"));
        assert!(fault("due | 40 | 19\n", "").contains("due has a limit"));
        assert!(fault("| 4×8 |", "| 4×4 |").contains("other columns"));
    }

    #[test]
    fn what_has_no_limits_is_told_apart() {
        let told = told("x86_64", "aarch64");
        assert_eq!(told.unheld, [instructions("aarch64")]);
        assert_eq!((told.within, told.faults.len()), (1, 0));
    }

    #[test]
    fn what_is_compared_has_no_limits() {
        let compared = read("compared | 4×8\nsleep, quiet | 7\n").expect("figures");
        assert_eq!(hold(&limits(), &compared), Verdict::default());
        assert_eq!(renewed(limits(), compared), limits());
    }

    #[test]
    fn new_figures_take_the_place_of_those_that_were_measured_again() {
        let measured = "instructions on aarch64 | 4×8\ndue | 7\n\nstack | bytes\ndue | 8\n";
        let measured = read(measured).expect("figures");
        let all = renewed(limits(), measured.clone());
        let old = limits();
        assert_eq!(
            all,
            [old[0].clone(), measured[1].clone(), measured[0].clone()]
        );
    }
}
