//! The stack that the header for C tells, held to what is measured. It stands in the
//! header's first comment, in the paragraph `Stack.`, on the lines that begin with a
//! call: calls and their bytes in turn, `duty_run 31,200`, or several calls of the
//! same bytes, `duty_size, duty_lowest 8`.

use crate::figures::{stack, Section};
use std::collections::BTreeMap;

/// What the name of each call for C begins with.
const FOR_C: &str = "duty_";

/// The paragraph's lines, without the comment's stars.
fn paragraph(header: &str) -> impl Iterator<Item = &str> {
    let comment = header.split("*/").next().unwrap_or(header);
    comment
        .lines()
        .map(|line| line.trim_start_matches([' ', '*']))
        .skip_while(|line| !line.starts_with("Stack."))
        .take_while(|line| !line.trim().is_empty())
}

/// A number with commas between its thousands: `31,232`.
fn grouped(number: u64) -> String {
    match number / 1000 {
        0 => number.to_string(),
        thousands => format!("{},{:03}", grouped(thousands), number % 1000),
    }
}

/// Only as it would be written: a comma too much may be a digit too few.
fn number(word: &str) -> Option<u64> {
    let number = word.replace(',', "").parse().ok()?;
    (grouped(number) == word).then_some(number)
}

/// A call's name, and whether another one with the same bytes comes behind it.
fn call(word: &str) -> Result<(&str, bool), String> {
    let name = word.strip_suffix(',').unwrap_or(word);
    if !name.starts_with(FOR_C) {
        return Err(format!("header: {word} stands where a call is to be told"));
    }
    Ok((name, name != word))
}

/// The calls that the header tells, and the bytes of each.
fn told(header: &str) -> Result<BTreeMap<&str, u64>, String> {
    let mut told = BTreeMap::new();
    // The calls whose bytes are to come, and whether another call comes before them.
    let (mut calls, mut another) = (Vec::new(), true);
    let lines = paragraph(header).filter(|line| line.starts_with(FOR_C));
    for word in lines.flat_map(str::split_whitespace) {
        if another {
            let (name, more) = call(word)?;
            calls.push(name);
            another = more;
            continue;
        }
        let bytes = number(word).ok_or(format!("header: {word} is no number of bytes"))?;
        for call in calls.drain(..) {
            if told.insert(call, bytes).is_some() {
                return Err(format!("header: {call} is told twice"));
            }
        }
        another = true;
    }
    match calls[..] {
        [] => Ok(told),
        [call, ..] => Err(format!("header: {call} is told without its bytes")),
    }
}

/// What is wrong by one call that is measured.
fn by_one(told: &BTreeMap<&str, u64>, call: &str, bytes: u64) -> Option<String> {
    let told = match told.get(call) {
        Some(&told) if told == bytes => return None,
        Some(&told) => format!("{} is told", grouped(told)),
        None => "it is not told".to_string(),
    };
    Some(format!(
        "header: {call}: {told}, {} is measured",
        grouped(bytes)
    ))
}

/// What is wrong with what the header tells, where the stack is measured.
pub fn faults(header: &str, measured: &[Section]) -> Vec<String> {
    let Some(mut rows) = stack(measured) else {
        return Vec::new();
    };
    rows.retain(|row| row.0.starts_with(FOR_C));
    let mut told = match told(header) {
        Ok(told) => told,
        Err(fault) => return vec![fault],
    };
    let each = |row: &(&str, u64)| by_one(&told, row.0, row.1);
    let mut faults: Vec<String> = rows.iter().filter_map(each).collect();
    told.retain(|call, _| !rows.iter().any(|row| row.0 == *call));
    faults.extend(
        told.keys()
            .map(|call| format!("header: {call} is told and not measured")),
    );
    faults
}

#[cfg(test)]
mod tests {
    use super::*;
    use crate::figures::read;
    use std::collections::BTreeSet;

    const HEADER: &str = "/*
 * Answers. duty_judge 1 of them
 *
 * Stack. Bytes at most, 64 of them at least, as
 * measured: with duty_old 9 it was more.
 *     duty_run 1,031,200    duty_check 27,248
 *     duty_fresh 999        duty_size, duty_lowest 8
 *
 * duty_due 7
 */
duty_enabled 5
";

    const MEASURED: &str = "stack | bytes
check | 100
duty_run | 1031200
duty_check | 27248
duty_fresh | 999
duty_lowest | 8
duty_size | 8
";

    /// What is said of the header with one piece of its text changed.
    fn changed(from: &str, to: &str) -> Vec<String> {
        assert!(HEADER.contains(from));
        let measured = read(MEASURED).expect("figures");
        faults(&HEADER.replace(from, to), &measured)
    }

    #[test]
    fn what_is_measured_is_told() {
        assert_eq!(changed("", ""), [""; 0]);
        // The paragraph may also be the comment's last.
        assert_eq!(changed("\n *\n * duty_due 7", ""), [""; 0]);
    }

    #[test]
    fn another_figure_is_a_fault_above_and_below() {
        let fault = "header: duty_check: 27,249 is told, 27,248 is measured";
        assert_eq!(changed("27,248", "27,249"), [fault]);
        let fault = "header: duty_check: 27,247 is told, 27,248 is measured";
        assert_eq!(changed("27,248", "27,247"), [fault]);
        let both = ["duty_lowest", "duty_size"]
            .map(|call| format!("header: {call}: 16 is told, 8 is measured"));
        assert_eq!(changed("lowest 8", "lowest 16"), both);
    }

    #[test]
    fn each_measured_call_is_told_and_each_told_call_is_measured() {
        let fault = "header: duty_run: it is not told, 1,031,200 is measured";
        assert_eq!(changed("duty_run 1,031,200", ""), [fault]);
        let fault = "header: duty_due is told and not measured";
        assert_eq!(changed("999", "999 duty_due 7"), [fault]);
        // A call of Rattle's own is none of the header's.
        assert_eq!(changed("duty_check 27,248", "check 100").len(), 1);
        assert_eq!(changed("Stack.", "Heap.").len(), 5);
    }

    #[test]
    fn what_is_not_in_the_form_is_a_fault() {
        for (from, to, fault) in [
            ("27,248", "27248", "27248 is no number of bytes"),
            ("27,248", "27,24", "27,24 is no number of bytes"),
            ("999", "+999", "+999 is no number of bytes"),
            (
                "duty_size,",
                "duty_size",
                "duty_lowest is no number of bytes",
            ),
            (
                "999",
                "999 bytes",
                "bytes stands where a call is to be told",
            ),
            ("lowest 8", "lowest", "duty_size is told without its bytes"),
            ("999", "999 duty_run 1,031,200", "duty_run is told twice"),
        ] {
            assert_eq!(changed(from, to), [format!("header: {fault}")]);
        }
    }

    #[test]
    fn nothing_is_said_where_the_stack_is_not_measured() {
        let measured = MEASURED.replace("stack | bytes", "instructions | 4×8");
        let measured = read(&measured).expect("figures");
        assert_eq!(faults(&HEADER.replace("999", "998"), &measured), [""; 0]);
    }

    #[test]
    fn thousands_are_apart_by_commas() {
        for (bytes, text) in [
            (0, "0"),
            (999, "999"),
            (1000, "1,000"),
            (31_032, "31,032"),
            (1_000_000, "1,000,000"),
        ] {
            assert_eq!(grouped(bytes), text);
            assert_eq!(number(text), Some(bytes));
        }
        assert_eq!(["", ",", "1,00", "01,000", "1000"].map(number), [None; 5]);
    }

    /// `DUTY_CALL uint8_t duty_judge(..`
    fn declared(header: &str) -> BTreeSet<&str> {
        let words = header.lines().filter(|line| line.starts_with("DUTY_CALL "));
        words
            .filter_map(|line| line.split('(').next()?.rsplit(' ').next())
            .collect()
    }

    #[test]
    fn the_header_tells_the_calls_that_it_declares() {
        let header = include_str!("../../../include/duty.h");
        let told = told(header).expect("calls and bytes");
        assert_eq!(told.into_keys().collect::<BTreeSet<_>>(), declared(header));
    }
}
