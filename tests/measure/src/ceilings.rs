//! The stack that no call may take, whatever the limits say: they are what was
//! measured once, and go up where it is written anew; these do not.

use crate::figures::{stack, Section};

/// The calls that are meant, where a star is any ending, and how many bytes each of
/// them may take at most.
const CEILINGS: [(&str, u64); 4] = [
    ("duty_*", 24 * 1024),
    ("chain", 26 * 1024),
    ("check", 14 * 1024),
    ("closure", 11 * 1024),
];

fn meant(calls: &str, name: &str) -> bool {
    calls
        .strip_suffix('*')
        .map_or(calls == name, |start| name.starts_with(start))
}

/// What is wrong by one ceiling. One that no call has is wrong too: its calls were
/// renamed, and nothing would hold them.
fn by_one(calls: &str, ceiling: u64, measured: &[(&str, u64)]) -> Vec<String> {
    let mut rows = measured.iter().filter(|row| meant(calls, row.0)).peekable();
    if rows.peek().is_none() {
        return vec![format!("stack: {calls} has a ceiling and is not measured")];
    }
    rows.filter(|row| row.1 > ceiling)
        .map(|(call, bytes)| format!("stack: {call}: {bytes} is above the ceiling of {ceiling}"))
        .collect()
}

/// What is wrong with the stack, where it is measured.
pub fn faults(measured: &[Section]) -> Vec<String> {
    let Some(rows) = stack(measured) else {
        return Vec::new();
    };
    let by = |(calls, ceiling)| by_one(calls, ceiling, &rows);
    CEILINGS.into_iter().flat_map(by).collect()
}

#[cfg(test)]
mod tests {
    use super::*;
    use crate::figures::read;

    /// Each ceiling is reached, and other calls are above all of them.
    const STACK: &str = "stack | bytes
run_bytes | 30000
check_all | 30000
duty_run | 24576
duty_size | 8
chain | 26624
check | 14336
closure | 11264
";

    /// What is said of the stack with one piece of its text changed.
    fn told(from: &str, to: &str) -> Vec<String> {
        assert!(STACK.contains(from));
        faults(&read(&STACK.replace(from, to)).expect("figures"))
    }

    #[test]
    fn a_ceiling_may_be_reached() {
        assert_eq!(told("", ""), [""; 0]);
    }

    #[test]
    fn a_ceiling_may_not_be_passed() {
        for (from, to, fault) in [
            (
                "24576",
                "24577",
                "duty_run: 24577 is above the ceiling of 24576",
            ),
            (
                "| 8",
                "| 24577",
                "duty_size: 24577 is above the ceiling of 24576",
            ),
            (
                "26624",
                "26625",
                "chain: 26625 is above the ceiling of 26624",
            ),
            (
                "14336",
                "14337",
                "check: 14337 is above the ceiling of 14336",
            ),
            (
                "11264",
                "11265",
                "closure: 11265 is above the ceiling of 11264",
            ),
        ] {
            assert_eq!(told(from, to), [format!("stack: {fault}")]);
        }
    }

    #[test]
    fn each_ceiling_has_a_call() {
        let fault = "stack: closure has a ceiling and is not measured";
        assert_eq!(told("closure", "closed"), [fault]);
        let fault = "stack: duty_* has a ceiling and is not measured";
        assert_eq!(told("duty_run | 24576\nduty_size | 8\n", ""), [fault]);
    }

    #[test]
    fn only_a_stack_that_is_measured_has_ceilings() {
        assert_eq!(told(" | 8", " | 99999").len(), 1);
        let much = STACK.replace(" | 8", " | 99999");
        let others = much.replace("stack | bytes", "instructions | 4×8");
        assert_eq!(faults(&read(&others).expect("figures")), [""; 0]);
    }
}
