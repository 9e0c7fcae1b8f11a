//! Numbers that were given once and are given no more. One that comes up fails a
//! run, also where the second implementation gives it too.

use std::fmt::Debug;

/// 9 was given where an event was of another class than the call.
pub const NEVER: [u8; 1] = [9];

/// What is wrong with the numbers that came up in a run, each with what gave it.
pub fn fault(seen: impl IntoIterator<Item = (&'static str, u8)>) -> Option<String> {
    let never = |(_, number): &(&str, u8)| NEVER.contains(number);
    let found = Vec::from_iter(seen.into_iter().filter(never));
    (!found.is_empty()).then(|| format!("a number came up that is given no more: {found:?}"))
}

/// The last line of a run in which all agrees, and how it exits: by what came up, by
/// what was wanted and did not, and else well.
pub fn agreed(
    tool: &str,
    seed: u64,
    seen: impl IntoIterator<Item = (&'static str, u8)>,
    missing: &[impl Debug],
    agree: String,
) -> (String, u8) {
    let (told, code) = match (fault(seen), missing) {
        (Some(fault), _) => (fault, 1),
        (None, []) => (agree, 0),
        (None, missing) => (format!("not compared: nothing gives {missing:?}"), 2),
    };
    (format!("{tool}: {told}, seed {seed}"), code)
}

#[cfg(test)]
mod tests {
    use super::*;

    #[test]
    fn each_of_them_is_a_fault_and_no_other_number_is() {
        for number in 0..=255 {
            let told = fault([("run", 0), ("happen", number)]);
            assert_eq!(told.is_some(), number == 9, "{number}");
        }
    }

    #[test]
    fn a_run_fails_by_what_came_up_and_else_by_what_did_not() {
        let ended = |number: u8, missing: &[u8]| {
            let agree = "5 agree".to_string();
            agreed("bench", 3, [("happen", number)], missing, agree)
        };
        let fault = fault([("happen", 9)]).expect("9 is given no more");
        assert_eq!(ended(9, &[8]), (format!("bench: {fault}, seed 3"), 1));
        assert_eq!(ended(10, &[8]).1, 2);
        assert_eq!(ended(10, &[]), ("bench: 5 agree, seed 3".to_string(), 0));
    }
}
