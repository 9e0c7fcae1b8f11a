//! The calls that are compared: their numbers on the wire, and where their
//! cases come from. A new call is one line more.

use crate::edges;
use second::case::Case;
use second::generate;
use second::rng::Rng;

pub struct Call {
    pub number: u8,
    pub name: &'static str,
    /// A random case.
    pub case: fn(&mut Rng) -> Case,
    /// The cases at the limits, the same in every run.
    pub edges: fn() -> Vec<Case>,
}

const fn call(
    number: u8,
    name: &'static str,
    case: fn(&mut Rng) -> Case,
    edges: fn() -> Vec<Case>,
) -> Call {
    Call {
        number,
        name,
        case,
        edges,
    }
}

pub const CALLS: [Call; 25] = [
    call(
        1,
        "read_table",
        generate::read_table_case,
        edges::read_table,
    ),
    call(
        2,
        "read_marking",
        generate::read_marking_case,
        edges::read_marking,
    ),
    call(
        3,
        "write_marking",
        generate::write_marking_case,
        edges::write_marking,
    ),
    call(4, "fresh", generate::fresh_case, edges::fresh),
    call(
        5,
        "judge_table",
        generate::judge_table_case,
        edges::judge_table,
    ),
    call(
        6,
        "judge_marking",
        generate::judge_marking_case,
        edges::judge_marking,
    ),
    call(7, "size", generate::size_case, edges::size),
    call(8, "lowest", generate::lowest_case, edges::lowest),
    call(9, "enabled", generate::enabled_case, edges::enabled),
    call(10, "due", generate::due_case, edges::due),
    call(
        13,
        "plain_tick",
        generate::plain_tick_case,
        edges::plain_tick,
    ),
    call(14, "margin", generate::margin_case, edges::margin),
    call(15, "hold_up", generate::hold_up_case, edges::hold_up),
    call(16, "closure", generate::closure_case, edges::closure),
    call(17, "check", generate::check_case, edges::check),
    call(
        18,
        "guarded_tick",
        generate::guarded_tick_case,
        edges::guarded_tick,
    ),
    call(19, "remedies", generate::remedies_case, edges::remedies),
    call(20, "run", generate::run_case, edges::run),
    call(21, "run_bytes", generate::run_bytes_case, edges::run_bytes),
    call(
        22,
        "write_table",
        generate::write_table_case,
        edges::write_table,
    ),
    call(
        23,
        "carry_marking",
        generate::carry_marking_case,
        edges::carry_marking,
    ),
    call(24, "chain", generate::chain_case, edges::chain),
    call(25, "happen", generate::happen_case, edges::happen),
    call(26, "sleep", generate::sleep_case, edges::sleep),
    call(27, "quiet", generate::quiet_case, edges::quiet),
];

/// The numbers of calls that are gone: no other call gets one, and the answer is
/// empty. They are asked what the call is that took their place.
pub const RETIRED: [Call; 2] = [
    call(11, "retired", generate::happen_case, edges::happen),
    call(12, "retired", generate::happen_case, edges::happen),
];

/// The calls with these numbers, written as `1-6,9`; None if it is no such list.
pub fn chosen(words: &str) -> Option<Vec<&'static Call>> {
    let mut numbers = Vec::new();
    for word in words.split(',') {
        let (first, last) = word.split_once('-').unwrap_or((word, word));
        let first: u8 = first.parse().ok()?;
        let last: u8 = last.parse().ok()?;
        numbers.extend(first..=last);
    }
    numbers
        .iter()
        .map(|number| CALLS.iter().find(|call| call.number == *number))
        .collect()
}

#[cfg(test)]
mod tests {
    use super::*;

    fn numbers(words: &str) -> Option<Vec<u8>> {
        chosen(words).map(|calls| calls.iter().map(|call| call.number).collect())
    }

    #[test]
    fn calls_are_chosen_by_their_numbers() {
        assert_eq!(numbers("1-3,7"), Some(vec![1, 2, 3, 7]));
        assert_eq!(numbers("0"), None);
        assert_eq!(numbers("10-11"), None, "11 is retired");
        assert_eq!(numbers("x"), None);
    }

    #[test]
    fn each_call_makes_cases_of_its_own_name() {
        for call in &CALLS {
            let random = (call.case)(&mut Rng::new(1));
            assert_eq!(random.name(), call.name);
            assert!((call.edges)().iter().all(|case| case.name() == call.name));
        }
    }
}
