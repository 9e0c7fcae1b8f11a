//! What a call may take at most for what another one takes, or the baseline. Like the
//! ceilings these do not go up where the limits are written anew.

use crate::figures::{Section, COMPARED};

/// How many hundredths of what the other takes a call may take at most, and at which sizes.
struct Ratio {
    call: &'static str,
    most: u64,
    other: &'static str,
    sizes: &'static [&'static str],
}

const EACH: &[&str] = &["4×8", "16×64", "64×256"];
const LARGEST: &[&str] = &["64×256"];

/// A quiet sleep costs the same for any number of ticks, so neither may take more.
const RATIOS: [Ratio; 5] = [
    Ratio {
        call: "sleep, quiet",
        most: 100,
        other: "sleep, quiet, 1000 ticks",
        sizes: EACH,
    },
    Ratio {
        call: "sleep, quiet, 1000 ticks",
        most: 100,
        other: "sleep, quiet",
        sizes: EACH,
    },
    Ratio {
        call: "sleep, quiet",
        most: 110,
        other: "guarded_tick, the same",
        sizes: EACH,
    },
    Ratio {
        call: "sleep, every tenth",
        most: 135,
        other: "sleep, every tenth, baseline",
        sizes: LARGEST,
    },
    Ratio {
        call: "sleep, every tenth, counted",
        most: 135,
        other: "sleep, every tenth, counted, baseline",
        sizes: LARGEST,
    },
];

fn figure(compared: &Section, name: &str, size: &str) -> Option<u64> {
    let column = compared.columns.iter().position(|column| column == size)?;
    let row = compared.rows.iter().find(|row| row.name == name)?;
    row.figures.get(column).copied()
}

/// What is wrong by one ratio at one size. A figure that is not there is wrong too: its
/// case was renamed, and nothing would hold it.
fn by_one(compared: &Section, ratio: &Ratio, size: &str) -> Option<String> {
    let Ratio {
        call, most, other, ..
    } = ratio;
    let both = (figure(compared, call, size), figure(compared, other, size));
    let fault = match both {
        (Some(one), Some(whole)) if 100 * one <= most * whole => return None,
        (Some(one), Some(whole)) => format!("{one} is above {most}% of {whole}, {other}"),
        _ => format!("it, or {other}, is not measured"),
    };
    Some(format!("{COMPARED}: {call}, {size}: {fault}"))
}

/// What is wrong with what is compared, where it is measured.
pub fn faults(measured: &[Section]) -> Vec<String> {
    let mut faults = Vec::new();
    for section in measured.iter().filter(|s| s.heading == COMPARED) {
        for ratio in &RATIOS {
            let by = |size: &&str| by_one(section, ratio, size);
            faults.extend(ratio.sizes.iter().filter_map(by));
        }
    }
    faults
}

#[cfg(test)]
mod tests {
    use super::*;
    use crate::cases::GROWING;
    use crate::figures::read;

    /// Each ratio is reached, and passed where it does not hold.
    const FIGURES: &str = "compared | 4×8 | 16×64 | 64×256
sleep, quiet | 110 | 220 | 330
sleep, quiet, 1000 ticks | 110 | 220 | 330
guarded_tick, the same | 100 | 200 | 300
sleep, every tenth | 999 | 999 | 135
sleep, every tenth, baseline | 100 | 100 | 100
sleep, every tenth, counted | 999 | 999 | 270
sleep, every tenth, counted, baseline | 200 | 200 | 200
";

    /// What is said of the figures with one piece of their text changed.
    fn told(from: &str, to: &str) -> Vec<String> {
        assert!(FIGURES.contains(from));
        faults(&read(&FIGURES.replace(from, to)).expect("figures"))
    }

    #[test]
    fn the_sizes_are_those_that_are_shown_in_full() {
        assert_eq!(GROWING.map(|size| size.to_string()), EACH);
        assert_eq!(EACH[2..], *LARGEST);
    }

    #[test]
    fn a_ratio_may_be_reached() {
        assert_eq!(told("", ""), [""; 0]);
        assert_eq!(told("| 300", "| 301"), [""; 0]);
    }

    #[test]
    fn a_ratio_may_not_be_passed() {
        for (from, to, fault) in [
            (
                "quiet | 110 |",
                "quiet | 109 |",
                "sleep, quiet, 1000 ticks, 4×8: 110 is above 100% of 109, sleep, quiet",
            ),
            (
                "ticks | 110 | 220",
                "ticks | 110 | 219",
                "sleep, quiet, 16×64: 220 is above 100% of 219, sleep, quiet, 1000 ticks",
            ),
            (
                "| 300",
                "| 299",
                "sleep, quiet, 64×256: 330 is above 110% of 299, guarded_tick, the same",
            ),
            (
                "| 135",
                "| 136",
                "sleep, every tenth, 64×256: 136 is above 135% of 100, \
                 sleep, every tenth, baseline",
            ),
            (
                "| 270",
                "| 271",
                "sleep, every tenth, counted, 64×256: 271 is above 135% of 200, \
                 sleep, every tenth, counted, baseline",
            ),
        ] {
            assert_eq!(told(from, to), [format!("compared: {fault}")]);
        }
    }

    #[test]
    fn each_figure_of_a_ratio_is_there() {
        let fault = "compared: sleep, every tenth, 64×256: it, \
                     or sleep, every tenth, baseline, is not measured";
        assert_eq!(told("sleep, every tenth |", "tenth |"), [fault]);
        assert_eq!(told("sleep, every tenth, baseline", "baseline"), [fault]);
        assert_eq!(told("64×256", "64×64").len(), RATIOS.len());
    }

    #[test]
    fn only_what_is_compared_has_ratios() {
        assert_eq!(told("| 135", "| 999").len(), 1);
        let much = FIGURES.replace("| 135", "| 999");
        let others = much.replace("compared |", "instructions |");
        assert_eq!(faults(&read(&others).expect("figures")), [""; 0]);
    }
}
