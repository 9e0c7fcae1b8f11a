//! The mode that runs the station program, tried on a program that agrees and
//! on some that do not.

use bench::station::{run, Difference, Tally};

fn verdict(fault: &[&str]) -> Result<Tally, Box<Difference>> {
    let mut words = vec![env!("CARGO_BIN_EXE_stand-in").to_string()];
    words.extend(fault.iter().map(|word| word.to_string()));
    run(&words, 60, 1).expect("the program runs")
}

#[test]
fn a_station_that_agrees_is_granted() {
    let tally = verdict(&[]).expect("no difference");
    assert!(tally.inputs > 60);
    assert!(tally.missing().is_empty());
}

#[test]
fn a_station_with_a_fault_is_reported() {
    assert!(verdict(&["late"]).is_err());
    assert!(verdict(&["long"]).is_err());
}

#[test]
fn a_station_that_reads_one_piece_is_reported() {
    let difference = verdict(&["early"]).err().expect("it differs");
    // One read has room for this input: it did not get all the pieces.
    assert!(difference.input.len() < 20_000);
    assert!(!difference.ends.is_empty());
}

#[test]
fn a_program_that_fails_is_no_comparison() {
    assert!(run(&["false".to_string()], 1, 1).is_err());
}
