//! Questions go out, answers come back in the same order, and each is held
//! against the second implementation's.

use crate::calls::{Call, RETIRED};
use crate::{shape, wire};
use second::case::{Answer, Case};
use second::rng::Rng;
use std::collections::BTreeMap;
use std::fmt;
use std::io::Read;

/// A call with its arguments and the answer that the second implementation gives.
#[derive(Clone)]
pub struct Question {
    pub call: &'static Call,
    pub payload: Vec<u8>,
    pub expected: Vec<u8>,
    /// 0 for done, else the refusal number.
    pub number: u8,
    /// The same of each step of a run that is done.
    pub steps: Vec<u8>,
    /// What the case has in it.
    pub shapes: Vec<&'static str>,
}

/// The answers to the steps of a run that is done. What is lent behind them stays.
fn step_numbers(case: &Case, answer: &Answer) -> Vec<u8> {
    let steps = match case {
        Case::Run { steps, .. } => steps.len(),
        Case::RunBytes { steps, .. } => steps.len() / 2,
        _ => 0,
    };
    match answer {
        Answer::Run { end, answers } if end.number == 0 => answers[..steps].to_vec(),
        _ => Vec::new(),
    }
}

impl Question {
    pub fn new(call: &'static Call, case: &Case) -> Question {
        Question::answered(call, case, &case.answer())
    }

    fn answered(call: &'static Call, case: &Case, answer: &Answer) -> Question {
        Question {
            call,
            payload: wire::payload(case),
            expected: wire::answer(case, answer),
            number: answer.number(),
            steps: step_numbers(case, answer),
            shapes: shape::of(case, answer),
        }
    }

    pub fn frame(&self) -> Vec<u8> {
        wire::frame(self.call.number, &self.payload)
    }

    pub fn answer_frame(&self) -> Vec<u8> {
        wire::answer_frame(&self.expected)
    }
}

/// The cases at the limits of each call.
pub fn edge_questions(calls: Vec<&'static Call>) -> impl Iterator<Item = Question> {
    calls.into_iter().flat_map(|call| {
        let cases = (call.edges)().into_iter();
        cases.map(move |case| Question::new(call, &case))
    })
}

/// Some cases for each retired number: whatever they hold, the answer is empty.
pub fn retired_questions() -> impl Iterator<Item = Question> {
    let asked = edge_questions(RETIRED.iter().collect()).step_by(97);
    asked.map(|question| Question {
        expected: Vec::new(),
        number: 0,
        shapes: Vec::new(),
        ..question
    })
}

/// So many random cases, the calls in turn.
pub fn random_questions(
    calls: Vec<&'static Call>,
    cases: usize,
    seed: u64,
) -> impl Iterator<Item = Question> {
    let mut rng = Rng::new(seed);
    (0..cases).map(move |turn| {
        let call = calls[turn % calls.len()];
        Question::new(call, &(call.case)(&mut rng))
    })
}

#[derive(PartialEq, Eq, Debug)]
pub enum Got {
    Answer(Vec<u8>),
    /// The output ended within the answer or before it.
    Nothing,
}

/// The next answer of the program.
pub fn next_answer(output: &mut impl Read) -> std::io::Result<Got> {
    let mut length = [0; 2];
    let mut answer = Vec::new();
    let mut whole = fill(output, &mut length)?;
    if whole {
        answer.resize(usize::from(u16::from_le_bytes(length)), 0);
        whole = fill(output, &mut answer)?;
    }
    Ok(if whole {
        Got::Answer(answer)
    } else {
        Got::Nothing
    })
}

/// Whether the output had enough to fill the buffer.
fn fill(output: &mut impl Read, buffer: &mut [u8]) -> std::io::Result<bool> {
    match output.read_exact(buffer) {
        Ok(()) => Ok(true),
        Err(error) if error.kind() == std::io::ErrorKind::UnexpectedEof => Ok(false),
        Err(error) => Err(error),
    }
}

#[derive(Debug)]
pub struct Difference {
    pub call: &'static str,
    pub payload: Vec<u8>,
    pub expected: Vec<u8>,
    pub got: Got,
}

impl fmt::Display for Difference {
    fn fmt(&self, out: &mut fmt::Formatter) -> fmt::Result {
        writeln!(out, "difference in {}", self.call)?;
        writeln!(out, "payload  {}", hex(&self.payload))?;
        writeln!(out, "expected {}", hex(&self.expected))?;
        match &self.got {
            Got::Answer(answer) => {
                writeln!(out, "got      {}", hex(answer))?;
                write!(
                    out,
                    "first differs at byte {}",
                    agreement(&self.expected, answer)
                )
            }
            Got::Nothing => write!(out, "got      no answer: the output ends"),
        }
    }
}

fn hex(bytes: &[u8]) -> String {
    bytes.iter().map(|byte| format!("{byte:02x}")).collect()
}

/// How many bytes are the same from the start.
fn agreement(one: &[u8], other: &[u8]) -> usize {
    one.iter().zip(other).take_while(|(a, b)| a == b).count()
}

/// The difference between the answer expected and the answer given, if any.
pub fn difference(question: Question, got: Got) -> Option<Difference> {
    if got == Got::Answer(question.expected.clone()) {
        return None;
    }
    Some(Difference {
        call: question.call.name,
        payload: question.payload,
        expected: question.expected,
        got,
    })
}

/// Of one call: how many cases there were, by their number for done or refusal,
/// and by what they have in them; and how many steps, by theirs.
#[derive(Default)]
struct Count {
    numbers: BTreeMap<u8, usize>,
    steps: BTreeMap<u8, usize>,
    shapes: BTreeMap<&'static str, usize>,
}

impl Count {
    fn cases(&self) -> usize {
        self.numbers.values().sum()
    }
}

#[derive(Default)]
pub struct Tally {
    counts: BTreeMap<(u8, &'static str), Count>,
}

impl Tally {
    pub fn add(&mut self, question: &Question) {
        let call = (question.call.number, question.call.name);
        let count = self.counts.entry(call).or_default();
        *count.numbers.entry(question.number).or_default() += 1;
        for step in &question.steps {
            *count.steps.entry(*step).or_default() += 1;
        }
        for shape in &question.shapes {
            *count.shapes.entry(shape).or_default() += 1;
        }
    }

    pub fn cases(&self) -> usize {
        self.counts.values().map(Count::cases).sum()
    }

    /// Every number that came up, and the call.
    pub fn numbers(&self) -> impl Iterator<Item = (&'static str, u8)> + '_ {
        self.counts.iter().flat_map(|((_, name), count)| {
            let all = count.numbers.keys().chain(count.steps.keys());
            all.map(move |number| (*name, *number))
        })
    }
}

/// How often each number came up.
fn times(numbers: &BTreeMap<u8, usize>) -> String {
    let each = |(number, times): (&u8, &usize)| format!("  {number} x {times}");
    numbers.iter().map(each).collect()
}

impl fmt::Display for Tally {
    fn fmt(&self, out: &mut fmt::Formatter) -> fmt::Result {
        for ((number, name), count) in &self.counts {
            let (cases, numbers) = (count.cases(), times(&count.numbers));
            writeln!(out, "{number:>2} {name:<14}{cases:>7} cases:{numbers}")?;
            if !count.steps.is_empty() {
                writeln!(out, "   steps:{}", times(&count.steps))?;
            }
            if count.shapes.is_empty() {
                continue;
            }
            let shapes: Vec<String> = count
                .shapes
                .iter()
                .map(|s| format!("{} {}", s.0, s.1))
                .collect();
            writeln!(out, "   {}", shapes.join(", "))?;
        }
        Ok(())
    }
}

/// Compares each question's answer with the program's until one differs.
/// Bytes after the last answer are a difference too.
pub fn compare(
    questions: impl Iterator<Item = Question>,
    output: &mut impl Read,
) -> std::io::Result<Result<Tally, Box<Difference>>> {
    let mut tally = Tally::default();
    for question in questions {
        tally.add(&question);
        let got = next_answer(output)?;
        if let Some(difference) = difference(question, got) {
            return Ok(Err(Box::new(difference)));
        }
    }
    let mut rest = Vec::new();
    output.read_to_end(&mut rest)?;
    if rest.is_empty() {
        return Ok(Ok(tally));
    }
    Ok(Err(Box::new(Difference {
        call: "no call: the program wrote more than its answers",
        payload: Vec::new(),
        expected: Vec::new(),
        got: Got::Answer(rest),
    })))
}

#[cfg(test)]
mod tests {
    use super::*;
    use crate::calls::{chosen, CALLS};
    use crate::never::fault;
    use std::collections::BTreeSet;

    fn some_questions() -> Vec<Question> {
        let calls = chosen("1-6").expect("six calls");
        let edges = edge_questions(calls).step_by(97);
        edges
            .chain(random_questions(CALLS.iter().collect(), 88, 5))
            .collect()
    }

    /// What a program writes that agrees with the second implementation.
    fn output(questions: &[Question]) -> Vec<u8> {
        questions.iter().flat_map(Question::answer_frame).collect()
    }

    fn verdict(questions: &[Question], output: &[u8]) -> Result<Tally, Box<Difference>> {
        compare(questions.iter().cloned(), &mut &output[..]).expect("a slice is read without error")
    }

    #[test]
    fn the_same_answers_agree() {
        let questions = some_questions();
        let tally = verdict(&questions, &output(&questions)).expect("no difference");
        assert_eq!(tally.cases(), questions.len());
    }

    #[test]
    fn a_corrupted_answer_is_reported() {
        let questions = some_questions();
        let right = output(&questions);
        // Every place of the first answers, lengths too, and some of the later ones.
        for place in (0..50).chain((50..right.len()).step_by(997)) {
            let mut corrupted = right.clone();
            corrupted[place] ^= 1;
            assert!(
                verdict(&questions, &corrupted).is_err(),
                "byte {place} of {}",
                right.len()
            );
        }
    }

    #[test]
    fn a_short_and_a_long_output_are_reported() {
        let questions = some_questions();
        let right = output(&questions);
        assert!(verdict(&questions, &right[..right.len() - 1]).is_err());
        assert!(verdict(&questions, &[]).is_err());
        assert!(verdict(&questions, &[right.as_slice(), &[0]].concat()).is_err());
    }

    #[test]
    fn the_report_has_the_case_in_hex() {
        let calls = chosen("4").expect("a call");
        let question = random_questions(calls, 1, 3).next().expect("a case");
        let mut wrong = question.expected.clone();
        wrong[5] ^= 255;
        let (payload, expected) = (hex(&question.payload), hex(&question.expected));
        let report = difference(question, Got::Answer(wrong.clone())).expect("they differ");
        let report = report.to_string();
        for part in ["fresh", &payload, &expected, &hex(&wrong), "byte 5"] {
            assert!(report.contains(part), "{part} in {report}");
        }
    }

    #[test]
    fn a_retired_number_is_answered_with_nothing() {
        let questions = Vec::from_iter(retired_questions());
        let asked: BTreeSet<u8> = questions.iter().map(|q| q.frame()[0]).collect();
        assert_eq!(Vec::from_iter(asked), [11, 12]);
        assert!(verdict(&questions, &vec![0; 2 * questions.len()]).is_ok());
    }

    /// Whether a fault is seen where both sides answer a call's first case so.
    fn noticed(call: &str, turn: impl Fn(&mut Answer)) -> bool {
        let call = chosen(call).expect("a call")[0];
        let case = &(call.edges)()[0];
        let mut answer = case.answer();
        turn(&mut answer);
        let questions = [Question::answered(call, case, &answer)];
        let tally = verdict(&questions, &output(&questions));
        fault(tally.expect("no difference").numbers()).is_some()
    }

    #[test]
    fn a_9_is_noticed_where_both_sides_give_it() {
        let happen = |number: u8| {
            noticed("25", |answer| match answer {
                Answer::Marking(done) => done.number = number,
                _ => panic!("an event happens"),
            })
        };
        assert!(happen(9) && !happen(10));
        for call in ["20", "21"] {
            let run = |number: u8, place: usize| {
                noticed(call, |answer| match answer {
                    Answer::Run { end, answers } => (end.number, answers[place]) = (number, 9),
                    _ => panic!("steps are run"),
                })
            };
            // Seven steps, and a byte that is lent behind them; in a refusal all are.
            assert!(run(0, 0) && run(0, 6));
            assert!(!run(0, 7) && !run(14, 0));
        }
    }

    #[test]
    fn a_seed_repeats_its_cases() {
        let payloads = |seed| -> Vec<Vec<u8>> {
            let all = random_questions(CALLS.iter().collect(), 60, seed);
            all.map(|question| question.payload).collect()
        };
        assert_eq!(payloads(4), payloads(4));
        assert_ne!(payloads(4), payloads(5));
    }
}
