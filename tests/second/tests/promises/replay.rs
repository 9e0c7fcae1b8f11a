//! A trace replayed, each step by the call that it stands for.

use second::*;

/// What a step led to.
pub struct Moment {
    pub number: u8,
    /// The events that the step executed.
    pub executed: Vec<usize>,
    /// Whether a tick passed.
    pub ticked: bool,
    pub marking: Marking,
}

/// What happens executes its event, a guarded tick what it says it caused.
fn step_by_call(table: &Table, now: &Marking, step: &Step) -> Moment {
    let event = usize::from(step.event);
    let (answer, mut executed) = match (step.kind, step.event) {
        (0 | 1, _) => (happen(table, now, event), vec![event]),
        (2, 0) => (plain_tick(table, now), Vec::new()),
        (3, 0) => {
            let GuardedAnswer {
                number,
                caused,
                count,
                marking,
                ..
            } = guarded_tick(table, now);
            let caused = caused[..usize::from(count)].iter();
            let executed = caused.map(|&event| event.into()).collect();
            (MarkingAnswer { number, marking }, executed)
        }
        _ => {
            let marking = *now;
            let number = 15;
            (MarkingAnswer { number, marking }, Vec::new())
        }
    };
    if answer.number != 0 {
        executed.clear();
    }
    Moment {
        number: answer.number,
        executed,
        ticked: answer.number == 0 && step.kind >= 2,
        marking: answer.marking,
    }
}

/// Replaying judges table and marking again at each step, so long traces are
/// replayed only as far as this.
pub const REPLAYED: usize = 64;

pub fn replay(table: &Table, start: &Marking, steps: &[Step]) -> Vec<Moment> {
    let mut now = *start;
    let mut moments = Vec::new();
    for step in steps.iter().take(REPLAYED) {
        let moment = step_by_call(table, &now, step);
        now = moment.marking;
        moments.push(moment);
    }
    moments
}
