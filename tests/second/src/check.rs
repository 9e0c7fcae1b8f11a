//! The static check. Each reason is a function that names the lowest place at
//! which it applies; the check asks them in order.

use crate::closure::{closure_of, with_inhibitors};
use crate::decoded::{Marking, Table};
use crate::event_set::EventSet;
use crate::judge::understand;
use crate::process::{Link, Meaning, Process, State};
use crate::refusal::{CHECK_REJECTS, DONE};

#[derive(Clone, Copy, PartialEq, Eq, Debug)]
pub struct CheckAnswer {
    pub number: u8,
    pub reason: u8,
    pub place: u16,
}

#[derive(Clone, Copy, PartialEq, Eq, Debug)]
pub struct Rejection {
    pub reason: u8,
    pub place: u16,
}

/// What every reason looks at.
struct Subject<'a> {
    process: &'a Process,
    state: &'a State,
    closure: EventSet,
}

impl Subject<'_> {
    fn lowest_event(&self, applies: impl Fn(usize) -> bool) -> Option<usize> {
        (0..self.process.events).find(|&event| applies(event))
    }

    fn lowest_relation(&self, applies: impl Fn(&Link) -> bool) -> Option<usize> {
        self.process.relations.iter().position(applies)
    }

    fn in_closure(&self, event: usize) -> bool {
        self.closure.contains(&event)
    }
}

/// Reason 1: an uncontrollable event could be kept from happening.
fn uncontrollable_can_be_stopped(subject: &Subject) -> Option<usize> {
    subject.lowest_event(|event| {
        !subject.process.controllable.contains(&event)
            && (!subject.state.of[event].included
                || subject.process.relations.iter().any(|link| {
                    (link.meaning == Meaning::Excludes && link.right == event)
                        || (link.inhibits() && link.left == event)
                }))
    })
}

/// Reason 2.
fn not_causable(subject: &Subject) -> Option<usize> {
    subject.lowest_event(|event| {
        subject.in_closure(event) && !subject.process.causable.contains(&event)
    })
}

/// Reason 3.
fn condition_takes_time(subject: &Subject) -> Option<usize> {
    subject.lowest_relation(|link| {
        subject.in_closure(link.left)
            && matches!(link.meaning, Meaning::Condition { time } if time > 0)
    })
}

/// Reason 4. The closure holds every inhibitor of its events, so what a
/// closure event reaches through inhibitors stays within it.
fn inhibition_cycle(subject: &Subject) -> Option<usize> {
    subject.lowest_event(|event| {
        let inhibitors = subject.process.inhibitors(event);
        subject.in_closure(event) && with_inhibitors(subject.process, inhibitors).contains(&event)
    })
}

/// Reason 5. The place is the response.
fn response_to_a_milestone(subject: &Subject) -> Option<usize> {
    let milestones: EventSet = subject
        .process
        .relations
        .iter()
        .filter(|link| link.meaning == Meaning::Milestone && subject.in_closure(link.left))
        .map(|link| link.right)
        .collect();
    subject.lowest_relation(|link| {
        subject.in_closure(link.left)
            && matches!(link.meaning, Meaning::Response(_))
            && milestones.contains(&link.right)
    })
}

/// Reason 6.
fn inclusion_of_another(subject: &Subject) -> Option<usize> {
    subject.lowest_relation(|link| {
        link.meaning == Meaning::Includes
            && subject.in_closure(link.left)
            && subject.in_closure(link.right)
            && link.left != link.right
    })
}

pub fn static_check(process: &Process, state: &State) -> Result<(), Rejection> {
    let subject = Subject {
        process,
        state,
        closure: closure_of(process, state),
    };
    let places = [
        (1, uncontrollable_can_be_stopped(&subject)),
        (2, not_causable(&subject)),
        (3, condition_takes_time(&subject)),
        (4, inhibition_cycle(&subject)),
        (5, response_to_a_milestone(&subject)),
        (6, inclusion_of_another(&subject)),
    ];
    for (reason, place) in places {
        if let Some(place) = place {
            return Err(Rejection {
                reason,
                place: place as u16,
            });
        }
    }
    Ok(())
}

pub fn check(table: &Table, marking: &Marking) -> CheckAnswer {
    let (process, state) = match understand(table, marking) {
        Ok(understood) => understood,
        Err(number) => {
            return CheckAnswer {
                number,
                reason: 0,
                place: 0,
            }
        }
    };
    match static_check(&process, &state) {
        Ok(()) => CheckAnswer {
            number: DONE,
            reason: 0,
            place: 0,
        },
        Err(rejection) => CheckAnswer {
            number: CHECK_REJECTS,
            reason: rejection.reason,
            place: rejection.place,
        },
    }
}
