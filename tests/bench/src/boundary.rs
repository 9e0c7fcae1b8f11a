//! The calls that are exported to C, over images and plain numbers.
//! `tests/boundary/answers.c` has the form of a question and of an answer, and
//! answers; here are random questions and what the second implementation says to
//! them.

use crate::wire::{hold_up_case, margin_case};
use second::case::{Case, Pair};
use second::generate::{self, marking_image, table_image};
use second::rng::Rng;
use second::{HoldUpAnswer, MarginAnswer, Marking, MarkingAnswer, Table, RECORD_BYTES};
use std::collections::BTreeSet;
use std::io::{Read, Write};
use std::sync::mpsc::channel;
use std::thread;

/// The fields of a record, of 4 bytes each in a question's second list, as the
/// numbers of a relation are.
const FIELDS: usize = 7;

/// What an out-parameter holds before a call.
const BEFORE: u8 = 0xEE;

struct Call {
    name: &'static str,
    case: fn(&mut Rng) -> Case,
}

const fn call(name: &'static str, case: fn(&mut Rng) -> Case) -> Call {
    Call { name, case }
}

/// By their numbers in a question. Judging, records and firm take the cases of other calls.
const CALLS: [Call; 24] = [
    call("judge", generate::due_case),
    call("fresh", generate::fresh_case),
    call("size", generate::size_case),
    call("lowest", generate::lowest_case),
    call("enabled", generate::enabled_case),
    call("due", generate::due_case),
    call("happen", generate::happen_case),
    call("plain_tick", generate::plain_tick_case),
    call("margin", generate::margin_case),
    call("hold_up", generate::hold_up_case),
    call("closure", generate::closure_case),
    call("check", generate::check_case),
    call("guarded_tick", generate::guarded_tick_case),
    call("remedies", generate::remedies_case),
    call("run", generate::run_bytes_case),
    call("record", generate::enabled_case),
    call("write_table", generate::build_table_case),
    call("relation", generate::tell_relation_case),
    call("class", generate::tell_class_case),
    call("carry", generate::carry_marking_case),
    call("firm", generate::tell_class_case),
    call("chain", generate::chain_case),
    call("sleep", generate::sleep_case),
    call("quiet", generate::quiet_case),
];

/// The numbers that some call gives; 15 is a step's.
const NUMBERS: [u8; 14] = [0, 1, 2, 3, 4, 5, 6, 7, 8, 10, 11, 12, 13, 14];

/// The numbers that each of these calls gives. Most are given by other calls too,
/// so they are looked for call by call.
const NUMBERS_OF: [(&str, &[u8]); 17] = [
    ("happen", &[0, 1, 2, 3, 4, 5, 6, 7, 8, 10]),
    (STEP, &[0, 8, 10, 11, 12, 15]),
    ("record", &[0, 1, 2, 3, 4, 5, 6, 7, 8, 14]),
    ("write_table", &[0, 1, 2, 3, 4, 5, 6, 14]),
    (WRITE_FIRM, &[0, 1, 2, 3, 4, 5, 6, 14]),
    (WRITE_NEITHER, &[2]),
    ("relation", &[0, 1, 2, 3, 4, 5, 6, 8, 14]),
    ("class", &[0, 1, 2, 3, 4, 5, 6, 8]),
    ("carry", &[0, 1, 3, 7, 14]),
    ("firm", &[0, 1, 2, 3, 4, 5, 6]),
    (TOLD_FIRM, &[0]),
    ("chain", &[1, 2, 3, 4, 5, 6, 7, 8, 14]),
    ("sleep", &[1, 2, 3, 4, 5, 6, 7, 12]),
    (SLEEP_AT_ONCE, &[12]),
    (SLEEP_TICKS, &[14]),
    (SLEEP_LIST, &[14]),
    ("quiet", &[1, 2, 3, 4, 5, 6, 7]),
];

/// Looked for apart from the others of their call: the steps of a run, a table that is
/// to be firm, one that is to be neither firm nor not, and one that is told to be firm;
/// a sleep of no ticks, one of too many, and one with a list that is too short.
const STEP: &str = "run, a step";
const WRITE_FIRM: &str = "write_table, firm 1";
const WRITE_NEITHER: &str = "write_table, firm above 1";
const TOLD_FIRM: &str = "firm, told 1";
const SLEEP_AT_ONCE: &str = "sleep, of no ticks";
const SLEEP_TICKS: &str = "sleep, of too many ticks";
const SLEEP_LIST: &str = "sleep, its list too short";

/// Most ticks that a sleep passes, and that are told to be quiet.
const MOST_TICKS: u64 = 1_000_000;

/// What a margin that is done counts for, by its kind and the sign of its ticks.
const MARGINS: [((u8, i32), &str); 9] = [
    ((0, 0), "margin, not a condition"),
    ((1, 0), "margin, ignored, else never"),
    ((2, 0), "margin, never"),
    ((3, -1), "margin, below 0"),
    ((3, 0), "margin, 0"),
    ((3, 1), "margin, above 0"),
    ((4, -1), "margin, ignored, else below 0"),
    ((4, 0), "margin, ignored, else 0"),
    ((4, 1), "margin, ignored, else above 0"),
];

/// What a hold-up that is done counts for, by its kind.
const HOLD_UPS: [&str; 4] = [
    "hold_up, enabled",
    "hold_up, excluded",
    "hold_up, blocked",
    "hold_up, enabled unless",
];

/// What a chain that is done counts for: by how many places are written, and how deep the
/// deepest is.
const CHAINS: [&str; 5] = [
    "chain, none listed",
    "chain, one listed",
    "chain, several of its own",
    "chain, 1 to 3 deep",
    "chain, 4 or more deep",
];

/// What a sleep that is done counts for: by its ticks, and before how many of them
/// something was caused.
const SLEEPS: [&str; 5] = [
    "sleep, none passed",
    "sleep, some quiet",
    "sleep, many quiet",
    "sleep, caused before one",
    "sleep, caused before several",
];

/// And by its list.
const SLEPT_LISTS: [&str; 3] = [
    "sleep, no list",
    "sleep, a full list",
    "sleep, a place left",
];

/// What quiet ticks that are told count for.
const QUIETS: [&str; 3] = ["quiet, none", "quiet, some", "quiet, the most"];

/// Each of these is looked for, beside the numbers.
fn kinds() -> impl Iterator<Item = (&'static str, u8)> {
    let margins = MARGINS.into_iter().map(|(_, name)| name);
    let others = HOLD_UPS.into_iter().chain(CHAINS).chain(SLEEPS);
    let behind = SLEPT_LISTS.into_iter().chain(QUIETS);
    margins.chain(others).chain(behind).map(|name| (name, 0))
}

/// Which numbers came up, and of which call.
pub type Seen = BTreeSet<(&'static str, u8)>;

#[derive(Clone, Debug)]
pub struct Question {
    call: usize,
    asked: u64,
    table: Vec<u8>,
    marking: Vec<u8>,
    first: Vec<u8>,
    second: Vec<u8>,
}

#[derive(Clone, PartialEq, Eq, Debug)]
pub struct Answer {
    number: u8,
    small: u8,
    large: [u8; 8],
    count: [u8; 8],
    marking: Vec<u8>,
    second: Vec<u8>,
}

impl Answer {
    /// Of a margin that is done: its ticks take the lower half of the large value.
    fn margin(&self) -> &'static str {
        let [a, b, c, d, ..] = self.large;
        let sign = i32::from_le_bytes([a, b, c, d]).signum();
        let kind = MARGINS.iter().find(|kind| kind.0 == (self.small, sign));
        kind.expect("there is such a kind").1
    }

    /// Of a chain that is done.
    fn chain(&self) -> &'static str {
        let places = numbers_in(&self.second, u16::from_le_bytes).0;
        let deepest = places[..self.count()].iter().map(|place| place % 256).max();
        CHAINS[match (self.count(), deepest.unwrap_or(0)) {
            (0, _) => 0,
            (1, _) => 1,
            (_, 0) => 2,
            (_, 1..=3) => 3,
            _ => 4,
        }]
    }

    /// Of a sleep that is done, of so many ticks.
    fn sleep(&self, ticks: u64) -> &'static str {
        let places = numbers_in(&self.second, u32::from_le_bytes).0;
        let caused = places[..self.count()].iter();
        let before = BTreeSet::from_iter(caused.map(|place| place / 256));
        SLEEPS[match (before.len(), ticks) {
            (0, 0) => 0,
            (0, 1..=9_999) => 1,
            (0, _) => 2,
            (1, _) => 3,
            _ => 4,
        }]
    }

    /// Of a sleep that is done.
    fn slept_list(&self) -> &'static str {
        let left = self.second.len() / 4 - self.count();
        SLEPT_LISTS[match (self.count(), left) {
            (0, 0) => 0,
            (_, 0) => 1,
            _ => 2,
        }]
    }

    /// Of quiet ticks that are told.
    fn quiet(&self) -> &'static str {
        QUIETS[match u64::from_le_bytes(self.large) {
            0 => 0,
            MOST_TICKS => 2,
            _ => 1,
        }]
    }

    fn count(&self) -> usize {
        u64::from_le_bytes(self.count) as usize
    }
}

/// So many bytes with something in them, now and then one less or some more.
fn buffer(rng: &mut Rng, needed: usize) -> Vec<u8> {
    let length = match rng.below(8) {
        0 => needed.saturating_sub(1),
        1 => needed + rng.below(9),
        _ => needed,
    };
    (0..length).map(|_| rng.byte()).collect()
}

/// A fault of the bytes themselves: a bit, a byte less, a byte more.
fn damage(rng: &mut Rng, image: &mut Vec<u8>) {
    match rng.below(4) {
        0 => image.push(rng.byte()),
        1 => {
            image.pop();
        }
        _ if image.is_empty() => {}
        _ => {
            let place = rng.below(image.len());
            image[place] ^= rng.one_of([1, 2, 4, 8, 16, 32, 64, 128]);
        }
    }
}

/// Numbers of 4 bytes each.
fn bytes_of(numbers: &[u32]) -> Vec<u8> {
    numbers.iter().flat_map(|n| n.to_le_bytes()).collect()
}

/// The places of a chain's list, of 2 bytes each.
fn bytes_of_places(places: &[u16]) -> Vec<u8> {
    places.iter().flat_map(|n| n.to_le_bytes()).collect()
}

/// The numbers that these bytes are, and the bytes behind the last whole one.
fn numbers_in<const N: usize, T>(bytes: &[u8], of: fn([u8; N]) -> T) -> (Vec<T>, &[u8]) {
    let places = bytes.chunks_exact(N);
    let behind = places.remainder();
    let numbers = places
        .map(|place| of(place.try_into().expect("a place has so many bytes")))
        .collect();
    (numbers, behind)
}

impl Question {
    fn random(rng: &mut Rng, number: usize) -> Question {
        let case = (CALLS[number].case)(rng);
        let mut question = Question {
            call: number,
            asked: 0,
            table: Vec::new(),
            marking: Vec::new(),
            first: Vec::new(),
            second: Vec::new(),
        };
        if let Some(Pair { table, marking }) = case.pair() {
            question.table = table_image(table);
            question.marking = marking_image(marking);
        }
        match case {
            Case::Fresh { events } => {
                question.asked = events as u64;
                question.marking = buffer(rng, RECORD_BYTES * events.min(70));
            }
            Case::Size { set } | Case::Lowest { set } => question.asked = set,
            Case::Enabled { event, .. }
            | Case::Happen { event, .. }
            | Case::HoldUp { event, .. } => question.asked = event as u64,
            Case::Chain { event, list, .. } => {
                question.asked = event as u64;
                question.second = bytes_of_places(&list);
            }
            Case::Sleep { ticks, list, .. } => {
                let behind = rng.one_of([0, 0, 0, 1, 2, 3]);
                question.asked = ticks;
                question.second = [bytes_of(&list), vec![7; behind]].concat();
            }
            Case::Margin { relation, .. } => question.asked = relation as u64,
            Case::GuardedTick { pair } => {
                question.second = buffer(rng, pair.table.events.min(70));
            }
            Case::Remedies {
                preferred,
                fallback,
                ..
            } => (question.first, question.second) = (preferred, fallback),
            Case::RunBytes { steps, answers, .. } => {
                (question.first, question.second) = (steps, answers);
            }
            Case::BuildTable {
                events,
                firm,
                classes,
                relations,
                buffer,
            } => {
                question.asked = events as u64;
                question.table = bytes_of(&[firm]);
                question.marking = bytes_of(&relations);
                (question.first, question.second) = (classes, buffer);
            }
            Case::TellRelation {
                image,
                relation,
                places,
            } => {
                (question.table, question.asked) = (image, relation as u64);
                question.second = bytes_of(&places);
            }
            Case::TellClass { image, event, .. } => {
                (question.table, question.asked) = (image, event as u64);
            }
            Case::CarryMarking {
                events,
                old,
                buffer,
            } => {
                question.asked = events as u64;
                (question.first, question.second) = (old, buffer);
            }
            _ => {}
        }
        if CALLS[number].name == "record" {
            question.second = buffer(rng, 4 * FIELDS);
        }
        if rng.chance(12) {
            damage(rng, &mut question.table);
        }
        if rng.chance(8) && CALLS[number].name != "fresh" {
            damage(rng, &mut question.marking);
        }
        question
    }

    fn bytes(&self) -> Vec<u8> {
        let mut out = vec![self.call as u8];
        out.extend(self.asked.to_le_bytes());
        for list in [&self.table, &self.marking, &self.first, &self.second] {
            let length = u16::try_from(list.len()).expect("a length fits two bytes");
            out.extend(length.to_le_bytes());
            out.extend(list);
        }
        out
    }

    /// Nothing written yet.
    fn untouched(&self, number: u8) -> Answer {
        Answer {
            number,
            small: BEFORE,
            large: [BEFORE; 8],
            count: [BEFORE; 8],
            marking: self.marking.clone(),
            second: self.second.clone(),
        }
    }

    /// What the second implementation says.
    fn expected(&self) -> Answer {
        match CALLS[self.call].name {
            "fresh" => self.fresh(),
            "size" => self.untouched(second::size(self.asked)),
            "lowest" => self.untouched(second::lowest(self.asked)),
            "record" => self.in_places(|places| {
                second::record(&self.table, &self.marking, self.asked as usize, places)
            }),
            "relation" => self.in_places(|places| {
                second::tell_relation(&self.table, self.asked as usize, places)
            }),
            "class" => {
                let mut answer = self.untouched(0);
                let asked = self.asked as usize;
                answer.number = second::tell_class(&self.table, asked, &mut answer.small);
                answer
            }
            "firm" => self.tell_firm(),
            "write_table" => self.write_table(),
            "carry" => self.carry(),
            _ => {
                let table = second::read_table(&self.table);
                if table.number != 0 {
                    return self.untouched(table.number);
                }
                let marking = second::read_marking(table.table.events, &self.marking);
                if marking.number != 0 {
                    return self.untouched(marking.number);
                }
                self.of_images(&table.table, &marking.marking)
            }
        }
    }

    fn fresh(&self) -> Answer {
        let made = second::fresh(self.asked as usize);
        let mut answer = self.untouched(made.number);
        if made.number == 0 {
            answer.number = second::write_marking(&made.marking, &mut answer.marking);
        }
        answer
    }

    /// Of a call that writes to the places that the second list is.
    fn in_places(&self, call: impl Fn(&mut [u32]) -> u8) -> Answer {
        let (mut places, behind) = numbers_in(&self.second, u32::from_le_bytes);
        let mut answer = self.untouched(call(&mut places));
        answer.second = [&bytes_of(&places), behind].concat();
        answer
    }

    /// Firm stands in the table's place, 4 bytes of which those that are missing are
    /// 0; the relations' numbers stand in the marking's.
    fn write_table(&self) -> Answer {
        let (relations, _) = numbers_in(&self.marking, u32::from_le_bytes);
        let mut answer = self.untouched(0);
        let (events, table) = (self.asked as usize, &mut answer.second);
        answer.number = second::build_table(events, self.firm(), &self.first, &relations, table);
        answer
    }

    fn firm(&self) -> u32 {
        let mut bytes = [0; 4];
        for (byte, given) in bytes.iter_mut().zip(&self.table) {
            *byte = *given;
        }
        u32::from_le_bytes(bytes)
    }

    /// Firm takes the lower half of the large value.
    fn tell_firm(&self) -> Answer {
        let mut answer = self.untouched(0);
        let mut firm = u32::from_le_bytes([BEFORE; 4]);
        answer.number = second::tell_firm(&self.table, &mut firm);
        answer.large[..4].copy_from_slice(&firm.to_le_bytes());
        answer
    }

    /// The old image is the first list, the lent buffer the second.
    fn carry(&self) -> Answer {
        let mut answer = self.untouched(0);
        let (events, marking) = (self.asked as usize, &mut answer.second);
        answer.number = second::carry_marking(events, &self.first, marking);
        answer
    }

    /// What the number counts for: those of a set are no refusals.
    fn seen(&self, answer: &Answer) -> Option<(&'static str, u8)> {
        let name = match CALLS[self.call].name {
            "size" | "lowest" => return None,
            "write_table" if self.firm() == 1 => WRITE_FIRM,
            "write_table" if self.firm() > 1 => WRITE_NEITHER,
            "firm" if answer.large[0] == 1 => TOLD_FIRM,
            "margin" if answer.number == 0 => answer.margin(),
            "chain" if answer.number == 0 => answer.chain(),
            "sleep" => self.seen_of_sleep(answer),
            "quiet" if answer.number == 0 => answer.quiet(),
            "hold_up" if answer.number == 0 => HOLD_UPS[usize::from(answer.small)],
            name => name,
        };
        Some((name, answer.number))
    }

    fn seen_of_sleep(&self, answer: &Answer) -> &'static str {
        match (answer.number, self.asked) {
            (0, ticks) => answer.sleep(ticks),
            (12, 0) => SLEEP_AT_ONCE,
            (14, 0..=MOST_TICKS) => SLEEP_LIST,
            (14, _) => SLEEP_TICKS,
            _ => "sleep",
        }
    }

    /// All that came up: the number, and where it is done of a run those of its steps,
    /// of a sleep also what its list counts for.
    fn shown(&self, answer: &Answer) -> Vec<(&'static str, u8)> {
        let mut all = Vec::from_iter(self.seen(answer));
        match (CALLS[self.call].name, answer.number) {
            ("run", 0) => {
                let steps = &answer.second[..self.first.len() / 2];
                all.extend(steps.iter().map(|number| (STEP, *number)));
            }
            ("sleep", 0) => all.push((answer.slept_list(), 0)),
            _ => {}
        }
        all
    }

    fn of_images(&self, t: &Table, m: &Marking) -> Answer {
        let asked = self.asked as usize;
        match CALLS[self.call].name {
            "judge" => self.untouched(0),
            "enabled" => {
                let told = second::enabled(t, m, asked);
                self.told(told.number, u8::from(told.enabled), None)
            }
            "due" => self.set(second::due(t, m)),
            "closure" => {
                let told = second::closure(t, m);
                let mut answer = self.told(told.number, BEFORE, Some(told.set));
                if told.number == 0 {
                    answer.count[..4].copy_from_slice(&told.size.to_le_bytes());
                }
                answer
            }
            "happen" => self.acted(&second::happen(t, m, asked)),
            "plain_tick" => self.acted(&second::plain_tick(t, m)),
            "margin" => match second::margin(t, m, asked) {
                MarginAnswer::Refused(number) => self.untouched(number),
                told => {
                    let (kind, ticks) = margin_case(&told);
                    self.ticks(kind, ticks)
                }
            },
            "hold_up" => match second::hold_up(t, m, asked) {
                HoldUpAnswer::Refused(number) => self.untouched(number),
                told => {
                    let (kind, relation) = hold_up_case(&told);
                    self.told(0, kind, Some(relation as u64))
                }
            },
            "chain" => self.chain(t, m),
            "sleep" => self.sleep(t, m),
            "quiet" => {
                let told = second::quiet(t, m);
                self.told(told.number, BEFORE, Some(told.ticks))
            }
            "check" => {
                let told = second::check(t, m);
                let mut answer = self.told(0, told.reason, Some(u64::from(told.place)));
                answer.number = told.number;
                answer
            }
            "guarded_tick" => self.guarded(t, m),
            "remedies" => {
                let told = second::remedies(t, m, &self.first, &self.second);
                let list = u8::from(told.from_fallback);
                self.told(told.number, list, Some(told.length as u64))
            }
            "run" => {
                let mut answers = self.second.clone();
                let end = second::run_bytes(t, m, &self.first, &mut answers);
                let mut answer = self.acted(&end);
                answer.second = answers;
                answer
            }
            name => unreachable!("{name} is not of images"),
        }
    }

    /// Where the call is done, its small and its large value.
    fn told(&self, number: u8, small: u8, large: Option<u64>) -> Answer {
        let mut answer = self.untouched(number);
        if number == 0 {
            answer.small = small;
            answer.large = large.map_or(answer.large, u64::to_le_bytes);
        }
        answer
    }

    fn set(&self, told: second::SetAnswer) -> Answer {
        self.told(told.number, BEFORE, Some(told.set))
    }

    /// The ticks take the lower half of the large value.
    fn ticks(&self, kind: u8, ticks: i32) -> Answer {
        let mut answer = self.told(0, kind, None);
        answer.large[..4].copy_from_slice(&ticks.to_le_bytes());
        answer
    }

    /// The lent list is the second list; a byte behind its last whole place is none.
    fn chain(&self, t: &Table, m: &Marking) -> Answer {
        let (mut list, behind) = numbers_in(&self.second, u16::from_le_bytes);
        let told = second::chain(t, m, self.asked as usize, &mut list);
        let mut answer = self.untouched(told.number);
        answer.second = [&bytes_of_places(&list), behind].concat();
        if told.number == 0 {
            answer.count = (told.count as u64).to_le_bytes();
        }
        answer
    }

    /// The lent list is the second list; bytes behind its last whole place are none. Of
    /// the refusals 12 alone tells reason and place.
    fn sleep(&self, t: &Table, m: &Marking) -> Answer {
        let (mut list, behind) = numbers_in(&self.second, u32::from_le_bytes);
        let told = second::sleep(t, m, self.asked, &mut list);
        let mut answer = self.acted(&MarkingAnswer {
            number: told.number,
            marking: told.marking,
        });
        answer.second = [&bytes_of(&list), behind].concat();
        if told.number == 0 {
            answer.count = (told.count as u64).to_le_bytes();
        }
        if told.number == 0 || told.number == 12 {
            answer.small = told.reason;
            answer.large = u64::from(told.place).to_le_bytes();
        }
        answer
    }

    fn acted(&self, told: &MarkingAnswer) -> Answer {
        let mut answer = self.untouched(told.number);
        if told.number == 0 {
            let written = second::write_marking(&told.marking, &mut answer.marking);
            assert_eq!(written, 0, "the new marking has the old one's room");
        }
        answer
    }

    fn guarded(&self, t: &Table, m: &Marking) -> Answer {
        if self.second.len() < t.events {
            return self.untouched(14);
        }
        let told = second::guarded_tick(t, m);
        let mut answer = self.acted(&MarkingAnswer {
            number: told.number,
            marking: told.marking,
        });
        answer.small = told.reason;
        answer.large = u64::from(told.place).to_le_bytes();
        if told.number == 0 {
            let count = usize::from(told.count);
            answer.count = (count as u64).to_le_bytes();
            answer.second[..count].copy_from_slice(&told.caused[..count]);
        }
        answer
    }

    /// The program's answer, which has the lengths that the question has.
    fn read(&self, output: &mut impl Read) -> std::io::Result<Answer> {
        let mut answer = self.untouched(0);
        let mut bytes = [0; 2];
        output.read_exact(&mut bytes)?;
        [answer.number, answer.small] = bytes;
        output.read_exact(&mut answer.large)?;
        output.read_exact(&mut answer.count)?;
        output.read_exact(&mut answer.marking)?;
        output.read_exact(&mut answer.second)?;
        Ok(answer)
    }
}

#[derive(Debug)]
pub struct Difference {
    pub call: &'static str,
    pub question: Question,
    pub expected: Answer,
    pub got: Answer,
}

/// Sends so many random questions, the calls in turn, to one run of the program.
/// The numbers that came up, or the first difference.
pub fn run(
    words: &[String],
    cases: usize,
    seed: u64,
) -> std::io::Result<Result<Seen, Box<Difference>>> {
    let mut child = crate::program::start(words)?;
    let mut input = child.stdin.take().expect("the input is a pipe");
    let mut output = std::io::BufReader::new(child.stdout.take().expect("the output is a pipe"));
    let (hand_on, handed) = channel();
    let asking = thread::spawn(move || {
        let mut rng = Rng::new(seed);
        for turn in 0..cases {
            let question = Question::random(&mut rng, turn % CALLS.len());
            // A program that ended early reads no more; its missing answer is then seen.
            let written = input.write_all(&question.bytes()).is_ok();
            if hand_on.send(question).is_err() || !written {
                return;
            }
        }
    });
    let mut seen = Seen::new();
    for question in handed {
        let expected = question.expected();
        let got = question.read(&mut output)?;
        if got != expected {
            child.kill()?;
            child.wait()?;
            return Ok(Err(Box::new(Difference {
                call: CALLS[question.call].name,
                question,
                expected,
                got,
            })));
        }
        seen.extend(question.shown(&got));
    }
    asking.join().expect("the questions were asked");
    let ended = child.wait()?;
    if ended.success() {
        return Ok(Ok(seen));
    }
    Err(std::io::Error::other(format!(
        "the program ended with {ended}"
    )))
}

/// The numbers that did not come up, and of which call they were wanted.
pub fn missing(seen: &Seen) -> Vec<(&'static str, u8)> {
    let of_calls = Vec::from_iter(seen.iter().filter(|found| found.0 != STEP));
    let some_call = |number| of_calls.iter().any(|found| found.1 == number);
    let of_any = NUMBERS.into_iter().filter(|&number| !some_call(number));
    let of_each = NUMBERS_OF
        .iter()
        .flat_map(|(name, numbers)| numbers.iter().map(|number| (*name, *number)))
        .chain(kinds())
        .filter(|wanted| !seen.contains(wanted));
    of_any
        .map(|number| ("any call", number))
        .chain(of_each)
        .collect()
}

#[cfg(test)]
mod tests {
    use super::*;
    use crate::never::fault;

    #[test]
    fn questions_of_every_call_bring_every_number_up() {
        let mut rng = Rng::new(1);
        let mut seen = Seen::new();
        // Those before sleep and quiet in turn; behind them these two.
        let before = number_of("sleep");
        let turns = (0..20_000).map(|turn| turn % before);
        let further = (0..5_000).map(|turn| before + turn % 2);
        for call in turns.chain(further) {
            let question = Question::random(&mut rng, call);
            let answer = question.expected();
            assert_eq!(answer.marking.len(), question.marking.len());
            assert_eq!(answer.second.len(), question.second.len());
            seen.extend(question.shown(&answer));
        }
        assert_eq!(missing(&seen), []);
        // No number besides: a call that gives one more has to be looked for too.
        for (name, numbers) in NUMBERS_OF {
            let given: Vec<u8> = seen
                .iter()
                .filter(|found| found.0 == name)
                .map(|found| found.1)
                .collect();
            assert_eq!(given, numbers, "{name}");
        }
    }

    #[test]
    fn a_number_that_does_not_come_up_is_missed() {
        let mut seen = Seen::from(NUMBERS.map(|number| ("run", number)));
        let of_calls = 10 + 6 + 10 + 8 + 8 + 1 + 9 + 8 + 5 + 7 + 1 + 9 + 8 + 1 + 1 + 1 + 7;
        assert_eq!(missing(&seen).len(), of_calls + 9 + 4 + 5 + 5 + 3 + 3);
        for (name, numbers) in NUMBERS_OF {
            seen.extend(numbers.iter().map(|&number| (name, number)));
        }
        assert_eq!(missing(&seen), Vec::from_iter(kinds()));
        seen.extend(kinds());
        assert_eq!(missing(&seen), []);
        seen.remove(&("write_table", 14));
        seen.remove(&("run", 13));
        assert_eq!(missing(&seen), [("any call", 13), ("write_table", 14)]);
        seen.insert(("run", 13));
        seen.insert(("write_table", 14));
        for number in [0, 1, 3, 7, 14] {
            let mut without = seen.clone();
            without.remove(&("carry", number));
            assert_eq!(missing(&without), [("carry", number)]);
        }
    }

    #[test]
    fn a_call_and_a_step_that_give_9_are_noticed() {
        let noticed = |call: &str, number: u8, second: &[u8]| {
            let mut question = Question::random(&mut Rng::new(1), number_of(call));
            (question.first, question.second) = (vec![0; 4], second.to_vec());
            fault(question.shown(&question.untouched(number))).is_some()
        };
        assert!(noticed("happen", 9, &[]) && noticed("check", 9, &[]));
        assert!(!noticed("happen", 10, &[9]) && !noticed("size", 9, &[]));
        // Two steps: what is lent behind their answers stays, and all of it in a refusal.
        assert!(noticed("run", 0, &[0, 9]) && noticed("run", 0, &[9, 0]));
        assert!(!noticed("run", 0, &[0, 0, 9]) && !noticed("run", 14, &[9, 9]));
    }

    #[test]
    fn a_refused_question_touches_nothing() {
        let mut rng = Rng::new(2);
        let of_a_table = |call: &usize| {
            let others = ["fresh", "size", "lowest", "write_table", "carry"];
            !others.contains(&CALLS[*call].name)
        };
        for call in (0..CALLS.len()).filter(of_a_table) {
            for _ in 0..150 {
                let mut question = Question::random(&mut rng, call);
                question.table = vec![0; 3];
                assert_eq!(question.expected(), question.untouched(1));
            }
        }
    }

    /// By its name, for a call whose number is to be looked at.
    fn number_of(name: &str) -> usize {
        let named = CALLS.iter().position(|call| call.name == name);
        named.expect("there is such a call")
    }

    #[test]
    fn a_table_is_written_from_the_lists_of_a_question() {
        let mut question = Question {
            call: number_of("write_table"),
            asked: 2,
            table: bytes_of(&[0]),
            // Two bytes behind the last whole number are no number.
            marking: [&bytes_of(&[2, 0, 0, 1, 1])[..], &[9, 9]].concat(),
            first: vec![0x40, 0x80],
            second: vec![7; 13],
        };
        let image = [4, 1, 0, 0, 0x40, 0x80, 0x40, 1, 0, 0, 0, 4, 7];
        assert_eq!(question.expected().number, 0);
        assert_eq!(question.expected().second, image);
        // A number wider than its field is not cut down.
        for (place, number) in [(0, 4), (1, 5), (2, 5), (3, 6), (4, 6)] {
            let mut wide = question.clone();
            let highest = 4 * place + 3;
            wide.marking[highest] = 0x80;
            assert_eq!(wide.expected(), wide.untouched(number));
        }
        question.asked += 1 << 32;
        assert_eq!(question.expected(), question.untouched(3));
        // Neither firm nor not, before all else.
        for firm in [2, 256, u32::MAX] {
            question.table = bytes_of(&[firm]);
            assert_eq!(question.expected(), question.untouched(2));
        }
    }

    #[test]
    fn firm_stands_in_the_place_of_a_table_that_is_written() {
        let mut question = Question {
            call: number_of("write_table"),
            asked: 1,
            table: Vec::new(),
            marking: Vec::new(),
            first: vec![0x40],
            second: vec![7; 6],
        };
        // Missing bytes are 0, and more than four are not looked at.
        let given: [(&[u8], u8); 4] = [(&[], 0), (&[1], 1), (&[0; 3], 0), (&[1, 0, 0, 0, 9], 1)];
        for (bytes, firm) in given {
            question.table = bytes.to_vec();
            let mut done = question.untouched(0);
            done.second = vec![2, 0, 128 * firm, 0, 0x40, 7];
            assert_eq!(question.expected(), done);
        }
    }

    #[test]
    fn firm_is_told_in_the_large_value() {
        let mut question = Question {
            call: number_of("firm"),
            asked: 9,
            table: vec![2, 0, 0, 0, 0x40],
            marking: vec![1, 2, 3],
            first: vec![4],
            second: vec![5, 6],
        };
        for firm in [0, 1] {
            question.table[2] = 128 * firm;
            let mut told = question.untouched(0);
            told.large[..4].copy_from_slice(&[firm, 0, 0, 0]);
            assert_eq!(question.expected(), told);
        }
        question.table[2] = 0x40;
        assert_eq!(question.expected(), question.untouched(2));
    }

    #[test]
    fn numbers_are_told_in_the_lists_of_a_question() {
        let mut question = Question {
            call: number_of("relation"),
            asked: 0,
            table: vec![4, 1, 0, 0, 0x40, 0x80, 0x40, 1, 0, 0, 0, 4],
            marking: vec![1, 2, 3],
            first: Vec::new(),
            second: vec![7; 21],
        };
        let told = question.expected();
        let numbers = bytes_of(&[2, 0, 0, 1, 1]);
        assert_eq!(
            (told.number, told.second),
            (0, [&numbers, &[7][..]].concat())
        );
        assert_eq!((told.small, told.marking), (BEFORE, vec![1, 2, 3]));
        question.call = number_of("class");
        question.asked = 1;
        let told = question.expected();
        assert_eq!((told.number, told.small), (0, 0x80));
        assert_eq!(told.second, question.second);
    }

    #[test]
    fn a_record_is_told_in_seven_places_and_not_in_six() {
        let table = vec![4, 0, 0, 0, 0x80, 0x80];
        let mut marking = vec![0; 12];
        marking.extend([0x80, 0, 0, 3, 0xC0, 0, 0, 5, 1, 2, 3, 4]);
        let mut question = Question {
            call: number_of("record"),
            asked: 1,
            table,
            marking,
            first: Vec::new(),
            second: vec![7; 4 * 7 + 1],
        };
        let fields = bytes_of(&[1, 1, 1, 1, 1, 5, 0x0102_0304]);
        let told = question.expected();
        assert_eq!(
            (told.number, told.second),
            (0, [&fields, &[7][..]].concat())
        );
        // Three bytes behind the sixth place are no place.
        question.second = vec![7; 4 * 6 + 3];
        assert_eq!(question.expected(), question.untouched(14));
    }

    /// Event 0 waits for event 1, by a condition of 5 ticks or by a milestone; of event
    /// 1 the first four bytes of its record, whether it is pending, and its count.
    fn waiting(call: &str, kind: u8, past: [u8; 4], pending: bool) -> Question {
        let condition = kind == 1;
        let relation = [kind << 5, 2 + u8::from(condition), 0, 0, 0];
        let mut marking = vec![0, 0, 0, 1, 0, 0, 0, 0, 0, 0, 0, 0];
        marking.extend(past);
        marking.extend([128 * u8::from(pending), 0, 0, 0, 0, 0, 0, past[0] >> 7]);
        Question {
            call: number_of(call),
            asked: 0,
            table: [
                &[4, 1, 0, 0, 0, 0][..],
                &relation,
                &[20 * u8::from(condition)],
            ]
            .concat(),
            marking,
            first: Vec::new(),
            second: Vec::new(),
        }
    }

    /// What is seen of an answer, and its small and large value.
    fn seen(question: &Question) -> (&'static str, u8, [u8; 8]) {
        let answer = question.expected();
        let seen = question.seen(&answer).expect("it is of no set");
        assert_eq!(seen.1, 0);
        (seen.0, answer.small, answer.large)
    }

    #[test]
    fn each_kind_of_margin_is_told_and_seen() {
        let happened = |age: u8, included: u8| [0x80, 0, 0, 2 * age + included];
        let told = |ticks: i32| {
            let mut large = [BEFORE; 8];
            large[..4].copy_from_slice(&ticks.to_le_bytes());
            large
        };
        for (past, kind, ticks, name) in [
            ([0, 0, 0, 1], 2, 0, "never"),
            (happened(3, 1), 3, -2, "below 0"),
            (happened(5, 1), 3, 0, "0"),
            (happened(9, 1), 3, 4, "above 0"),
            ([0, 0, 0, 0], 1, 0, "ignored, else never"),
            (happened(3, 0), 4, -2, "ignored, else below 0"),
            (happened(5, 0), 4, 0, "ignored, else 0"),
            (happened(9, 0), 4, 4, "ignored, else above 0"),
        ] {
            let question = waiting("margin", 1, past, false);
            let name: &str = &format!("margin, {name}");
            assert_eq!(seen(&question), (name, kind, told(ticks)));
        }
        let milestone = waiting("margin", 5, [0; 4], true);
        assert_eq!(seen(&milestone), ("margin, not a condition", 0, told(0)));
    }

    #[test]
    fn each_kind_of_hold_up_is_told_and_seen() {
        for (included, pending, kind, name) in [
            (0, false, 0, "enabled"),
            (1, false, 0, "enabled"),
            (1, true, 2, "blocked"),
            (0, true, 3, "enabled unless"),
        ] {
            let mut question = waiting("hold_up", 5, [0, 0, 0, included], pending);
            let name: &str = &format!("hold_up, {name}");
            assert_eq!(seen(&question), (name, kind, [0; 8]));
            question.marking[3] = 0;
            assert_eq!(seen(&question), ("hold_up, excluded", 1, [0; 8]));
        }
        // A second relation like the first, which is then another event's.
        let mut question = waiting("hold_up", 5, [0; 4], true);
        let again = question.table[6..].to_vec();
        question.table.extend(again);
        question.table[1] = 2;
        question.table[7] |= 0x80;
        let second = [1, 0, 0, 0, 0, 0, 0, 0];
        assert_eq!(seen(&question), ("hold_up, enabled unless", 3, second));
    }

    /// Events that wait each for the next one, the last for the first; and the room for so
    /// many places, and a byte.
    fn circle(events: u8, room: usize) -> Question {
        let waits = |event: u8| {
            let right = (event + 1) % events;
            [
                0x20 + event / 2,
                event % 2 * 128 + right * 2 + 1,
                0,
                0,
                0,
                0,
            ]
        };
        let mut table = vec![2 * events, events, 0, 0];
        table.extend(vec![0; events.into()]);
        table.extend((0..events).flat_map(waits));
        Question {
            call: number_of("chain"),
            asked: 0,
            table,
            marking: [0, 0, 0, 1, 0, 0, 0, 0, 0, 0, 0, 0].repeat(events.into()),
            first: vec![4],
            second: vec![7; 2 * room + 1],
        }
    }

    #[test]
    fn a_chain_is_told_in_the_second_list() {
        let mut question = circle(3, 256);
        question.asked = 1;
        let mut told = question.untouched(0);
        told.count = [3, 0, 0, 0, 0, 0, 0, 0];
        // Relations 1, 2 and 0, each one deeper.
        told.second[..6].copy_from_slice(&[0, 1, 1, 2, 2, 0]);
        assert_eq!(question.expected(), told);
        // The last refusal first, each before the one that was there.
        question.second.pop();
        question.second.pop();
        assert_eq!(question.expected(), question.untouched(14));
        question.asked = 3;
        assert_eq!(question.expected(), question.untouched(8));
        question.marking[7] = 1;
        assert_eq!(question.expected(), question.untouched(7));
        question.table[3] = 1;
        assert_eq!(question.expected(), question.untouched(2));
    }

    #[test]
    fn each_sort_of_chain_is_seen() {
        for (events, name) in [
            (1, "one listed"),
            (2, "1 to 3 deep"),
            (4, "1 to 3 deep"),
            (5, "4 or more deep"),
        ] {
            let name: &str = &format!("chain, {name}");
            let mut question = circle(events, 256);
            assert_eq!(seen(&question), (name, BEFORE, [BEFORE; 8]));
            question.marking[3] = 0;
            assert_eq!(seen(&question).0, "chain, none listed");
        }
        // The second event is open, and both relations are the first one's.
        let mut question = circle(2, 256);
        question.table[13] = 3;
        assert_eq!(seen(&question).0, "chain, several of its own");
    }

    /// An event that comes again every `time` ticks, first after so many; and the room for
    /// so many places, and three bytes.
    fn again(time: u8, deadline: u8, ticks: u64, room: usize) -> Question {
        Question {
            call: number_of("sleep"),
            asked: ticks,
            table: vec![2, 1, 0, 0, 0xC0, 0x40, 1, 0, 0, 0, 4 * time],
            marking: vec![0, 0, 0, 1, 0xC0, 0, 0, deadline, 0, 0, 0, 0],
            first: vec![4],
            second: vec![7; 4 * room + 3],
        }
    }

    #[test]
    fn a_sleep_is_told_in_the_second_list() {
        // Before ticks 2, 4 and 6.
        let mut question = again(2, 1, 7, 4);
        let mut told = question.untouched(0);
        told.small = 0;
        told.large = [0; 8];
        told.count = [3, 0, 0, 0, 0, 0, 0, 0];
        told.marking = vec![0x80, 0, 0, 5, 0xC0, 0, 0, 0, 0, 0, 0, 3];
        told.second[..12].copy_from_slice(&bytes_of(&[512, 1024, 1536]));
        assert_eq!(question.expected(), told);
        // The last refusal first, each before the one that was there.
        question.second.truncate(11);
        assert_eq!(question.expected(), question.untouched(14));
        question.table[4] = 0x80;
        let mut rejected = question.untouched(12);
        rejected.small = 2;
        rejected.large = [0; 8];
        for ticks in [7, 0, MOST_TICKS] {
            question.asked = ticks;
            assert_eq!(question.expected(), rejected);
        }
        for ticks in [MOST_TICKS + 1, 1 << 32, u64::MAX] {
            question.asked = ticks;
            assert_eq!(question.expected(), question.untouched(14));
        }
        question.marking[8] = 1;
        assert_eq!(question.expected(), question.untouched(7));
        question.table[3] = 1;
        assert_eq!(question.expected(), question.untouched(2));
    }

    /// All that is seen of an answer.
    fn shown(question: &Question) -> Vec<(&'static str, u8)> {
        question.shown(&question.expected())
    }

    #[test]
    fn each_sort_of_sleep_is_seen() {
        for (ticks, room, name, list) in [
            (0, 0, "none passed", "no list"),
            (1, 1, "some quiet", "a place left"),
            (9, 0, "some quiet", "no list"),
            (10, 1, "caused before one", "a full list"),
            (19, 2, "caused before one", "a place left"),
            (20, 2, "caused before several", "a full list"),
        ] {
            let name: &str = &format!("sleep, {name}");
            let list: &str = &format!("sleep, {list}");
            assert_eq!(shown(&again(10, 9, ticks, room)), [(name, 0), (list, 0)]);
        }
        let mut excluded = again(10, 9, 10_000, 0);
        excluded.marking[3] = 0;
        assert_eq!(shown(&excluded)[0], ("sleep, many quiet", 0));
    }

    #[test]
    fn each_refusal_of_a_sleep_is_seen() {
        let mut question = again(10, 9, 20, 1);
        assert_eq!(shown(&question), [(SLEEP_LIST, 14)]);
        question.asked = MOST_TICKS;
        assert_eq!(shown(&question), [(SLEEP_LIST, 14)]);
        question.asked += 1;
        assert_eq!(shown(&question), [(SLEEP_TICKS, 14)]);
        question.table[4] = 0x80;
        for (ticks, name) in [(0, SLEEP_AT_ONCE), (1, "sleep")] {
            question.asked = ticks;
            assert_eq!(shown(&question), [(name, 12)]);
        }
        question.table.pop();
        for ticks in [0, MOST_TICKS + 1] {
            question.asked = ticks;
            assert_eq!(shown(&question), [("sleep", 1)]);
        }
    }

    #[test]
    fn quiet_ticks_are_told_in_the_large_value_and_seen() {
        for (deadline, included, ticks, name) in [
            (0, 1, 0, "quiet, none"),
            (9, 1, 9, "quiet, some"),
            (9, 0, MOST_TICKS, "quiet, the most"),
        ] {
            let mut question = again(1, deadline, 5, 1);
            question.call = number_of("quiet");
            question.marking[3] = included;
            // The check, which rejects it, is not asked.
            question.table[4] = 0x80;
            let mut told = question.untouched(0);
            told.large = ticks.to_le_bytes();
            assert_eq!(question.expected(), told);
            assert_eq!(shown(&question), [(name, 0)]);
            question.marking[8] = 1;
            assert_eq!(question.expected(), question.untouched(7));
        }
    }

    #[test]
    fn an_old_marking_is_carried_over_in_the_lists_of_a_question() {
        let mut question = Question {
            call: number_of("carry"),
            asked: 2,
            table: vec![1, 2, 3],
            marking: vec![4, 5, 6],
            first: vec![0x80, 0, 0, 3, 0xC0, 0, 0, 5, 0, 0, 0, 1, 0, 0, 0, 0],
            second: vec![7; 25],
        };
        let image = [
            0x80, 0, 0, 3, 0xC0, 0, 0, 5, 0, 0, 0, 1, 0, 0, 0, 1, 0, 0, 0, 0, 0, 0, 0, 0, 7,
        ];
        let mut done = question.untouched(0);
        done.second = image.to_vec();
        assert_eq!(question.expected(), done);
        // The last refusal first, each before the one that was there.
        question.second.truncate(23);
        assert_eq!(question.expected(), question.untouched(14));
        question.first[0] = 0;
        assert_eq!(question.expected(), question.untouched(7));
        question.first.push(0);
        assert_eq!(question.expected(), question.untouched(1));
        question.asked += 1 << 61;
        assert_eq!(question.expected(), question.untouched(3));
    }
}
