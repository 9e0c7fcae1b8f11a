//! What a chain lists, how deep it goes, and why it lists nothing.

use super::{relations, CONDITION, MILESTONE};
use second::case::Pair;
use std::collections::BTreeSet;

/// How many places are enough for every chain.
const PLACES: usize = 256;

/// The asked event of a chain that is done, and its places as relation and depth.
struct Listed<'a> {
    pair: &'a Pair,
    event: usize,
    places: Vec<(usize, usize)>,
}

impl Listed<'_> {
    fn right(&self, relation: usize) -> usize {
        self.pair.table.relations[relation].right.into()
    }

    fn opened(&self) -> BTreeSet<usize> {
        let rights = self.places.iter().map(|place| self.right(place.0));
        rights.chain([self.event]).collect()
    }

    /// A relation leads to an event that was opened before: there are fewer events than
    /// relations and the asked event.
    fn leads_back(&self) -> bool {
        self.opened().len() < self.places.len() + 1
    }

    /// A relation leads to one of the events above it.
    fn cycle(&self) -> bool {
        let mut above = vec![self.event];
        self.places.iter().any(|&(relation, depth)| {
            above.truncate(depth + 1);
            let right = self.right(relation);
            let back = above.contains(&right);
            above.push(right);
            back
        })
    }

    /// An opened event waits for an excluded one, which is left out.
    fn leaves_out(&self) -> bool {
        let opened = self.opened();
        relations(self.pair).any(|(kind, left, right)| {
            [CONDITION, MILESTONE].contains(&kind)
                && opened.contains(&left)
                && !self.pair.marking.records[right].included
        })
    }

    fn both_kinds(&self) -> bool {
        let kind = |place: &(usize, usize)| self.pair.table.relations[place.0].kind;
        let kinds: BTreeSet<u8> = self.places.iter().map(kind).collect();
        kinds.len() > 1
    }

    fn shapes(&self) -> Vec<&'static str> {
        let places = self.places.len();
        let deepest = self.places.iter().map(|place| place.1).max().unwrap_or(0);
        let shapes = [
            ("one listed", places == 1),
            ("2 or more listed", places > 1),
            ("16 or more listed", places > 15),
            ("256 listed", places == PLACES),
            ("1 or more deep", deepest > 0),
            ("4 or more deep", deepest > 3),
            ("16 or more deep", deepest > 15),
            ("63 deep", deepest == 63),
            ("conditions and milestones", self.both_kinds()),
            ("leads to an open event", self.leads_back()),
            ("leads to an event above", self.cycle()),
            ("leaves an excluded event out", self.leaves_out()),
        ];
        let there = shapes.into_iter().filter(|shape| shape.1);
        there.map(|shape| shape.0).collect()
    }
}

fn of_refused(pair: &Pair, event: usize, number: u8, room: usize) -> Vec<&'static str> {
    let fits = || {
        let mut list = [0; PLACES];
        second::chain(&pair.table, &pair.marking, event, &mut list).count <= room
    };
    let shapes = [
        ("bad images", ![8, 14].contains(&number)),
        ("bad images and no room", number < 8 && room < PLACES),
        ("no such event and no room", number == 8 && room < PLACES),
        ("no room for its own", number == 14 && !fits()),
        ("no room for others", number == 14 && fits()),
    ];
    let there = shapes.into_iter().filter(|shape| shape.1);
    there.map(|shape| shape.0).collect()
}

pub fn of(
    pair: &Pair,
    event: usize,
    (number, count, list): (u8, usize, &[u16]),
) -> Vec<&'static str> {
    if number != 0 {
        return of_refused(pair, event, number, list.len());
    }
    if count == 0 {
        let included = pair.marking.records[event].included;
        return vec![["none listed: excluded", "none listed: enabled"][usize::from(included)]];
    }
    let place = |&place: &u16| (usize::from(place / 256), usize::from(place % 256));
    let listed = Listed {
        pair,
        event,
        places: list[..count].iter().map(place).collect(),
    };
    listed.shapes()
}

#[cfg(test)]
mod tests {
    use crate::calls::chosen;
    use crate::compare::{edge_questions, random_questions};
    use crate::shape::missing;

    const SORTS: [&str; 19] = [
        "bad images",
        "bad images and no room",
        "no such event and no room",
        "no room for its own",
        "no room for others",
        "none listed: excluded",
        "none listed: enabled",
        "one listed",
        "2 or more listed",
        "16 or more listed",
        "256 listed",
        "1 or more deep",
        "4 or more deep",
        "16 or more deep",
        "63 deep",
        "conditions and milestones",
        "leads to an open event",
        "leads to an event above",
        "leaves an excluded event out",
    ];

    #[test]
    fn every_sort_of_chain_comes_up() {
        let call = || chosen("24").expect("the call");
        assert_eq!(missing(&SORTS, edge_questions(call())), [""; 0]);
        let random = random_questions(call(), 5_000, 1);
        assert_eq!(missing(&SORTS, random), [""; 0]);
    }
}
