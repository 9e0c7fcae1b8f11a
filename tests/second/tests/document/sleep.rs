//! Sleeping through quiet minutes, sentence by sentence of the request. Each case
//! worked by hand.

use crate::shop::*;
use second::*;

/// The number of the tick before which an event was caused, and the event.
type Caused = (u32, usize);

const MILLION: u32 = 1_000_000;

fn events(count: usize) -> Vec<Class> {
    vec![CONTROLLED; count]
}

/// A list with another number in each place, none of which a sleep gives: no event
/// is above 63.
fn lent(places: usize) -> Vec<u32> {
    (0..places).map(|place| 256 * place as u32 + 200).collect()
}

/// A sleep that is done, told into a list of so many places, of which those past the
/// count stay.
fn slept_in(places: usize, table: &Table, now: &Marking, ticks: u32) -> (Vec<Caused>, Marking) {
    let mut list = lent(places);
    let answer = sleep(table, now, ticks.into(), &mut list);
    assert_eq!((answer.number, answer.reason, answer.place), (0, 0, 0));
    assert_eq!(list.len(), places);
    assert_eq!(list[answer.count..], lent(places)[answer.count..]);
    let told = list[..answer.count].iter();
    let caused = told.map(|place| (place / 256, (place % 256) as usize));
    (caused.collect(), answer.marking)
}

fn slept(table: &Table, now: &Marking, ticks: u32) -> (Vec<Caused>, Marking) {
    slept_in(500, table, now, ticks)
}

/// In this table a sleep from these records causes so much and leaves those records.
fn ends(table: &Table, records: &[Record], ticks: u32, expected: &[Caused], after: &[Record]) {
    let (caused, end) = slept(table, &marking(records), ticks);
    assert_eq!(caused, expected, "{ticks} {records:?}");
    assert_eq!(end, marking(after), "{ticks} {records:?}");
}

/// The same in a table of these relations.
fn sleeps(
    relations: &[Relation],
    records: &[Record],
    ticks: u32,
    expected: &[Caused],
    after: &[Record],
) {
    both_ways(&events(records.len()), relations, |table| {
        ends(table, records, ticks, expected, after);
    });
}

/// The same in a firm table.
fn sleeps_firm(
    relations: &[Relation],
    records: &[Record],
    ticks: u32,
    expected: &[Caused],
    after: &[Record],
) {
    firm_both_ways(&events(records.len()), relations, |table| {
        ends(table, records, ticks, expected, after);
    });
}

/// Refused: the number, reason and place, and nothing else.
fn refused(table: &Table, now: &Marking, ticks: u32, places: usize, why: (u8, u8, u16)) {
    refuses(table, now, ticks.into(), places, why);
}

/// The same of any number of ticks.
fn refuses(table: &Table, now: &Marking, ticks: u64, places: usize, why: (u8, u8, u16)) {
    let mut list = lent(places);
    let (number, reason, place) = why;
    assert_eq!(
        sleep(table, now, ticks, &mut list),
        SleepAnswer {
            number,
            reason,
            place,
            count: 0,
            marking: *now,
        }
    );
    assert_eq!(list, lent(places));
}

/// The single guarded ticks that a sleep stands for, one call each.
fn single_ticks(table: &Table, start: &Marking, ticks: u32) -> (Vec<Caused>, Marking) {
    let mut now = *start;
    let mut all = Vec::new();
    for tick in 1..=ticks {
        let answer = guarded_tick(table, &now);
        assert_eq!(answer.number, 0);
        let events = caused(&answer).into_iter();
        all.extend(events.map(|event| (tick, usize::from(event))));
        now = answer.marking;
    }
    (all, now)
}

fn leaked(p: &Table) -> Marking {
    marking_after(p, &p_start(), LEAK)
}

/// Leak and then so many ticks, of which the fourth is preceded by 2, 4, 1.
fn p_after_causing(ticks: u32) -> Marking {
    let at_four = happened(ticks - 3);
    let mut now = p_start();
    now.records[LEAK] = happened(ticks);
    for event in [FLUSH, ISOLATE, DRAIN] {
        now.records[event] = at_four;
    }
    now
}

#[test]
fn p_leak_and_sleep_4_causes_2_4_1_before_tick_4() {
    for_p(|p| {
        let (caused, end) = slept(p, &leaked(p), 4);
        assert_eq!(caused, [(4, 2), (4, 4), (4, 1)]);
        assert_eq!(end, p_after_causing(4));
    });
}

/// 256 × tick + event, in a list of exactly so many places.
#[test]
fn p_the_places_of_that_list() {
    for_p(|p| {
        let mut list = [7; 3];
        let answer = sleep(p, &leaked(p), 4, &mut list);
        assert_eq!((answer.number, answer.count), (0, 3));
        assert_eq!(list, [1026, 1028, 1025]);
    });
}

#[test]
fn p_leak_and_sleep_3_causes_nothing_and_leaves_flush_due() {
    for_p(|p| {
        for places in [0, 1, 9] {
            let (caused, end) = slept_in(places, p, &leaked(p), 3);
            assert_eq!(caused, []);
            assert_eq!(end, p_flush_due(p));
        }
    });
}

/// There the first tick is the one before which flush is caused.
#[test]
fn p_there_sleep_1_causes_2_4_1_before_tick_1() {
    for_p(|p| {
        let (caused, end) = slept(p, &p_flush_due(p), 1);
        assert_eq!(caused, [(1, 2), (1, 4), (1, 1)]);
        assert_eq!(end, p_after_causing(4));
    });
}

/// And without a tick nothing is caused, though flush is due.
#[test]
fn p_there_sleep_0_does_nothing() {
    for_p(|p| {
        let due = p_flush_due(p);
        for places in [0, 1, 2, 3, 9] {
            assert_eq!(slept_in(places, p, &due, 0), (vec![], due));
        }
    });
}

/// What was caused is not pending any more: it is not caused again.
#[test]
fn p_leak_and_a_longer_sleep() {
    for_p(|p| {
        for ticks in [5, 6, 7, 8, 100, 999_999, MILLION] {
            let (caused, end) = slept(p, &leaked(p), ticks);
            assert_eq!(caused, [(4, 2), (4, 4), (4, 1)]);
            assert_eq!(end, p_after_causing(ticks));
        }
    });
}

#[test]
fn p_with_isolate_or_drain_done_on_the_way() {
    for_p(|p| {
        let (_, after_2) = slept(p, &leaked(p), 2);
        let isolated = marking_after(p, &after_2, ISOLATE);
        assert_eq!(slept(p, &isolated, 9).0, [(2, 4), (2, 1)]);
        let drained = marking_after(p, &after_2, DRAIN);
        assert_eq!(slept(p, &drained, 9).0, [(2, 2), (2, 1)]);
        let both = marking_after(p, &isolated, DRAIN);
        assert_eq!(slept(p, &both, 9).0, [(2, 1)]);
        let all = marking_after(p, &both, FLUSH);
        assert_eq!(slept(p, &all, 9).0, []);
    });
}

/// Before any leak nothing is pending, and nothing has an age that could grow.
#[test]
fn p_at_the_start_sleeps_as_long_as_it_may() {
    for_p(|p| {
        for ticks in [0, 1, 2, 1000, MILLION] {
            assert_eq!(slept_in(0, p, &p_start(), ticks), (vec![], p_start()));
        }
    });
}

/// Leak, one tick, standby, five ticks: none caused; leak again, and it is as new.
#[test]
fn p_after_standby() {
    for_p(|p| {
        let (_, after_1) = slept(p, &leaked(p), 1);
        let away = marking_after(p, &after_1, STANDBY);
        for (ticks, deadline) in [(1, 1), (2, 0), (3, 0), (5, 0), (MILLION, 0)] {
            let (caused, end) = slept_in(0, p, &away, ticks);
            assert_eq!(caused, []);
            assert_eq!(end.records[FLUSH], excluded(pending(deadline)));
            assert_eq!(end.records[LEAK], happened(1 + ticks));
            assert_eq!(end.records[STANDBY], happened(ticks));
            assert_eq!(end.records[DRAIN], pending_eventually());
            let again = marking_after(p, &end, LEAK);
            assert_eq!(again.records[FLUSH], pending(3));
            assert_eq!(slept(p, &again, 4).0, [(4, 2), (4, 4), (4, 1)]);
        }
    });
}

/// The same in a firm table, in which the date stays: flush is due as it comes back.
#[test]
fn firm_p_after_standby() {
    for_firm_p(|p| {
        let (_, after_1) = slept(p, &leaked(p), 1);
        let away = marking_after(p, &after_1, STANDBY);
        for (ticks, left) in [(1, 1), (2, 0), (3, 0), (5, 0), (1000, 0)] {
            let (caused, end) = slept_in(0, p, &away, ticks);
            assert_eq!(caused, []);
            let again = marking_after(p, &end, LEAK);
            assert_eq!(again.records[FLUSH], pending(left));
            let tick = left + 1;
            assert_eq!(slept(p, &again, 4).0, [(tick, 2), (tick, 4), (tick, 1)]);
        }
    });
}

/// Flush was due when standby came.
#[test]
fn p_standby_at_the_last_moment() {
    for_p(|p| {
        let away = marking_after(p, &p_flush_due(p), STANDBY);
        let (caused, end) = slept_in(0, p, &away, MILLION);
        assert_eq!(caused, []);
        assert_eq!(end.records[FLUSH], excluded(pending(0)));
    });
}

/// A second leak buys time, save in a firm table.
#[test]
fn p_with_a_second_leak() {
    let second_leak = |p: &Table| {
        let (_, after_2) = slept(p, &leaked(p), 2);
        let again = marking_after(p, &after_2, LEAK);
        let (caused, _) = slept(p, &again, 10);
        caused
    };
    for_p(|p| assert_eq!(second_leak(p), [(4, 2), (4, 4), (4, 1)]));
    for_firm_p(|p| assert_eq!(second_leak(p), [(2, 2), (2, 4), (2, 1)]));
}

/// The deadline says before which tick: one that is d is caused before tick d + 1.
#[test]
fn one_event_and_its_deadline() {
    for deadline in [0, 1, 2, 3, 100, 65_535, 65_536, 999_998, 999_999] {
        let records = [pending(deadline)];
        if deadline > 0 {
            let one_short = deadline - 1;
            sleeps(&[], &records, one_short, &[], &[pending(1)]);
        }
        sleeps(&[], &records, deadline, &[], &[pending(0)]);
        let caused = [(deadline + 1, 0)];
        sleeps(&[], &records, deadline + 1, &caused, &[happened(1)]);
        let end = [happened(MILLION - deadline)];
        sleeps(&[], &records, MILLION, &caused, &end);
    }
    // Later than any sleep.
    for deadline in [MILLION, MILLION + 1, LIMIT] {
        let end = [pending(deadline - MILLION)];
        sleeps(&[], &[pending(deadline)], MILLION, &[], &end);
    }
}

/// Events that fall due before different ticks, and two before the same: there the
/// lower goes first.
#[test]
fn several_deadlines() {
    sleeps(
        &[],
        &[pending(7), pending(2), pending(0), pending(2)],
        9,
        &[(1, 2), (3, 1), (3, 3), (8, 0)],
        &[happened(2), happened(7), happened(9), happened(7)],
    );
    // Cut off before the last, and before the one in the middle.
    sleeps(
        &[],
        &[pending(7), pending(2), pending(0), pending(2)],
        7,
        &[(1, 2), (3, 1), (3, 3)],
        &[pending(0), happened(5), happened(7), happened(5)],
    );
    sleeps(
        &[],
        &[pending(7), pending(2), pending(0), pending(2)],
        2,
        &[(1, 2)],
        &[pending(5), pending(0), happened(2), pending(0)],
    );
}

fn again(age: u32, count: u32, deadline: u32) -> Record {
    Record {
        happened: true,
        age,
        count,
        ..pending(deadline)
    }
}

/// A duty that comes back every three ticks.
#[test]
fn again_and_again() {
    let every_3 = [response(0, 0, 3)];
    for (ticks, times, age, deadline) in [
        (1, 1, 1, 2),
        (2, 1, 2, 1),
        (3, 1, 3, 0),
        (4, 2, 1, 2),
        (9, 3, 3, 0),
        (10, 4, 1, 2),
        (100, 34, 1, 2),
        (1200, 400, 3, 0),
    ] {
        let caused: Vec<Caused> = (0..times).map(|time| (3 * time + 1, 0)).collect();
        let end = [again(age, times, deadline)];
        sleeps(&every_3, &[pending(0)], ticks, &caused, &end);
        sleeps_firm(&every_3, &[pending(0)], ticks, &caused, &end);
    }
}

/// Before every single tick.
#[test]
fn every_tick() {
    let caused: Vec<Caused> = (1..=300).map(|tick| (tick, 0)).collect();
    let start = [again(5, 7, 0)];
    sleeps(
        &[response(0, 0, 1)],
        &start,
        300,
        &caused,
        &[again(1, 307, 0)],
    );
}

/// A list that is long, and one place too short.
#[test]
fn every_tick_for_long() {
    let table = table(&events(1), &[response(0, 0, 1)]);
    let now = marking(&[pending(0)]);
    let (caused, end) = slept_in(20_000, &table, &now, 20_000);
    let every: Vec<Caused> = (1..=20_000).map(|tick| (tick, 0)).collect();
    assert_eq!(caused, every);
    assert_eq!(end, marking(&[again(1, 20_000, 0)]));
    refused(&table, &now, 20_000, 19_999, (14, 0, 0));
    refused(&table, &now, MILLION, 20_000, (14, 0, 0));
}

/// Two duties of different periods, which meet before ticks 1 and 7.
#[test]
fn every_two_ticks_and_every_three() {
    let relations = [response(0, 0, 2), response(1, 1, 3)];
    sleeps(
        &relations,
        &[pending(0), pending(0)],
        7,
        &[(1, 0), (1, 1), (3, 0), (4, 1), (5, 0), (7, 0), (7, 1)],
        &[again(1, 4, 1), again(1, 3, 2)],
    );
}

/// One duty makes the next.
#[test]
fn one_after_another() {
    let relations = [response(0, 1, 2), response(1, 2, 3)];
    sleeps(
        &relations,
        &[pending(1), included(), included()],
        7,
        &[(2, 0), (4, 1), (7, 2)],
        &[happened(6), happened(4), happened(1)],
    );
    // And the last the first, so that it never ends.
    let round = [response(0, 1, 2), response(1, 2, 3), response(2, 0, 1)];
    sleeps(
        &round,
        &[pending(1), included(), included()],
        14,
        &[(2, 0), (4, 1), (7, 2), (8, 0), (10, 1), (13, 2), (14, 0)],
        &[happened_often(1, 3), again(5, 2, 1), happened_often(2, 2)],
    );
}

/// A repeated response puts event 1 off for ever, save in a firm table.
#[test]
fn put_off_again_and_again() {
    let relations = [response(0, 0, 2), response(0, 1, 5)];
    let start = [pending(0), pending(3)];
    let own: Vec<Caused> = (0..10).map(|time| (2 * time + 1, 0)).collect();
    sleeps(&relations, &start, 20, &own, &[again(2, 10, 0), pending(3)]);
    let firm = [
        (1, 0),
        (3, 0),
        (4, 1),
        (5, 0),
        (7, 0),
        (9, 0),
        (10, 1),
        (11, 0),
    ];
    sleeps_firm(
        &relations,
        &start,
        11,
        &firm,
        &[again(1, 6, 1), again(2, 2, 4)],
    );
}

/// An inhibitor that never happened is caused the first time only.
#[test]
fn an_inhibitor_is_caused_once() {
    sleeps(
        &[response(0, 0, 2), condition(0, 1, 0)],
        &[pending(0), included()],
        5,
        &[(1, 1), (1, 0), (3, 0), (5, 0)],
        &[again(1, 3, 1), happened(5)],
    );
    sleeps(
        &[response(0, 0, 2), milestone(0, 1)],
        &[pending(2), pending_eventually()],
        5,
        &[(3, 1), (3, 0), (5, 0)],
        &[again(1, 2, 1), happened(3)],
    );
    // Not pending any more by its own date, which is sooner.
    sleeps(
        &[response(0, 0, 2), milestone(0, 1)],
        &[pending(2), pending(1)],
        5,
        &[(2, 1), (3, 0), (5, 0)],
        &[again(1, 2, 1), happened(4)],
    );
}

/// An inhibitor that is away is not needed.
#[test]
fn an_inhibitor_that_is_away() {
    let away = excluded(pending(1));
    sleeps(
        &[milestone(0, 1), condition(0, 1, 0)],
        &[pending(3), away],
        9,
        &[(4, 0)],
        &[happened(6), excluded(pending(0))],
    );
}

/// An excluded event is neither caused nor waited for, be its date sooner than that
/// of an included one, at the same tick or later, and it counts down.
#[test]
fn an_excluded_pending_event() {
    for deadline in [0, 1, 2, 4, 5, 6, 7, 100, LIMIT] {
        sleeps(
            &[],
            &[excluded(pending(deadline)), pending(5)],
            8,
            &[(6, 1)],
            &[excluded(pending(deadline.saturating_sub(8))), happened(3)],
        );
    }
    let start = [excluded(pending(0)), excluded(pending(3))];
    let end = [excluded(pending(0)), excluded(pending(0))];
    sleeps(&[], &start, MILLION, &[], &end);
}

/// An event that the one before it excludes does not fall due any more.
#[test]
fn excluded_on_the_way() {
    sleeps(
        &[excludes(0, 1)],
        &[pending(1), pending(3)],
        10,
        &[(2, 0)],
        &[happened(9), excluded(pending(0))],
    );
    // The other way round it comes in time.
    sleeps(
        &[excludes(0, 1)],
        &[pending(3), pending(1)],
        10,
        &[(2, 1), (4, 0)],
        &[happened(7), excluded(happened(9))],
    );
    // And at the same tick it is skipped.
    sleeps(
        &[excludes(0, 1)],
        &[pending(1), pending(1)],
        10,
        &[(2, 0)],
        &[happened(9), excluded(pending(0))],
    );
    // An event that excludes itself does so the first time, for all its response.
    sleeps(
        &[excludes(0, 0), response(0, 0, 2)],
        &[pending(1)],
        10,
        &[(2, 0)],
        &[excluded(again(9, 1, 0))],
    );
    // It stays where it includes itself, too.
    sleeps(
        &[excludes(0, 0), response(0, 0, 2), includes(0, 0)],
        &[pending(1)],
        5,
        &[(2, 0), (4, 0)],
        &[again(2, 2, 0)],
    );
}

/// An event whose date ran out while it was excluded is due as it comes back.
#[test]
fn included_again_after_the_sleep() {
    both_ways(&events(2), &[includes(1, 0)], |table| {
        let away = marking(&[excluded(pending(3)), included()]);
        for (ticks, left) in [(2, 1), (3, 0), (4, 0), (1000, 0)] {
            let (caused, end) = slept_in(0, table, &away, ticks);
            assert_eq!(caused, []);
            assert_eq!(end.records[0], excluded(pending(left)));
            let back = marking_after(table, &end, 1);
            assert_eq!(back.records[0], pending(left));
            assert_eq!(slept(table, &back, 5).0, [(left + 1, 0)]);
        }
    });
}

/// What is caused may include an event, which then has no date: the check has no event
/// of the closure include another.
#[test]
fn included_on_the_way() {
    sleeps(
        &[includes(0, 1)],
        &[pending(2), excluded(pending_eventually())],
        5,
        &[(3, 0)],
        &[happened(3), pending_eventually()],
    );
    let table = table(&events(2), &[includes(0, 1)]);
    let now = marking(&[pending(2), excluded(pending(9))]);
    refused(&table, &now, 5, 9, (12, 6, 0));
}

/// Pending eventually is never due, and is not ended by a sleep.
#[test]
fn eventually_is_not_waited_for() {
    sleeps(
        &[],
        &[pending_eventually(), pending(2)],
        MILLION,
        &[(3, 1)],
        &[pending_eventually(), happened(MILLION - 2)],
    );
    // A due event that responds eventually is not caused again.
    sleeps(
        &[eventually(0, 0)],
        &[pending(2)],
        MILLION,
        &[(3, 0)],
        &[Record {
            happened: true,
            age: MILLION - 2,
            count: 1,
            ..pending_eventually()
        }],
    );
}

/// Ages are held at the limit, and so are counts.
#[test]
fn ages_and_counts_are_held() {
    sleeps(
        &[],
        &[
            happened(LIMIT),
            happened(LIMIT - 1),
            happened(LIMIT - 5),
            excluded(happened(LIMIT - 6)),
        ],
        5,
        &[],
        &[
            happened(LIMIT),
            happened(LIMIT),
            happened(LIMIT),
            excluded(happened(LIMIT - 1)),
        ],
    );
    let start = [happened(LIMIT - MILLION + 1), happened(LIMIT - MILLION - 1)];
    let end = [happened(LIMIT), happened(LIMIT - 1)];
    sleeps(&[], &start, MILLION, &[], &end);
    sleeps(
        &[response(0, 0, 1)],
        &[again(LIMIT, u32::MAX - 2, 0)],
        5,
        &[(1, 0), (2, 0), (3, 0), (4, 0), (5, 0)],
        &[again(1, u32::MAX, 0)],
    );
}

/// The largest place that there is.
#[test]
fn event_63_before_tick_1_000_000() {
    let mut records = [included(); 64];
    records[63] = pending(MILLION - 1);
    let table = table(&events(64), &[]);
    let mut list = [5; 2];
    let answer = sleep(&table, &marking(&records), MILLION.into(), &mut list);
    assert_eq!((answer.number, answer.count), (0, 1));
    assert_eq!(list, [256_000_063, 5]);
    records[63] = happened(1);
    assert_eq!(answer.marking, marking(&records));
}

/// All 64 events before one tick, and then again.
#[test]
fn all_64_events_at_once() {
    let relations: Vec<Relation> = (0..64).map(|event| response(event, event, 500)).collect();
    let once = |tick: u32| (0..64).map(move |event| (tick, event));
    let caused: Vec<Caused> = once(31).chain(once(531)).collect();
    let end = [again(70, 2, 430); 64];
    sleeps(&relations, &[pending(30); 64], 600, &caused, &end);
}

/// Tables and markings with something to do, and something that stands in its way.
fn eventful() -> Vec<(Table, Marking)> {
    let round = [response(0, 1, 2), response(1, 2, 3), response(2, 0, 1)];
    let with_helpers = [
        response(0, 0, 4),
        condition(0, 1, 0),
        milestone(0, 2),
        condition(2, 3, 0),
        response(0, 3, 5),
        excludes(3, 4),
        response(4, 4, 1),
    ];
    let records = [
        pending(6),
        excluded(pending(2)),
        pending_eventually(),
        included(),
        pending(0),
    ];
    let mut all = Vec::new();
    for relations in [&round[..], &with_helpers] {
        let plain = table(&events(5), relations);
        all.push((plain, marking(&records)));
        all.push((firm(&plain), marking(&records)));
    }
    let p = table(&P_CLASSES, &p_relations());
    all.push((p, leaked(&p)));
    all.push((firm(&p), leaked(&p)));
    all
}

/// "Are those of t single guarded ticks."
#[test]
fn a_sleep_is_so_many_single_guarded_ticks() {
    for (table, start) in eventful() {
        for ticks in (0..60).chain([200, 1000]) {
            let mut list = lent(2000);
            let answer = sleep(&table, &start, ticks.into(), &mut list);
            assert_eq!(answer.number, 0);
            let (caused, end) = single_ticks(&table, &start, ticks);
            let places = caused
                .iter()
                .map(|(tick, event)| 256 * tick + *event as u32);
            assert_eq!(list[..answer.count], places.collect::<Vec<u32>>());
            assert_eq!(answer.marking, end);
        }
    }
}

/// Where nothing is due a guarded tick is a plain one, and there are many of them.
#[test]
fn a_long_quiet_sleep_is_so_many_plain_ticks() {
    let table = table(&events(5), &[response(0, 1, 4), condition(1, 2, 0)]);
    let start = marking(&[
        happened(LIMIT - 12_000),
        pending(20_000),
        excluded(pending(7)),
        again(3, 9, LIMIT),
        pending_eventually(),
    ]);
    let mut now = start;
    for tick in 1..=20_000 {
        let answer = plain_tick(&table, &now);
        assert_eq!(answer.number, 0);
        now = answer.marking;
        if tick % 1000 < 3 {
            assert_eq!(slept_in(0, &table, &start, tick), (vec![], now));
        }
    }
    assert_eq!(plain_tick(&table, &now).number, 11);
}

/// "Sleeping t and then u is sleeping t + u, with the second list's tick numbers
/// moved by t."
#[test]
fn sleeping_in_two_parts() {
    for (table, start) in eventful() {
        for (t, u) in (0..12).flat_map(|t| (0..12).map(move |u| (t, u))) {
            let (mut caused, between) = slept(&table, &start, t);
            let (second, end) = slept(&table, &between, u);
            caused.extend(second.iter().map(|(tick, event)| (tick + t, *event)));
            assert_eq!(slept(&table, &start, t + u), (caused, end), "{t} {u}");
        }
    }
}

/// Up to the limit. Two sleeps may pass it together.
#[test]
fn sleeping_in_two_long_parts() {
    let table = table(&events(2), &[response(0, 0, 300_000)]);
    let start = marking(&[pending(99_999), excluded(pending(LIMIT))]);
    let whole = [(100_000, 0), (400_000, 0), (700_000, 0), (MILLION, 0)];
    for t in [0, 1, 99_999, 100_000, 400_000, 555_555, 999_999, MILLION] {
        let (mut caused, between) = slept(&table, &start, t);
        let (second, end) = slept(&table, &between, MILLION - t);
        caused.extend(second.iter().map(|(tick, event)| (tick + t, *event)));
        assert_eq!(caused, whole);
        assert_eq!(slept(&table, &start, MILLION), (caused, end));
    }
    let (_, between) = slept(&table, &start, MILLION);
    let (second, end) = slept(&table, &between, MILLION);
    assert_eq!(second, [(300_000, 0), (600_000, 0), (900_000, 0)]);
    let after = [
        again(100_001, 7, 199_999),
        excluded(pending(LIMIT - 2 * MILLION)),
    ];
    assert_eq!(end, marking(&after));
}

/// "And no list is too short": the whole may not fit where each part does.
#[test]
fn sleeping_in_two_parts_with_a_short_list() {
    let table = table(&events(1), &[response(0, 0, 3)]);
    let start = marking(&[pending(0)]);
    refused(&table, &start, 10, 3, (14, 0, 0));
    let (first, between) = slept_in(3, &table, &start, 9);
    assert_eq!(first, [(1, 0), (4, 0), (7, 0)]);
    let (second, end) = slept_in(3, &table, &between, 1);
    assert_eq!(second, [(1, 0)]);
    let whole = [(1, 0), (4, 0), (7, 0), (10, 0)];
    assert_eq!(slept_in(4, &table, &start, 10), (whole.to_vec(), end));
}

/// "T from 0 to 1,000,000."
#[test]
fn more_ticks_than_the_limit_are_refused_with_14() {
    let nothing_to_do = table(&events(1), &[]);
    for now in [fresh_marking(1), marking(&[pending(0)])] {
        for ticks in [MILLION + 1, MILLION + 2, 16_777_216, LIMIT, u32::MAX] {
            for places in [0, 1, 9] {
                refused(&nothing_to_do, &now, ticks, places, (14, 0, 0));
            }
        }
        assert_eq!(slept(&nothing_to_do, &now, MILLION).1.events, 1);
    }
}

/// Such as would be few if they were cut to 32 bits, or to fewer.
#[test]
fn no_number_of_ticks_is_cut() {
    let rejects = table(&[CONTROLLABLE_ONLY], &[]);
    let accepts = table(&events(1), &[]);
    let now = marking(&[pending(0)]);
    let numbers = [24, 30, 31, 32, 33, 40, 48, 63].map(|bits| 2u64.pow(bits));
    for number in numbers {
        for ticks in [number, number + 1, number + 4, number + 1_000_000] {
            for places in [0, 1, 9] {
                refuses(&accepts, &now, ticks, places, (14, 0, 0));
                refuses(&rejects, &now, ticks, places, (14, 0, 0));
            }
        }
    }
    refuses(&accepts, &now, u64::MAX, 9, (14, 0, 0));
    refuses(&accepts, &now, u64::MAX - 1, 9, (14, 0, 0));
}

/// "14 when the caused list does not fit; nothing is written then", not even what
/// there would have been room for.
#[test]
fn a_list_that_is_too_short() {
    for_p(|p| {
        let now = leaked(p);
        for places in [0, 1, 2] {
            for ticks in [4, 5, MILLION] {
                refused(p, &now, ticks, places, (14, 0, 0));
            }
            // Nothing is caused as yet.
            assert_eq!(slept_in(places, p, &now, 3).0, []);
        }
        for places in [3, 4, 5, 1000] {
            assert_eq!(slept_in(places, p, &now, 4).0.len(), 3);
        }
    });
    // Too short at a later tick, and too short by far.
    let table = table(&events(1), &[response(0, 0, 3)]);
    let now = marking(&[pending(0)]);
    assert_eq!(slept_in(3, &table, &now, 9).0.len(), 3);
    for places in [0, 1, 2, 3] {
        refused(&table, &now, 10, places, (14, 0, 0));
        refused(&table, &now, MILLION, places, (14, 0, 0));
    }
    assert_eq!(slept_in(4, &table, &now, 10).0.len(), 4);
}

/// What is skipped takes no place.
#[test]
fn room_for_what_is_executed() {
    let table = table(&events(2), &[excludes(0, 1)]);
    let now = marking(&[pending(1), pending(1)]);
    assert_eq!(slept_in(1, &table, &now, 9).0, [(2, 0)]);
    refused(&table, &now, 9, 0, (14, 0, 0));
}

/// Places past the list stay, whatever is in them.
#[test]
fn places_past_the_list_stay() {
    let table = table(&events(1), &[response(0, 0, 3)]);
    let now = marking(&[pending(0)]);
    for before in [0, 1, 256, 257, u32::MAX] {
        let mut list = [before; 20];
        let answer = sleep(&table, &now, 7, &mut list);
        assert_eq!((answer.number, answer.count), (0, 3));
        assert_eq!(list[..3], [256, 1024, 1792]);
        assert_eq!(list[3..], [before; 17]);
        // The next sleep starts again at the first place, with tick 1.
        let answer = sleep(&table, &now, 1, &mut list);
        assert_eq!((answer.number, answer.count), (0, 1));
        assert_eq!(list[..4], [256, 1024, 1792, before]);
        let answer = sleep(&table, &now, 0, &mut list);
        assert_eq!((answer.number, answer.count), (0, 0));
        assert_eq!(list[..4], [256, 1024, 1792, before]);
    }
}

/// "12 (at t = 0 too)", with the check's reason and place, due or not.
#[test]
fn what_the_check_rejects_is_refused_with_12() {
    let p_and = |added: Relation| {
        let mut relations = p_relations();
        relations.push(added);
        table(&P_CLASSES, &relations)
    };
    let mut classes = P_CLASSES;
    classes[ISOLATE] = CONTROLLABLE_ONLY;
    let mut late = p_relations();
    late[1].time = 1;
    for (table, reason, place) in [
        (p_and(excludes(STANDBY, LEAK)), 1, 0),
        (table(&classes, &p_relations()), 2, 2),
        (table(&P_CLASSES, &late), 3, 1),
        (p_and(condition(ISOLATE, FLUSH, 0)), 4, 1),
        (p_and(response(ISOLATE, DRAIN, 1)), 5, 6),
        (p_and(includes(ISOLATE, FLUSH)), 6, 6),
    ] {
        for now in [p_start(), leaked(&table)] {
            assert_eq!(check(&table, &now), rejected(reason, place));
            for ticks in [0, 1, 3, 4, 5, MILLION] {
                for places in [0, 1, 3, 9] {
                    refused(&table, &now, ticks, places, (12, reason, place));
                }
            }
        }
    }
}

/// "14 when t is above the limit, then 12, then 14 when the list does not fit", and
/// all of them after the table and the marking.
#[test]
fn the_order_of_refusals() {
    // Due, and not causable.
    let rejects = table(&[CONTROLLABLE_ONLY; 2], &[]);
    let due = marking(&[included(), pending(0)]);
    refused(&rejects, &due, 0, 0, (12, 2, 1));
    refused(&rejects, &due, 1, 0, (12, 2, 1));
    refused(&rejects, &due, MILLION, 0, (12, 2, 1));
    refused(&rejects, &due, MILLION + 1, 0, (14, 0, 0));
    refused(&rejects, &due, MILLION + 1, 9, (14, 0, 0));
    // The same causable: only the list is too short.
    let accepts = table(&[CONTROLLED; 2], &[]);
    refused(&accepts, &due, 1, 0, (14, 0, 0));
    refused(&accepts, &due, MILLION + 1, 9, (14, 0, 0));

    let wrong = marking(&[included(), pending(LIMIT + 1)]);
    for good in [&rejects, &accepts] {
        for (ticks, places) in [(0, 0), (1, 0), (MILLION, 9), (MILLION + 1, 0)] {
            refused(good, &wrong, ticks, places, (7, 0, 0));
            refused(good, &fresh_marking(3), ticks, places, (1, 0, 0));
            let late = table(&events(2), &[condition(0, 1, LIMIT + 1)]);
            refused(&late, &wrong, ticks, places, (6, 0, 0));
            let beyond = table(&events(2), &[condition(0, 2, 0)]);
            refused(&beyond, &wrong, ticks, places, (5, 0, 0));
            let unknown = table(&events(2), &[NO_RELATION]);
            refused(&unknown, &due, ticks, places, (4, 0, 0));
            refused(&NO_TABLE, &due, ticks, places, (3, 0, 0));
        }
    }
}

/// Records past the count are kept, and what stands there falls due for nobody.
#[test]
fn unused_places_are_kept_and_not_looked_at() {
    let mut strange = table(&events(2), &[response(0, 0, 2)]);
    strange.relations[1] = excludes(0, 1);
    strange.relations[2] = condition(0, 2, LIMIT + 1);
    let mut now = marking(&[pending(0), pending(2)]);
    now.records[2] = pending(0);
    now.records[63] = Record {
        age: u32::MAX,
        deadline: u32::MAX,
        ..pending(0)
    };
    let (caused, end) = slept(&strange, &now, 4);
    assert_eq!(caused, [(1, 0), (3, 0), (3, 1)]);
    assert_eq!(end.records[0], again(2, 2, 0));
    assert_eq!(end.records[1], happened(2));
    assert_eq!(end.records[2..], now.records[2..]);
}

/// An event outside the closure, and the class of the ones inside, play no part.
#[test]
fn uncontrollable_events_are_caused_too() {
    let classes = [CAUSABLE_ONLY, UNCONTROLLED, CONTROLLED];
    let relations = [response(0, 0, 2), response(1, 2, 1)];
    both_ways(&classes, &relations, |table| {
        let now = marking(&[pending(1), happened(0), pending(4)]);
        let (caused, end) = slept(table, &now, 6);
        assert_eq!(caused, [(2, 0), (4, 0), (5, 2), (6, 0)]);
        let after = [again(1, 3, 1), happened(6), happened(2)];
        assert_eq!(end, marking(&after));
    });
}
