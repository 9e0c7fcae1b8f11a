//! Write then read, read then write.

use crate::shop::*;
use second::case::Case;
use second::generate;
use second::rng::Rng;
use second::*;

fn classes_of(table: &Table) -> Vec<Class> {
    let class = |event| {
        // There may be more events than a set has places.
        let worth = if event < 64 { set(&[event]) } else { 0 };
        (table.controllable & worth != 0, table.causable & worth != 0)
    };
    (0..table.events).map(class).collect()
}

/// The image of a table, put together by hand.
fn image_by_hand(of: &Table) -> Vec<u8> {
    let image = table_image(&classes_of(of), &of.relations[..of.count]);
    if of.firm {
        firm_image(&image)
    } else {
        image
    }
}

/// The table with its unused places empty.
fn used_places(of: &Table) -> Table {
    Table {
        firm: of.firm,
        ..table(&classes_of(of), &of.relations[..of.count])
    }
}

#[test]
fn a_written_marking_reads_back() {
    let mut rng = Rng::new(11);
    for _ in 0..500 {
        let handed_in = generate::sound_pair(&mut rng).marking;
        let events = handed_in.events;
        let mut buffer = vec![170; 12 * events + 3];
        assert_eq!(write_marking(&handed_in, &mut buffer), 0);
        assert_eq!(buffer[12 * events..], [170; 3]);
        assert_eq!(buffer[..12 * events], marking_image(&handed_in));

        let read = read_marking(events, &buffer[..12 * events]);
        assert_eq!(read.number, 0);
        assert_eq!(read.marking.events, events);
        assert_eq!(read.marking.records[..events], handed_in.records[..events]);
        // Places past the count were garbage in some of these markings.
        for record in &read.marking.records[events..] {
            assert_eq!(*record, NO_RECORD);
        }
    }
}

#[test]
fn a_read_marking_writes_the_same_bytes() {
    let mut rng = Rng::new(12);
    for _ in 0..500 {
        let image = marking_image(&generate::sound_pair(&mut rng).marking);
        let read = read_marking(image.len() / 12, &image);
        assert_eq!(read.number, 0);
        let mut written = vec![0; image.len()];
        assert_eq!(write_marking(&read.marking, &mut written), 0);
        assert_eq!(written, image);
    }
}

#[test]
fn a_table_image_reads_as_the_table_it_was_made_from() {
    let mut rng = Rng::new(13);
    for _ in 0..500 {
        let made_from = generate::sound_pair(&mut rng).table;
        let image = image_by_hand(&made_from);
        assert_eq!(generate::table_image(&made_from), image);
        let read = read_table(&image);
        assert_eq!(read.number, 0);
        assert_eq!(read.table, used_places(&made_from));
    }
}

#[test]
fn a_written_table_reads_back_with_its_unused_places_empty() {
    let mut rng = Rng::new(15);
    let mut had_rubbish = 0;
    let mut firm = 0;
    for _ in 0..500 {
        let handed_in = generate::sound_pair(&mut rng).table;
        let length = 4 + handed_in.events + 6 * handed_in.count;
        let mut buffer = vec![170; length + 3];
        assert_eq!(write_table(&handed_in, &mut buffer), 0);
        assert_eq!(buffer[length..], [170; 3]);
        let read = read_table(&buffer[..length]);
        assert_eq!(read.number, 0);
        assert_eq!(read.table, used_places(&handed_in));
        had_rubbish += usize::from(read.table != *handed_in);
        firm += usize::from(read.table.firm);
    }
    assert!(had_rubbish > 100, "{had_rubbish}");
    assert!(firm > 200 && firm < 300, "{firm}");
}

#[test]
fn a_read_table_writes_the_same_bytes() {
    let mut rng = Rng::new(16);
    let mut refused = 0;
    for _ in 0..2000 {
        let Case::ReadTable { bytes } = generate::read_table_case(&mut rng) else {
            panic!("another case");
        };
        let read = read_table(&bytes);
        let mut written = vec![170; bytes.len()];
        if read.number == 0 {
            assert_eq!(write_table(&read.table, &mut written), 0);
            assert_eq!(written, bytes);
        } else {
            // A refusal reads as the empty table, which has no image.
            assert_eq!(write_table(&read.table, &mut written), 3);
            refused += 1;
        }
    }
    assert!(refused > 500 && refused < 1500, "{refused}");
}

/// The image of a table as it stands, if each of its fields holds its value.
fn image_of_any(table: &Table) -> Option<Vec<u8>> {
    if table.events > 127 || table.count > 256 {
        return None;
    }
    let used = &table.relations[..table.count];
    let fits = |relation: &Relation| {
        relation.kind < 8 && relation.left.max(relation.right) < 64 && relation.time < 1_073_741_824
    };
    used.iter().all(fits).then(|| image_by_hand(table))
}

#[test]
fn a_refused_table_has_the_number_that_reading_its_image_gives() {
    let mut rng = Rng::new(17);
    let mut numbers = [0; 7];
    let mut without_image = 0;
    for _ in 0..4000 {
        let Case::WriteTable { table, mut buffer } = generate::write_table_case(&mut rng) else {
            panic!("another case");
        };
        buffer.resize(2000, 170);
        let number = write_table(&table, &mut buffer);
        match image_of_any(&table) {
            Some(image) => {
                assert_eq!(number, read_table(&image).number);
                numbers[usize::from(number)] += 1;
            }
            None => without_image += 1,
        }
    }
    assert!(without_image > 100, "{without_image}");
    for number in [0, 3, 4, 5, 6] {
        assert!(numbers[number] > 20, "{number}: {numbers:?}");
    }
}

#[test]
fn numbers_told_of_a_table_build_it_again() {
    let mut rng = Rng::new(18);
    for _ in 0..100 {
        let table = generate::sound_pair(&mut rng).table;
        let image = generate::table_image(&table);
        let mut classes = vec![1; table.events];
        for (event, place) in classes.iter_mut().enumerate() {
            assert_eq!(tell_class(&image, event, place), 0);
        }
        let mut relations = vec![9; 5 * table.count];
        for (relation, places) in relations.chunks_mut(5).enumerate() {
            assert_eq!(tell_relation(&image, relation, places), 0);
        }
        let mut firm = 9;
        assert_eq!(tell_firm(&image, &mut firm), 0);
        let mut again = vec![170; image.len()];
        assert_eq!(
            build_table(table.events, firm, &classes, &relations, &mut again),
            0
        );
        assert_eq!(again, image);
    }
}

#[test]
fn a_fresh_marking_reads_back() {
    for events in 1..=64 {
        let mut image = vec![255; 12 * events];
        assert_eq!(write_marking(&fresh_marking(events), &mut image), 0);
        assert_eq!(image, [0, 0, 0, 1, 0, 0, 0, 0, 0, 0, 0, 0].repeat(events));
        assert_eq!(read_marking(events, &image), fresh(events));
    }
}
