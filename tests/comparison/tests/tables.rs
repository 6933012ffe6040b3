//! The reader of automata files: accepted, and refused by 11, on twins, mutated twins and hand-made tables, with every clause
//! broken alone, and on any bytes.

use comparison::met::Met;
use comparison::monuvaleck::automata_check;
use simulator::automata::{self, broken_clauses, AutomataTable, CLAUSES};
use simulator::chart_sets::zero_watch;
use simulator::generate::record_list::RecordList;
use simulator::generate::table_forms::{forms, FORMS};
use simulator::generate::{table_damage, tables};
use simulator::records::{whole_records, AUTOMATA_LIMITS};
use simulator::translation::twin;
use simulator::{ChartSet, Random};

/// Compares a file, and counts the clause that it breaks alone, or that it breaks several or none.
fn compare(bytes: &[u8], met: &mut Met) {
    let right = automata::check(bytes);
    assert_eq!(automata_check(bytes), -(right as i32), "{bytes:?}");
    let broken = broken_clauses(bytes);
    assert_eq!(broken.is_empty(), right == 0, "{broken:?} in {bytes:?}");
    met.add(match broken[..] {
        [] => "accepted",
        [alone] => alone,
        _ => "several clauses",
    });
    met.add("files");
}

fn accept(bytes: &[u8], origin: &str, met: &mut Met) {
    assert_eq!((automata_check(bytes), automata::check(bytes)), (0, 0), "{bytes:?}");
    met.add("files");
    met.add(origin);
    let table = AutomataTable::read(bytes).expect("an accepted table");
    for form in forms(bytes, &table) {
        met.add(form);
    }
}

#[test]
fn accepted_tables() {
    let mut random = Random::new(31);
    let mut met = Met::default();
    for _ in 0..3_000 {
        accept(&tables::translated(&mut random), "twins", &mut met);
        accept(&tables::mutated(&mut random), "mutated twins", &mut met);
        accept(&tables::hand_made_small(&mut random), "hand-made tables", &mut met);
        accept(&tables::hand_made_sparse(&mut random), "hand-made tables with few edges", &mut met);
    }
    for _ in 0..12 {
        let largest = tables::hand_made(&mut random, &tables::LARGEST);
        let records = whole_records(&largest);
        for (kind, most) in AUTOMATA_LIMITS {
            assert_eq!(records.iter().filter(|record| record[0] == kind).count(), most, "kind {kind}");
        }
        accept(&largest, "largest tables", &mut met);
    }
    println!("accepted tables: {:#?}", met.0);
    met.at_least(3_000, &["twins", "mutated twins", "hand-made tables", "hand-made tables with few edges"]);
    met.at_least(200, &FORMS);
}

#[test]
fn damaged_in_each_way() {
    let mut random = Random::new(32);
    let mut met = Met::default();
    let mut ways = Met::default();
    for round in 0..12_000 {
        let table = match round % 3 {
            0 => tables::translated(&mut random),
            1 => tables::mutated(&mut random),
            _ => tables::hand_made_small(&mut random),
        };
        let way = &table_damage::DAMAGES[round / 3 % table_damage::DAMAGES.len()];
        if let Some(bad) = table_damage::damage(&mut random, &table, way) {
            assert_eq!(automata::check(&bad), 11, "{}", way.clause);
            compare(&bad, &mut met);
            ways.add(way.clause);
        }
    }
    println!("damaged tables, by the clause broken alone: {:#?}\nby damage: {:#?}", met.0, ways.0);
    met.at_least(100, &CLAUSES);
    for way in table_damage::DAMAGES {
        ways.at_least(20, &[way.clause]);
    }
}

/// Cut anywhere, repeated whole, and with one kind filled up past its limit or up to it.
#[test]
fn truncated_and_oversized() {
    let mut random = Random::new(33);
    let mut met = Met::default();
    for round in 0..3_000 {
        let table = match round % 2 {
            0 => tables::translated(&mut random),
            _ => tables::hand_made_small(&mut random),
        };
        let cut = random.below(table.len());
        compare(&table[..cut], &mut met);
        compare(&table[..cut / 16 * 16], &mut met);
        compare(&table.repeat(2), &mut met);
        if round % 10 == 0 {
            let (kind, most) = random.pick(&AUTOMATA_LIMITS);
            let mut list = RecordList::of(&table);
            list.fill(kind, most + random.pick(&[0, 1, 2, 40]));
            compare(&list.bytes(), &mut met);
        }
    }
    println!("cut and oversized: {:#?}", met.0);
    met.at_least(1_000, &["accepted", "length", "names nothing", "several clauses"]);
    met.at_least(100, &["counts"]);
}

/// The most of each kind, and one more, which alone breaks the table.
#[test]
fn the_most_of_each_kind() {
    let mut random = Random::new(35);
    let mut met = Met::default();
    for _ in 0..10 {
        for (kind, _) in AUTOMATA_LIMITS {
            compare(&tables::filled(&mut random, kind, 0), &mut met);
            compare(&tables::filled(&mut random, kind, 1), &mut met);
        }
    }
    assert_eq!((met.count("accepted"), met.count("counts")), (90, 90), "{met:?}");
}

/// Single bytes changed in a small twin, and bytes of no form at all.
#[test]
fn any_bytes() {
    let mut random = Random::new(34);
    let mut met = Met::default();
    let small = twin(&ChartSet::read(&zero_watch()).expect("an accepted set"));
    for _ in 0..10_000 {
        let mut bytes = small.clone();
        let at = random.below(bytes.len());
        bytes[at] = random.pick(&[0, 1, 2, 3, 4, 7, 16, 17, 31, 32, 33, 37, 40, 41, 128, 255]);
        compare(&bytes, &mut met);
        let noise: Vec<u8> =
            (0..random.below(200)).map(|_| random.pick(&[0, 0, 1, 2, 33, 34, 35, 39])).collect();
        compare(&noise, &mut met);
    }
    println!("any bytes: {:#?}", met.0);
    met.at_least(
        100,
        &["accepted", "kinds", "stray byte", "code or range", "names nothing", "several clauses"],
    );
}
