//! Refusals 1 to 3 of both formats, with the counts and the first records of each kind.

use comparison::framing;
use simulator::files::Sections;
use simulator::generate::{set_damage, sets, table_damage, tables};
use simulator::records::{AUTOMATA_LIMITS, CHART_LIMITS};
use simulator::Random;

type Limits = &'static [(u8, usize)];

fn expected(bytes: &[u8], limits: Limits) -> (u8, [usize; 9], [usize; 9]) {
    let (mut counts, mut firsts) = ([0; 9], [0; 9]);
    match Sections::read(bytes, limits) {
        Err(number) => (u8::try_from(number).expect("1 to 3"), counts, firsts),
        Ok(sections) => {
            let kinds = limits[0].0..limits[0].0 + 9;
            let mut first = 0;
            for (place, kind) in kinds.enumerate() {
                counts[place] = sections.of(kind).len();
                firsts[place] = first;
                first += counts[place];
            }
            (0, counts, firsts)
        }
    }
}

fn compare(bytes: &[u8], limits: Limits, met: &mut [usize; 4]) {
    let most: Vec<u16> = limits.iter().map(|(_, most)| u16::try_from(*most).expect("limits fit")).collect();
    let right = expected(bytes, limits);
    assert_eq!(framing(bytes, limits[0].0, &most), right, "{} bytes", bytes.len());
    met[usize::from(right.0)] += 1;
}

fn all_met(met: [usize; 4]) {
    assert!(met.iter().all(|n| *n > 50), "accepted and refused by 1, 2, 3: {met:?}");
}

/// Cut short, or with a kind changed, or with records repeated, or as it is.
fn disturbed(random: &mut Random, mut bytes: Vec<u8>) -> Vec<u8> {
    match random.below(5) {
        0 => bytes.truncate(random.below(bytes.len() + 1)),
        1 => {
            let record = random.below(bytes.len() / 16);
            bytes[16 * record] = random.pick(&[0, 1, 2, 5, 6, 7, 32, 33, 37, 41, 42]);
        }
        2 => {
            let record = 16 * random.below(bytes.len() / 16);
            let copy = bytes[record..record + 16].to_vec();
            for _ in 0..random.pick(&[1, 9, 300]) {
                bytes.splice(record..record, copy.iter().copied());
            }
        }
        3 => bytes.drain(..16 * random.below(4).min(bytes.len() / 16)).for_each(drop),
        _ => {}
    }
    bytes
}

#[test]
fn chart_files_agree() {
    let mut random = Random::new(3);
    let mut met = [0; 4];
    for _ in 0..6_000 {
        let set = sets::any_valid_set(&mut random);
        let bytes = match random.below(3) {
            0 => set_damage::damage_twice(&mut random, &set).map_or(set, |damaged| damaged.bytes),
            _ => disturbed(&mut random, set),
        };
        compare(&bytes, &CHART_LIMITS, &mut met);
    }
    compare(&[], &CHART_LIMITS, &mut met);
    all_met(met);
}

#[test]
fn automata_files_agree() {
    let mut random = Random::new(4);
    let mut met = [0; 4];
    for _ in 0..3_000 {
        let table = tables::any_table(&mut random);
        let bytes = match random.below(4) {
            0 => {
                let damage = &table_damage::DAMAGES[random.below(table_damage::DAMAGES.len())];
                table_damage::damage(&mut random, &table, damage).unwrap_or(table)
            }
            _ => disturbed(&mut random, table),
        };
        compare(&bytes, &AUTOMATA_LIMITS, &mut met);
    }
    all_met(met);
}
