//! The readers on generated and damaged files: the refusals of the simulator.

use simulator::generate::sets::any_valid_set;
use simulator::generate::{set_damage, table_damage, tables};
use simulator::records::AUTOMATA_LIMITS;
use simulator::{automata, chart_sets, charts, Random};
use tuned::automata::Table;
use tuned::charts::Set;
use tuned::machine::Machine;

const ROUNDS: usize = 100;

/// A kept machine, which reads file after file, so that nothing of an earlier one may stay; and how often each number was met.
struct Reader<Kept> {
    kept: Kept,
    right: fn(&[u8]) -> u32,
    met: [usize; 26],
}

impl<Kept: Machine> Reader<Kept> {
    fn new(right: fn(&[u8]) -> u32) -> Self {
        Reader { kept: Kept::default(), right, met: [0; 26] }
    }

    fn check(&mut self, bytes: &[u8]) {
        let number = self.kept.read_into(bytes).err().unwrap_or(0);
        assert_eq!(number, (self.right)(bytes), "{bytes:?}");
        self.met[number as usize] += 1;
    }

    fn check_with_bytes_changed(&mut self, random: &mut Random, mut bytes: Vec<u8>) {
        for _ in 0..3 {
            let at = random.below(bytes.len());
            bytes[at] = random.u8();
            self.check(&bytes);
        }
    }
}

#[test]
fn chart_files() {
    let mut random = Random::new(101);
    let mut reader = Reader::<Set>::new(charts::check);
    chart_sets::all().iter().for_each(|(_, set)| reader.check(set));
    for _ in 0..ROUNDS {
        let set = any_valid_set(&mut random);
        reader.check(&set);
        for damage in set_damage::DAMAGES {
            if let Some(damaged) = set_damage::damage(&mut random, &set, damage) {
                reader.check(&damaged.bytes);
            }
        }
        if let Some(damaged) = set_damage::damage_twice(&mut random, &set) {
            reader.check(&damaged.bytes);
        }
        reader.check_with_bytes_changed(&mut random, set);
    }
    assert!((0..10).chain([25]).all(|number| reader.met[number] > 20), "{:?}", reader.met);
}

#[test]
fn automata_files() {
    let mut random = Random::new(102);
    let mut reader = Reader::<Table>::new(automata::check);
    for _ in 0..ROUNDS {
        let table = tables::any_table(&mut random);
        reader.check(&table);
        for damage in table_damage::DAMAGES {
            if let Some(damaged) = table_damage::damage(&mut random, &table, damage) {
                reader.check(&damaged);
            }
        }
        reader.check_with_bytes_changed(&mut random, table);
    }
    for (kind, _) in AUTOMATA_LIMITS {
        reader.check(&tables::filled(&mut random, kind, 0));
        reader.check(&tables::filled(&mut random, kind, 1));
    }
    assert!(reader.met[0] >= ROUNDS && reader.met[11] >= ROUNDS, "{:?}", reader.met);
}
