//! Translations and paths led back, into short and long buffers: the answers of the simulator, and its buffers after each call.

use simulator::generate::sets::{any_valid_set, valid_set, Size};
use simulator::generate::{buffers, longest_twins, paths};
use simulator::{chart_sets, path_back, translation, ChartSet, Random};
use std::collections::BTreeMap;
use tuned::charts::Set;
use tuned::machine::Machine;

#[test]
fn translations() {
    let mut random = Random::new(105);
    for round in 0..250 {
        let set = match round {
            0..=3 => longest_twins::longest(&mut random),
            4..=6 => valid_set(&mut random, Size::Largest),
            _ => any_valid_set(&mut random),
        };
        let read = Set::read(&set).expect("valid");
        let exact = translation::twin(&ChartSet::read(&set).expect("valid")).len();
        for length in buffers::lengths(&mut random, exact) {
            let (mut mine, mut right) = (buffers::bytes(length), buffers::bytes(length));
            let answer = tuned::translation::write(&read, &set, &mut mine);
            assert_eq!(answer, translation::translate(&set, &mut right));
            assert!(mine == right, "a twin differs");
        }
    }
}

fn led_back(set: &[u8], path: &[u16], words: usize) -> Result<usize, u32> {
    let (mut mine, mut right) = (buffers::words(words), buffers::words(words));
    let answer = tuned::path_back::write(&Set::read(set).expect("valid"), path, &mut mine);
    assert_eq!(answer, path_back::path_back(set, path, &mut right));
    assert!(mine == right, "rows differ");
    answer
}

#[test]
fn paths_led_back() {
    let mut random = Random::new(106);
    let mut met = BTreeMap::<u32, usize>::new();
    for _ in 0..250 {
        let set = any_valid_set(&mut random);
        let read = ChartSet::read(&set).expect("valid");
        let mut given = vec![Vec::new()];
        for steps in [1, 9, 80, 600] {
            given.push(paths::walk(&mut random, &read, steps));
            let broken = |&clause| paths::broken(&mut random, &read, steps, clause);
            given.extend(paths::BREAKS.iter().filter_map(broken));
        }
        for path in given {
            let rows = led_back(&set, &path, 3 * path.len()).unwrap_or(1);
            for words in buffers::lengths(&mut random, 3 * rows) {
                *met.entry(led_back(&set, &path, words).err().unwrap_or(0)).or_default() += 1;
            }
        }
    }
    assert!([0, 20, 21].iter().all(|number| met.contains_key(number)), "{met:?}");
}

#[test]
fn the_longest_path() {
    let set = chart_sets::zero_watch();
    let read = ChartSet::read(&set).expect("valid");
    for over in [false, true] {
        let path = paths::whole_run(&mut Random::new(107), &read, over);
        assert_eq!(led_back(&set, &path, 30).is_err(), over);
    }
}
