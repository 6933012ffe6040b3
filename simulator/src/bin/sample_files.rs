//! Writes samples for tests in other languages: `sets` and `tables` in the folder that the first argument names, accepted files
//! one after the other, each after its length in four bytes, little-endian. The first of each are the largest.

use simulator::generate::faulting_tables::faulting;
use simulator::generate::guarded_sets::guarded_set;
use simulator::generate::idling_sets::idling_set;
use simulator::generate::longest_twins::{longest, most_resets};
use simulator::generate::sets::{valid_set, Size};
use simulator::generate::tables::{any_table, hand_made_sparse};
use simulator::translation::twin;
use simulator::{chart_sets, ChartSet, Random};
use std::path::Path;
use std::{env, fs, io};

const LARGEST: usize = 4;
const MIDDLING: usize = 40;
const SMALL: usize = 120;

fn sets(random: &mut Random) -> Vec<Vec<u8>> {
    let mut sets = vec![longest(random), most_resets(random)];
    sets.extend((0..LARGEST).map(|_| valid_set(random, Size::Largest)));
    sets.extend((0..MIDDLING).map(|_| valid_set(random, Size::Middling)));
    sets.extend((0..SMALL).map(|_| valid_set(random, Size::Tiny)));
    sets.extend((0..MIDDLING).map(|_| guarded_set(random)));
    sets.extend((0..MIDDLING).map(|_| idling_set(random)));
    sets.extend(chart_sets::all().into_iter().map(|(_, set)| set));
    sets
}

fn tables(random: &mut Random) -> Vec<Vec<u8>> {
    let twin_of = |set: Vec<u8>| twin(&ChartSet::read(&set).expect("a generated set is accepted"));
    let mut tables = vec![twin_of(longest(random)), twin_of(most_resets(random))];
    tables.extend((0..MIDDLING).map(|_| any_table(random)));
    tables.extend((0..MIDDLING).map(|_| hand_made_sparse(random)));
    tables.extend((0..SMALL).map(|_| faulting(random)));
    tables
}

fn write(path: &Path, files: &[Vec<u8>]) -> io::Result<()> {
    let with_length = |file: &Vec<u8>| {
        let length = u32::try_from(file.len()).expect("a short file");
        [&length.to_le_bytes(), file.as_slice()].concat()
    };
    fs::write(path, files.iter().flat_map(with_length).collect::<Vec<u8>>())
}

fn main() -> io::Result<()> {
    let folder = env::args().nth(1).expect("a folder for the samples");
    let mut random = Random::new(20_261_115);
    write(&Path::new(&folder).join("sets"), &sets(&mut random))?;
    write(&Path::new(&folder).join("tables"), &tables(&mut random))
}
