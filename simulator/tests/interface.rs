//! The return values of the C interface and the layout of the lent runs.

use simulator::chart_sets::{guarded_division, one_assignment, zero_watch};
use simulator::interface::*;
use simulator::{AutomataRun, ChartsRun};
use std::mem::{offset_of, size_of};

#[test]
fn runs_have_the_layout_of_the_interface() {
    assert_eq!(size_of::<ChartsRun>(), 16 + 32 + 128 + 12);
    assert_eq!(offset_of!(ChartsRun, ages), 16);
    assert_eq!(offset_of!(ChartsRun, variables), 48);
    assert_eq!(offset_of!(ChartsRun, events), 176);
    assert_eq!(offset_of!(ChartsRun, cycles), 184);
    assert_eq!(size_of::<AutomataRun>(), 16 + 768 + 128 + 12);
    assert_eq!(offset_of!(AutomataRun, clocks), 16);
    assert_eq!(offset_of!(AutomataRun, variables), 784);
    assert_eq!(offset_of!(AutomataRun, position), 916);
}

#[test]
fn charts_return_answers_or_minus_the_number() {
    let set = zero_watch();
    let mut run = ChartsRun::ZERO;
    assert_eq!(charts_check(&set), 0);
    assert_eq!(charts_check(&set[..17]), -1);
    assert_eq!(charts_turn(&set, &mut run, 0), -12);
    assert_eq!(charts_start(&set[16..], &mut run), -3);
    assert_eq!(run, ChartsRun::ZERO);
    assert_eq!(charts_start(&set, &mut run), 0);
    assert_eq!([charts_turn(&set, &mut run, 0), charts_turn(&set, &mut run, 0)], [0, 65_535]);
    assert_eq!(charts_turn(&set, &mut run, 1), 2);
    assert_eq!(charts_cycle(&set, &mut run, 1), -13);
    assert_eq!(charts_cycle(&set, &mut run, 0), 0);
    assert_eq!((charts_cycle(&set, &mut run, 0), charts_turn(&set, &mut run, 0)), (0, 65_534));
    assert_eq!(charts_play(&set, &mut run, &[]), 0);
    assert_eq!(charts_play(&set, &mut run, &[1]), -13);
    assert_eq!(charts_play(&set, &mut run, &[0, 2, 0]), 3);
    assert_eq!(charts_play(&[], &mut run, &[]), -3);
}

#[test]
fn a_play_that_faults_says_how_far_it_came() {
    let set = guarded_division();
    let mut run = ChartsRun::ZERO;
    assert_eq!(charts_start(&set, &mut run), 0);
    assert_eq!(charts_play(&set, &mut run, &[0, 1, 0, 1]), 2);
    assert_eq!((charts_play(&set, &mut run, &[0, 1]), run.cycles), (-16, 2));
    let set = one_assignment(-1, 1, 0, -2);
    assert_eq!((charts_start(&set, &mut run), charts_turn(&set, &mut run, 0)), (0, -17));
}

#[test]
fn twins_return_edges() {
    let set = zero_watch();
    let mut table = vec![0; 480];
    assert_eq!(charts_translate(&set, &mut table), 480);
    assert_eq!(charts_translate(&set, &mut table[..479]), -10);
    assert_eq!((automata_check(&table), automata_check(&set)), (0, -11));
    let mut run = AutomataRun::ZERO;
    assert_eq!(automata_turn(&table, &mut run, 0), -12);
    assert_eq!(automata_start(&table, &mut run), 0);
    assert_eq!(automata_play(&table, &mut run, &[0, 1, 1]), 3);
    assert_eq!(automata_turn(&table, &mut run, 0), 6, "the idle edge of location 2");
    assert_eq!(automata_cycle(&table, &mut run, 2), -13);
    assert_eq!(automata_cycle(&table, &mut run, 0), 0);
    assert_eq!(path_back(&set, &[0, 65_535, 2], &mut [0; 6]), 2);
    assert_eq!(path_back(&set, &[0, 65_535, 2], &mut [0; 5]), -21);
    assert_eq!(path_back(&set, &[1], &mut []), -20);
}
