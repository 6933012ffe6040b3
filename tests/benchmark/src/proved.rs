//! The proved side of a machine, by the C interface.

use comparison::monuvaleck::{automata_check, charts_check, Stepped};
use tuned::automata::Table;
use tuned::charts::Set;
use tuned::machine::Machine;

pub trait Proved: Machine {
    /// The run that the proved code steps; its layout is that of the tuned run.
    type Lent: Stepped;

    fn check(file: &[u8]) -> i32;

    #[inline(always)]
    fn lent(run: &mut Self::Run) -> &mut Self::Lent {
        const { assert!(size_of::<Self::Run>() == size_of::<Self::Lent>()) };
        // Both are `repr(C)`, with the places of the C interface in its order.
        unsafe { &mut *std::ptr::from_mut(run).cast() }
    }
}

impl Proved for Set {
    type Lent = simulator::ChartsRun;

    fn check(file: &[u8]) -> i32 {
        charts_check(file)
    }
}

impl Proved for Table {
    type Lent = simulator::AutomataRun;

    fn check(file: &[u8]) -> i32 {
        automata_check(file)
    }
}
