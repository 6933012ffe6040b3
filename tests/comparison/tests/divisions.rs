//! Quotients and remainders, by the expression layer and by both steppers: every dividend and divisor from -300 to 300, and the ends of 32 bits.

use comparison::monuvaleck::{twin_of, Stepped};
use simulator::assemble::{constant, file, node, operation};
use simulator::chart_sets::divides;
use simulator::correspondence::correspond;
use simulator::operators::{QUOTIENT, REMAINDER};
use simulator::records::NODE;
use simulator::{AutomataRun, AutomataTable, ChartSet, ChartsRun, Machine};

const SMALL: std::ops::RangeInclusive<i32> = -300..=300;

/// The small numbers, and 301 at each end of 32 bits.
fn numbers() -> Vec<i32> {
    (i32::MIN..=i32::MIN + 300).chain(SMALL).chain(i32::MAX - 300..=i32::MAX).collect()
}

/// How often each outcome was met: exact, with the dividend's and the divisor's signs alike or different, and the faults.
#[derive(Default, Debug, PartialEq, Eq)]
struct Met {
    exact: usize,
    alike: usize,
    different: usize,
    out_of_range: usize,
    zero_divisor: usize,
}

impl Met {
    fn add(&mut self, dividend: i32, divisor: i32, quotient: Result<i32, u32>) {
        let place = match quotient {
            Err(15) => &mut self.out_of_range,
            Err(16) => &mut self.zero_divisor,
            Err(other) => panic!("no fault of a quotient: {other}"),
            Ok(_) if dividend.wrapping_rem(divisor) == 0 => &mut self.exact,
            Ok(_) if (dividend < 0) == (divisor < 0) => &mut self.alike,
            Ok(_) => &mut self.different,
        };
        *place += 1;
    }
}

#[test]
fn by_the_expression_layer() {
    let mut met = Met::default();
    for dividend in numbers() {
        for divisor in numbers() {
            let by = |operator| {
                let nodes = [constant(dividend), constant(divisor), operation(operator, &[0, 1])];
                let bytes = file(nodes.iter().map(|one| node(NODE, one)));
                let simulated = simulator::expressions::number(&bytes, &[0; 64], 2);
                assert_eq!(
                    comparison::number(&bytes, &[0; 64], 2),
                    simulated,
                    "{operator}: {dividend} by {divisor}"
                );
                simulated
            };
            let (quotient, remainder) = (by(QUOTIENT), by(REMAINDER));
            // 16 of both; 15 of the quotient alone.
            assert_eq!(quotient == Err(16), remainder.is_err(), "{dividend} by {divisor}");
            met.add(dividend, divisor, quotient);
        }
    }
    println!("{} pairs compared, 0 differences: {met:?}", numbers().len() * numbers().len());
    // The lowest number by -1; every number by 0.
    assert_eq!((met.out_of_range, met.zero_divisor), (1, numbers().len()));
    assert!(met.exact > 10_000 && met.alike > 500_000 && met.different > 500_000, "{met:?}");
}

/// A turn of the proved code and of the simulator's, of charts and of the twin, on a run with these two numbers.
#[test]
fn by_both_steppers() {
    let set = divides();
    let twin = twin_of(&set);
    let (charts, table) = (ChartSet::read(&set).expect("a set"), AutomataTable::read(&twin).expect("a twin"));
    let (mut fresh, mut fresh_twin) = (ChartsRun::ZERO, AutomataRun::ZERO);
    assert_eq!((fresh.start(&set), fresh_twin.start(&twin)), (0, 0));
    assert_eq!((fresh.cycle(&set, 0), fresh_twin.cycle(&twin, 0)), (0, 0));
    let mut met = Met::default();
    for dividend in SMALL {
        for divisor in SMALL {
            let (mut run, mut run_of_twin) = (fresh, fresh_twin);
            let given = [dividend, divisor].map(|number| i16::try_from(number).expect("small"));
            run.variables[..2].copy_from_slice(&given);
            run_of_twin.variables[..2].copy_from_slice(&given);
            let mut simulated = run;
            let expected = charts.turn(&mut simulated, 1);
            let answer = expected
                .map_or_else(|fault| -i32::try_from(fault).expect("a number"), |answer| answer.code());
            assert_eq!((run.turn(&set, 1), run), (answer, simulated), "{dividend} by {divisor}");
            assert_eq!(run_of_twin.turn(&twin, 1), answer, "{dividend} by {divisor}, the twin");
            assert!(correspond(&table, &run, &run_of_twin), "{dividend} by {divisor}");
            met.add(dividend, divisor, expected.map(|_| i32::from(run.variables[2])));
        }
    }
    println!("{} pairs given to both steppers, 0 differences: {met:?}", SMALL.count() * SMALL.count());
    assert_eq!((met.out_of_range, met.zero_divisor), (0, SMALL.count()));
    assert!(met.exact > 5_000 && met.alike > 150_000 && met.different > 150_000, "{met:?}");
}
