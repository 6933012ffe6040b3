//! The reader of chart files: accepted, and refused by 1 to 9 and 25, on valid, damaged and doubly damaged files and on any bytes.

use comparison::monuvaleck::charts_check;
use simulator::chart_sets::zero_watch;
use simulator::charts;
use simulator::generate::{set_damage, sets};
use simulator::Random;

/// How many files there were of each number, 0 for those accepted.
type Met = [usize; 26];

fn compare(bytes: &[u8], met: &mut Met) {
    let right = charts::check(bytes);
    assert_eq!(charts_check(bytes), -(right as i32), "{bytes:?}");
    let lowest = charts::applying(bytes).iter().position(|applies| *applies).unwrap_or(0);
    assert_eq!(lowest as u32, right, "{bytes:?}");
    met[right as usize] += 1;
}

#[test]
fn damaged_once_in_each_way() {
    let mut random = Random::new(11);
    let mut met = [0; 26];
    let mut damaged = vec![0; set_damage::DAMAGES.len()];
    for round in 0..14_000 {
        let set = sets::any_valid_set(&mut random);
        compare(&set, &mut met);
        let way = round % damaged.len();
        if let Some(bad) = set_damage::damage(&mut random, &set, &set_damage::DAMAGES[way]) {
            compare(&bad.bytes, &mut met);
            damaged[way] += 1;
        }
    }
    println!("files by number: {met:?}");
    assert!(met[0] > 100 && set_damage::NUMBERS.iter().all(|number| met[*number as usize] > 100), "{met:?}");
    assert!(damaged.iter().all(|n| *n > 0), "{damaged:?}");
}

/// Two damages together: of every two numbers, files to which both apply, each asked by itself.
#[test]
fn damaged_twice() {
    let mut random = Random::new(12);
    let mut met = [0; 26];
    for (low, high) in set_damage::number_pairs() {
        let mut made = 0;
        for _ in 0..4_000 {
            let set = sets::any_valid_set(&mut random);
            if let Some(bad) = set_damage::damage_pair(&mut random, &set, low, high) {
                let applying = charts::applying(&bad.bytes);
                assert!(applying[low as usize] && applying[high as usize], "{:?}", bad.clauses);
                assert_eq!(charts_check(&bad.bytes), -(low as i32), "{:?}", bad.clauses);
                compare(&bad.bytes, &mut met);
                made += 1;
            }
            if made == 100 {
                break;
            }
        }
        println!("{low} and {high}: {made} files");
        assert!(made >= 20, "{low} and {high}: {made}");
    }
    println!("files by number: {met:?}");
}

/// Single bytes changed, and bytes of no form at all.
#[test]
fn any_bytes() {
    let mut random = Random::new(13);
    let mut met = [0; 26];
    for _ in 0..20_000 {
        let mut bytes = zero_watch();
        let at = random.below(bytes.len());
        bytes[at] = random.pick(&[0, 1, 2, 3, 4, 7, 16, 17, 31, 32, 128, 255]);
        compare(&bytes, &mut met);
        let noise: Vec<u8> = (0..random.below(200)).map(|_| random.pick(&[0, 0, 1, 2, 3, 4, 5, 6])).collect();
        compare(&noise, &mut met);
    }
    assert!(met[..9].iter().all(|n| *n > 0), "{met:?}");
}
