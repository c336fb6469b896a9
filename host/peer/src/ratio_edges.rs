// The fixed calls of the two entanglements: every displacement of up to five leaves, and both sides
// of the limits of a thousandth over more, with the k that was worked out apart from this program.
// At an exact square k is reached and not passed: with D two lower it is one lower. Elsewhere the
// root lies between two thousandths, often nearer to the upper one, which is not answered.

use crate::displaced::{displaced, occurs, worst};
use crate::lines;
use crate::made::any_record;
use crate::random::Random;

/// Leaves, displacement, thousandths.
type Limit = (usize, u64, u32);

/// k is 500 by an exact square; the worst, and the one below it.
const SHORT: [Limit; 20] = [
    (6, 0, 0),
    (6, 2, 169),
    (6, 68, 985),
    (6, 70, 1000),
    (7, 26, 481),
    (7, 28, 500),
    (7, 30, 517),
    (7, 112, 1000),
    (8, 40, 487),
    (8, 42, 500),
    (8, 44, 511),
    (8, 168, 1000),
    (9, 58, 491),
    (9, 60, 500),
    (9, 62, 508),
    (9, 240, 1000),
    (10, 0, 0),
    (10, 2, 77),
    (10, 328, 996),
    (10, 330, 1000),
];

/// The first leaves for which 999 occurs; 1,000,000 times D about 31 and 32 bits; k is 100, 250, 750,
/// 900, 125 and 950 by exact squares; the first leaves for which D = 2 comes to 1, and to 0.
const MIDDLE: [Limit; 26] = [
    (15, 1118, 999),
    (15, 1120, 1000),
    (24, 4294, 966),
    (24, 4296, 966),
    (24, 4600, 1000),
    (24, 44, 97),
    (24, 46, 100),
    (24, 3724, 899),
    (24, 3726, 900),
    (24, 2146, 683),
    (24, 2148, 683),
    (182, 2, 0),
    (14, 908, 998),
    (15, 68, 246),
    (15, 70, 250),
    (15, 628, 748),
    (15, 630, 750),
    (63, 1300, 124),
    (63, 1302, 125),
    (49, 35376, 949),
    (49, 35378, 950),
    (114, 2, 2),
    (115, 2, 1),
    (181, 2, 1),
    (182, 0, 0),
    (182, 4, 1),
];

/// Over 449 leaves, k = 925 by an exact square, where 1,000 times the root of D/W in 64-bit floats lies
/// below 925. Over 512 leaves, k from 0 to 1 and from 999 to 1,000, and both sides of other limits.
const LONG: [Limit; 24] = [
    (449, 25_816_602, 925),
    (512, 44, 0),
    (512, 46, 1),
    (512, 44_739_070, 999),
    (449, 25_816_600, 924),
    (449, 18_856, 24),
    (449, 18_858, 25),
    (512, 0, 0),
    (512, 2, 0),
    (512, 178, 1),
    (512, 180, 2),
    (512, 699_046, 124),
    (512, 699_048, 125),
    (512, 11_184_766, 499),
    (512, 11_184_768, 500),
    (512, 22_362_780, 706),
    (512, 22_362_782, 707),
    (512, 34_253_350, 874),
    (512, 34_253_352, 875),
    (512, 44_649_638, 998),
    (512, 44_649_640, 999),
    (512, 44_739_072, 1000),
    (511, 44_477_438, 999),
    (511, 44_477_440, 1000),
];

/// A call of any record over so many leaves with this displacement, whatever it holds.
fn call(word: &str, n: usize, d: u64, random: &mut Random) -> String {
    lines::plain(word, &displaced(&any_record(n, random), d).bytes())
}

/// Every displacement of up to five leaves, over up to four under both calls.
fn every_displacement(random: &mut Random) -> Vec<String> {
    let mut calls = Vec::new();
    for n in 1..=5 {
        for d in (0..=worst(n)).filter(|&d| occurs(n, d)) {
            calls.push(call("thousandths", n, d, random));
            if n < 5 {
                calls.push(call("squared_entanglement", n, d, random));
            }
        }
    }
    calls
}

fn limits() -> impl Iterator<Item = Limit> {
    SHORT.into_iter().chain(MIDDLE).chain(LONG)
}

/// All fixed lines of the two calls.
pub fn all() -> Vec<String> {
    let mut random = Random::new(1000);
    let mut all = every_displacement(&mut random);
    all.extend(limits().map(|(n, d, _)| call("thousandths", n, d, &mut random)));
    all.extend([(63, 11_718), (449, 25_816_602)].map(|(n, d)| call("squared_entanglement", n, d, &mut random)));
    all
}

#[cfg(test)]
mod tests {
    use super::*;
    use crate::desk;

    fn answered(line: &String) -> String {
        desk::answer(line.as_bytes())
    }

    #[test]
    fn few_leaves() {
        let lines = every_displacement(&mut Random::new(1));
        let of = |word: &str| -> Vec<String> {
            lines.iter().filter(|line| line.starts_with(word)).map(answered).collect()
        };
        assert_eq!(of("thousandths")[..8].join(","), "0 none,0 0,0 1000,0 0,0 500,0 866,0 1000,0 0");
        assert_eq!(of("thousandths")[16], "0 948");
        assert_eq!(of("thousandths").len(), 39);
        assert_eq!(of("squared")[..2], ["0 0 0 none", "0 0 2 0000000000000000"]);
        assert_eq!(of("squared")[16], "0 18 20 3feccccccccccccd");
    }

    #[test]
    fn the_limits_show() {
        let mut random = Random::new(2);
        for (n, d, k) in limits() {
            assert_eq!(answered(&call("thousandths", n, d, &mut random)), format!("0 {k}"));
        }
    }

    #[test]
    fn what_is_stored_has_its_length() {
        let length = |&(n, d, _): &Limit| call("thousandths", n, d, &mut Random::new(3)).len();
        assert!(SHORT.iter().all(|limit| length(limit) <= 260));
        assert!(MIDDLE.iter().all(|limit| (261..=5000).contains(&length(limit))));
        assert!(LONG.iter().all(|limit| length(limit) > 5000));
    }
}
