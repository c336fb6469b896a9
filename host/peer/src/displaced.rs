// Records with a displacement of one's choice: links are put between the places of two present
// orders so that D is a given number, whatever the trees and the layouts are.

use crate::made::{straight_links, Made};

/// W = n(n²-1)/3.
pub fn worst(n: usize) -> u64 {
    let n = n as u64;
    n * (n * n - 1) / 3
}

/// Whether some links over n leaves have this displacement: an even number up to the worst, but for 4 over three
/// leaves.
pub fn occurs(n: usize, d: u64) -> bool {
    d % 2 == 0 && d <= worst(n) && (n, d) != (3, 4)
}

/// Right places over four leaves with the displacements 0, 2, 4, 6, 8 and 10, which is half the worst.
const OF_FOUR: [[u16; 4]; 6] =
    [[1, 2, 3, 4], [2, 1, 3, 4], [2, 1, 4, 3], [2, 3, 1, 4], [3, 2, 1, 4], [2, 4, 1, 3]];

/// The right place, from 1, of each left place's link, so that the displacement is d. Taken from the
/// last place to the first, places have W less the displacement, so that d need not be above W/2; and
/// then the last link may go straight across, since W/2 is not above the worst of n-1 leaves from five
/// leaves on.
fn right_places(n: usize, d: u64) -> Vec<u16> {
    assert!(occurs(n, d), "no links over {n} leaves have {d}");
    if d > worst(n) / 2 {
        let mut places = right_places(n, worst(n) - d);
        places.reverse();
        places
    } else if n > 4 {
        let mut places = right_places(n - 1, d);
        places.push(n as u16);
        places
    } else {
        OF_FOUR[d as usize / 2][..n].to_vec()
    }
}

/// The record with other links, so that its displacement is d.
pub fn displaced(made: &Made, d: u64) -> Made {
    let right_order = made.present_order(2);
    let places = right_places(right_order.len(), d);
    let ends: Vec<u16> = places.iter().map(|&place| right_order[place as usize - 1]).collect();
    Made { links: straight_links(&made.present_order(1), &ends), ..made.clone() }
}

/// The least displacement over n leaves that comes to k thousandths or more.
pub fn least(n: usize, k: u64) -> u64 {
    (k * k * worst(n)).div_ceil(2_000_000) * 2
}

#[cfg(test)]
mod tests {
    use super::*;
    use crate::firmware::{most_thousandths, squared_entanglement, thousandths};
    use crate::made::any_record;
    use crate::random::Random;

    /// The displacement of a record that was made with one.
    fn made_with(n: usize, d: u64, random: &mut Random) -> Made {
        let made = displaced(&any_record(n, random), d);
        let measure = squared_entanglement(&made.bytes()).unwrap();
        assert_eq!((measure.d, measure.w), (d, worst(n)));
        made
    }

    #[test]
    fn no_other_displacement_occurs() {
        let mut random = Random::new(29);
        for _ in 0..3000 {
            let n = 1 + random.below(7);
            let measure = squared_entanglement(&any_record(n, &mut random).bytes()).unwrap();
            assert!(occurs(n, measure.d));
        }
    }

    #[test]
    fn every_displacement_of_few_leaves() {
        let mut random = Random::new(30);
        for n in 1..=9 {
            for d in (0..=worst(n)).filter(|&d| occurs(n, d)) {
                made_with(n, d, &mut random);
            }
        }
    }

    #[test]
    fn both_sides_of_a_thousandth() {
        let mut random = Random::new(31);
        for round in 0..300 {
            let n = if round % 30 == 0 { 512 } else { 4 + random.below(80) };
            let k = 1 + random.below(1000) as u32;
            let least = least(n, k as u64);
            let at = thousandths(&made_with(n, least, &mut random).bytes());
            let below = thousandths(&made_with(n, least - 2, &mut random).bytes());
            assert!(at.unwrap().unwrap() >= k && below.unwrap().unwrap() < k);
        }
    }

    #[test]
    fn over_512_leaves_every_thousandth_occurs() {
        for k in 1..=1000 {
            let least = least(512, k);
            assert_eq!([least, least - 2].map(|d| most_thousandths(d, worst(512)) as u64), [k, k - 1]);
        }
    }
}
