// Records with one link wrong, which the check refuses with 9: a link of 0, of n+1 or of 65,535,
// one that is 64 or 256 off, or one that another leaf has. The numbers of leaves stand about 64
// and its multiples, and the link that is lost is one of the first, the last, or about 64, so that
// marks in words of 64 are tried on both sides of every word's end.

use crate::made::{any_record, Made};
use crate::random::Random;

const LEAVES: [usize; 13] = [1, 2, 3, 65, 64, 63, 127, 128, 129, 448, 449, 511, 512];

/// Up to so many leaves each lost link is wrong in every way, and in one way beyond.
const EVERY_WAY: usize = 65;

/// What can stand for a link of one-to-one links and makes them something else.
fn wrong_for(link: u16, n: u16) -> Vec<u16> {
    let another = if link == 1 { n } else { link - 1 };
    let mut wrong = vec![0, n + 1, 65535, another, link + 64, link.wrapping_sub(64), link + 256];
    wrong.retain(|&number| number != link);
    wrong
}

/// A good record for each number of leaves.
pub fn good() -> Vec<Made> {
    let mut random = Random::new(64);
    LEAVES.map(|n| Made { hold: b'N', ..any_record(n, &mut random) }).into()
}

/// The record with each of some links lost, another number standing in its place.
fn with_a_link_lost(good: &Made) -> Vec<Made> {
    let mut bad = Vec::new();
    let mut lost = vec![1, 63, 64, 65, 128, 129, 448, 449, good.n - 1, good.n];
    lost.retain(|link| (1..=good.n).contains(link));
    lost.sort_unstable();
    lost.dedup();
    for (index, &link) in lost.iter().enumerate() {
        let ways = wrong_for(link, good.n);
        let ways = match good.links.len() {
            0..=EVERY_WAY => &ways[..],
            _ => &ways[index % ways.len()..][..1],
        };
        for &way in ways {
            let mut made = good.clone();
            let at = made.links.iter().position(|&other| other == link);
            made.links[at.expect("links are one-to-one")] = way;
            bad.push(made);
        }
    }
    bad
}

/// All of them.
pub fn all() -> Vec<Made> {
    good().iter().flat_map(with_a_link_lost).collect()
}

#[cfg(test)]
mod tests {
    use super::*;
    use crate::firmware;
    use crate::refusals::LINKS;

    #[test]
    fn good_links_are_accepted_and_lost_ones_refused() {
        for made in good() {
            assert!(firmware::check(&made.bytes()).is_ok());
        }
        for made in all() {
            assert_eq!(firmware::check(&made.bytes()), Err(LINKS));
        }
    }
}
