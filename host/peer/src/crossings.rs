// Crossings: two links cross if their left leaves and their right leaves stand in opposite order.
// The whole count is made in two ways, pair by pair from the definition and by seen places.
// A row's own crossings are taken from their definition, pair by pair under its two children.

use crate::record::{Record, Row, Side, MOST_LEAVES};
use crate::tree;

/// Where a link stands: the place of its left leaf and the place of its right leaf.
#[derive(Clone, Copy)]
pub struct LinkPlaces {
    pub left: usize,
    pub right: usize,
}

/// Whether two links cross.
fn cross(one: LinkPlaces, two: LinkPlaces) -> bool {
    (one.left < two.left && one.right > two.right) || (one.left > two.left && one.right < two.right)
}

/// The links with their places under two orders; the link of left leaf a stands at index a-1.
pub fn link_places(left_order: &[u16], right_order: &[u16], links: &[u16]) -> Vec<LinkPlaces> {
    let place_in = |order: &[u16]| {
        let mut places = vec![0; order.len() + 1];
        for (place, &leaf) in order.iter().enumerate() {
            places[leaf as usize] = place;
        }
        places
    };
    let left = place_in(left_order);
    let right = place_in(right_order);
    let of_leaf = |leaf: usize| LinkPlaces { left: left[leaf], right: right[links[leaf - 1] as usize] };
    (1..=links.len()).map(of_leaf).collect()
}

/// The links with their places under the record's present layouts.
pub fn present_places(record: &Record) -> Vec<LinkPlaces> {
    let order = |side| tree::leaf_order(record.rows(side), record.layout(side));
    link_places(&order(Side::Left), &order(Side::Right), record.links())
}

/// The number of unordered pairs of links that cross.
pub fn pair_by_pair(links: &[LinkPlaces]) -> u32 {
    let mut count = 0;
    for (index, &one) in links.iter().enumerate() {
        for &two in &links[index + 1..] {
            count += cross(one, two) as u32;
        }
    }
    count
}

/// The places that have been seen: one bit for each of 512.
#[derive(Clone, Copy)]
pub struct Seen {
    pub words: [u64; MOST_LEAVES / 64],
}

impl Seen {
    pub fn none() -> Seen {
        Seen { words: [0; MOST_LEAVES / 64] }
    }

    pub fn see(&mut self, place: usize) {
        self.words[place / 64] |= 1 << (place % 64);
    }

    /// How many places past this one have been seen.
    pub fn past(&self, place: usize) -> u32 {
        let word = place / 64;
        let mut ones = (self.words[word] >> (place % 64) >> 1).count_ones();
        for word in &self.words[word + 1..] {
            ones += word.count_ones();
        }
        ones
    }

    /// Goes through the places that have been seen, from the first.
    pub fn each(&self, mut visit: impl FnMut(usize)) {
        for (index, &word) in self.words.iter().enumerate() {
            let mut rest = word;
            while rest != 0 {
                visit(64 * index + rest.trailing_zeros() as usize);
                rest &= rest - 1;
            }
        }
    }
}

/// The count by seen places, over the right places in the order of the left leaves: a link
/// crosses those before it whose right places lie past its own.
pub fn by_seen_places(right_places: &[u16]) -> u32 {
    let mut seen = Seen::none();
    let mut count = 0;
    for &place in right_places {
        count += seen.past(place as usize);
        seen.see(place as usize);
    }
    count
}

/// The record's count by seen places.
pub fn count_seen(record: &Record) -> u32 {
    let left = tree::places(record.rows(Side::Left), record.layout(Side::Left));
    let right = tree::places(record.rows(Side::Right), record.layout(Side::Right));
    let mut right_places = [0; MOST_LEAVES];
    for (&left_place, &right_leaf) in left.iter().zip(record.links()) {
        right_places[left_place as usize] = right[right_leaf as usize - 1];
    }
    by_seen_places(&right_places[..record.n])
}

/// The index of the link that each leaf of a side has, at index leaf-1.
pub fn link_of_leaf(record: &Record, side: Side) -> Vec<usize> {
    let mut link = (0..record.n).collect::<Vec<_>>();
    if side == Side::Right {
        for (index, &right) in record.links().iter().enumerate() {
            link[right as usize - 1] = index;
        }
    }
    link
}

/// The own crossings of each row of a side, with the numbers of leaves under its upper and its
/// lower child: the crossing pairs with one leaf under the upper and one under the lower.
pub fn own_crossings(record: &Record, side: Side) -> Vec<(u32, u32, u32)> {
    let places = present_places(record);
    let link = link_of_leaf(record, side);
    let rows = record.rows(side);
    let links_under = |object: u16| -> Vec<LinkPlaces> {
        let leaves = tree::leaves_under(rows, object);
        leaves.iter().map(|&leaf| places[link[leaf as usize - 1]]).collect()
    };
    let of_row = |&[upper, lower]: &Row| {
        let (upper, lower) = (links_under(upper), links_under(lower));
        let crossing = |one: LinkPlaces| lower.iter().filter(|&&two| cross(one, two)).count() as u32;
        let own = upper.iter().map(|&one| crossing(one)).sum();
        (own, upper.len() as u32, lower.len() as u32)
    };
    rows.iter().map(of_row).collect()
}

#[cfg(test)]
mod tests {
    use super::*;
    use crate::made;
    use crate::random::Random;
    use crate::record;

    #[test]
    fn both_counts_and_the_sums_of_own_crossings_agree() {
        let mut random = Random::new(5);
        for round in 0..600 {
            let n = if round % 60 == 0 { 512 } else { 1 + random.below(70) };
            let record = record::read(&made::any_record(n, &mut random).bytes()).unwrap();
            let count = pair_by_pair(&present_places(&record));
            assert_eq!(count_seen(&record), count);
            for side in [Side::Left, Side::Right] {
                let own = own_crossings(&record, side);
                assert_eq!(own.iter().map(|row| row.0).sum::<u32>(), count);
            }
        }
    }

    #[test]
    fn turning_a_row_changes_its_own_crossings_only() {
        let mut random = Random::new(6);
        for _ in 0..100 {
            let n = 2 + random.below(20);
            let mut record = record::read(&made::any_record(n, &mut random).bytes()).unwrap();
            for side in [Side::Left, Side::Right] {
                let mut wanted = own_crossings(&record, side);
                let index = random.below(n - 1);
                let (own, upper, lower) = wanted[index];
                wanted[index] = (upper * lower - own, upper, lower);
                record.turn(side, index);
                assert_eq!(own_crossings(&record, side), wanted);
            }
        }
    }

    #[test]
    fn links_are_not_taken_for_their_inverse() {
        let links = |p: &[u16]| pair_by_pair(&link_places(&[2, 1, 3], &[1, 2, 3], p));
        assert_eq!(links(&[2, 3, 1]), 3);
        assert_eq!(links(&[3, 1, 2]), 1);
    }
}
