// Trees, layouts, orders: the tree rule, the leaf order of a layout, compatible orders.
// The leaf order is made in two ways. `leaf_order` is the definition of docs/CALLS.md; `places`
// gives the place of each leaf from the numbers of leaves, going down from the root.
// An order is compatible by its published definition: the leaves under each object form an
// interval.

use crate::pins;
use crate::record::{Row, MOST_LEAVES};

const MOST_OBJECTS: usize = 2 * MOST_LEAVES;

/// The lowest row that breaks the tree rule, if one does: a child of row i is 0 or not below n+i,
/// or was used before, in an earlier row or as this row's upper child.
pub fn lowest_bad_row(rows: &[Row]) -> Option<u16> {
    let n = rows.len() + 1;
    let mut used = [false; MOST_OBJECTS];
    for (index, row) in rows.iter().enumerate() {
        let object = n + index + 1;
        for &child in row {
            let child = child as usize;
            if child < 1 || child >= object || used[child] {
                return Some(index as u16 + 1);
            }
            used[child] = true;
        }
    }
    None
}

/// The leaf order of the root.
pub fn leaf_order(rows: &[Row], layout: &[u8]) -> Vec<u16> {
    let mut order = Vec::new();
    add_leaf_order(rows, layout, 2 * rows.len() + 1, &mut order);
    order
}

/// Adds the leaf order of an object: the leaf itself, or the order of the upper child followed
/// by that of the lower child, the two exchanged where the row is turned.
fn add_leaf_order(rows: &[Row], layout: &[u8], object: usize, order: &mut Vec<u16>) {
    let n = rows.len() + 1;
    if object <= n {
        order.push(object as u16);
        return;
    }
    let index = object - n - 1;
    let [upper, lower] = rows[index];
    if pins::is_turned(layout[index]) {
        add_leaf_order(rows, layout, lower as usize, order);
        add_leaf_order(rows, layout, upper as usize, order);
    } else {
        add_leaf_order(rows, layout, upper as usize, order);
        add_leaf_order(rows, layout, lower as usize, order);
    }
}

/// The leaves under an object, in the order of the layout with nothing turned.
pub fn leaves_under(rows: &[Row], object: u16) -> Vec<u16> {
    let mut leaves = Vec::new();
    add_leaf_order(rows, &vec![0; rows.len()], object as usize, &mut leaves);
    leaves
}

/// The number of leaves under each object, at the object's number.
pub fn leaf_numbers(rows: &[Row]) -> [u16; MOST_OBJECTS] {
    let n = rows.len() + 1;
    let mut leaves = [1; MOST_OBJECTS];
    for (index, &[upper, lower]) in rows.iter().enumerate() {
        leaves[n + index + 1] = leaves[upper as usize] + leaves[lower as usize];
    }
    leaves
}

/// The place of each leaf, at index leaf-1, places being 0 to n-1. The first child of an object
/// begins where the object begins, and the second where the first child's leaves end.
pub fn places(rows: &[Row], layout: &[u8]) -> [u16; MOST_LEAVES] {
    let n = rows.len() + 1;
    let leaves = leaf_numbers(rows);
    let mut begins = [0; MOST_OBJECTS];
    for (index, &[upper, lower]) in rows.iter().enumerate().rev() {
        let (first, second) = if pins::is_turned(layout[index]) { (lower, upper) } else { (upper, lower) };
        let begin = begins[n + index + 1];
        begins[first as usize] = begin;
        begins[second as usize] = begin + leaves[first as usize];
    }
    let mut places = [0; MOST_LEAVES];
    places[..n].copy_from_slice(&begins[1..=n]);
    places
}

/// The place of each leaf in an order of n entries, at index leaf-1; nothing if an entry is 0,
/// above n or repeated.
fn places_of_order(order: &[u16]) -> Option<Vec<usize>> {
    let mut places = vec![None; order.len()];
    for (place, &leaf) in order.iter().enumerate() {
        let slot = places.get_mut((leaf as usize).checked_sub(1)?)?;
        if slot.replace(place).is_some() {
            return None;
        }
    }
    places.into_iter().collect()
}

/// Whether the leaves under each object stand together in this order of n entries: the first
/// and the last place among them are as far apart as their number says.
pub fn is_compatible(rows: &[Row], order: &[u16]) -> bool {
    let n = rows.len() + 1;
    if order.len() != n {
        return false;
    }
    let Some(places) = places_of_order(order) else {
        return false;
    };
    let leaves = leaf_numbers(rows);
    let mut interval: Vec<(usize, usize)> = places.iter().map(|&place| (place, place)).collect();
    for (index, &[upper, lower]) in rows.iter().enumerate() {
        let (upper_first, upper_last) = interval[upper as usize - 1];
        let (lower_first, lower_last) = interval[lower as usize - 1];
        let (first, last) = (upper_first.min(lower_first), upper_last.max(lower_last));
        if last - first + 1 != leaves[n + index + 1] as usize {
            return false;
        }
        interval.push((first, last));
    }
    true
}

/// All orders of 1 to n, in no matter which sequence.
#[cfg(test)]
pub fn all_orders(n: u16) -> Vec<Vec<u16>> {
    if n == 0 {
        return vec![Vec::new()];
    }
    let mut orders = Vec::new();
    for shorter in all_orders(n - 1) {
        for place in 0..n as usize {
            let mut order = shorter.clone();
            order.insert(place, n);
            orders.push(order);
        }
    }
    orders
}

#[cfg(test)]
mod tests {
    use super::*;
    use crate::faults;
    use crate::made;
    use crate::random::Random;
    use crate::record::{self, Side};

    /// The rule for row i by itself, word for word.
    fn breaks_the_rule(rows: &[Row], i: usize) -> bool {
        let n = rows.len() + 1;
        let [upper, lower] = rows[i - 1];
        let out_of_range = |entry: u16| entry < 1 || entry as usize >= n + i;
        let used_earlier = |entry: u16| rows[..i - 1].iter().any(|row| row.contains(&entry));
        upper == lower || [upper, lower].iter().any(|&entry| out_of_range(entry) || used_earlier(entry))
    }

    #[test]
    fn the_lowest_bad_row_is_the_first_that_breaks_the_rule() {
        let mut random = Random::new(14);
        let mut bad = 0;
        for round in 0..3000 {
            let n = if round % 100 == 0 { 512 } else { 1 + random.below(30) };
            let mut made = made::any_record(n, &mut random);
            for _ in 0..random.below(6) {
                faults::damage_a_part(&mut made, &mut random);
            }
            let rows: Vec<Row> = made.left.chunks(2).map(|row| [row[0], row[1]]).collect();
            let lowest = (1..n).find(|&i| breaks_the_rule(&rows, i));
            assert_eq!(lowest_bad_row(&rows), lowest.map(|i| i as u16));
            bad += lowest.is_some() as usize;
        }
        assert!((1000..2500).contains(&bad));
    }

    #[test]
    fn bad_rows_worked_out_by_hand() {
        let bad: [(&[Row], u16); 14] = [
            (&[[1, 2], [1, 3]], 2),
            (&[[1, 5], [2, 3]], 1),
            (&[[1, 2], [3, 1]], 2),
            (&[[2, 2], [4, 1]], 1),
            (&[[1, 2], [3, 3]], 2),
            (&[[0, 2], [4, 3]], 1),
            (&[[1, 2], [3, 0]], 2),
            (&[[4, 2], [1, 3]], 1),
            (&[[1, 2], [5, 3]], 2),
            (&[[1, 65535], [4, 3]], 1),
            (&[[1, 4], [3, 5], [4, 6]], 3),
            (&[[1, 2], [5, 5], [4, 6]], 2),
            (&[[1, 2], [1, 2], [1, 2]], 2),
            (&[[1, 2], [3, 8], [9, 0]], 2),
        ];
        for (rows, row) in bad {
            assert_eq!(lowest_bad_row(rows), Some(row));
        }
        let good: [&[Row]; 4] = [&[], &[[2, 1]], &[[1, 2], [3, 5], [4, 6]], &[[1, 2], [3, 4], [5, 6]]];
        assert!(good.iter().all(|rows| lowest_bad_row(rows).is_none()));
    }

    #[test]
    fn both_ways_of_ordering_agree() {
        let mut random = Random::new(3);
        for round in 0..400 {
            let n = if round % 40 == 0 { 512 } else { 1 + random.below(60) };
            let record = record::read(&made::any_record(n, &mut random).bytes()).unwrap();
            for side in [Side::Left, Side::Right] {
                let order = leaf_order(record.rows(side), record.layout(side));
                let places = places(record.rows(side), record.layout(side));
                for (place, &leaf) in order.iter().enumerate() {
                    assert_eq!(places[leaf as usize - 1] as usize, place);
                }
                assert!(is_compatible(record.rows(side), &order));
            }
        }
    }

    #[test]
    fn compatible_is_what_some_layout_gives() {
        let mut random = Random::new(4);
        for n in 1..=6 {
            for _ in 0..8 {
                let record = record::read(&made::any_record(n, &mut random).bytes()).unwrap();
                let rows = record.rows(Side::Left);
                let layouts = (0..1 << (n - 1)).map(|bits| made::layout_of_bits(n, bits));
                let given: Vec<_> = layouts.map(|layout| leaf_order(rows, &layout)).collect();
                for order in all_orders(n as u16) {
                    assert_eq!(is_compatible(rows, &order), given.contains(&order));
                }
            }
        }
    }

    #[test]
    fn entries_that_are_no_leaves_are_not_compatible() {
        let rows = [[1, 2], [4, 3]];
        assert!(is_compatible(&rows, &[3, 2, 1]));
        for order in [[0, 1, 2], [1, 2, 4], [1, 1, 3], [3, 3, 3], [65535, 2, 1], [1, 3, 2]] {
            assert!(!is_compatible(&rows, &order));
        }
        assert!(!is_compatible(&rows, &[1, 2]));
    }
}
