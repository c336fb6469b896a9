// Orders made elsewhere: the layout bytes that give a side an order, what that order counts, and whether
// it is least. The bytes are found from the definition of compatible, going down from the root: the
// leaves under each object stand together, so those of one child come first and those of the other
// follow. What is pinned stays pinned. The record is only read, so holds play no part.

use crate::firmware;
use crate::pins;
use crate::record::{self, Record, Row, Side};
use crate::refusals::{self, Refusal};
use crate::room;
use crate::tree;

#[derive(Clone, Copy, Debug, PartialEq)]
pub struct TakenIn {
    pub count: u32,
    pub least: bool,
}

/// Writes the layout bytes that give a side this order, pins kept: 13, 1 to 10, 16, 23, 14, or its count
/// and whether no permitted layout of the side crosses less.
pub fn take_in(bytes: &[u8], side: u16, order: &[u16], layout: &mut [u8]) -> Result<TakenIn, Refusal> {
    let side = Side::of(side)?;
    let record = record::read(bytes)?;
    let order = order.get(..record.n).ok_or(refusals::ORDER)?;
    let turned = turnings(record.rows(side), order).ok_or(refusals::ORDER)?;
    let present = record.layout(side);
    let against = |(&byte, &turned): (&u8, &bool)| pins::is_pinned(byte) && pins::is_turned(byte) != turned;
    if present.iter().zip(&turned).any(against) {
        return Err(refusals::AGAINST);
    }
    let byte = |(&byte, &turned): (&u8, &bool)| pins::with_pin(turned as u8, pins::is_pinned(byte));
    let given: Vec<u8> = present.iter().zip(&turned).map(byte).collect();
    room::put(&given, layout)?;
    let count = firmware::crossings_with(&record, side, order);
    Ok(TakenIn { count, least: count == fewest(record, side) })
}

/// The count of a side that is freed, whatever is held: the fewest of its permitted layouts.
fn fewest(mut record: Record, side: Side) -> u32 {
    firmware::free_side(&mut record, side);
    firmware::count_pairs(&record)
}

/// Which rows are turned over in the layout that gives this order, at index row-1; nothing if none does.
pub fn turnings(rows: &[Row], order: &[u16]) -> Option<Vec<bool>> {
    let mut turned = vec![false; rows.len()];
    add_turnings(rows, 2 * rows.len() as u16 + 1, order, &mut turned)?;
    Some(turned)
}

/// The same of the rows under an object; the order is that of its leaves.
fn add_turnings(rows: &[Row], object: u16, order: &[u16], turned: &mut [bool]) -> Option<()> {
    let n = rows.len() + 1;
    if object as usize <= n {
        return (order == [object]).then_some(());
    }
    let index = object as usize - n - 1;
    let [upper, lower] = rows[index];
    let uppers = tree::leaves_under(rows, upper);
    let lowers = tree::leaves_under(rows, lower);
    turned[index] = if begins_with(order, &uppers) {
        false
    } else if begins_with(order, &lowers) {
        true
    } else {
        return None;
    };
    let (first, second, places) =
        if turned[index] { (lower, upper, lowers.len()) } else { (upper, lower, uppers.len()) };
    add_turnings(rows, first, &order[..places], turned)?;
    add_turnings(rows, second, &order[places..], turned)
}

/// Whether the first entries are these leaves, in no matter which sequence.
fn begins_with(order: &[u16], leaves: &[u16]) -> bool {
    let sorted = |list: &[u16]| {
        let mut list = list.to_vec();
        list.sort_unstable();
        list
    };
    order.get(..leaves.len()).is_some_and(|first| sorted(first) == sorted(leaves))
}

#[cfg(test)]
mod tests {
    use super::*;
    use crate::faults;
    use crate::made::{self, any_record, case_2, example, Made};
    use crate::random::Random;
    use crate::refusals::told;
    use std::collections::HashMap;

    /// A layout of a side with the order and the count that it gives, and whether it turns each pinned row
    /// as it is.
    struct Laid {
        layout: Vec<u8>,
        count: u32,
        permitted: bool,
    }

    /// Every layout of a side by the order that it gives; pinned rows have 2 or 3, if the layout agrees.
    fn every_layout(made: &Made, side: u16) -> HashMap<Vec<u16>, Laid> {
        let n = made.n as usize;
        let mut all = HashMap::new();
        for bits in 0..1 << (n - 1) {
            let turned = made::layout_of_bits(n, bits);
            let present = made.layout(side);
            let permitted = present.iter().zip(&turned).all(|(&byte, &new)| byte < 2 || byte == new + 2);
            let keep = |(&byte, &new): (&u8, &u8)| if byte < 2 { new } else { new + 2 };
            let layout: Vec<u8> = present.iter().zip(&turned).map(keep).collect();
            let mut laid = made.clone();
            *laid.layout_mut(side) = turned;
            let count = firmware::pairs(&laid.bytes()).unwrap();
            let before = all.insert(laid.present_order(side), Laid { layout, count, permitted });
            assert!(before.is_none(), "an order is given by one layout only");
        }
        all
    }

    /// Every order of a side taken in, and compared with what the layouts of the side say. Answers how
    /// many were accepted, least, refused 23 and refused 16.
    fn every_order(made: &Made, side: u16) -> [usize; 4] {
        let n = made.n as usize;
        let all = every_layout(made, side);
        let fewest = all.values().filter(|laid| laid.permitted).map(|laid| laid.count).min().unwrap();
        let mut seen = [0; 4];
        for order in tree::all_orders(made.n) {
            let mut layout = vec![9; n + 1];
            let result = take_in(&made.bytes(), side, &order, &mut layout);
            let (wanted, written) = match all.get(&order) {
                None => (Err(refusals::ORDER), vec![]),
                Some(laid) if !laid.permitted => (Err(refusals::AGAINST), vec![]),
                Some(&Laid { ref layout, count, .. }) => {
                    (Ok(TakenIn { count, least: count == fewest }), layout.clone())
                }
            };
            assert_eq!(result, wanted);
            assert_eq!(layout[..written.len()], written);
            assert!(layout[written.len()..].iter().all(|&byte| byte == 9));
            match result {
                Ok(taken) => (seen[0], seen[1]) = (seen[0] + 1, seen[1] + taken.least as usize),
                Err(refusal) => seen[if refusal == refusals::AGAINST { 2 } else { 3 }] += 1,
            }
        }
        seen
    }

    #[test]
    fn every_order_of_up_to_six_leaves() {
        let mut random = Random::new(70);
        let mut seen = [0; 4];
        for n in 1..=6 {
            for _ in 0..150 {
                let made = any_record(n, &mut random);
                for side in [1, 2] {
                    let more = every_order(&made, side);
                    assert!(more[1] >= 1, "one of them is least");
                    seen = [0, 1, 2, 3].map(|at| seen[at] + more[at]);
                }
            }
        }
        assert_eq!(seen[0] + seen[2] + seen[3], 300 * (1 + 2 + 6 + 24 + 120 + 720));
        assert!(seen.iter().all(|&times| times > 2000), "{seen:?}");
    }

    #[test]
    fn every_order_with_every_pin() {
        let mut random = Random::new(71);
        for bits in 0..4_usize.pow(3) {
            let mut made = any_record(4, &mut random);
            made.left_layout = (0..3).map(|row| (bits >> (2 * row) & 3) as u8).collect();
            made.right_layout = made.left_layout.iter().map(|byte| byte ^ 3).collect();
            for side in [1, 2] {
                let free = made.layout(side).iter().filter(|&&byte| byte < 2).count();
                assert_eq!(every_order(&made, side)[0], 1 << free);
            }
        }
    }

    #[test]
    fn both_ways_of_testing_an_order_agree() {
        let mut random = Random::new(72);
        for round in 0..300 {
            let n = if round % 30 == 0 { 512 } else { 1 + random.below(40) };
            let made = any_record(n, &mut random);
            let record = record::read(&made.bytes()).unwrap();
            let layout = made::any_layout(n, &mut random);
            let mut order = made.order_of(1, &layout);
            let rows = record.rows(Side::Left);
            let turned: Vec<bool> = layout.iter().map(|&byte| byte == 1).collect();
            assert_eq!(turnings(rows, &order), Some(turned));
            for _ in 0..8 {
                order.swap(random.below(n), random.below(n));
                assert_eq!(turnings(rows, &order).is_some(), tree::is_compatible(rows, &order));
            }
            order[random.below(n)] = random.pick(&[0, 1, n as u16, n as u16 + 1, 65535]);
            assert_eq!(turnings(rows, &order).is_some(), tree::is_compatible(rows, &order));
        }
    }

    #[test]
    fn what_stands_is_taken_in_as_it_is_and_what_freeing_leaves_as_least() {
        let mut random = Random::new(73);
        for round in 0..400 {
            let n = if round % 40 == 0 { 512 } else { 1 + random.below(30) };
            let mut made = any_record(n, &mut random);
            made.hold = b'N';
            for side in [1, 2] {
                let mut freed = made.bytes();
                let (before, after) = firmware::free(&mut freed, side).unwrap();
                let left = record::read(&freed).unwrap();
                let freed_layout = left.layout(Side::of(side).unwrap());
                let mut layout = vec![9; n - 1];
                let stands = take_in(&made.bytes(), side, &made.present_order(side), &mut layout);
                assert_eq!(stands, Ok(TakenIn { count: before, least: before == after }));
                assert_eq!(layout, made.layout(side));
                let order = made.order_of(side, freed_layout);
                for record in [made.bytes(), freed.clone()] {
                    let taken = take_in(&record, side, &order, &mut layout);
                    assert_eq!(taken, Ok(TakenIn { count: after, least: true }));
                    assert_eq!(layout, freed_layout);
                }
            }
        }
    }

    #[test]
    fn the_side_the_record_the_order_the_pins_and_the_room() {
        let mut pinned = case_2();
        pinned.left_layout = vec![0, 0, 2];
        let pinned = pinned.bytes();
        let refused = |bytes: &[u8], side: u16, order: &[u16], places: usize| {
            let mut layout = vec![9; places];
            let result = take_in(bytes, side, order, &mut layout);
            assert!(result.is_ok() || layout == vec![9; places]);
            told(&result)
        };
        for bytes in faults::single().iter().chain(&faults::several()) {
            assert_eq!(refused(bytes, 3, &[], 0), "13");
            assert_eq!(refused(bytes, 1, &[], 0), told(&firmware::check(bytes)));
            assert_eq!(refused(bytes, 2, &[1, 2, 3, 4], 3), told(&firmware::check(bytes)));
        }
        let calls: [(u16, &[u16], usize, &str); 14] = [
            (0, &[4, 3, 1, 2], 3, "13"),
            (257, &[], 0, "13"),
            (1, &[4, 3, 1], 3, "16"),
            (1, &[1, 3, 2, 4], 0, "16"), // neither compatible nor as the pin says
            (1, &[4, 3, 1, 0], 3, "16"),
            (1, &[4, 3, 1, 5], 3, "16"),
            (1, &[4, 3, 1, 1], 3, "16"),
            (1, &[1, 2, 3, 4], 0, "23"),
            (1, &[1, 2, 3, 4], 3, "23"),
            (2, &[1, 2, 3, 4], 3, "0"),
            (1, &[4, 3, 1, 2], 2, "14"),
            (1, &[4, 3, 1, 2], 3, "0"),
            (1, &[4, 3, 1, 2, 0, 65535], 4, "0"),
            (1, &[4, 1, 2, 3], 3, "0"),
        ];
        for (side, order, places, wanted) in calls {
            assert_eq!(refused(&pinned, side, order, places), wanted);
        }
    }

    #[test]
    fn one_leaf_wants_no_room() {
        let one_leaf = example(&[], &[]).bytes();
        for order in [&[1][..], &[1, 9], &[1, 1, 0]] {
            for side in [1, 2] {
                assert_eq!(take_in(&one_leaf, side, order, &mut []), Ok(TakenIn { count: 0, least: true }));
            }
        }
        for order in [&[][..], &[0], &[2], &[2, 1]] {
            assert_eq!(take_in(&one_leaf, 2, order, &mut []), Err(refusals::ORDER));
        }
        assert_eq!(take_in(&one_leaf, 3, &[1], &mut []), Err(refusals::SIDE));
    }

    #[test]
    fn holds_play_no_part() {
        for hold in *b"NLRB" {
            let mut made = case_2();
            made.hold = hold;
            let mut layout = [9; 3];
            let taken = take_in(&made.bytes(), 1, &[1, 2, 3, 4], &mut layout);
            assert_eq!((taken, layout), (Ok(TakenIn { count: 0, least: true }), [0, 1, 1]));
        }
    }
}
