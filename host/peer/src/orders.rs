// Orders for a side of a made record, for the call that takes an order in: the one that freeing leaves,
// those of layouts that keep the pinned rows, those of layouts that turn one of them, and those that only
// just are no orders of the tree.

use crate::firmware;
use crate::made::{self, Made};
use crate::pins;
use crate::random::Random;

/// The order that freeing the side leaves, whatever is held; the present one if the record is no good.
pub fn freed(made: &Made, side: u16) -> Vec<u16> {
    let mut loose = made.clone();
    loose.hold = b'N';
    let mut bytes = loose.bytes();
    if firmware::free(&mut bytes, side).is_ok() {
        let rows = made.n as usize - 1;
        let layouts = bytes.split_off(bytes.len() - 2 * rows);
        *loose.layout_mut(side) = layouts[(side as usize - 1) * rows..][..rows].to_vec();
    }
    loose.present_order(side)
}

/// The order of any layout.
pub fn compatible(made: &Made, side: u16, random: &mut Random) -> Vec<u16> {
    made.order_of(side, &made::any_layout(made.n as usize, random))
}

/// The order of any layout that turns each pinned row as it is.
pub fn permitted(made: &Made, side: u16, random: &mut Random) -> Vec<u16> {
    let mut layout = made::any_layout(made.n as usize, random);
    for (byte, &present) in layout.iter_mut().zip(made.layout(side)) {
        if pins::is_pinned(present) {
            *byte = present;
        }
    }
    made.order_of(side, &layout)
}

/// The present order but for this row, which is turned over, pinned or not.
pub fn turned(made: &Made, side: u16, row: usize) -> Vec<u16> {
    let mut layout = made.layout(side).to_vec();
    layout[row - 1] ^= 1;
    made.order_of(side, &layout)
}

/// The rows of a side that are pinned.
pub fn pinned_rows(made: &Made, side: u16) -> Vec<usize> {
    let is_pinned = |row: &usize| pins::is_pinned(made.layout(side)[row - 1]);
    (1..made.n as usize).filter(is_pinned).collect()
}

/// The same with two entries exchanged; of a tree over three leaves or more some of these are no orders.
pub fn exchanged(mut order: Vec<u16>, one: usize, other: usize) -> Vec<u16> {
    order.swap(one, other);
    order
}

#[cfg(test)]
mod tests {
    use super::*;
    use crate::refusals::told;
    use crate::take_in::take_in;

    #[test]
    fn orders_are_what_they_are_said_to_be() {
        let mut random = Random::new(74);
        let mut against = 0;
        for round in 0..300 {
            let n = if round % 60 == 0 { 512 } else { 2 + random.below(20) };
            let made = made::any_record(n, &mut random);
            for side in [1, 2] {
                let answer = |order: &[u16]| take_in(&made.bytes(), side, order, &mut [0; 511]);
                assert!(answer(&freed(&made, side)).is_ok_and(|taken| taken.least));
                assert!(answer(&permitted(&made, side, &mut random)).is_ok());
                let any = told(&answer(&compatible(&made, side, &mut random)));
                assert!(any == "0" || any == "23");
                for row in pinned_rows(&made, side) {
                    assert_eq!(told(&answer(&turned(&made, side, row))), "23");
                    against += 1;
                }
            }
        }
        assert!(against > 300, "{against}");
    }
}
