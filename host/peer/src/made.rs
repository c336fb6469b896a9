// Records made for calls, measurements and tests. A made record is a set of lists that nothing
// has tested yet; its bytes are put together here by themselves, not by the packing under test.

use crate::random::Random;
use crate::shapes::{self, Exchange, Shape};
use crate::tree;

#[derive(Clone)]
pub struct Made {
    pub hold: u8,
    pub n: u16,
    pub left: Vec<u16>,
    pub right: Vec<u16>,
    pub links: Vec<u16>,
    pub left_layout: Vec<u8>,
    pub right_layout: Vec<u8>,
}

impl Made {
    pub fn bytes(&self) -> Vec<u8> {
        let mut bytes = b"TGP\x00\x01".to_vec();
        bytes.push(self.hold);
        for number in [&[self.n], &self.left[..], &self.right, &self.links].concat() {
            bytes.push((number / 256) as u8);
            bytes.push((number % 256) as u8);
        }
        bytes.extend(&self.left_layout);
        bytes.extend(&self.right_layout);
        bytes
    }

    pub fn rows(&self, side: u16) -> &[u16] {
        if side == 1 {
            &self.left
        } else {
            &self.right
        }
    }

    pub fn layout(&self, side: u16) -> &[u8] {
        if side == 1 {
            &self.left_layout
        } else {
            &self.right_layout
        }
    }

    pub fn layout_mut(&mut self, side: u16) -> &mut Vec<u8> {
        if side == 1 {
            &mut self.left_layout
        } else {
            &mut self.right_layout
        }
    }

    /// The leaf order that a layout gives this side's tree.
    pub fn order_of(&self, side: u16, layout: &[u8]) -> Vec<u16> {
        let rows: Vec<[u16; 2]> = self.rows(side).chunks(2).map(|row| [row[0], row[1]]).collect();
        tree::leaf_order(&rows, layout)
    }

    pub fn present_order(&self, side: u16) -> Vec<u16> {
        self.order_of(side, self.layout(side))
    }

    /// Pins a row as it stands.
    pub fn pin(&mut self, side: u16, row: usize) {
        self.layout_mut(side)[row - 1] |= 2;
    }

    /// The same with every row pinned as it stands whose number the step divides; with 1, all of them.
    pub fn every_pinned(mut self, step: usize) -> Made {
        for row in (step..self.n as usize).step_by(step) {
            self.pin(1, row);
            self.pin(2, row);
        }
        self
    }

    pub fn all_pinned(self) -> Made {
        self.every_pinned(1)
    }

    pub fn none_pinned(mut self) -> Made {
        for side in [1, 2] {
            self.layout_mut(side).iter_mut().for_each(|byte| *byte &= 1);
        }
        self
    }
}

/// A record from its rows; links are the identity and layouts all 0, as in most of the examples.
pub fn example(left: &[u16], right: &[u16]) -> Made {
    let rows = left.len() / 2;
    Made {
        hold: b'N',
        n: rows as u16 + 1,
        left: left.to_vec(),
        right: right.to_vec(),
        links: (1..=rows as u16 + 1).collect(),
        left_layout: vec![0; rows],
        right_layout: vec![0; rows],
    }
}

/// Examples 1 and 2 of docs/CALLS.md.
pub fn case_2() -> Made {
    example(&[1, 2, 3, 5, 4, 6], &[1, 2, 3, 4, 5, 6])
}

/// The layout of n-1 rows whose byte for row i is bit i-1.
#[cfg(test)]
pub fn layout_of_bits(n: usize, bits: usize) -> Vec<u8> {
    (0..n - 1).map(|row| (bits >> row & 1) as u8).collect()
}

pub fn any_layout(n: usize, random: &mut Random) -> Vec<u8> {
    (1..n).map(|_| random.below(2) as u8).collect()
}

/// The record of the command `record`: both sides of one shape, hold N, links shuffled; or
/// `straight`, caterpillars whose links are 1 to n in this order.
pub fn of_shape(shape: &str, n: usize, random: &mut Random) -> Option<Made> {
    let straight = shape == "straight";
    let shape = match shape {
        "balanced" => Shape::Balanced,
        "caterpillar" | "straight" => Shape::Caterpillar,
        "random" => Shape::Joined,
        _ => return None,
    };
    let side = |random: &mut Random| {
        let exchange = match shape {
            Shape::Caterpillar => random.pick(&[Exchange::Never, Exchange::Always]),
            _ => Exchange::AtRandom,
        };
        shapes::tree(shape, exchange, n, random)
    };
    let mut made = example(&side(random), &side(random));
    if !straight {
        random.shuffle(&mut made.links);
    }
    made.left_layout = any_layout(n, random);
    made.right_layout = any_layout(n, random);
    Some(made)
}

/// A good record of any kind over n leaves, often held, often with rows that are pinned.
pub fn any_record(n: usize, random: &mut Random) -> Made {
    let left = shapes::any_tree(n, random);
    let right = if random.chance(250) { left.clone() } else { shapes::any_tree(n, random) };
    let mut made = example(&left, &right);
    made.hold = random.pick(b"NNNNNNNNNLRB");
    if random.chance(800) {
        made.left_layout = any_layout(n, random);
        made.right_layout = any_layout(n, random);
    }
    made.links = any_links(&made, random);
    if n > 1 && random.chance(400) {
        pin_any_rows(&mut made, random);
    }
    made
}

/// Pins a few rows as they stand, or about half of them, or a side, or all.
fn pin_any_rows(made: &mut Made, random: &mut Random) {
    let rows = made.n as usize - 1;
    let side = 1 + random.below(2) as u16;
    match random.below(20) {
        0 => *made = made.clone().all_pinned(),
        1 => (1..=rows).for_each(|row| made.pin(side, row)),
        2..=4 => {
            for row in 1..=rows {
                if random.chance(500) {
                    made.pin(1 + random.below(2) as u16, row);
                }
            }
        }
        _ => {
            for _ in 0..1 + random.below(3) {
                made.pin(1 + random.below(2) as u16, 1 + random.below(rows));
            }
        }
    }
}

/// Links of any kind: shuffled, the identity, backwards, or after the orders of the two sides.
fn any_links(made: &Made, random: &mut Random) -> Vec<u16> {
    let mut links = made.links.clone();
    match random.below(10) {
        0..=3 => random.shuffle(&mut links),
        4 => {}
        5 => links.reverse(),
        6 => links = straight_links(&made.present_order(1), &made.present_order(2)),
        7 => {
            let mut order = made.present_order(2);
            order.reverse();
            links = straight_links(&made.present_order(1), &order);
        }
        _ => {
            let n = links.len();
            let order = |side, random: &mut Random| made.order_of(side, &any_layout(n, random));
            links = straight_links(&order(1, random), &order(2, random));
            for _ in 0..random.below(4) {
                links.swap(random.below(n), random.below(n));
            }
        }
    }
    links
}

/// The links that join two orders without a crossing.
pub fn straight_links(left_order: &[u16], right_order: &[u16]) -> Vec<u16> {
    let mut links = vec![0; left_order.len()];
    for (&left, &right) in left_order.iter().zip(right_order) {
        links[left as usize - 1] = right;
    }
    links
}
