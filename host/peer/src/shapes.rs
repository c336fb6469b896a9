// Trees of all shapes, for calls and measurements: balanced, caterpillar, made by joining any
// two objects, made by splitting anywhere. Leaves are shuffled into the tree, rows come in any
// sequence in which children stand before their parents, upper and lower may be exchanged.

use crate::random::Random;

#[derive(Clone, Copy)]
pub enum Shape {
    Balanced,
    Caterpillar,
    Joined,
    Split,
}

/// Which rows have their upper and lower exchanged. In a caterpillar the deep child is the
/// upper one, before exchanging.
#[derive(Clone, Copy)]
pub enum Exchange {
    Never,
    Always,
    AtRandom,
}

type Rows = Vec<[usize; 2]>;

/// A tree over n leaves, its rows flat, upper then lower.
pub fn tree(shape: Shape, exchange: Exchange, n: usize, random: &mut Random) -> Vec<u16> {
    let rows = match shape {
        Shape::Balanced => balanced(n),
        Shape::Caterpillar => caterpillar(n),
        Shape::Joined => joined(n, random),
        Shape::Split => split(n, random),
    };
    let rows = any_row_sequence(n, &rows, random);
    let mut leaves: Vec<usize> = (1..=n).collect();
    random.shuffle(&mut leaves);
    let name = |object: usize| if object <= n { leaves[object - 1] } else { object };
    let mut flat = Vec::new();
    for [upper, lower] in rows {
        let exchanged = match exchange {
            Exchange::Never => false,
            Exchange::Always => true,
            Exchange::AtRandom => random.chance(500),
        };
        let (upper, lower) = if exchanged { (lower, upper) } else { (upper, lower) };
        flat.extend([name(upper) as u16, name(lower) as u16]);
    }
    flat
}

/// A tree of any shape.
pub fn any_tree(n: usize, random: &mut Random) -> Vec<u16> {
    let shape = random.pick(&[
        Shape::Balanced,
        Shape::Caterpillar,
        Shape::Caterpillar,
        Shape::Joined,
        Shape::Joined,
        Shape::Split,
    ]);
    let exchange = random.pick(&[Exchange::Never, Exchange::Always, Exchange::AtRandom]);
    tree(shape, exchange, n, random)
}

/// Objects are joined two by two as they come.
fn balanced(n: usize) -> Rows {
    (1..n).map(|i| [2 * i - 1, 2 * i]).collect()
}

/// Each row joins the row before it and one leaf; it is n-1 rows deep.
fn caterpillar(n: usize) -> Rows {
    (1..n).map(|i| if i == 1 { [1, 2] } else { [n + i - 1, i + 1] }).collect()
}

fn joined(n: usize, random: &mut Random) -> Rows {
    let mut open: Vec<usize> = (1..=n).collect();
    let mut rows = Rows::new();
    for object in n + 1..2 * n {
        let upper = open.swap_remove(random.below(open.len()));
        let lower = open.swap_remove(random.below(open.len()));
        rows.push([upper, lower]);
        open.push(object);
    }
    rows
}

fn split(n: usize, random: &mut Random) -> Rows {
    let mut rows = Rows::new();
    split_leaves(n, 1, n, &mut rows, random);
    rows
}

/// Adds the rows over so many leaves from the first one; the object made last is the answer.
fn split_leaves(n: usize, first: usize, leaves: usize, rows: &mut Rows, random: &mut Random) -> usize {
    if leaves == 1 {
        return first;
    }
    let above = 1 + random.below(leaves - 1);
    let upper = split_leaves(n, first, above, rows, random);
    let lower = split_leaves(n, first + above, leaves - above, rows, random);
    rows.push([upper, lower]);
    n + rows.len()
}

/// The same tree with its rows in any sequence in which children stand before their parents.
fn any_row_sequence(n: usize, rows: &Rows, random: &mut Random) -> Rows {
    let mut parent = vec![None; 2 * n];
    let mut missing = vec![0; rows.len()];
    for (index, row) in rows.iter().enumerate() {
        for &child in row {
            parent[child] = Some(index);
            missing[index] += (child > n) as usize;
        }
    }
    let mut ready: Vec<usize> = (0..rows.len()).filter(|&index| missing[index] == 0).collect();
    let mut number: Vec<usize> = (0..2 * n).collect();
    let mut sequence = Rows::new();
    while !ready.is_empty() {
        let index = ready.swap_remove(random.below(ready.len()));
        sequence.push(rows[index].map(|child| number[child]));
        let object = n + index + 1;
        number[object] = n + sequence.len();
        if let Some(above) = parent[object] {
            missing[above] -= 1;
            if missing[above] == 0 {
                ready.push(above);
            }
        }
    }
    sequence
}

#[cfg(test)]
mod tests {
    use super::*;
    use crate::tree as trees;

    /// How many rows lie one under the other at the most.
    fn depth(n: usize, flat: &[u16]) -> usize {
        let mut depth = vec![0; n + 1];
        for row in flat.chunks(2) {
            depth.push(1 + depth[row[0] as usize].max(depth[row[1] as usize]));
        }
        *depth.last().unwrap()
    }

    #[test]
    fn every_shape_keeps_the_tree_rule() {
        let mut random = Random::new(9);
        for n in (1..40).chain([511, 512]) {
            for shape in [Shape::Balanced, Shape::Caterpillar, Shape::Joined, Shape::Split] {
                let flat = tree(shape, Exchange::AtRandom, n, &mut random);
                let rows: Vec<[u16; 2]> = flat.chunks(2).map(|row| [row[0], row[1]]).collect();
                assert_eq!(rows.len(), n - 1);
                assert_eq!(trees::lowest_bad_row(&rows), None);
            }
        }
    }

    #[test]
    fn depths() {
        let mut random = Random::new(10);
        let balanced = tree(Shape::Balanced, Exchange::AtRandom, 512, &mut random);
        assert_eq!(depth(512, &balanced), 9);
        let caterpillar = tree(Shape::Caterpillar, Exchange::AtRandom, 512, &mut random);
        assert_eq!(depth(512, &caterpillar), 511);
    }
}
