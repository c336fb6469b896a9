// Records with rows that break the tree rule, each with the refusal that the check has for it: the
// lowest bad row, of the left if both sides have one. The entry that breaks the rule stands in
// every row of small trees and in every way, or in one row of any tree.

use crate::made::{example, Made};
use crate::refusals::{left_row, right_row, Refusal};

/// A record, and the refusal of the bad row that it was made with.
pub type Bad = (Made, Refusal);

/// Trees over 3, 4 and 5 leaves, flat.
const SMALL: [&[u16]; 3] = [&[1, 2, 4, 3], &[1, 2, 3, 5, 4, 6], &[1, 2, 3, 6, 4, 5, 7, 8]];

fn row_at(at: usize) -> u16 {
    at as u16 / 2 + 1
}

/// The object that the row of the entry at a place makes.
fn object_at(rows: &[u16], at: usize) -> u16 {
    rows.len() as u16 / 2 + 1 + row_at(at)
}

fn with_entry(rows: &[u16], at: usize, entry: u16) -> Vec<u16> {
    let mut rows = rows.to_vec();
    rows[at] = entry;
    rows
}

/// The rows with the entry at a place bad in each way: out of its range on either side, the row's
/// other entry, and what the first row or the row before has used.
fn with_bad_entry(rows: &[u16], at: usize) -> Vec<Vec<u16>> {
    let mut entries = vec![0, object_at(rows, at), 65535, rows[at ^ 1]];
    if row_at(at) > 1 {
        entries.extend([rows[0], rows[(at & !1) - 1]]);
    }
    entries.into_iter().map(|entry| with_entry(rows, at, entry)).collect()
}

/// The rows with an entry exchanged for one of a later row, which is then the bad one, and told.
fn with_later_entry(rows: &[u16]) -> Vec<(Vec<u16>, u16)> {
    let mut bad = Vec::new();
    for at in 0..rows.len() {
        for later in 2 * row_at(at) as usize..rows.len() {
            if rows[later] < object_at(rows, at) {
                bad.push((with_entry(rows, at, rows[later]), row_at(later)));
            }
        }
    }
    bad
}

/// The rows with two of them bad, of which the earlier is told.
fn with_two_bad_rows(rows: &[u16]) -> Vec<(Vec<u16>, u16)> {
    let mut bad = Vec::new();
    for earlier in (0..rows.len()).step_by(2) {
        let one = with_entry(rows, earlier + 1, rows[earlier]);
        for later in (earlier + 2..rows.len()).step_by(2) {
            bad.push((with_entry(&one, later, 0), row_at(earlier)));
        }
    }
    bad
}

/// Bad rows on the left of a record, then on its right; the other side is good.
fn on_each_side(bad: &[(Vec<u16>, u16)], good: &[u16]) -> Vec<Bad> {
    let left = bad.iter().map(|(rows, row)| (example(rows, good), left_row(*row)));
    let right = bad.iter().map(|(rows, row)| (example(good, rows), right_row(*row)));
    left.chain(right).collect()
}

/// Over 3 to 5 leaves: one bad entry in any place, an object used twice, two bad rows, both sides.
pub fn small() -> Vec<Bad> {
    let mut records = Vec::new();
    for rows in SMALL {
        let mut bad = Vec::new();
        for at in 0..rows.len() {
            bad.extend(with_bad_entry(rows, at).into_iter().map(|rows| (rows, row_at(at))));
        }
        bad.extend(with_later_entry(rows));
        bad.extend(with_two_bad_rows(rows));
        records.extend(on_each_side(&bad, rows));
        for left in 0..rows.len() {
            let right = rows.len() - 1 - left;
            let both = example(&with_entry(rows, left, 0), &with_entry(rows, right, 0));
            records.push((both, left_row(row_at(left))));
        }
    }
    records
}

/// A good record with a row bad, which has the first row's upper child again: on the left, on the
/// right, and on both sides, the right's bad row then being as far from the other end.
pub fn in_row(good: &Made, row: u16) -> Vec<Bad> {
    let lower = |row: u16| 2 * row as usize - 1;
    let left = with_entry(&good.left, lower(row), good.left[0]);
    let right = with_entry(&good.right, lower(row), good.right[0]);
    let other = with_entry(&good.right, lower(good.n - row), good.right[0]);
    vec![
        (Made { left: left.clone(), ..good.clone() }, left_row(row)),
        (Made { right, ..good.clone() }, right_row(row)),
        (Made { left, right: other, ..good.clone() }, left_row(row)),
    ]
}

#[cfg(test)]
mod tests {
    use super::*;
    use crate::desk;
    use crate::firmware;
    use crate::lines;
    use crate::made;
    use crate::random::Random;

    #[test]
    fn the_row_that_was_made_bad_is_told() {
        let large = made::any_record(512, &mut Random::new(13));
        let in_large = [1, 2, 256, 510, 511].map(|row| in_row(&large, row)).concat();
        for (made, told) in small().into_iter().chain(in_large) {
            assert_eq!(firmware::check(&made.bytes()), Err(told));
            let packed = desk::answer(lines::pack(made.n, &made, &[]).as_bytes());
            assert_eq!(packed, format!("{told} -"));
        }
    }
}
