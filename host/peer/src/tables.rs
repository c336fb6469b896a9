// Merge tables made for calls: the table of a tree, the same table column by column, and tables
// damaged in an entry or in their length, so that they stay tables or only just do not.

use crate::faults;
use crate::random::Random;

/// A tree's table by its rows, flat: each object's entry is looked up among the entries of all.
pub fn of_rows(rows: &[u16]) -> Vec<i32> {
    let n = rows.len() as i32 / 2 + 1;
    let entries: Vec<i32> = (1..=n).map(|leaf| -leaf).chain(1..n).collect();
    rows.iter().map(|&object| entries[object as usize - 1]).collect()
}

/// A table as R keeps it in memory: all upper entries, then all lower ones.
pub fn by_columns(table: &[i32]) -> Vec<i32> {
    let column = |first: usize| table.iter().skip(first).step_by(2);
    column(0).chain(column(1)).copied().collect()
}

/// What names nothing in row i of a table over n leaves: zero, the row itself, the next and a later
/// one, the leaf after the last, the ends of 32 bits.
pub fn nothing_in_row(i: usize, n: usize) -> [i32; 9] {
    let (i, n) = (i as i32, n as i32);
    [0, i, i + 1, n - 1 + i, -n - 1, i32::MIN, i32::MIN + 1, i32::MAX, n + i]
}

/// What would be the entry in 8 or 16 bits, and is it not in 32.
pub fn wider(entry: i32) -> [i32; 6] {
    [256, -256, 65536, -65536, 1 << 30, -(1 << 30)].map(|off| entry.wrapping_add(off))
}

/// Exchanges one entry of a table that has some: for one that names nothing, for one that stands
/// elsewhere, for the same with another sign or in more bits, or for any.
pub fn damage_an_entry(table: &mut [i32], random: &mut Random) {
    let n = table.len() / 2 + 1;
    let at = random.below(table.len());
    let i = at / 2 + 1;
    table[at] = match random.below(10) {
        0..=3 => random.pick(&nothing_in_row(i, n)),
        4 => faults::other_entry(table, at),
        5..=6 => table[random.below(table.len())],
        7 => table[at].wrapping_neg(),
        8 => random.pick(&wider(table[at])),
        _ => random.below(2 * n) as i32 - n as i32,
    };
}

/// Makes a table shorter or longer by an entry or by a pair.
pub fn change_the_length(table: &mut Vec<i32>, random: &mut Random) {
    let length = table.len();
    let new = random.pick(&[length + 1, length + 2, length.saturating_sub(1), length.saturating_sub(2)]);
    table.resize(new, random.pick(&[0, -1, 1]));
}

/// An entry as text, now and then with zeros in front; zero may have a sign.
pub fn spelt(entry: i32, random: &mut Random) -> String {
    if !random.chance(30) {
        return entry.to_string();
    }
    let sign = if entry < 0 || entry == 0 && random.chance(500) { "-" } else { "" };
    let zeros = "0".repeat(random.below(14));
    format!("{sign}{zeros}{}", entry.unsigned_abs())
}
