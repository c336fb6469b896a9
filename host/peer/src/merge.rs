// Merge tables with signs, in and out (docs/MERGE.md): the rows of a table, and a side's rows as a
// table. In row i of a table over n leaves, minus a names leaf a and plus j names object n+j, which
// is row j's. The layout plays no part.

use crate::record::{self, Side};
use crate::refusals::{self, Refusal};
use crate::room;

/// The object that an entry of row i names: 20 if it is zero, or names no leaf, or no earlier row.
fn object(entry: i32, i: usize, n: usize) -> Result<u16, Refusal> {
    let number = entry.unsigned_abs() as usize;
    let (most, before) = if entry < 0 { (n, 0) } else { (i - 1, n) };
    if number < 1 || number > most {
        return Err(refusals::ENTRY);
    }
    Ok((before + number) as u16)
}

/// Whether the same entry stands in two places.
fn has_one_twice(table: &[i32]) -> bool {
    let mut sorted = table.to_vec();
    sorted.sort_unstable();
    sorted.windows(2).any(|two| two[0] == two[1])
}

/// Reads a table over n leaves, pair by pair, and writes its rows, upper then lower, to the first
/// 2(n-1) places of `out`: 5, 6, 20 over the whole table, 21, 14.
pub fn read(n: u16, table: &[i32], out: &mut [u16]) -> Result<(), Refusal> {
    let n = record::leaves(n)?;
    if table.len() != 2 * (n - 1) {
        return Err(refusals::LENGTH);
    }
    let named = table.iter().enumerate().map(|(at, &entry)| object(entry, at / 2 + 1, n));
    let rows: Vec<u16> = named.collect::<Result<_, _>>()?;
    if has_one_twice(table) {
        return Err(refusals::TWICE);
    }
    room::put(&rows, out)
}

/// The entry that names an object.
fn entry(object: u16, n: usize) -> i32 {
    let (object, n) = (object as i32, n as i32);
    if object <= n {
        -object
    } else {
        object - n
    }
}

/// Writes a side's rows as a table to the first 2(n-1) places of `out`: 13, 1 to 10, 14.
pub fn write(bytes: &[u8], side: u16, out: &mut [i32]) -> Result<(), Refusal> {
    let side = Side::of(side)?;
    let record = record::read(bytes)?;
    let objects = record.rows(side).iter().flatten();
    let table: Vec<i32> = objects.map(|&object| entry(object, record.n)).collect();
    room::put(&table, out)
}

#[cfg(test)]
mod tests {
    use super::*;
    use crate::made::{self, case_2, example, Made};
    use crate::random::Random;
    use crate::refusals::told;
    use crate::shapes;
    use crate::sides;
    use crate::tables;
    use crate::tree;

    /// The number that reading tells with so many places; the buffer is written in the first
    /// 2(n-1) of them, or nowhere.
    fn read_into(n: u16, table: &[i32], places: usize) -> (String, Vec<u16>) {
        let mut out = vec![7; places];
        let result = read(n, table, &mut out);
        let beyond = out.split_off(if result.is_ok() { 2 * (n as usize - 1) } else { 0 });
        assert!(beyond.iter().all(|&place| place == 7));
        (told(&result), out)
    }

    fn number(n: u16, table: &[i32]) -> String {
        read_into(n, table, 1030).0
    }

    fn rows(n: u16, table: &[i32]) -> Vec<u16> {
        let (number, rows) = read_into(n, table, 1030);
        assert_eq!(number, "0");
        rows
    }

    fn written(record: &Made, side: u16) -> Vec<i32> {
        let mut out = vec![99; 1030];
        assert_eq!(write(&record.bytes(), side, &mut out), Ok(()));
        assert!(out.split_off(2 * (record.n as usize - 1)).iter().all(|&place| place == 99));
        out
    }

    #[test]
    fn tables_by_hand() {
        assert_eq!(rows(4, &[-1, -2, -3, 1, -4, 2]), [1, 2, 3, 5, 4, 6]);
        assert_eq!(rows(4, &[-1, -2, -3, -4, 1, 2]), [1, 2, 3, 4, 5, 6]);
        assert_eq!(rows(4, &[-4, -3, 1, -1, 2, -2]), [4, 3, 5, 1, 6, 2]);
        assert_eq!(rows(5, &[-1, -2, -3, -4, -5, 1, 2, 3]), [1, 2, 3, 4, 5, 6, 7, 8]);
        assert_eq!(rows(2, &[-2, -1]), [2, 1]);
        assert_eq!(rows(1, &[]), []);
    }

    #[test]
    fn entries_that_name_nothing() {
        let names = |i: usize, n: usize| {
            let wide = [i32::MIN, i32::MIN + 1, i32::MAX, -65537, 65537, -65536, 65536, 257, -257];
            (-15..=15).chain(wide).filter(|&entry| object(entry, i, n).is_ok()).collect::<Vec<i32>>()
        };
        assert_eq!(names(1, 2), [-2, -1]);
        assert_eq!(names(1, 4), [-4, -3, -2, -1]);
        assert_eq!(names(3, 4), [-4, -3, -2, -1, 1, 2]);
        assert_eq!(object(-4, 3, 4), Ok(4));
        assert_eq!(object(2, 3, 4), Ok(6));
        assert_eq!(object(510, 511, 512), Ok(1022));
        assert_eq!(object(511, 511, 512), Err(refusals::ENTRY));
        assert_eq!(object(-512, 1, 512), Ok(512));
        assert_eq!(object(-513, 511, 512), Err(refusals::ENTRY));
    }

    #[test]
    fn refusals_of_reading_in_their_order() {
        let good = [-1, -2, -3, 1, -4, 2];
        for n in [0, 513, 514, 1024, 65535] {
            assert_eq!(read_into(n, &good[..5], 0).0, "5");
            assert_eq!(read_into(n, &[], 0).0, "5");
        }
        for n in [1, 2, 3, 5, 260, 512] {
            assert_eq!(number(n, &good), "6");
        }
        for length in 0..6 {
            assert_eq!(number(4, &good[..length]), "6");
        }
        assert_eq!(number(4, &[0; 7]), "6");
        assert_eq!(number(4, &[0; 5]), "6");
        assert_eq!(number(1, &[-1]), "6");
        assert_eq!(number(4, &[-1, -1, -3, 1, -4, 0]), "20");
        assert_eq!(number(4, &[-1, -1, -3, 1, -4, 3]), "20");
        assert_eq!(number(4, &[-1, -1, -3, 1, -5, 2]), "20");
        assert_eq!(number(4, &[-1, -1, -3, 1, i32::MIN, 2]), "20");
        assert_eq!(number(4, &[-1, -1, -3, 1, -4, 2]), "21");
        assert_eq!(number(4, &[-1, -2, -3, 1, -4, 1]), "21");
        assert_eq!(number(4, &[-1, -2, -3, 1, -4, -1]), "21");
        assert_eq!(read_into(4, &[-1, -1, -3, 1, -4, 2], 0).0, "21");
        assert_eq!(read_into(4, &[0; 6], 0).0, "20");
        assert_eq!(read_into(1, &[], 0), ("0".to_string(), vec![]));
        for places in 0..10 {
            assert_eq!(read_into(4, &good, places).0, if places < 6 { "14" } else { "0" });
        }
    }

    /// Every table over these leaves with entries of up to one more than any can be.
    fn all_tables(n: i32) -> Vec<Vec<i32>> {
        let mut tables = vec![vec![]];
        for _ in 0..2 * (n - 1) {
            let longer = |table: &Vec<i32>| {
                let table = table.clone();
                (-n - 1..=n).map(move |entry| [&table[..], &[entry]].concat())
            };
            tables = tables.iter().flat_map(longer).collect();
        }
        tables
    }

    #[test]
    fn all_small_tables_beside_the_tree_rule() {
        // Trees over 1, 2 and 3 leaves whose rows stand in every sequence and either child above.
        for (n, trees) in [(1, 1), (2, 2), (3, 12)] {
            let mut good = 0;
            for table in all_tables(n) {
                let objects = table.iter().map(|&entry| if entry < 0 { -entry } else { n + entry });
                let unsigned: Vec<u16> = objects.map(|object| object as u16).collect();
                let pairs: Vec<[u16; 2]> = unsigned.chunks(2).map(|row| [row[0], row[1]]).collect();
                let in_range = table.iter().all(|&entry| entry != 0 && entry >= -n);
                let is_tree = in_range && tree::lowest_bad_row(&pairs).is_none();
                let (number, rows) = read_into(n as u16, &table, 4);
                assert_eq!(number == "0", is_tree, "{table:?}");
                good += is_tree as usize;
                assert_eq!(rows, if is_tree { unsigned } else { vec![] });
            }
            assert_eq!(good, trees);
        }
    }

    #[test]
    fn a_side_as_a_table() {
        let mut record = case_2();
        assert_eq!(written(&record, 1), [-1, -2, -3, 1, -4, 2]);
        assert_eq!(written(&record, 2), [-1, -2, -3, -4, 1, 2]);
        record.left_layout = vec![1, 0, 1];
        record.right_layout = vec![1, 1, 1];
        for hold in *b"NLRB" {
            record.hold = hold;
            assert_eq!(written(&record, 1), [-1, -2, -3, 1, -4, 2]);
            assert_eq!(written(&record, 2), [-1, -2, -3, -4, 1, 2]);
        }
        assert_eq!(written(&example(&[], &[]), 2), []);
        assert_eq!(written(&example(&[2, 1], &[1, 2]), 1), [-2, -1]);
    }

    #[test]
    fn refusals_of_writing() {
        sides::refuses_as_a_writing_call(6, |bytes, side, places| {
            let mut out = vec![99; places];
            let result = write(bytes, side, &mut out);
            assert!(out[if result.is_ok() { 6 } else { 0 }..].iter().all(|&place| place == 99));
            told(&result)
        });
        assert_eq!(write(&example(&[], &[]).bytes(), 1, &mut []), Ok(()));
    }

    #[test]
    fn there_and_back() {
        let mut random = Random::new(20);
        for round in 0..400 {
            let n = if round % 40 == 0 { 512 } else { 1 + random.below(60) };
            let record = made::any_record(n, &mut random);
            for side in [1, 2] {
                let table = written(&record, side);
                assert_eq!(table, tables::of_rows(record.rows(side)));
                assert_eq!(rows(record.n, &table), record.rows(side));
            }
        }
    }

    #[test]
    fn damaged_tables_are_refused_by_what_was_done() {
        let mut random = Random::new(21);
        let mut answers = [0; 3];
        for _ in 0..3000 {
            let n = 2 + random.below(20);
            let mut table = tables::of_rows(&shapes::any_tree(n, &mut random));
            tables::damage_an_entry(&mut table, &mut random);
            let names = |at: usize, entry: i32| (-(n as i32)..=at as i32 / 2).contains(&entry) && entry != 0;
            let all_name = table.iter().enumerate().all(|(at, &entry)| names(at, entry));
            let other = |&at: &usize| table[..at].contains(&table[at]);
            let wanted = if all_name { (0..table.len()).any(|at| other(&at)) as usize } else { 2 };
            assert_eq!(number(n as u16, &table), ["0", "21", "20"][wanted]);
            answers[wanted] += 1;
        }
        assert!(answers[1] > 300 && answers[2] > 300, "{answers:?}");
    }
}
