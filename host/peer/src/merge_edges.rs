// The fixed calls of merge tables: both sides of every limit of a table, of its entries and of its
// buffers, every entry that names nothing and every entry that stands twice in a small table, and
// several faults at once so that the order of the tests shows. The longest calls come first.

use crate::lines;
use crate::made::{case_2, example, of_shape};
use crate::random::Random;
use crate::shapes::{self, Exchange, Shape};
use crate::sides;
use crate::tables;

/// All fixed lines of merge tables.
pub fn all() -> Vec<String> {
    let mut all = largest_read();
    all.extend(largest_refused());
    all.extend(largest_written());
    all.extend(good_tables());
    all.extend(spelt_entries());
    all.extend(any_entry());
    all.extend(entries_that_name_nothing());
    all.extend(entries_that_stand_twice());
    all.extend(column_by_column());
    all.extend(numbers_of_leaves());
    all.extend(lengths());
    all.extend(room_for_rows());
    all.extend(several_faults());
    all.extend(layouts_and_room());
    all.extend(sides::of_a_writing_call(6, write_table));
    all
}

fn write_table(record: &[u8], side: u16, places: usize) -> String {
    lines::merge_write(record, side, &vec![-7; places])
}

/// What says again what these say.
pub fn again() -> Vec<String> {
    sides::again(6, write_table)
}

/// Case 2's left and right, and a tree whose rows stand in another order than its leaves.
const SMALL: [&[i32]; 3] = [&[-1, -2, -3, 1, -4, 2], &[-1, -2, -3, -4, 1, 2], &[-4, -5, -2, -1, 1, -3, 3, 2]];

fn leaves_of(table: &[i32]) -> usize {
    table.len() / 2 + 1
}

/// The table as it is, with so many places.
fn read(table: &[i32], places: usize) -> String {
    lines::merge_read(leaves_of(table), table, &vec![9; places])
}

/// A table with an entry at a place, with exact room that tells whether it was touched.
fn with_entry(table: &[i32], at: usize, entry: i32) -> String {
    let mut table = table.to_vec();
    table[at] = entry;
    read(&table, table.len())
}

fn table_of(shape: Shape, exchange: Exchange, n: usize) -> Vec<i32> {
    tables::of_rows(&shapes::tree(shape, exchange, n, &mut Random::new(4)))
}

/// Tables of 512 leaves that are read, with room that is exact, one short, and one more.
fn largest_read() -> Vec<String> {
    let deep = table_of(Shape::Caterpillar, Exchange::Never, 512);
    vec![
        read(&deep, 1022),
        read(&table_of(Shape::Balanced, Exchange::AtRandom, 512), 1023),
        read(&deep, 1021),
        read(&table_of(Shape::Caterpillar, Exchange::Always, 512), 1022),
        read(&table_of(Shape::Joined, Exchange::AtRandom, 512), 1022),
        read(&table_of(Shape::Joined, Exchange::AtRandom, 511), 1020),
    ]
}

/// Tables of 512 leaves with one fault each, at either end; 513 leaves; lengths that are off by one
/// entry or by a pair. Little room is lent, since it comes last.
fn largest_refused() -> Vec<String> {
    let good = table_of(Shape::Balanced, Exchange::Never, 512);
    let last = good.len() - 1;
    let refused = |n: usize, table: &[i32]| lines::merge_read(n, table, &[9, 8, 7]);
    let with = |changes: &[(usize, i32)]| {
        let mut table = good.clone();
        changes.iter().for_each(|&(at, entry)| table[at] = entry);
        refused(512, &table)
    };
    let more = table_of(Shape::Balanced, Exchange::Never, 513);
    vec![
        with(&[(last, 511)]),
        with(&[(0, -513)]),
        with(&[(last, good[0])]),
        with(&[(1, good[0]), (last, 0)]),
        refused(513, &more),
        refused(512, &good[..last]),
        refused(512, &[&good[..], &[-1]].concat()),
        with(&[(last, -513)]),
        with(&[(1, good[0])]),
        with(&[(last, i32::MIN)]),
        with(&[(0, 1), (last, good[1])]),
        refused(512, &more),
        refused(511, &good),
        refused(512, &good[..last - 1]),
    ]
}

/// Written tables of 512 leaves: deep and balanced, with room that is exact, one short and more.
fn largest_written() -> Vec<String> {
    let mut random = Random::new(1022);
    let mut calls = Vec::new();
    for shape in ["caterpillar", "balanced", "random"] {
        if let Some(made) = of_shape(shape, 512, &mut random) {
            let of = |side, places: usize| lines::merge_write(&made.bytes(), side, &vec![7; places]);
            calls.extend([of(2, 1021), of(1, 1022), of(2, 1023), of(1, 0)]);
        }
    }
    calls
}

/// Tables that are read.
const GOOD: [&[i32]; 14] = [
    &[],
    &[-1, -2],
    &[-2, -1],
    &[-1, -2, 1, -3],
    &[-1, -2, -3, 1],
    &[-3, -2, -1, 1],
    &[-2, -3, 1, -1],
    &[-4, -3, 1, -1, 2, -2],
    &[-4, -2, -3, -1, 2, 1],
    &[-1, -2, -3, -4, -5, 1, 2, 3],
    &[-1, -2, -3, -4, 1, 2, 3, -5],
    &[-5, -1, -2, 1, -4, 2, -3, 3],
    &[-1, -2, -3, -4, -5, -6, 1, 3, 4, 2],
    &[-8, -7, -6, -5, -4, -3, -2, -1, 4, 3, 2, 1, 6, 5],
];

fn good_tables() -> Vec<String> {
    let mut calls = Vec::new();
    for table in GOOD.iter().chain(&SMALL) {
        calls.push(read(table, table.len()));
        calls.push(read(table, table.len() + 3));
    }
    calls
}

/// Entries as they may be typed, with zeros in front and with the sign of a zero.
fn spelt_entries() -> Vec<String> {
    let zeros = "0".repeat(60);
    let tables = [
        ["-01", "-002"].map(String::from),
        [format!("-{zeros}1"), format!("-{zeros}2")],
        [format!("-{zeros}2147483648"), format!("{zeros}2147483647")],
        ["-0", "-2"].map(String::from),
        ["-1", "-0"].map(String::from),
        ["-00", "000"].map(String::from),
        [format!("-{zeros}"), zeros],
    ];
    let mut calls: Vec<String> = tables.iter().map(|table| lines::merge_read(2, table, &[9, 8])).collect();
    calls.push(lines::merge_read("0000000003", &["-3", "-1", "01", "-02"], &[9; 4]));
    calls.push("merge_read 03 -3,-1,1,-2 009,0008,007,00000000006,05".to_string());
    calls.push("merge_write - 2 -0,00,-007,2147483647,-2147483648,-02147483648".to_string());
    calls
}

/// Every entry about those of two and of three leaves, at every place.
fn any_entry() -> Vec<String> {
    let mut calls = Vec::new();
    for upper in -3..=2 {
        calls.extend((-3..=2).map(|lower| read(&[upper, lower], 2)));
    }
    for at in 0..4 {
        calls.extend((-5..=4).map(|entry| with_entry(&[-3, -1, -2, 1], at, entry)));
    }
    calls
}

/// An entry that names nothing at every place; one of another sign, and of more bits.
fn entries_that_name_nothing() -> Vec<String> {
    let mut calls = Vec::new();
    for table in SMALL {
        for (at, &entry) in table.iter().enumerate() {
            let nothing = tables::nothing_in_row(at / 2 + 1, leaves_of(table));
            calls.extend(nothing.map(|entry| with_entry(table, at, entry)));
            calls.push(with_entry(table, at, -entry));
        }
        let last = table.len() - 1;
        for at in [0, last] {
            calls.extend(tables::wider(table[at]).map(|entry| with_entry(table, at, entry)));
        }
        calls.push(with_entry(table, last, -512));
        calls.push(with_entry(table, last, -513));
        calls.push(with_entry(table, last, 512));
    }
    calls
}

/// Each entry exchanged for each other one of its table, which then stands twice; where that names
/// no earlier row, this is told in its place.
fn entries_that_stand_twice() -> Vec<String> {
    let mut calls = Vec::new();
    for table in SMALL {
        for at in 0..table.len() {
            let others = (0..table.len()).filter(|&other| other != at);
            calls.extend(others.map(|other| with_entry(table, at, table[other])));
        }
    }
    calls
}

/// Tables as R keeps them in memory. Some are read, as another tree.
fn column_by_column() -> Vec<String> {
    GOOD.iter().chain(&SMALL).map(|table| read(&tables::by_columns(table), table.len())).collect()
}

/// Every n at a limit, with tables of no entry, of one pair and of three.
fn numbers_of_leaves() -> Vec<String> {
    let mut calls = Vec::new();
    for n in [0, 1, 2, 3, 4, 5, 255, 256, 258, 260, 511, 512, 513, 514, 1024, 32768, 65534, 65535] {
        for table in [&[][..], &[-1, -2], SMALL[0]] {
            calls.push(lines::merge_read(n, table, &[9; 6]));
        }
    }
    calls
}

/// Tables shorter and longer than their n asks for, one entry at a time.
fn lengths() -> Vec<String> {
    let long = [-1, -2, -3, 1, -4, 2, -5, 3, -6, 4];
    let mut calls = Vec::new();
    for n in 1..=4 {
        calls.extend((0..=long.len()).map(|length| lines::merge_read(n, &long[..length], &[9; 10])));
    }
    calls
}

/// Buffers for the rows: none, too short, exact and longer.
fn room_for_rows() -> Vec<String> {
    let mut calls = Vec::new();
    for table in [&[][..], &[-2, -1], &[-1, -2, -3, 1], SMALL[0]] {
        for places in 0..=8 {
            calls.push(lines::merge_read(leaves_of(table), table, &vec![65535; places]));
        }
    }
    calls
}

/// Arguments of a reading.
struct Reading {
    n: usize,
    table: Vec<i32>,
    places: usize,
}

/// One fault for 5 and 6 each, several for 20 and 21, one for 14, one that is none.
const FAULTS: [fn(&mut Reading); 12] = [
    |reading| reading.n = 0,
    |reading| reading.n = 513,
    |reading| reading.n += 1,
    |reading| reading.table.push(-5),
    |reading| reading.table.truncate(4),
    |reading| reading.table[0] = 0,
    |reading| reading.table[3] = 2,
    |reading| reading.table[5] = -5,
    |reading| reading.table[1] = -1,
    |reading| reading.table[4] = -3,
    |reading| reading.places = 5,
    |_| {},
];

/// Faults two by two, in case 2's left: the first of 5, 6, 20, 21 and 14 is told, wherever it is.
fn several_faults() -> Vec<String> {
    let mut calls = Vec::new();
    for (index, two) in FAULTS.iter().enumerate() {
        for one in &FAULTS[..index] {
            let mut reading = Reading { n: 4, table: SMALL[0].to_vec(), places: 6 };
            two(&mut reading);
            one(&mut reading);
            calls.push(lines::merge_read(reading.n, &reading.table, &vec![9; reading.places]));
        }
    }
    calls.push(lines::merge_read(4, &[-1, -1, -3, 1, -4, 3], &[9; 5]));
    calls.push(lines::merge_read(513, &[0, 0, 0], &[]));
    calls.push(lines::merge_read(4, &[0, 0, 0], &[]));
    calls.push(lines::merge_read(4, &[-1; 6], &[]));
    calls
}

/// Layouts and holds, which play no part, and room that is none, short, exact and longer.
fn layouts_and_room() -> Vec<String> {
    let mut calls = Vec::new();
    for bits in 0..8 {
        let mut made = case_2();
        made.hold = b"NLRB"[bits as usize % 4];
        made.left_layout = vec![bits & 1, bits >> 1 & 1, bits >> 2];
        made.right_layout = vec![1 - (bits & 1), bits >> 2, bits >> 1 & 1];
        calls.extend([1, 2].map(|side| lines::merge_write(&made.bytes(), side, &[i32::MIN; 7])));
    }
    let rows: [&[u16]; 4] = [&[], &[2, 1], &[1, 2, 3, 4], &[1, 2, 3, 5, 4, 6]];
    for rows in rows {
        let record = example(rows, rows).bytes();
        let lengths = [0, 1, rows.len().saturating_sub(1), rows.len(), rows.len() + 1, rows.len() + 3];
        let of = |places: usize| lines::merge_write(&record, 1, &vec![i32::MAX; places]);
        calls.extend(lengths.map(of));
    }
    calls
}

#[cfg(test)]
mod tests {
    use super::*;
    use crate::desk;

    fn numbers(lines: &[String]) -> String {
        let number =
            |line: &String| desk::answer(line.as_bytes()).split(' ').next().unwrap_or_default().to_string();
        lines.iter().map(number).collect::<Vec<_>>().join(",")
    }

    fn has(lines: &[String], wanted: &str) -> bool {
        let numbers = numbers(lines);
        wanted.split(',').all(|number| numbers.split(',').any(|told| told == number))
    }

    #[test]
    fn the_limits_show() {
        assert_eq!(numbers(&largest_read()), "0,0,14,0,0,0");
        assert_eq!(numbers(&largest_refused()), "20,20,21,20,5,6,6,20,21,20,20,6,6,6");
        assert_eq!(numbers(&largest_written()), ["14,0,0,14"; 3].join(","));
        assert!(good_tables().iter().all(|line| desk::answer(line.as_bytes()).starts_with("0 ")));
        assert_eq!(numbers(&spelt_entries()), "0,0,20,20,20,20,20,0,0,1");
        assert!(has(&any_entry(), "0,20,21") && has(&entries_that_stand_twice(), "20,21"));
        assert!(!has(&entries_that_stand_twice(), "0"));
        assert!(has(&column_by_column(), "0,20"));
        assert!(has(&numbers_of_leaves(), "0,5,6") && has(&lengths(), "0,6"));
        assert!(has(&room_for_rows(), "0,14") && has(&layouts_and_room(), "0,14"));
    }

    #[test]
    fn a_table_with_an_entry_that_names_nothing_is_refused_20() {
        let lines = entries_that_name_nothing();
        let refused = lines.iter().filter(|line| desk::answer(line.as_bytes()).starts_with("20 "));
        assert!(refused.count() * 10 > lines.len() * 9);
    }

    #[test]
    fn of_two_faults_the_first_in_the_order_of_tests_is_told() {
        let answers = numbers(&several_faults());
        let order = ["5", "5", "6", "6", "6", "20", "20", "20", "21", "21", "14", "0"];
        let mut wanted = Vec::new();
        for index in 0..order.len() {
            wanted.extend(&order[..index]);
        }
        wanted.extend(["20", "5", "6", "21"]);
        assert_eq!(answers, wanted.join(","));
    }
}
