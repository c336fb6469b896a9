// The examples 1 to 13 of docs/CALLS.md, with the numbers that the customer gave for them, and some of
// them with pinned rows, worked out by hand. Used by `cargo test` only.

use crate::crossings;
use crate::firmware::{self, Run, SquaredEntanglement};
use crate::made::{case_2, example, Made};
use crate::pins;
use crate::record::{self, Side};
use crate::refusals::told;
use crate::sheet;
use crate::take_in::{self, TakenIn};

const MOST_TURNS: u32 = 130_818;

fn example_5() -> Made {
    example(&[1, 2, 4, 3], &[1, 3, 4, 2])
}

fn order(bytes: &[u8], side: u16, n: usize) -> Vec<u16> {
    let mut out = vec![0; n];
    firmware::order(bytes, side, &mut out).unwrap();
    out
}

fn count(bytes: &[u8]) -> u32 {
    let count = firmware::count(bytes).unwrap();
    assert_eq!(firmware::pairs(bytes).unwrap(), count);
    count
}

fn run(bytes: &mut [u8], allowance: u32) -> (u32, u32, u32, bool) {
    let Run { first, last, turns, settled } = firmware::run(bytes, allowance).unwrap();
    (first, last, turns, settled)
}

/// Example 13's record: left order 1 to 512, links backwards to right order 1 to 512.
fn backwards() -> Made {
    let mut rows = vec![1, 2];
    for i in 2..512 {
        rows.extend([511 + i, i + 1]);
    }
    let mut record = example(&rows, &rows);
    record.links.reverse();
    record
}

#[test]
fn example_1() {
    assert_eq!(order(&case_2().bytes(), 1, 4), [4, 3, 1, 2]);
}

#[test]
fn example_2() {
    let bytes = case_2().bytes();
    assert_eq!(count(&bytes), 5);
    let own = crossings::own_crossings(&record::read(&bytes).unwrap(), Side::Left);
    assert_eq!(own.iter().map(|row| row.0).collect::<Vec<_>>(), [0, 2, 3]);
}

#[test]
fn example_3() {
    let mut bytes = case_2().bytes();
    assert_eq!(firmware::free(&mut bytes, 1), Ok((5, 0)));
    let record = record::read(&bytes).unwrap();
    assert_eq!(record.layout(Side::Left), [0, 1, 1]);
    assert_eq!(order(&bytes, 1, 4), [1, 2, 3, 4]);
    assert_eq!(count(&bytes), 0);
    assert_eq!(firmware::thousandths(&bytes), Ok(Some(0)));
    assert_eq!(run(&mut case_2().bytes(), MOST_TURNS), (5, 0, 2, true));
}

#[test]
fn example_4() {
    let measure = firmware::squared_entanglement(&case_2().bytes()).unwrap();
    assert_eq!(measure, SquaredEntanglement { d: 18, w: 20, ratio: Some(18.0 / 20.0) });
    assert_eq!(firmware::thousandths(&case_2().bytes()), Ok(Some(948)));
}

#[test]
fn example_5_ties() {
    let before = example_5().bytes();
    assert_eq!(count(&before), 1);
    let record = record::read(&before).unwrap();
    for side in [Side::Left, Side::Right] {
        let (own, upper, lower) = *crossings::own_crossings(&record, side).last().unwrap();
        assert_eq!(2 * own, upper * lower);
    }
    let mut after = before.clone();
    assert_eq!(run(&mut after, MOST_TURNS), (1, 1, 2, true));
    assert_eq!(after, before);
    let mut turned = example_5();
    turned.left_layout = vec![1, 0];
    turned.right_layout = vec![0, 1];
    assert_eq!(order(&turned.bytes(), 1, 3), [2, 1, 3]);
    assert_eq!(order(&turned.bytes(), 2, 3), [2, 1, 3]);
    assert_eq!(count(&turned.bytes()), 0);
}

#[test]
fn example_6() {
    let before = example(&[1, 2, 4, 3], &[3, 2, 1, 4]).bytes();
    let mut bytes = before.clone();
    assert_eq!(firmware::free(&mut bytes, 1), Ok((1, 1)));
    assert_eq!(firmware::free(&mut bytes, 2), Ok((1, 0)));
    assert_eq!(run(&mut before.clone(), MOST_TURNS), (1, 0, 3, true));
    assert_eq!(run(&mut before.clone(), 3), (1, 0, 3, true));
    assert_eq!(run(&mut before.clone(), 2), (1, 0, 2, false));
}

#[test]
fn example_7() {
    let mut bytes = example(&[], &[]).bytes();
    assert_eq!(bytes.len(), 10);
    assert_eq!(count(&bytes), 0);
    let measure = firmware::squared_entanglement(&bytes).unwrap();
    assert_eq!(measure, SquaredEntanglement { d: 0, w: 0, ratio: None });
    assert_eq!(firmware::thousandths(&bytes), Ok(None));
    assert_eq!(run(&mut bytes, 2), (0, 0, 2, true));
    assert_eq!(run(&mut bytes, 1), (0, 0, 1, false));
}

#[test]
fn example_8() {
    let mut record = example(&[1, 2], &[1, 2]);
    record.links = vec![2, 1];
    let mut bytes = record.bytes();
    assert_eq!(count(&bytes), 1);
    assert_eq!(firmware::thousandths(&bytes), Ok(Some(1000)));
    assert_eq!(firmware::free(&mut bytes, 1), Ok((1, 0)));
    assert_eq!(firmware::thousandths(&bytes), Ok(Some(0)));
    assert_eq!(record::read(&bytes).unwrap().layout(Side::Left), [1]);
}

#[test]
fn example_9() {
    let good = [1, 2, 4, 3];
    for (bad, row) in [([1, 2, 1, 3], 2), ([1, 5, 2, 3], 1)] {
        assert_eq!(told(&firmware::check(&example(&bad, &good).bytes())), format!("7 {row}"));
        assert_eq!(told(&firmware::check(&example(&good, &bad).bytes())), format!("8 {row}"));
    }
}

#[test]
fn example_10() {
    let measure = firmware::squared_entanglement(&example_5().bytes()).unwrap();
    assert_eq!((measure.d, measure.w), (2, 8));
    assert_eq!(firmware::thousandths(&example_5().bytes()), Ok(Some(500)));
}

#[test]
fn example_11() {
    let mut record = case_2();
    record.hold = b'L';
    assert_eq!(told(&firmware::free(&mut record.bytes(), 1)), "11");
    assert!(firmware::free(&mut record.bytes(), 2).is_ok());
    assert_eq!(told(&firmware::run(&mut record.bytes(), MOST_TURNS)), "11");
}

#[test]
fn example_12() {
    let most = backwards();
    assert_eq!(most.bytes().len(), 6_142);
    assert_eq!(told(&firmware::check(&most.bytes())), "0");
    let mut more = most.clone();
    more.n = 513;
    assert_eq!(told(&firmware::check(&more.bytes())), "5");
    assert!(firmware::run(&mut case_2().bytes(), 130_818).is_ok());
    assert_eq!(told(&firmware::run(&mut case_2().bytes(), 130_819)), "12");
}

#[test]
fn example_13() {
    assert_eq!(count(&backwards().bytes()), 130_816);
    let measure = firmware::squared_entanglement(&backwards().bytes()).unwrap();
    assert_eq!(measure, SquaredEntanglement { d: 44_739_072, w: 44_739_072, ratio: Some(1.0) });
    assert_eq!(firmware::thousandths(&backwards().bytes()), Ok(Some(1000)));
}

/// The left root pinned as given keeps its 3 own crossings; row 2 is turned, and its 2 are gone.
#[test]
fn example_3_with_its_left_root_pinned() {
    let mut record = case_2();
    record.left_layout = vec![0, 0, 2];
    let mut bytes = record.bytes();
    assert_eq!(order(&bytes, 1, 4), [4, 3, 1, 2]);
    assert_eq!(firmware::free(&mut bytes, 1), Ok((5, 3)));
    record.left_layout = vec![0, 1, 2];
    assert_eq!(bytes, record.bytes());
    assert_eq!(order(&bytes, 1, 4), [4, 1, 2, 3]);
    assert_eq!(count(&bytes), 3);
    assert_eq!(firmware::free(&mut bytes, 1), Ok((3, 3)));
    assert_eq!(bytes, record.bytes());
}

/// Its run: the right's row 2 is turned in turn 2, which leaves 2 crossings of the pinned root.
#[test]
fn the_run_of_example_3_with_its_left_root_pinned() {
    let mut record = case_2();
    record.left_layout = vec![0, 0, 2];
    let mut bytes = record.bytes();
    assert_eq!(run(&mut bytes, MOST_TURNS), (5, 2, 3, true));
    let text = sheet::sheet(record.bytes());
    assert!(text.ends_with("X 5\nE 18 20 948\nT 3 S 2\nL 4 1 2 3\nR 1 2 4 3\n"));
    record.left_layout = vec![0, 1, 2];
    record.right_layout = vec![0, 1, 0];
    assert_eq!(bytes, record.bytes());
}

/// The same root turned over and pinned: what is best anyway is found.
#[test]
fn example_3_with_its_left_root_turned_and_pinned() {
    let mut bytes = case_2().bytes();
    assert_eq!(firmware::hands(&mut bytes, &[(1, 3)]), Ok(()));
    assert_eq!(pins::pin(&mut bytes, 1, 3, true), Ok(()));
    assert_eq!(firmware::free(&mut bytes, 1), Ok((2, 0)));
    assert_eq!(record::read(&bytes).unwrap().layout(Side::Left), [0, 1, 3]);
    assert_eq!(order(&bytes, 1, 4), [1, 2, 3, 4]);
    assert_eq!(told(&firmware::hands(&mut bytes, &[(1, 3)])), "22");
}

/// Turn 2 would have turned the pinned row, and was all that example 6 gained.
#[test]
fn example_6_with_right_row_1_pinned() {
    let mut record = example(&[1, 2, 4, 3], &[3, 2, 1, 4]);
    record.right_layout = vec![2, 0];
    let mut bytes = record.bytes();
    assert_eq!(run(&mut bytes, MOST_TURNS), (1, 1, 2, true));
    assert_eq!(run(&mut bytes, 2), (1, 1, 2, true));
    assert_eq!(run(&mut bytes, 1), (1, 1, 1, false));
    assert_eq!(bytes, record.bytes());
    assert_eq!(order(&bytes, 1, 3), [1, 2, 3]);
    assert_eq!(order(&bytes, 2, 3), [1, 3, 2]);
    assert_eq!(pins::pin(&mut bytes, 2, 1, false), Ok(()));
    assert_eq!(run(&mut bytes, MOST_TURNS), (1, 0, 3, true));
}

#[test]
fn example_8_pinned() {
    let mut record = example(&[1, 2], &[1, 2]);
    record.links = vec![2, 1];
    let mut bytes = record.bytes();
    assert_eq!(pins::pin(&mut bytes, 1, 1, true), Ok(()));
    assert_eq!(firmware::free(&mut bytes, 1), Ok((1, 1)));
    assert_eq!(run(&mut bytes, MOST_TURNS), (1, 0, 3, true));
    let record = record::read(&bytes).unwrap();
    assert_eq!([Side::Left, Side::Right].map(|side| record.layout(side)[0]), [2, 1]);
}

/// What taking an order in tells: the refusal, the count and whether it is least, and the bytes.
fn taken_in(made: &Made, side: u16, order: &[u16]) -> (String, u32, bool, Vec<u8>) {
    let mut layout = vec![9; made.n as usize - 1];
    let result = take_in::take_in(&made.bytes(), side, order, &mut layout);
    let TakenIn { count, least } = result.unwrap_or(TakenIn { count: 0, least: false });
    (told(&result), count, least, layout)
}

#[test]
fn example_3_taken_in() {
    let mut record = case_2();
    let zero = "0".to_string();
    assert_eq!(taken_in(&record, 1, &[4, 3, 1, 2]), (zero.clone(), 5, false, vec![0, 0, 0]));
    assert_eq!(taken_in(&record, 1, &[1, 2, 3, 4]), (zero.clone(), 0, true, vec![0, 1, 1]));
    assert_eq!(taken_in(&record, 1, &[1, 3, 2, 4]), ("16".to_string(), 0, false, vec![9; 3]));
    record.left_layout = vec![0, 0, 2];
    assert_eq!(taken_in(&record, 1, &[1, 2, 3, 4]), ("23".to_string(), 0, false, vec![9; 3]));
    assert_eq!(taken_in(&record, 1, &[4, 1, 2, 3]), (zero.clone(), 3, true, vec![0, 1, 2]));
    assert_eq!(taken_in(&record, 1, &[4, 2, 1, 3]), (zero, 4, false, vec![1, 1, 2]));
}

/// Both of the left's orders with 1 crossing are least while the right stands, though 2 1 3 on both sides
/// crosses nothing; with the right so, 2 1 3 is least.
#[test]
fn example_5_taken_in() {
    let mut record = example_5();
    let taken = |record: &Made, order: &[u16]| {
        let (number, count, least, layout) = taken_in(record, 1, order);
        assert_eq!(number, "0");
        (count, least, layout)
    };
    assert_eq!(taken(&record, &[1, 2, 3]), (1, true, vec![0, 0]));
    assert_eq!(taken(&record, &[3, 1, 2]), (1, true, vec![0, 1]));
    assert_eq!(taken(&record, &[2, 1, 3]), (2, false, vec![1, 0]));
    record.right_layout = vec![0, 1];
    assert_eq!(taken(&record, &[2, 1, 3]), (0, true, vec![1, 0]));
    assert_eq!(taken(&record, &[1, 2, 3]), (1, false, vec![0, 0]));
}

#[test]
fn examples_7_8_and_13_taken_in() {
    let zero = "0".to_string();
    assert_eq!(taken_in(&example(&[], &[]), 2, &[1]), (zero.clone(), 0, true, vec![]));
    let mut crossed = example(&[1, 2], &[1, 2]);
    crossed.links = vec![2, 1];
    assert_eq!(taken_in(&crossed, 1, &[1, 2]), (zero.clone(), 1, false, vec![0]));
    assert_eq!(taken_in(&crossed, 1, &[2, 1]), (zero.clone(), 0, true, vec![1]));
    let (up, down): (Vec<u16>, Vec<u16>) = ((1..=512).collect(), (1..=512).rev().collect());
    assert_eq!(taken_in(&backwards(), 1, &up), (zero.clone(), 130_816, false, vec![0; 511]));
    assert_eq!(taken_in(&backwards(), 1, &down), (zero, 0, true, vec![1; 511]));
}

#[test]
fn a_zeroed_record_is_refused_2() {
    for length in 0..60 {
        assert_eq!(told(&firmware::check(&vec![0; length])), if length < 8 { "1" } else { "2" });
    }
}
