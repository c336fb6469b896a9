// The fixed calls of orders taken in: both sides of the limits of an order, of a side and of a buffer;
// every order of small trees, with every byte in their rows; pinned rows that an order agrees with, and
// one that it does not; several faults at once, so that the order of the tests shows; and holds, which
// play no part. The longest calls come first.

use std::ops::Range;

use crate::desk::hex;
use crate::edges::{backwards, example_5, example_6, one_leaf};
use crate::faults;
use crate::lines;
use crate::made::{any_record, case_2, example, Made};
use crate::orders;
use crate::pin_edges::{crossed, largest_pinned, two_bytes, with_hold, with_layouts};
use crate::random::Random;
use crate::sides;

const HOLDS: [u8; 4] = *b"NLRB";

/// The orders of case 2's left tree, and those of its right tree.
const LEFT: [[u16; 4]; 8] = [
    [4, 3, 1, 2],
    [4, 3, 2, 1],
    [4, 1, 2, 3],
    [4, 2, 1, 3],
    [3, 1, 2, 4],
    [3, 2, 1, 4],
    [1, 2, 3, 4],
    [2, 1, 3, 4],
];
const RIGHT: [[u16; 4]; 8] = [
    [1, 2, 3, 4],
    [2, 1, 3, 4],
    [1, 2, 4, 3],
    [2, 1, 4, 3],
    [3, 4, 1, 2],
    [3, 4, 2, 1],
    [4, 3, 1, 2],
    [4, 3, 2, 1],
];

/// The orders of the left tree of examples 5 and 6.
const OF_THREE: [[u16; 3]; 4] = [[1, 2, 3], [2, 1, 3], [3, 1, 2], [3, 2, 1]];

/// All fixed lines of orders taken in but for the largest four.
pub fn all() -> Vec<String> {
    let mut all = others_of_the_largest();
    all.extend(about_words_of_64());
    all.extend(examples());
    all.extend(every_byte());
    all.extend(limits_of_an_order());
    all.extend(entries());
    all.extend(room());
    all.extend(one_pinned(1));
    all.extend(all_pinned());
    all.extend(several_faults());
    all.extend(any_records(0..10));
    all.extend(zeros_in_front());
    all.extend(sides::of_a_writing_call(3, on_either_side));
    all
}

/// Case 2's record or one that is nearly so; the order is one of both its trees.
fn on_either_side(record: &[u8], side: u16, places: usize) -> String {
    lines::take_in(record, side, &[1, 2, 3, 4], &vec![7; places])
}

/// What says again what these say.
pub fn again() -> Vec<String> {
    let mut calls = one_pinned(2);
    calls.extend(any_records(10..30));
    calls.extend(faults::others_of_several(3).iter().map(|record| of_no_order(record)));
    calls.extend(sides::again(3, on_either_side));
    calls
}

/// The record is faulty too.
fn of_no_order(record: &[u8]) -> String {
    lines::take_in(record, 1, &[1, 1, 1, 1], &[7, 7])
}

/// With as many places as it wants.
fn taken(made: &Made, side: u16, order: &[u16]) -> String {
    lines::take_in(&made.bytes(), side, order, &vec![7; made.n as usize - 1])
}

fn orders_of(side: u16) -> [[u16; 4]; 8] {
    if side == 1 {
        LEFT
    } else {
        RIGHT
    }
}

/// Over 512 leaves, every third row pinned: the freed order, the last pinned row turned otherwise, two
/// entries of the freed order exchanged, and a place too few.
pub fn largest() -> Vec<String> {
    let made = largest_pinned();
    let freed = orders::freed(&made, 1);
    vec![
        taken(&made, 1, &freed),
        taken(&made, 2, &orders::turned(&made, 2, 510)),
        taken(&made, 1, &orders::exchanged(freed.clone(), 255, 256)),
        lines::take_in(&made.bytes(), 1, &freed, &[7; 510]),
    ]
}

/// The other calls over 512 leaves: the present orders, the first pinned row turned otherwise, one that is
/// not pinned turned over, an entry too few or bad, and more than is needed.
fn others_of_the_largest() -> Vec<String> {
    let made = largest_pinned();
    let stands = made.present_order(1);
    let with_last = |entry: u16| [&stands[..511], &[entry]].concat();
    let longer = [&stands[..], &[0, 513, 65535, 1]].concat();
    let mut calls: Vec<String> = [1, 2].map(|side| taken(&made, side, &made.present_order(side))).into();
    calls.extend([1, 2].map(|side| taken(&made, side, &orders::turned(&made, side, 3))));
    calls.extend([1, 2].map(|side| taken(&made, side, &orders::turned(&made, side, 511))));
    calls.push(taken(&made, 1, &stands[..511]));
    calls.extend([0, 513, stands[0], 65535].map(|entry| taken(&made, 1, &with_last(entry))));
    calls.push(lines::take_in(&made.bytes(), 1, &longer, &[7; 512]));
    calls.push(lines::take_in(&made.bytes(), 1, &stands[..511], &[7; 510]));
    calls.push(lines::take_in(&made.bytes(), 2, &orders::turned(&made, 2, 510), &[7; 510]));
    let loose = backwards();
    calls.extend([1, 2].map(|side| taken(&loose, side, &orders::freed(&loose, side))));
    calls.push(taken(&made.clone().all_pinned(), 2, &made.present_order(2)));
    calls
}

/// About the ends of words of 64: the freed order, and the present one with one leaf moved from an end to the
/// other.
fn about_words_of_64() -> Vec<String> {
    let mut random = Random::new(64);
    let mut calls = Vec::new();
    for n in [65, 64, 63, 128, 129] {
        let made = any_record(n, &mut random).none_pinned().every_pinned(5);
        let mut moved = made.present_order(2);
        moved.rotate_left(1);
        calls.push(taken(&made, 1, &orders::freed(&made, 1)));
        calls.push(taken(&made, 2, &moved));
    }
    calls
}

/// Every order of either side of case 2, then with its left root pinned as given and turned over; and of
/// three leaves whose links are not their own inverse.
fn examples() -> Vec<String> {
    let mut calls = Vec::new();
    let pinned = [[0, 0, 0], [0, 0, 2], [0, 0, 3]].map(|left| with_layouts(case_2(), &left, &[0, 0, 0]));
    for made in &pinned {
        calls.extend(LEFT.map(|order| taken(made, 1, &order)));
    }
    for made in &pinned[..2] {
        calls.extend(RIGHT.map(|order| taken(made, 2, &order)));
    }
    let mut turning = example(&[1, 2, 4, 3], &[1, 2, 4, 3]);
    turning.links = vec![2, 3, 1];
    for side in [1, 2] {
        calls.extend(OF_THREE.map(|order| taken(&turning, side, &order)));
    }
    calls
}

/// An order of examples 5 and 6 by its number: of the left tree, or of the right one of the example.
fn of_three(made: &Made, side: u16, number: usize) -> Vec<u16> {
    made.order_of(side, &[(number / 2) as u8, (number % 2) as u8])
}

/// Examples 5 and 6 with every two bytes on a side: every order of that side, and one that is none.
fn every_byte() -> Vec<String> {
    let mut calls = Vec::new();
    for [upper, lower] in two_bytes() {
        let fifth = with_layouts(example_5(), &[upper, lower], &[lower, upper]);
        let sixth = with_layouts(example_6(), &[lower, upper], &[upper, lower]);
        for number in 0..4 {
            calls.push(taken(&fifth, 1, &of_three(&fifth, 1, number)));
            calls.push(taken(&sixth, 2, &of_three(&sixth, 2, number)));
        }
    }
    let (fifth, pinned) = (example_5(), with_layouts(example_5(), &[2, 2], &[3, 3]));
    calls.extend((0..4).map(|number| taken(&fifth, 2, &of_three(&fifth, 2, number))));
    for made in [fifth, pinned] {
        calls.extend([[1, 3, 2], [2, 3, 1]].map(|order| taken(&made, 1, &order)));
        calls.extend([[1, 2, 3], [3, 2, 1]].map(|order| taken(&made, 2, &order)));
    }
    calls
}

/// No entries, one too few, as many as there are leaves, one more and many more.
fn limits_of_an_order() -> Vec<String> {
    let mut calls = Vec::new();
    let pinned = with_layouts(case_2(), &[2, 1, 3], &[0, 3, 2]);
    for made in [one_leaf(), crossed(), example_6(), pinned] {
        let n = made.n as usize;
        for side in [1, 2] {
            let stands = made.present_order(side);
            calls.extend([0, n - 1, n].map(|entries| taken(&made, side, &stands[..entries])));
            for beyond in [&[0][..], &[1], &[65535, 0], &[1, 2, 3, 4, 5, 6, 7, 8]] {
                calls.push(taken(&made, side, &[&stands[..], beyond].concat()));
            }
        }
    }
    calls
}

/// An entry that is no leaf or stands twice, in the first place and in the last.
fn entries() -> Vec<String> {
    let mut calls = Vec::new();
    for made in [one_leaf(), crossed(), with_layouts(case_2(), &[0, 2, 0], &[2, 0, 0])] {
        for side in [1, 2] {
            let stands = made.present_order(side);
            let (first, last) = (stands[0], stands[stands.len() - 1]);
            for at in [0, stands.len() - 1] {
                let other = if at == 0 { last } else { first };
                for entry in [0, made.n + 1, 256 + stands[at], 65535, other] {
                    let mut order = stands.clone();
                    order[at] = entry;
                    calls.push(taken(&made, side, &order));
                }
            }
        }
    }
    calls
}

/// Buffers with no place, two too few, one too few, as many as there are rows, one more and many more.
fn room() -> Vec<String> {
    let mut calls = Vec::new();
    for made in [one_leaf(), crossed(), with_layouts(example_6(), &[0, 3], &[2, 1]), case_2()] {
        let rows = made.n as usize - 1;
        for side in [1, 2] {
            let stands = made.present_order(side);
            for places in [0, rows.saturating_sub(2), rows.saturating_sub(1), rows, rows + 1, rows + 20] {
                calls.push(lines::take_in(&made.bytes(), side, &stands, &vec![255 - places as u8; places]));
            }
        }
    }
    calls
}

/// Each row of a side of case 2 pinned by itself, as given or turned over: every order of the side.
fn one_pinned(side: u16) -> Vec<String> {
    let mut calls = Vec::new();
    for (row, byte) in [(1, 2), (1, 3), (2, 2), (2, 3), (3, 2), (3, 3)] {
        let mut made = with_hold(case_2(), HOLDS[row]);
        made.layout_mut(side)[row - 1] = byte;
        calls.extend(orders_of(side).map(|order| taken(&made, side, &order)));
    }
    calls
}

/// All rows of case 2 pinned, under each hold: the present order, and exactly one row turned otherwise; and
/// of the side opposite to one that is pinned, which stands as it is.
fn all_pinned() -> Vec<String> {
    let mut calls = Vec::new();
    for (hold, bytes) in HOLDS.into_iter().zip([[2, 2, 2], [3, 2, 3], [2, 3, 2], [3, 3, 3]]) {
        let both = with_hold(with_layouts(case_2(), &bytes, &bytes), hold);
        let left_only = with_layouts(both.clone(), &bytes, &[0, 1, 0]);
        for side in [1, 2] {
            calls.push(taken(&both, side, &both.present_order(side)));
            calls.extend([1, 2, 3].map(|row| taken(&both, side, &orders::turned(&both, side, row))));
        }
        calls.push(taken(&left_only, 2, &orders::freed(&left_only, 2)));
        calls.push(taken(&left_only, 2, &left_only.present_order(2)));
    }
    calls
}

/// A bad side, a bad record, an order that is none, one that goes against a pin, and too little room: two
/// of them or more. The last order is compatible with neither tree, and both have pinned rows.
fn several_faults() -> Vec<String> {
    let mut calls = Vec::new();
    for record in faults::one_of_each() {
        for (side, order) in
            [(3, &[][..]), (0, &[1, 3, 2, 4]), (1, &[]), (2, &[1, 3, 2, 4]), (1, &[0, 0, 0, 0])]
        {
            calls.push(lines::take_in(&record, side, order, &[]));
        }
    }
    calls.extend(faults::some_of_several(3).iter().map(|record| of_no_order(record)));
    for hold in HOLDS {
        let record = with_hold(with_layouts(case_2(), &[0, 2, 3], &[3, 0, 2]), hold).bytes();
        let of = |side, order: &[u16]| {
            [0, 2, 3].map(|places| lines::take_in(&record, side, order, &vec![7; places]))
        };
        for side in [1, 2] {
            calls.extend(of(side, &orders_of(side)[0]));
            calls.extend(of(side, &[1, 3, 2, 4]));
            calls.extend(of(side, &[1, 2, 3]));
        }
        calls.push(lines::take_in(&record, 3, &[1, 3, 2, 4], &[]));
        calls.push(lines::take_in(&record, 0, &orders_of(1)[0], &[7; 3]));
    }
    calls
}

/// Records of any kind, whatever they hold, with every second or third row pinned: the present order, the
/// freed one, one that is permitted, one that turns a pinned row, and one with its ends exchanged.
fn any_records(rounds: Range<usize>) -> Vec<String> {
    let mut random = Random::new(8 + rounds.start as u64);
    let mut calls = Vec::new();
    for round in rounds {
        let n = 4 + round % 5;
        let made = any_record(n, &mut random).none_pinned().every_pinned(2 + round % 2);
        let side = 1 + round as u16 % 2;
        let freed = orders::freed(&made, side);
        calls.push(taken(&made, side, &made.present_order(side)));
        calls.push(taken(&made, side, &freed));
        calls.push(taken(&made, side, &orders::permitted(&made, side, &mut random)));
        let pinned = orders::pinned_rows(&made, side);
        calls.push(taken(&made, side, &orders::turned(&made, side, random.pick(&pinned))));
        calls.push(taken(&made, side, &orders::exchanged(freed, 0, n - 1)));
    }
    calls
}

/// Sides and entries with zeros in front, and what is too large.
fn zeros_in_front() -> Vec<String> {
    let digits = hex(&crossed().bytes());
    let zeros = "0".repeat(60);
    vec![
        format!("take_in {digits} {zeros}1 02,{zeros}1 00"),
        format!("take_in {digits} 0001 {zeros}2,0001,{zeros}65535 ff"),
        format!("take_in {digits} {zeros}65535 2,1 00"),
        format!("take_in {digits} {zeros}65536 2,1 00"),
        format!("take_in {digits} 1 2,1,{zeros}65536 00"),
        format!("take_in {digits} 2 1,2,{zeros} 00"),
    ]
}

#[cfg(test)]
mod tests {
    use super::*;
    use crate::desk;
    use crate::desk::answered::{numbers, told};

    /// The answers without their last word.
    fn counted(lines: &[String]) -> Vec<String> {
        let answer = |line: &String| {
            let answer = desk::answer(line.as_bytes());
            answer[..answer.rfind(' ').unwrap_or(0)].to_string()
        };
        lines.iter().map(answer).collect()
    }

    #[test]
    fn over_512_leaves() {
        assert_eq!(told(&largest()), "0,23,16,14");
        assert!(counted(&largest())[0].ends_with(" 1"));
        assert_eq!(told(&others_of_the_largest()), "0,0,23,23,0,0,16,16,16,16,16,0,16,23,0,0,0");
    }

    /// Worked out by hand: the count of case 2's left orders against 1 2 3 4, with nothing pinned, with the
    /// root pinned as given (4 first), and with the root turned over and pinned (4 last).
    #[test]
    fn orders_of_case_2() {
        let answers = counted(&examples());
        let left = ["0 5 0", "0 6 0", "0 3 0", "0 4 0", "0 2 0", "0 3 0", "0 0 1", "0 1 0"];
        assert_eq!(answers[..8], left);
        let mut as_given = left.map(|answer| if answer == "0 3 0" { "0 3 1" } else { answer });
        as_given[4..].fill("23 0 0");
        assert_eq!(answers[8..16], as_given);
        let mut turned_over = left;
        turned_over[..4].fill("23 0 0");
        assert_eq!(answers[16..24], turned_over);
        let right = ["0 5 0", "0 6 0", "0 4 0", "0 5 0", "0 1 0", "0 2 0", "0 0 1", "0 1 0"];
        assert_eq!(answers[24..32], right);
        assert_eq!(answers[32..40], right);
        assert_eq!(answers[40..44], ["0 2 0", "0 3 0", "0 0 1", "0 1 0"]);
        assert_eq!(answers[44..], ["0 2 0", "0 1 1", "0 2 0", "0 1 1"]);
    }

    /// Example 5's orders are tied two by two: 1 crossing is least for either side while the other stands,
    /// with its root turned over or not.
    #[test]
    fn example_5_at_the_tie() {
        let made = example_5();
        for side in [1, 2] {
            let lines: Vec<String> =
                (0..4).map(|number| taken(&made, side, &of_three(&made, side, number))).collect();
            assert_eq!(counted(&lines), ["0 1 1", "0 1 1", "0 2 0", "0 2 0"]);
        }
    }

    #[test]
    fn limits() {
        assert_eq!(told(&limits_of_an_order()[..14]), "16,16,0,0,0,0,0,16,16,0,0,0,0,0");
        assert_eq!(told(&limits_of_an_order()[14..]), ["16,16,0,0,0,0,0"; 6].join(","));
        assert!(numbers(&entries()[20..]).iter().all(|number| number == "16"));
        assert_eq!(told(&entries()[..20]), ["16,16,16,16,0"; 4].join(","));
        assert_eq!(told(&room()[..12]), ["0"; 12].join(","));
        assert_eq!(told(&room()[12..24]), ["14,14,14,0,0,0"; 2].join(","));
        assert_eq!(told(&room()[24..]), ["14,14,14,0,0,0"; 4].join(","));
        assert_eq!(told(&zeros_in_front()), "0,0,13,?,?,0");
    }

    #[test]
    fn pinned_rows() {
        let one = numbers(&[one_pinned(1), one_pinned(2)].concat());
        assert_eq!(one.iter().filter(|&number| number == "0").count(), one.len() / 2);
        assert_eq!(one.iter().filter(|&number| number == "23").count(), one.len() / 2);
        assert_eq!(told(&all_pinned()), ["0,23,23,23,0,23,23,23,0,0"; 4].join(","));
        for answers in numbers(&any_records(0..30)).chunks(5) {
            assert_eq!(answers[..4], ["0", "0", "0", "23"]);
            assert!(answers[4] == "16" || answers[4] == "23");
        }
    }

    #[test]
    fn of_two_faults_the_first_in_the_order_of_tests_is_told() {
        let faults = several_faults();
        let of_records = "2,3,4,5,7,8,9,10,10,1,6".split(',');
        let wanted: Vec<String> =
            of_records.map(|number| format!("13,13,{number},{number},{number}")).collect();
        assert_eq!(told(&faults[..55]), wanted.join(","));
        let of_a_hold = "23,23,23,16,16,16,16,16,16,23,23,23,16,16,16,16,16,16,13,13";
        assert_eq!(told(&faults[faults.len() - 80..]), [of_a_hold; 4].join(","));
    }

    #[test]
    fn a_refused_call_leaves_the_buffer_and_none_tells_of_a_hold() {
        for line in all().iter().chain(&largest()).chain(&again()) {
            let answer = desk::answer(line.as_bytes());
            let before = line.rsplit(' ').next().unwrap_or_default();
            let after = answer.rsplit(' ').next().unwrap_or_default();
            let number = answer.split(' ').next().unwrap_or_default();
            assert!(!["11", "15", "22"].contains(&number));
            if number != "0" && number != "?" {
                assert!(answer.ends_with(&format!(" 0 0 {before}")));
            }
            assert!(number == "?" || after.len() == before.len());
        }
    }
}
