// The fixed calls of pinned rows: both sides of a layout byte's limit under every call; each of the four
// bytes pinned and unpinned, on either side and whatever is held; rows, sides and flags at their limits;
// several faults at once, so that the order of the tests shows; and hand lists, freeing, runs and all
// other calls over records with some rows pinned and with all of them.

use crate::edges::{backwards, example_5, example_6, one_leaf};
use crate::every_call;
use crate::faults;
use crate::lines;
use crate::made::{any_record, case_2, example, Made};
use crate::random::Random;

const HOLDS: [u8; 4] = *b"NLRB";
const MOST_TURNS: u32 = 130_818;

/// All fixed lines of pinned rows but for the largest two.
pub fn all() -> Vec<String> {
    let mut all = others_of_the_largest();
    all.extend(limits_of_a_byte());
    all.extend(each_byte());
    all.extend(rows_and_sides());
    all.extend(flags());
    all.extend(zeros_in_front());
    all.extend(several_faults());
    all.extend(hand_lists());
    all.extend(long_hand_lists());
    all.extend(freeing_every_layout());
    all.extend(running_every_layout());
    all.extend(freeing_any_record());
    all.extend(nothing_to_free());
    all.extend(shown());
    all.extend(better());
    all.extend(packed());
    all
}

pub fn with_layouts(mut made: Made, left: &[u8], right: &[u8]) -> Made {
    made.left_layout = left.to_vec();
    made.right_layout = right.to_vec();
    made
}

pub fn with_hold(mut made: Made, hold: u8) -> Made {
    made.hold = hold;
    made
}

/// Two leaves whose links cross: example 8.
pub fn crossed() -> Made {
    let mut made = example(&[1, 2], &[1, 2]);
    made.links.reverse();
    made
}

/// Every two layout bytes.
pub fn two_bytes() -> impl Iterator<Item = [u8; 2]> {
    (0..16).map(|bits| [bits / 4, bits % 4])
}

/// Over 512 leaves, every third row pinned, some as given and some turned over.
pub fn largest_pinned() -> Made {
    let turned = |often: usize| (0..511).map(|index| (index % often == 1) as u8).collect::<Vec<u8>>();
    with_layouts(backwards(), &turned(2), &turned(5)).every_pinned(3)
}

/// Over 512 leaves, a row pinned and a side freed.
pub fn largest() -> Vec<String> {
    let record = largest_pinned().bytes();
    vec![lines::pin(&record, 2, 511, 1), lines::free(&record, 1)]
}

/// The other calls over 512 leaves.
fn others_of_the_largest() -> Vec<String> {
    let made = largest_pinned();
    let record = made.bytes();
    let mut calls = vec![
        lines::run(&record, MOST_TURNS),
        lines::free(&record, 2),
        lines::pin(&record, 1, 3, 0),
        lines::pin(&record, 1, 512, 1),
        lines::pin(&record, 1, 511, 0),
        lines::pin(&record, 2, 1, 1),
        lines::hands(&record, &[(1, 511), (2, 1), (2, 508)]),
        lines::hands(&record, &[(1, 511), (2, 1), (2, 510)]),
        lines::run(&made.clone().all_pinned().bytes(), MOST_TURNS),
        lines::pack(512, &made, &[7; 6_142]),
    ];
    for (side, row) in [(1, 1), (1, 511), (2, 1), (2, 511)] {
        for byte in [4, 3] {
            let mut made = made.clone();
            made.layout_mut(side)[row - 1] = byte;
            calls.push(lines::plain("check", &made.bytes()));
        }
    }
    calls
}

/// The first and the last row of either side of example 6.
const ENDS: [(u16, usize); 4] = [(1, 1), (1, 2), (2, 1), (2, 2)];
const MIDDLE: [(u16, usize); 2] = [ENDS[1], ENDS[2]];

fn with_byte((side, row): (u16, usize), byte: u8) -> Made {
    let mut made = example_6();
    made.layout_mut(side)[row - 1] = byte;
    made
}

/// A byte in a row under every call, packing among them.
fn under_every_call(at: (u16, usize), byte: u8) -> Vec<String> {
    let made = with_byte(at, byte);
    let mut calls = every_call::on(&example_6(), &made.bytes());
    calls.push(lines::pack(3, &made, &[7; 34]));
    calls
}

/// 3 and 4 at the first end and the last under every call, at the others under the check and packing; other
/// bytes under the check.
fn limits_of_a_byte() -> Vec<String> {
    let mut calls = Vec::new();
    for at in ENDS {
        for byte in [3, 4] {
            let lines = under_every_call(at, byte);
            let last = lines.len() - 1;
            let is_kept = |call: usize| !MIDDLE.contains(&at) || call == 0 || call == last;
            calls
                .extend(lines.into_iter().enumerate().filter(|&(call, _)| is_kept(call)).map(|(_, line)| line));
        }
        let others = [2, 5, 6, 7, 8, 16, 32, 64, 127, 128, 130, 131, 254, 255];
        calls.extend(others.map(|byte| lines::plain("check", &with_byte(at, byte).bytes())));
    }
    calls
}

/// Each of the four bytes pinned and unpinned, on either side, under each hold: the only row of two
/// leaves, and each row of four, beside rows with other bytes.
fn each_byte() -> Vec<String> {
    let mut calls = Vec::new();
    for byte in 0..4 {
        for side in [1, 2] {
            for flag in [1, 0] {
                let other = (byte + 1) % 4;
                let [left, right] = if side == 1 { [byte, other] } else { [other, byte] };
                let made = with_layouts(crossed(), &[left], &[right]);
                calls.extend(
                    HOLDS.map(|hold| lines::pin(&with_hold(made.clone(), hold).bytes(), side, 1, flag)),
                );
                let bytes = [byte, (byte + 1) % 4, (byte + 2) % 4];
                let made = with_hold(with_layouts(case_2(), &bytes, &bytes), HOLDS[byte as usize]);
                calls.extend([1, 2, 3].map(|row| lines::pin(&made.bytes(), side, row, flag)));
            }
        }
    }
    calls
}

/// Rows and sides at their limits, over one, two and four leaves.
fn rows_and_sides() -> Vec<String> {
    let mut calls = Vec::new();
    let mixed = with_layouts(case_2(), &[0, 1, 2], &[3, 2, 1]);
    for made in [one_leaf(), crossed(), mixed] {
        let record = made.bytes();
        for side in [0, 3, 256, 257, 258, 65535] {
            calls.extend([0, 1, 65535].map(|row| lines::pin(&record, side, row, row % 2)));
        }
        for side in [1, 2] {
            for row in [0, 1, made.n - 1, made.n, made.n + 1, 256, 257, 65535] {
                calls.push(lines::pin(&record, side, row, 1));
            }
            calls.extend([0, made.n].map(|row| lines::pin(&record, side, row, 0)));
        }
    }
    calls.extend(HOLDS.map(|hold| lines::pin(&with_hold(one_leaf(), hold).bytes(), 1, 1, 1)));
    calls
}

/// Numbers as a flag: 1 and 0 with zeros in front, and others of any size, which make the line no call;
/// of a row that is pinned and of one that is not.
fn flags() -> Vec<String> {
    let record = with_layouts(crossed(), &[1], &[2]).bytes();
    let zeros = "0".repeat(60);
    let plain = [
        "0",
        "1",
        "00",
        "01",
        "2",
        "02",
        "3",
        "10",
        "11",
        "255",
        "256",
        "257",
        "65535",
        "65536",
        "65537",
        "4294967295",
        "4294967296",
        "4294967297",
        "18446744073709551615",
        "18446744073709551616",
        "18446744073709551617",
        "340282366920938463463374607431768211457",
    ];
    let mut flags: Vec<String> = plain.map(String::from).into();
    flags.extend(["", "1", "2", "65536"].map(|digits| zeros.clone() + digits));
    flags.extend(["0", "1"].map(|digit| format!("1{zeros}{digit}")));
    flags.iter().flat_map(|flag| [1, 2].map(|side| lines::pin(&record, side, 1, flag))).collect()
}

/// Sides and rows with zeros in front.
fn zeros_in_front() -> Vec<String> {
    let record = crossed().bytes();
    let zeros = "0".repeat(60);
    vec![
        lines::pin(&record, format!("{zeros}2"), format!("{zeros}1"), "0001"),
        lines::pin(&record, format!("{zeros}65535"), "01", "01"),
        lines::pin(&record, "01", format!("{zeros}65535"), "01"),
        lines::pin(&record, "01", format!("{zeros}65536"), "01"),
    ]
}

/// A bad side, a bad record and a bad row, two or three at once; and records with several faults.
fn several_faults() -> Vec<String> {
    let mut calls = Vec::new();
    for record in faults::one_of_each() {
        for (side, row) in [(3, 1), (0, 0), (1, 0), (2, 4), (2, 1)] {
            calls.push(lines::pin(&record, side, row, side % 2));
        }
    }
    calls.extend(faults::some_of_several(1).iter().map(|record| lines::pin(record, 2, 4, 1)));
    calls
}

/// What says again what these say: both sides of a byte's limit in the middle two of the four ends under the
/// calls other than the check and packing, and most records with several faults.
pub fn again() -> Vec<String> {
    let mut calls = Vec::new();
    for at in MIDDLE {
        calls.extend([3, 4].map(|byte| under_every_call(at, byte)).concat());
    }
    calls.extend(faults::others_of_several(1).iter().map(|record| lines::pin(record, 2, 4, 1)));
    calls
}

/// Left row 2 and right rows 1 and 3 are pinned.
fn three_pinned() -> Made {
    with_layouts(case_2(), &[0, 2, 1], &[3, 0, 2])
}

/// Entries that name pinned rows, before and after entries that are good or bad otherwise, under each
/// hold; and lists that name none.
const LISTS: [&[(u16, u16)]; 22] = [
    &[(1, 2)],
    &[(2, 1)],
    &[(2, 3)],
    &[(1, 1), (1, 2)],
    &[(1, 2), (1, 1)],
    &[(1, 2), (1, 2)],
    &[(2, 1), (2, 1)],
    &[(1, 2), (2, 1)],
    &[(2, 1), (1, 2)],
    &[(1, 2), (0, 0)],
    &[(0, 2), (1, 2)],
    &[(2, 1), (1, 4)],
    &[(1, 4), (2, 1)],
    &[(2, 3), (2, 0), (3, 1)],
    &[(2, 2), (1, 3), (2, 1)],
    &[(1, 1)],
    &[(2, 2)],
    &[(1, 3), (1, 1)],
    &[(1, 3), (1, 1), (1, 3)],
    &[(2, 2), (1, 1), (2, 2), (2, 2)],
    &[(1, 1), (2, 2), (1, 3), (1, 1), (2, 2)],
    &[],
];

fn hand_lists() -> Vec<String> {
    let mut calls = Vec::new();
    for hold in HOLDS {
        let record = with_hold(three_pinned(), hold).bytes();
        calls.extend(LISTS.map(|list| lines::hands(&record, list)));
    }
    calls
}

/// 1,024 entries of which the last names a pinned row, or none does; and one entry more.
fn long_hand_lists() -> Vec<String> {
    let record = three_pinned().bytes();
    let good: Vec<(u16, u16)> = [(1, 1), (2, 2), (1, 3)].into_iter().cycle().take(1024).collect();
    let last = |entry: (u16, u16)| [&good[..1023], &[entry]].concat();
    vec![
        lines::hands(&record, &last((2, 3))),
        lines::hands(&record, &good),
        lines::hands(&record, &[&good[..], &[(1, 2)]].concat()),
    ]
}

/// Both sides freed, and a run, from every two bytes of two leaves; the left of case 2 freed from every
/// three.
fn freeing_every_layout() -> Vec<String> {
    let mut calls = Vec::new();
    for [left, right] in two_bytes() {
        let record = with_layouts(crossed(), &[left], &[right]).bytes();
        calls.extend([1, 2].map(|side| lines::free(&record, side)));
        calls.extend([2, 3].map(|allowance| lines::run(&record, allowance)));
    }
    for [first, second] in two_bytes() {
        for third in 0..4 {
            let made = with_layouts(case_2(), &[first, second, third], &[second, third, first]);
            calls.push(lines::free(&made.bytes(), 1));
        }
    }
    calls
}

/// Runs of examples 5 and 6 from every two bytes on one side; of some of them each allowance.
fn running_every_layout() -> Vec<String> {
    let mut calls = Vec::new();
    for bytes in two_bytes() {
        for left in [[0, 0], [0, 2], [2, 3]] {
            calls.push(lines::run(&with_layouts(example_6(), &left, &bytes).bytes(), MOST_TURNS));
        }
        calls.push(lines::run(&with_layouts(example_5(), &bytes, &[0, 2]).bytes(), MOST_TURNS));
    }
    for right in [[0, 0], [2, 0], [0, 2]] {
        let record = with_layouts(example_6(), &[0, 0], &right).bytes();
        calls.extend([1, 2, 3, 4].map(|allowance| lines::run(&record, allowance)));
    }
    let root_pinned = with_layouts(case_2(), &[0, 0, 2], &[0, 0, 0]).bytes();
    calls.push(lines::free(&root_pinned, 1));
    calls.extend([1, 2, 3, MOST_TURNS].map(|allowance| lines::run(&root_pinned, allowance)));
    calls
}

/// Records of any kind with every second or third row pinned, freed on either side and run.
fn freeing_any_record() -> Vec<String> {
    let mut random = Random::new(6);
    let mut calls = Vec::new();
    for round in 0..24 {
        let made = any_record(3 + round % 6, &mut random).none_pinned().every_pinned(2 + round % 2);
        let record = with_hold(made, b'N').bytes();
        calls.extend([1, 2].map(|side| lines::free(&record, side)));
        calls.push(lines::run(&record, MOST_TURNS));
    }
    calls
}

/// All rows pinned: freeing and running change nothing, and 11 comes as ever.
fn nothing_to_free() -> Vec<String> {
    let mut random = Random::new(7);
    let mut calls = Vec::new();
    for n in 1..=6 {
        let made = any_record(n, &mut random).all_pinned();
        let record = with_hold(made.clone(), b'N').bytes();
        calls.extend([1, 2].map(|side| lines::free(&record, side)));
        calls.extend([1, 2, MOST_TURNS].map(|allowance| lines::run(&record, allowance)));
        let held = with_hold(made, HOLDS[1 + n % 3]).bytes();
        calls.extend([1, 2].map(|side| lines::free(&held, side)));
        calls.push(lines::run(&held, 2));
    }
    calls
}

/// What the other calls show of every two bytes: orders, counts, both entanglements, texts and tables.
fn shown() -> Vec<String> {
    let mut calls = Vec::new();
    for [upper, lower] in two_bytes() {
        let record = with_layouts(example_6(), &[upper, lower], &[lower, upper]).bytes();
        calls.push(lines::order(&record, 1, &[9; 3]));
        calls.push(lines::order(&record, 2, &[9; 4]));
        calls.push(lines::newick_write(&record, 1, &[9; 10]));
        calls.push(lines::plain("count", &record));
        calls.push(lines::plain("pairs", &record));
        calls.push(lines::plain("thousandths", &record));
    }
    for bytes in [[2, 3], [3, 2], [3, 3]] {
        let record = with_layouts(example_6(), &bytes, &bytes).bytes();
        calls.push(lines::plain("squared_entanglement", &record));
        calls.push(lines::merge_write(&record, 1, &[9; 4]));
        calls.push(lines::merge_write(&record, 2, &[9; 5]));
        calls.push(lines::newick_write(&record, 2, &[9; 9]));
        calls.push(lines::hold(&record, b'L'));
    }
    calls
}

/// Two orders for a side with pinned rows that neither or only one of them agrees with, and for the side
/// opposite to one.
fn better() -> Vec<String> {
    let made = with_layouts(case_2(), &[2, 2, 2], &[2, 3, 2]);
    let orders: [&[u16]; 4] = [&[4, 3, 1, 2], &[1, 2, 3, 4], &[2, 1, 3, 4], &[1, 3, 2, 4]];
    let mut calls = Vec::new();
    for first in orders {
        for second in orders {
            calls.push(lines::better("better", &made.bytes(), 1, first, second));
        }
        calls.push(lines::better("better", &made.bytes(), 2, first, &[1, 2, 4, 3]));
        calls.push(lines::better("better_check", &made.bytes(), 1, first, orders[1]));
    }
    calls
}

/// Every two bytes taken apart, and put together again.
fn packed() -> Vec<String> {
    let mut calls = Vec::new();
    for [upper, lower] in two_bytes() {
        let made = with_layouts(example_6(), &[upper, lower], &[lower, upper]);
        let numbers = [vec![9; 4], vec![9; 4], vec![9; 3]];
        calls.push(lines::unpack(&made.bytes(), &numbers, &[vec![9; 2], vec![9; 3]]));
        calls.push(lines::pack(3, &made, &[9; 35]));
    }
    calls
}

#[cfg(test)]
mod tests {
    use super::*;
    use crate::desk;
    use crate::desk::answered::{numbers, told};

    #[test]
    fn over_512_leaves() {
        assert_eq!(told(&largest()), "0,0");
        assert_eq!(told(&others_of_the_largest()), "0,0,0,15,0,0,0,22,0,0,10,0,10,0,10,0,10,0");
    }

    #[test]
    fn three_is_a_byte_and_four_is_not() {
        for at in ENDS {
            let mut three = numbers(&under_every_call(at, 3));
            let named_by_hand = at == (1, 2) || at == (2, 1);
            assert_eq!(three.iter().filter(|&number| number == "22").count(), named_by_hand as usize);
            assert_eq!(three.iter().filter(|&number| number == "23").count(), (at.0 == 2) as usize);
            three.retain(|number| number != "22" && number != "23");
            assert!(three.iter().all(|number| number == "0" || number.contains(',')));
            let mut four = numbers(&under_every_call(at, 4));
            four.retain(|number| number != "-");
            assert!(four.len() == 20 && four.iter().all(|number| number == "10"));
        }
    }

    #[test]
    fn each_byte_can_be_pinned_and_unpinned() {
        assert!(numbers(&each_byte()).iter().all(|number| number == "0"));
        let pinned = |byte: u8, flag: u8| {
            let record = with_layouts(crossed(), &[byte], &[1]).bytes();
            let answer = desk::answer(lines::pin(&record, 1, 1, flag).as_bytes());
            answer[answer.len() - 4..].to_string()
        };
        assert_eq!([0, 1, 2, 3].map(|byte| pinned(byte, 1)), ["0201", "0301", "0201", "0301"]);
        assert_eq!([0, 1, 2, 3].map(|byte| pinned(byte, 0)), ["0001", "0101", "0001", "0101"]);
    }

    #[test]
    fn flags_other_than_1_and_0_are_no_calls() {
        let mut good = 0;
        for line in flags() {
            let flag = line.rsplit(' ').next().unwrap_or_default();
            let is_call = desk::answer(line.as_bytes()) != "?";
            assert_eq!(is_call, ["", "1"].contains(&flag.trim_start_matches('0')));
            good += is_call as usize;
        }
        assert_eq!(good, 12);
        assert_eq!(told(&zeros_in_front()), "0,13,15,?");
    }

    #[test]
    fn of_two_faults_the_first_in_the_order_of_tests_is_told() {
        let of_records = "2,3,4,5,7,8,9,10,10,1,6".split(',');
        let wanted: Vec<String> =
            of_records.map(|number| format!("13,13,{number},{number},{number}")).collect();
        assert_eq!(told(&several_faults()[..55]), wanted.join(","));
    }

    #[test]
    fn hand_lists_under_each_hold() {
        let answers = told(&hand_lists());
        let wanted = [
            "22,22,22,22,22,22,22,22,22,22,13,22,15,22,22,0,0,0,0,0,0,0",
            "11,22,22,11,11,11,22,11,22,11,13,22,15,22,11,11,0,11,11,11,11,0",
            "22,11,11,22,22,22,11,22,11,22,13,11,15,11,11,0,11,0,0,11,11,0",
            "11,11,11,11,11,11,11,11,11,11,13,11,15,11,11,11,11,11,11,11,11,0",
        ];
        assert_eq!(answers, wanted.join(","));
        assert_eq!(told(&long_hand_lists()), "22,0,17");
    }

    #[test]
    fn runs_that_pins_end_earlier() {
        let answered = |line: &String| {
            let answer = desk::answer(line.as_bytes());
            answer[..answer.rfind(' ').unwrap_or(0)].to_string()
        };
        let lines: Vec<String> = running_every_layout().iter().skip(64).map(answered).collect();
        let wanted = [
            "0 1 1 1 0",
            "0 1 0 2 0",
            "0 1 0 3 1",
            "0 1 0 3 1", // example 6
            "0 1 1 1 0",
            "0 1 1 2 1",
            "0 1 1 2 1",
            "0 1 1 2 1", // its right row 1 pinned
            "0 1 1 1 0",
            "0 1 0 2 0",
            "0 1 0 3 1",
            "0 1 0 3 1", // its right row 2
            "0 5 3",
            "0 5 3 1 0",
            "0 5 2 2 0",
            "0 5 2 3 1",
            "0 5 2 3 1", // case 2 with its left root pinned
        ];
        assert_eq!(lines, wanted);
    }

    #[test]
    fn all_pinned_stays() {
        for line in nothing_to_free() {
            let answer = desk::answer(line.as_bytes());
            let record = line.split(' ').nth(1).unwrap_or_default();
            assert!(answer.ends_with(record));
            let words: Vec<&str> = answer.split(' ').collect();
            assert!(words[0] == "11" || words[0] == "0" && words[1] == words[2]);
        }
    }
}
