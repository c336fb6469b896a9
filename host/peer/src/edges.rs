// The fixed calls that stand at the head of every stream: the examples of docs/CALLS.md, both
// sides of every limit, every refusal of every call, and several faults at once so that the
// order of the tests shows. They are the same for every seed. What only says again, under another call,
// what stands before it comes last.

use crate::bad_links;
use crate::bad_rows;
use crate::desk::hex;
use crate::every_call;
use crate::faults;
use crate::lines;
use crate::made::{any_record, case_2, example, of_shape, Made};
use crate::malformed;
use crate::merge_edges;
use crate::newick_edges;
use crate::pin_edges;
use crate::random::Random;
use crate::ratio_edges;
use crate::take_in_edges;

const NEAR: [u16; 4] = [0, 1, 2, 3];
const FAR: [u16; 6] = [256, 257, 258, 512, 32769, 65535];
#[rustfmt::skip]
const ALLOWANCES: [u64; 17] = [
    0, 1, 2, 3, 4, 65_536, 65_537, 130_817, 130_818, 130_819, 131_072, 196_354, 1 << 31,
    4_294_967_295, 4_294_967_296, 4_294_967_297, 4_295_098_114,
];
const HOLDS: [u8; 4] = [b'N', b'L', b'R', b'B'];
const HELD: [u8; 3] = [b'L', b'R', b'B'];

/// All fixed lines.
pub fn all() -> Vec<String> {
    let mut all = pin_edges::largest();
    all.extend(take_in_edges::largest());
    all.extend(examples());
    all.extend(rows_that_break_the_rule());
    all.extend(links_that_are_not_one_to_one());
    all.extend(ratio_edges::all());
    all.extend(turns_and_sides());
    all.extend(buffers());
    all.extend(hand_lists());
    all.extend(long_hand_lists());
    all.extend(proposed_orders());
    all.extend(holds());
    all.extend(packing());
    all.extend(packing_several_faults());
    all.extend(unpacking());
    all.extend(pin_edges::all());
    all.extend(take_in_edges::all());
    all.extend(newick_edges::all());
    all.extend(merge_edges::all());
    all.extend(sizes());
    all.extend(bad_records());
    all.extend(bad_records_and_arguments());
    all.extend(zeros_in_front());
    all.extend(malformed::fixed(&hex(&case_2().bytes())));
    all.extend(again());
    all
}

/// What says again what stands before it: faulty records under the calls that were left out there, every
/// other letter for the hold, two proposed orders that are both bad, sides that are far off on records that
/// are held or faulty, and more of what is pinned and taken in.
fn again() -> Vec<String> {
    let mut calls = take_in_edges::again();
    calls.extend(pin_edges::again());
    calls.extend(faults_under_calls(|at, call| !comes_first(at, call)));
    for record in faults::others_of_several(0) {
        calls.push(lines::plain("thousandths", &record));
        calls.push(lines::run(&record, 9));
    }
    calls.extend(two_orders(|one, two| !pair_comes_first(one, two)));
    calls.extend(HELD.map(|hold| FAR.map(|side| with_a_side(hold, side)).concat()).concat());
    calls.extend(faults::one_of_each().iter().flat_map(|record| sides_of_a_bad_record(record, &[65535])));
    let letters = (0..=256).filter(|letter| !LETTERS.contains(letter));
    calls.extend(letters.map(|letter| lines::hold(&one_leaf().bytes(), letter)));
    calls.extend(newick_edges::again());
    calls.extend(merge_edges::again());
    calls
}

fn with_links(mut made: Made, links: &[u16]) -> Made {
    made.links = links.to_vec();
    made
}

fn with_hold(mut made: Made, hold: u8) -> Made {
    made.hold = hold;
    made
}

pub fn example_5() -> Made {
    example(&[1, 2, 4, 3], &[1, 3, 4, 2])
}

pub fn example_6() -> Made {
    example(&[1, 2, 4, 3], &[3, 2, 1, 4])
}

pub fn one_leaf() -> Made {
    example(&[], &[])
}

/// Example 13: a caterpillar on both sides, and links backwards.
pub fn backwards() -> Made {
    let mut rows = vec![1, 2];
    for i in 2..512 {
        rows.extend([511 + i, i + 1]);
    }
    let mut made = example(&rows, &rows);
    made.links.reverse();
    made
}

/// Over 512 leaves: the first row bad on the left, on the right, and with the last of the right.
fn first_row_bad() -> Vec<bad_rows::Bad> {
    bad_rows::in_row(&backwards(), 1)
}

/// The last row bad on the left, on the right, and with the first of the right.
fn last_row_bad() -> Vec<bad_rows::Bad> {
    bad_rows::in_row(&backwards(), 511)
}

fn examples() -> Vec<String> {
    let mut turned = example_5();
    turned.left_layout = vec![1, 0];
    turned.right_layout = vec![0, 1];
    let mut inverse = with_links(example_5(), &[2, 3, 1]);
    inverse.left_layout = vec![1, 0];
    inverse.right = vec![1, 2, 4, 3];
    let pair = with_links(example(&[1, 2], &[1, 2]), &[2, 1]);
    let good = [1, 2, 4, 3];
    let bad = [[1, 2, 1, 3], [1, 5, 2, 3]];
    let examples = [case_2(), example_5(), turned, inverse, example_6(), one_leaf(), pair, backwards()];
    let mut calls: Vec<String> = Vec::new();
    for made in &examples {
        calls.extend(every_call::on(made, &made.bytes()));
    }
    for rows in bad {
        calls.push(lines::plain("check", &example(&rows, &good).bytes()));
        calls.push(lines::plain("check", &example(&good, &rows).bytes()));
    }
    for hold in HOLDS {
        let held = with_hold(case_2(), hold);
        calls.extend(every_call::on(&held, &held.bytes()));
    }
    let mut more = backwards();
    more.n = 513;
    calls.push(lines::plain("check", &more.bytes()));
    for length in 0..12 {
        calls.push(lines::plain("check", &vec![0; length]));
    }
    calls
}

/// Bad rows of small trees, and the first or the last of 511 rows bad: tested in a record's bytes
/// and in the lists of packing.
fn rows_that_break_the_rule() -> Vec<String> {
    let mut calls = Vec::new();
    for (made, _) in bad_rows::small() {
        calls.push(lines::plain("check", &made.bytes()));
        calls.push(lines::pack(made.n, &made, &[]));
    }
    for ((first, _), (last, _)) in first_row_bad().iter().zip(&last_row_bad()) {
        calls.push(lines::plain("check", &first.bytes()));
        calls.push(lines::plain("check", &last.bytes()));
        calls.push(lines::pack(512, last, &[]));
    }
    calls
}

/// Links with one of them wrong, and right ones, about the ends of words of 64: in a record's bytes
/// and in the lists of packing.
fn links_that_are_not_one_to_one() -> Vec<String> {
    let mut calls = Vec::new();
    for made in bad_links::all().iter().chain(&bad_links::good()) {
        calls.push(lines::plain("check", &made.bytes()));
        if made.n <= 65 || made.n == 512 {
            calls.push(lines::pack(made.n, made, &[]));
        }
    }
    calls
}

/// Both sides of the allowance and of the sides' numbers.
fn turns_and_sides() -> Vec<String> {
    let mut calls = Vec::new();
    for made in [case_2(), example_5(), example_6(), one_leaf(), with_hold(example_6(), b'R')] {
        for allowance in ALLOWANCES {
            calls.push(lines::run(&made.bytes(), allowance));
        }
    }
    for hold in HOLDS {
        calls.extend(NEAR.map(|side| with_a_side(hold, side)).concat());
    }
    calls.extend(FAR.map(|side| with_a_side(b'N', side)).concat());
    calls
}

/// Four calls with this side on case 2 under a hold.
fn with_a_side(hold: u8, side: u16) -> Vec<String> {
    let held = with_hold(case_2(), hold);
    let order = held.present_order(1);
    vec![
        lines::order(&held.bytes(), side, &[7, 7, 7, 7]),
        lines::free(&held.bytes(), side),
        lines::better("better", &held.bytes(), side, &order, &order),
        lines::better("better_check", &held.bytes(), side, &order, &order),
    ]
}

/// Buffers for an order: too short, exact, longer; none is written where one is too short.
fn buffers() -> Vec<String> {
    let mut calls = Vec::new();
    for made in [one_leaf(), example(&[2, 1], &[1, 2]), case_2(), backwards()] {
        let n = made.n as usize;
        for places in [0, n - 1, n, n + 1] {
            calls.push(lines::order(&made.bytes(), 1, &vec![65535; places]));
            calls.push(lines::order(&made.bytes(), 2, &vec![0; places]));
        }
        calls.push(lines::order(&made.bytes(), 3, &[]));
        calls.push(lines::order(&made.bytes(), 1, &[0; 1200]));
    }
    calls
}

/// Entries on both sides of the rows' numbers, bad entries after good ones, held sides.
fn hand_lists() -> Vec<String> {
    let mut calls = Vec::new();
    for made in [one_leaf(), example(&[2, 1], &[1, 2]), case_2(), backwards()] {
        for side in [0, 1, 2, 3, 257, 65535] {
            for row in [0, 1, made.n - 1, made.n, 257, 65535] {
                if made.n < 512 || side == 2 {
                    calls.push(lines::hands(&made.bytes(), &[(side, row)]));
                }
            }
        }
    }
    let lists: [&[(u16, u16)]; 12] = [
        &[],
        &[(1, 1), (1, 1)],
        &[(1, 1), (1, 2), (1, 1), (2, 3)],
        &[(1, 1), (0, 0)],
        &[(1, 0), (0, 1)],
        &[(2, 4), (1, 1)],
        &[(1, 1), (2, 0)],
        &[(2, 1), (1, 9), (3, 1)],
        &[(2, 2), (2, 2)],
        &[(1, 3), (1, 3), (1, 3)],
        &[(1, 4), (2, 4)],
        &[(2, 3), (2, 2), (2, 1), (1, 3), (1, 2), (1, 1), (3, 1)],
    ];
    for hold in HOLDS {
        for list in lists {
            calls.push(lines::hands(&with_hold(case_2(), hold).bytes(), list));
        }
    }
    calls
}

/// Hand lists of about 1,024 entries and of more, and 17 before everything else.
fn long_hand_lists() -> Vec<String> {
    let mut calls = Vec::new();
    let made = case_2();
    let list = |length: usize| -> Vec<(u16, u16)> {
        (0..length).map(|at| (1 + at as u16 % 2, 1 + at as u16 % 3)).collect()
    };
    let lengths = [1024, 1025, 1023, 1026, 2048];
    for length in lengths {
        calls.push(lines::hands(&made.bytes(), &list(length)));
        let mut last_bad = list(length);
        last_bad[length - 1] = (2, 4);
        calls.push(lines::hands(&made.bytes(), &last_bad));
    }
    for length in lengths {
        calls.push(lines::hands(&made.bytes()[..7], &list(length)));
        calls.push(lines::hands(&with_hold(made.clone(), b'B').bytes(), &list(length)));
        calls.push(lines::hands(&one_leaf().bytes(), &list(length)));
    }
    let whole: Vec<(u16, u16)> = (0..1024).map(|at| (1 + at / 512, 1 + at % 511)).collect();
    calls.push(lines::hands(&backwards().bytes(), &whole));
    for record in faults::one_of_each() {
        calls.push(lines::hands(&record, &[(0, 0); 1025]));
        calls.push(lines::hands(&record, &[(0, 0); 1024]));
    }
    calls
}

/// Orders for the left of case 2; the second and third cross equally often, and the first seven are
/// compatible.
const PROPOSED: [&[u16]; 15] = [
    &[4, 3, 1, 2],
    &[3, 2, 1, 4],
    &[4, 1, 2, 3],
    &[1, 2, 3, 4],
    &[2, 1, 3, 4],
    &[3, 1, 2, 4, 0, 65535, 4],
    &[4, 3, 2, 1, 9],
    &[1, 3, 2, 4],
    &[1, 2, 3],
    &[],
    &[1, 2, 3, 3],
    &[0, 1, 2, 3],
    &[1, 2, 3, 5],
    &[257, 2, 3, 4],
    &[1, 2, 3, 65535, 4],
];

/// Any two of these for the left of case 2, where the numbers of both, from 0, are wanted.
fn two_orders(wanted: impl Fn(usize, usize) -> bool) -> Vec<String> {
    let record = case_2().bytes();
    let mut calls = Vec::new();
    for (one, first) in PROPOSED.iter().enumerate() {
        for (_, second) in PROPOSED.iter().enumerate().filter(|&(two, _)| wanted(one, two)) {
            calls.push(lines::better("better", &record, 1, first, second));
        }
    }
    calls
}

/// Which of these come first: any two that are compatible, and each of the others beside one that is, as
/// the first or the second, and beside itself.
fn pair_comes_first(one: usize, two: usize) -> bool {
    (one < 7 && two < 7) || one == 0 || two == 0 || one == two
}

/// Proposed orders: compatible, ties, short, longer, with entries that are no leaves. The check tells
/// whether one of two is bad, not which: there each stands beside a good one, on either side, and beside
/// itself.
fn proposed_orders() -> Vec<String> {
    let record = case_2().bytes();
    let good = PROPOSED[0];
    let mut calls = two_orders(pair_comes_first);
    for first in PROPOSED {
        for (one, two) in [(first, good), (good, first), (first, first)] {
            calls.push(lines::better("better_check", &record, 1, one, two));
        }
        calls.push(lines::better("better", &record, 2, first, &[1, 2, 3, 4]));
        calls.push(lines::better("better", &record, 2, &[4, 3, 2, 1], first));
        calls.push(lines::better("better_check", &record, 2, &[4, 3, 2, 1], first));
        calls.push(lines::better("better_check", &record, 0, first, &[]));
    }
    for (first, second) in [(vec![1], vec![1, 7]), (vec![1, 2], vec![1]), (vec![2], vec![1]), (vec![], vec![1])]
    {
        for word in ["better", "better_check"] {
            calls.push(lines::better(word, &one_leaf().bytes(), 1, &first, &second));
            calls.push(lines::better(word, &one_leaf().bytes(), 2, &second, &first));
        }
    }
    calls.extend(long_orders());
    calls
}

/// Proposed orders of 512 leaves and more.
fn long_orders() -> Vec<String> {
    let made = backwards();
    let forwards: Vec<u16> = (1..=512).collect();
    let reversed: Vec<u16> = (1..=512).rev().collect();
    let mut rubbish = reversed.clone();
    rubbish.extend([0, 513, 65535, 1]);
    let mut exchanged = forwards.clone();
    exchanged.swap(300, 301);
    let root_turned = made.order_of(1, &[vec![0; 510], vec![1]].concat());
    let mut calls = Vec::new();
    for first in [&forwards, &reversed] {
        for second in [&forwards, &rubbish, &root_turned, &exchanged] {
            calls.push(lines::better("better", &made.bytes(), 2, first, second));
        }
    }
    calls.push(lines::better("better_check", &made.bytes(), 1, &forwards[..511], &reversed));
    calls.push(lines::better("better_check", &made.bytes(), 1, &reversed, &forwards[..511]));
    calls
}

/// The four letters and those on both sides of them, the small ones, the four with another high bit, and both
/// ends of what a letter can be.
#[rustfmt::skip]
const LETTERS: [u16; 23] = [
    0, 1, 65, 66, 67, 75, 76, 77, 78, 79, 81, 82, 83, 98, 108, 110, 114, 194, 204, 206, 210, 255, 256,
];

/// Setting the hold: these letters on a good record, some on others.
fn holds() -> Vec<String> {
    let mut calls: Vec<String> = LETTERS.map(|letter| lines::hold(&one_leaf().bytes(), letter)).into();
    for letter in [0, 66, 76, 77, 78, 82, 110, 255] {
        for hold in [b'N', b'L', b'R', b'B', 0, b'n'] {
            calls.push(lines::hold(&with_hold(case_2(), hold).bytes(), letter));
        }
        calls.push(lines::hold(&[], letter));
        calls.push(lines::hold(&case_2().bytes()[..7], letter));
    }
    calls
}

/// A made record with one of its five lists one shorter or one longer.
fn of_wrong_length(made: &Made) -> Vec<Made> {
    let n = made.n as usize;
    let mut wrong = Vec::new();
    for change in [-1_isize, 1] {
        let new = |length: usize| length.saturating_add_signed(change);
        let mut lists = [(); 5].map(|_| made.clone());
        lists[0].left.resize(new(2 * (n - 1)), 1);
        lists[1].right.resize(new(2 * (n - 1)), 1);
        lists[2].links.resize(new(n), 1);
        lists[3].left_layout.resize(new(n - 1), 0);
        lists[4].right_layout.resize(new(n - 1), 0);
        wrong.extend(lists);
    }
    wrong
}

fn packing() -> Vec<String> {
    let mut calls = Vec::new();
    let made = case_2();
    for letter in [0, 66, 76, 77, 78, 82, 110, 255] {
        calls.push(lines::pack(4, &with_hold(made.clone(), letter), &[7; 46]));
    }
    for n in [0, 1, 2, 3, 5, 260, 512, 513, 65535] {
        calls.push(lines::pack(n, &made, &[7; 46]));
        calls.push(lines::pack(n, &one_leaf(), &[7; 46]));
    }
    for made in [one_leaf(), example(&[2, 1], &[1, 2]), made, backwards()] {
        let length = 12 * made.n as usize - 2;
        for places in [length, length - 1, length + 1, length + 40, 0] {
            calls.push(lines::pack(made.n, &made, &vec![7; places]));
        }
        if made.n < 512 {
            calls.extend(
                of_wrong_length(&made).iter().map(|wrong| lines::pack(made.n, wrong, &vec![7; length])),
            );
        }
    }
    let mut long = case_2();
    long.links = vec![1; 3000];
    long.left = vec![1; 2000];
    long.right_layout = vec![0; 5000];
    calls.push(lines::pack(4, &long, &[7; 9000]));
    calls.push(lines::pack(4, &case_2(), &[7; 20_000]));
    for (made, _) in first_row_bad() {
        calls.push(lines::pack(512, &made, &[7; 6_142]));
    }
    calls
}

/// Faults in packing's lists, alone and together, with and without a buffer too short.
fn packing_several_faults() -> Vec<String> {
    let faults: [fn(&mut Made); 9] = [
        |made| made.hold = b'n',
        |made| made.n = 513,
        |made| made.links.push(5),
        |made| made.left[3] = 0,
        |made| made.right[5] = 7,
        |made| made.links[3] = 1,
        |made| made.left_layout[2] = 4,
        |made| made.right_layout[0] = 255,
        |_| {},
    ];
    let mut calls = Vec::new();
    for (index, one) in faults.iter().enumerate() {
        for two in &faults[index..] {
            let mut made = case_2();
            one(&mut made);
            two(&mut made);
            calls.push(lines::pack(made.n, &made, &[7; 46]));
            calls.push(lines::pack(made.n, &made, &[7; 45]));
        }
    }
    calls
}

/// Five buffers of n-1 rows and n leaves, so many places longer or shorter each.
fn five_buffers(n: usize, changes: [isize; 5]) -> ([Vec<u16>; 3], [Vec<u8>; 2]) {
    let places = |length: usize, change: isize| length.saturating_add_signed(change);
    let [left, right, links, left_layout, right_layout] = changes;
    let rows = 2 * (n - 1);
    let numbers = [vec![6; places(rows, left)], vec![0; places(rows, right)], vec![65535; places(n, links)]];
    (numbers, [vec![5; places(n - 1, left_layout)], vec![255; places(n - 1, right_layout)]])
}

fn unpacking() -> Vec<String> {
    let mut calls = Vec::new();
    let mut held = with_hold(case_2(), b'R');
    held.right_layout = vec![1, 0, 1];
    let mut most = backwards();
    most.hold = b'B';
    for made in [one_leaf(), with_links(example(&[2, 1], &[1, 2]), &[2, 1]), held, most] {
        let n = made.n as usize;
        for change in [-1, 1, 3, -2000] {
            for buffer in 0..5 {
                let mut changes = [0; 5];
                changes[buffer] = change;
                let (numbers, layouts) = five_buffers(n, changes);
                if n < 512 || change == -1 {
                    calls.push(lines::unpack(&made.bytes(), &numbers, &layouts));
                }
            }
            let (numbers, layouts) = five_buffers(n, [change; 5]);
            calls.push(lines::unpack(&made.bytes(), &numbers, &layouts));
        }
    }
    let (numbers, layouts) = five_buffers(4, [-2; 5]);
    calls.extend(faults::one_of_each().iter().map(|record| lines::unpack(record, &numbers, &layouts)));
    calls
}

/// Every size at a limit, with its right length and one less and one more; records far too long.
fn sizes() -> Vec<String> {
    let mut random = Random::new(512);
    let mut calls = Vec::new();
    for n in [1, 2, 3, 511] {
        let made = with_hold(any_record(n, &mut random).none_pinned(), b'N');
        let mut bytes = made.bytes();
        let on_it = every_call::on(&made, &bytes).into_iter();
        calls.extend(on_it.step_by(if n == 511 { 4 } else { 1 }));
        bytes.push(0);
        calls.push(lines::plain("check", &bytes));
        calls.push(lines::plain("check", &bytes[..bytes.len() - 2]));
    }
    for shape in ["balanced", "caterpillar", "random"] {
        if let Some(made) = of_shape(shape, 512, &mut random) {
            calls.extend(every_call::on(&made, &made.bytes()));
        }
    }
    let mut bytes = backwards().bytes();
    for length in [6_141, 6_143, 6_154, 20_000] {
        bytes.resize(length, 0);
        calls.push(lines::plain("check", &bytes));
        calls.push(lines::run(&bytes, 2));
    }
    for (high, low, length) in
        [(2, 1, 6_154), (0, 0, 8), (0, 0, 10), (255, 255, 8), (2, 0, 8), (0, 1, 9), (0, 1, 8)]
    {
        bytes.resize(length, 0);
        bytes[6] = high;
        bytes[7] = low;
        calls.push(lines::plain("check", &bytes));
        calls.push(lines::free(&bytes, 1));
    }
    calls
}

/// Faulty records under the calls that take a record, where the numbers of both, from 0, are wanted.
fn faults_under_calls(wanted: impl Fn(usize, usize) -> bool) -> Vec<String> {
    let mut calls = Vec::new();
    for (at, record) in faults::single().iter().enumerate() {
        let on_it = every_call::on(&case_2(), record).into_iter().enumerate();
        calls.extend(on_it.filter(|&(call, _)| wanted(at, call)).map(|(_, line)| line));
    }
    calls
}

/// Which of these come first: the check of each record, and of the other calls every fourth.
fn comes_first(at: usize, call: usize) -> bool {
    call == 0 || (at + call) % 4 == 0
}

/// Faulty records, so that every call that takes a record meets every refusal from 1 to 10.
fn bad_records() -> Vec<String> {
    let mut calls = faults_under_calls(comes_first);
    calls.extend(faults::several().iter().map(|record| lines::plain("check", record)));
    for record in faults::some_of_several(0) {
        calls.push(lines::plain("thousandths", &record));
        calls.push(lines::run(&record, 9));
    }
    for (made, _) in first_row_bad().iter().chain(&last_row_bad()) {
        let but_the_check = every_call::on(&backwards(), &made.bytes()).into_iter().skip(1);
        calls.extend(but_the_check);
    }
    calls
}

/// Four calls with these sides on a faulty record.
fn sides_of_a_bad_record(record: &[u8], sides: &[u16]) -> Vec<String> {
    let mut calls = Vec::new();
    for side in sides {
        calls.push(lines::order(record, side, &[]));
        calls.push(lines::free(record, side));
        calls.push(lines::better("better", record, side, &[1, 1, 1, 1], &[]));
        calls.push(lines::better("better_check", record, side, &[1, 1, 1, 1], &[]));
    }
    calls
}

/// Faulty records together with faulty arguments.
fn bad_records_and_arguments() -> Vec<String> {
    let mut calls = Vec::new();
    for record in faults::one_of_each() {
        calls.extend(sides_of_a_bad_record(&record, &[0, 1, 3]));
        for allowance in [0, 1, 130_818, 130_819, 4_294_967_295_u64] {
            calls.push(lines::run(&record, allowance));
        }
        calls.push(lines::hold(&record, 0));
        calls.push(lines::hold(&record, b'N'));
        calls.push(lines::hands(&record, &[(0, 0)]));
        calls.push(lines::hands(&record, &[(1, 4)]));
        let mut held = record.clone();
        if held.len() > 5 && held[5] == b'N' {
            held[5] = b'B';
        }
        calls.push(lines::free(&held, 1));
        calls.push(lines::run(&held, 1));
        calls.push(lines::hands(&held, &[(1, 1)]));
    }
    calls
}

/// Numbers with leading zeros are numbers.
fn zeros_in_front() -> Vec<String> {
    let record = case_2().bytes();
    let digits = hex(&record);
    let zeros = "0".repeat(60);
    vec![
        lines::order(&record, "01", &[1, 1, 1, 1]),
        lines::free(&record, format!("{zeros}2")),
        lines::free(&record, format!("{zeros}65535")),
        lines::free(&record, format!("{zeros}65536")),
        lines::run(&record, format!("{zeros}130818")),
        lines::run(&record, format!("{zeros}4294967295")),
        lines::hold(&record, format!("{zeros}76")),
        format!("order {digits} 1 {zeros}1,00,{zeros}65535,000000"),
        format!("hands {digits} 0001:0{zeros},{zeros}2:03"),
        format!("hands {digits} 0001:0{zeros}1,{zeros}2:03"),
        format!("better {digits} 001 04,003,0001,00002 {zeros}1,2,3,4"),
        format!("pack 078 0001 - - {zeros}1 - - 00000000000000000000"),
        format!("unpack {digits} {zeros},1,2,3,4,5 0,0,0,0,0,0 0,0,0,00 000000 000000"),
    ]
}

#[cfg(test)]
mod tests {
    use super::*;
    use crate::desk;
    use std::collections::BTreeSet;

    fn number(line: &str) -> String {
        desk::answer(line.as_bytes()).split(' ').next().unwrap_or_default().to_string()
    }

    #[test]
    fn every_call_meets_every_number_before_it_is_said_again() {
        let first = faults_under_calls(comes_first);
        let words: BTreeSet<&str> = first.iter().filter_map(|line| line.split(' ').next()).collect();
        assert_eq!(words.len(), 17);
        for word in words.into_iter().filter(|&word| word != "better") {
            let of_word = first.iter().filter(|line| line.split(' ').next() == Some(word));
            let told: BTreeSet<String> = of_word.map(|line| number(line)).collect();
            assert!((1..=10).all(|wanted| told.contains(&wanted.to_string())), "{word}");
        }
    }

    #[test]
    fn what_is_said_again_is_all_that_was_left_out() {
        let lines: BTreeSet<String> = all().into_iter().collect();
        assert!(faults_under_calls(|_, _| true).iter().all(|line| lines.contains(line)));
        assert!((0..=256).all(|letter| lines.contains(&lines::hold(&one_leaf().bytes(), letter))));
    }
}
