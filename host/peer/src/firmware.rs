// The calls, each with its refusals in their order (docs/CALLS.md): 17, 12, 13, then
// the record's 1 to 10, then 16, 11, 14. A call that is refused changes nothing that was lent,
// because it works on a record of its own and puts layouts back at the end only. The call that pins a
// row is in pins.rs, and the one that takes an order in is in take_in.rs.

use crate::crossings;
use crate::record::{self, Record, Side};
use crate::refusals::{self, Refusal};
use crate::room;
use crate::tree;

const MOST_TURNS: u32 = 130_818;
const MOST_HANDS: usize = 1_024;

/// 1 to 10, or nothing.
pub fn check(bytes: &[u8]) -> Result<(), Refusal> {
    record::read(bytes).map(|_| ())
}

/// Writes a side's leaf order: 13, 1 to 10, 14.
pub fn order(bytes: &[u8], side: u16, out: &mut [u16]) -> Result<(), Refusal> {
    let side = Side::of(side)?;
    let record = record::read(bytes)?;
    room::put(&present_order(&record, side), out)
}

fn present_order(record: &Record, side: Side) -> Vec<u16> {
    tree::leaf_order(record.rows(side), record.layout(side))
}

/// The count by seen places: 1 to 10, or the count.
pub fn count(bytes: &[u8]) -> Result<u32, Refusal> {
    Ok(crossings::count_seen(&record::read(bytes)?))
}

/// The count pair by pair: 1 to 10, or the count.
pub fn pairs(bytes: &[u8]) -> Result<u32, Refusal> {
    Ok(count_pairs(&record::read(bytes)?))
}

pub fn count_pairs(record: &Record) -> u32 {
    crossings::pair_by_pair(&crossings::present_places(record))
}

/// D, the sum over the links of the square of left place less right place, and its worst value W.
fn displacement(record: &Record) -> (u64, u64) {
    let square = |link: &crossings::LinkPlaces| (link.left.abs_diff(link.right) as u64).pow(2);
    let d = crossings::present_places(record).iter().map(square).sum();
    let n = record.n as u64;
    (d, n * (n * n - 1) / 3)
}

#[derive(Debug, PartialEq)]
pub struct SquaredEntanglement {
    pub d: u64,
    pub w: u64,
    pub ratio: Option<f64>,
}

/// D, W and D divided by W, which is no ratio for one leaf: 1 to 10, or these.
pub fn squared_entanglement(bytes: &[u8]) -> Result<SquaredEntanglement, Refusal> {
    let record = record::read(bytes)?;
    let (d, w) = displacement(&record);
    let ratio = if record.n == 1 { None } else { Some(d as f64 / w as f64) };
    Ok(SquaredEntanglement { d, w, ratio })
}

/// The entanglement in thousandths, which is no ratio for one leaf: 1 to 10, or this.
pub fn thousandths(bytes: &[u8]) -> Result<Option<u32>, Refusal> {
    let record = record::read(bytes)?;
    let (d, w) = displacement(&record);
    Ok(if record.n == 1 { None } else { Some(most_thousandths(d, w)) })
}

/// The largest whole k with k times k times W at most 1,000,000 times D, found by trying 1, 2 and so on;
/// W is not 0.
pub fn most_thousandths(d: u64, w: u64) -> u32 {
    let fits = |k: u32| u128::from(k).pow(2) * u128::from(w) <= 1_000_000 * u128::from(d);
    let mut k = 0;
    while fits(k + 1) {
        k += 1;
    }
    k
}

/// Turns each row of a side that is not pinned, from its present byte, exactly if that makes its own
/// crossings strictly fewer. The other side stands.
pub fn free_side(record: &mut Record, side: Side) {
    let own = crossings::own_crossings(record, side);
    for (index, (crossing, upper, lower)) in own.into_iter().enumerate() {
        if !record.is_pinned(side, index) && upper * lower - crossing < crossing {
            record.turn(side, index);
        }
    }
}

/// Frees a side: 13, 1 to 10, 11, or the count before and the count after.
pub fn free(bytes: &mut [u8], side: u16) -> Result<(u32, u32), Refusal> {
    let side = Side::of(side)?;
    let mut record = record::read(bytes)?;
    if record.held(side) {
        return Err(refusals::HELD);
    }
    let before = count_pairs(&record);
    free_side(&mut record, side);
    record.put_layouts(bytes);
    Ok((before, count_pairs(&record)))
}

#[derive(Debug, PartialEq)]
pub struct Run {
    pub first: u32,
    pub last: u32,
    pub turns: u32,
    pub settled: bool,
}

/// Frees left and right by turns: 12, 1 to 10, 11, or what the run reports.
pub fn run(bytes: &mut [u8], allowance: u32) -> Result<Run, Refusal> {
    if allowance == 0 || allowance > MOST_TURNS {
        return Err(refusals::ALLOWANCE);
    }
    let mut record = record::read(bytes)?;
    if record.held(Side::Left) || record.held(Side::Right) {
        return Err(refusals::HELD);
    }
    let run = take_turns(&mut record, allowance);
    record.put_layouts(bytes);
    Ok(run)
}

/// Turn 1 frees the left, turn 2 the right, and so on, up to the first turn other than turn 1
/// that gains nothing, or up to the allowance.
fn take_turns(record: &mut Record, allowance: u32) -> Run {
    let first = count_pairs(record);
    let mut last = first;
    for turn in 1..=allowance {
        let side = if turn % 2 == 1 { Side::Left } else { Side::Right };
        free_side(record, side);
        let before = last;
        last = count_pairs(record);
        if turn > 1 && last == before {
            return Run { first, last, turns: turn, settled: true };
        }
    }
    Run { first, last, turns: allowance, settled: false }
}

/// Applies a hand list of sides and rows: 17, 1 to 10, then for the first bad entry 13, 15, 11, 22.
pub fn hands(bytes: &mut [u8], entries: &[(u16, u16)]) -> Result<(), Refusal> {
    if entries.len() > MOST_HANDS {
        return Err(refusals::HANDS);
    }
    let mut record = record::read(bytes)?;
    for &(side, row) in entries {
        let side = Side::of(side)?;
        let index = record.index(row)?;
        if record.held(side) {
            return Err(refusals::HELD);
        }
        if record.is_pinned(side, index) {
            return Err(refusals::PINNED);
        }
        record.turn(side, index);
    }
    record.put_layouts(bytes);
    Ok(())
}

/// The count with this order on a side, the other side's present order standing.
pub fn crossings_with(record: &Record, side: Side, order: &[u16]) -> u32 {
    let links = match side {
        Side::Left => crossings::link_places(order, &present_order(record, Side::Right), record.links()),
        Side::Right => crossings::link_places(&present_order(record, Side::Left), order, record.links()),
    };
    crossings::pair_by_pair(&links)
}

/// The tests of better of two: 13, 1 to 10, 16; else the record and the side.
fn test_better(bytes: &[u8], side: u16, first: &[u16], second: &[u16]) -> Result<(Record, Side), Refusal> {
    let side = Side::of(side)?;
    let record = record::read(bytes)?;
    for order in [first, second] {
        if order.len() < record.n || !tree::is_compatible(record.rows(side), &order[..record.n]) {
            return Err(refusals::ORDER);
        }
    }
    Ok((record, side))
}

/// The refusal that better of two has for these inputs, or nothing.
pub fn better_check(bytes: &[u8], side: u16, first: &[u16], second: &[u16]) -> Result<(), Refusal> {
    test_better(bytes, side, first, second).map(|_| ())
}

/// The first n entries of the order that crosses less against the other side's present order,
/// of the first on a tie; an empty part of the first where the check has a refusal.
pub fn better<'a>(bytes: &[u8], side: u16, first: &'a [u16], second: &'a [u16]) -> &'a [u16] {
    let Ok((record, side)) = test_better(bytes, side, first, second) else {
        return &first[..0];
    };
    let (first, second) = (&first[..record.n], &second[..record.n]);
    if crossings_with(&record, side, second) < crossings_with(&record, side, first) {
        second
    } else {
        first
    }
}

#[cfg(test)]
mod tests {
    use super::*;
    use crate::faults;
    use crate::made;
    use crate::random::Random;

    /// The least count over all layouts of a side that turn no pinned row of it.
    fn least_over_all_layouts(record: &made::Made, side: u16) -> u32 {
        let agrees = |layout: &Vec<u8>| {
            let mut bytes = layout.iter().zip(record.layout(side));
            bytes.all(|(&byte, &present)| present < 2 || byte == present - 2)
        };
        let layouts = (0..1 << (record.n - 1)).map(|bits| made::layout_of_bits(record.n as usize, bits));
        let counts = layouts.filter(agrees).map(|layout| {
            let mut laid = record.clone();
            *laid.layout_mut(side) = layout;
            pairs(&laid.bytes()).unwrap()
        });
        counts.min().unwrap()
    }

    #[test]
    fn thousandths_are_the_largest_that_fit() {
        for n in 2..=12 {
            let w = n * (n * n - 1) / 3;
            for d in 0..=w {
                let fitting = (0..=1500).filter(|k| k * k * w <= 1_000_000 * d);
                assert_eq!(Some(most_thousandths(d, w) as u64), fitting.max());
            }
        }
        let most = 44_739_072;
        let few = [0, 44, 45, most / 4 - 1, most / 4, most - 1, most];
        assert_eq!(few.map(|d| most_thousandths(d, most)), [0, 0, 1, 499, 500, 999, 1000]);
    }

    #[test]
    fn both_entanglements_read_the_same_record() {
        let mut random = Random::new(9);
        for round in 0..400 {
            let n = if round % 40 == 0 { 512 } else { 1 + random.below(40) };
            let bytes = faults::any_bytes(&made::any_record(n, &mut random), &mut random);
            let wanted = check(&bytes).and_then(|()| squared_entanglement(&bytes));
            let wanted = wanted.map(|measure| measure.ratio.map(|_| most_thousandths(measure.d, measure.w)));
            assert_eq!(thousandths(&bytes), wanted);
        }
        for bytes in faults::single().iter().chain(&faults::several()) {
            assert_eq!(thousandths(bytes).err(), check(bytes).err());
        }
    }

    #[test]
    fn freeing_gives_the_least_count_over_all_layouts() {
        let mut random = Random::new(7);
        for round in 0..210 {
            let n = 1 + round % 7;
            let mut record = made::any_record(n, &mut random);
            record.hold = b'N';
            for side in [1, 2] {
                let mut bytes = record.bytes();
                let (before, after) = free(&mut bytes, side).unwrap();
                assert_eq!(before, pairs(&record.bytes()).unwrap());
                assert_eq!(after, pairs(&bytes).unwrap());
                assert_eq!(after, least_over_all_layouts(&record, side));
            }
        }
    }

    #[test]
    fn freeing_changes_no_pinned_byte_and_nothing_of_the_other_side() {
        let mut random = Random::new(33);
        let (mut some, mut all) = (0, 0);
        for round in 0..1200 {
            let mut record = made::any_record(2 + round % 5, &mut random);
            record.hold = b'N';
            for side in [1, 2] {
                let pinned = record.layout(side).iter().filter(|&&byte| byte >= 2).count();
                some += (pinned > 0) as usize;
                all += (pinned == record.layout(side).len()) as usize;
                let mut bytes = record.bytes();
                let (before, after) = free(&mut bytes, side).unwrap();
                let mut wanted = record.clone();
                let freed = record::read(&bytes).unwrap();
                let layout = freed.layout(Side::of(side).unwrap());
                let turned = |(byte, &new): (&mut u8, &u8)| {
                    if *byte < 2 && new < 2 {
                        *byte = new
                    }
                };
                wanted.layout_mut(side).iter_mut().zip(layout).for_each(turned);
                assert_eq!(bytes, wanted.bytes());
                assert_eq!(before == after, bytes == record.bytes());
                assert_eq!(after, least_over_all_layouts(&record, side));
            }
        }
        assert!(some > 500 && all > 100);
    }

    #[test]
    fn a_record_with_all_rows_pinned_stays() {
        let mut random = Random::new(34);
        for n in 1..=12 {
            let mut record = made::any_record(n, &mut random).all_pinned();
            record.hold = b'N';
            let count = pairs(&record.bytes()).unwrap();
            let stays = |turns, settled| Run { first: count, last: count, turns, settled };
            let mut bytes = record.bytes();
            assert_eq!([1, 2].map(|side| free(&mut bytes, side)), [Ok((count, count)); 2]);
            assert_eq!(run(&mut bytes, 1), Ok(stays(1, false)));
            for allowance in [2, 3, MOST_TURNS] {
                assert_eq!(run(&mut bytes, allowance), Ok(stays(2, true)));
            }
            assert_eq!(bytes, record.bytes());
        }
    }

    #[test]
    fn of_a_hand_list_the_first_bad_entry_decides() {
        let mut record = made::case_2();
        record.left_layout = vec![0, 2, 1];
        record.right_layout = vec![3, 0, 2];
        let mut told_of = |hold: u8, entries: &[(u16, u16)]| {
            record.hold = hold;
            let mut bytes = record.bytes();
            let result = hands(&mut bytes, entries);
            assert!(result.is_ok() || bytes == record.bytes());
            (refusals::told(&result), bytes[40..].to_vec())
        };
        let mut refused = |hold: u8, entries: &[(u16, u16)], wanted: &str| {
            assert_eq!(told_of(hold, entries).0, wanted, "{entries:?}");
        };
        for (side, row) in [(1, 2), (2, 1), (2, 3)] {
            refused(b'N', &[(side, row)], "22");
            refused(b'B', &[(side, row)], "11");
            refused(b'N', &[(side, row), (side, row)], "22");
            refused(b'N', &[(1, 1), (side, row)], "22");
            refused(b'N', &[(side, row), (0, 0)], "22");
            refused(b'N', &[(side, row), (1, 0)], "22");
            refused(b'N', &[(0, 0), (side, row)], "13");
            refused(b'N', &[(side, 4), (side, row)], "15");
        }
        refused(b'L', &[(1, 2)], "11");
        refused(b'L', &[(2, 1)], "22");
        refused(b'L', &[(2, 1), (1, 2)], "22");
        refused(b'L', &[(1, 2), (2, 1)], "11");
        refused(b'R', &[(1, 2), (2, 2)], "22");
        refused(b'B', &[], "0");
        assert_eq!(told_of(b'N', &[(1, 1), (2, 2), (1, 3)]), ("0".to_string(), vec![1, 2, 0, 3, 1, 2]));
        assert_eq!(told_of(b'N', &[(1, 1), (1, 1), (1, 1)]), ("0".to_string(), vec![1, 2, 1, 3, 0, 2]));
    }

    #[test]
    fn a_run_ends_where_the_paper_says() {
        let mut random = Random::new(8);
        for _ in 0..200 {
            let n = 1 + random.below(12);
            let mut record = made::any_record(n, &mut random);
            record.hold = b'N';
            let whole = run(&mut record.bytes(), MOST_TURNS).unwrap();
            assert!(whole.settled && whole.turns >= 2);
            for allowance in 1..=whole.turns + 1 {
                let mut by_run = record.bytes();
                let report = run(&mut by_run, allowance).unwrap();
                let mut by_hand = record.bytes();
                let mut counts = vec![pairs(&by_hand).unwrap()];
                for turn in 1..=report.turns {
                    counts.push(free(&mut by_hand, if turn % 2 == 1 { 1 } else { 2 }).unwrap().1);
                }
                assert_eq!(by_run, by_hand);
                assert_eq!((report.first, report.last), (counts[0], *counts.last().unwrap()));
                assert_eq!(report.turns, allowance.min(whole.turns));
                assert_eq!(report.settled, allowance >= whole.turns);
            }
        }
    }

    #[test]
    fn better_of_two_takes_the_first_on_a_tie() {
        let mut record = made::example(&[1, 2, 4, 3], &[1, 2, 4, 3]);
        record.links = vec![1, 3, 2];
        let bytes = record.bytes();
        let orders: [&[u16]; 4] = [&[1, 2, 3], &[2, 1, 3], &[3, 1, 2], &[3, 2, 1]];
        let counts = [1, 2, 1, 2];
        for first in 0..4 {
            for second in 0..4 {
                let part = better(&bytes, 1, orders[first], orders[second]);
                let wanted = if counts[second] < counts[first] { second } else { first };
                assert_eq!(part.as_ptr(), orders[wanted].as_ptr());
                assert_eq!(part.len(), 3);
            }
        }
    }
}
