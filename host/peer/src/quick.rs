// Freeing, running and taking an order in as one would ship them on a host: fixed arrays, nothing on the
// heap. Each object has the set of places that its leaves have on the other side; a row's own crossings
// are counted by going through the smaller set and counting ones in the larger. An order is least if no
// row that is not pinned has fewer the other way round. For measuring only: `answers` uses the
// definitions, and the tests below compare the two.

use crate::crossings::Seen;
use crate::pins;
use crate::record::{self, Record, Row, Side, MOST_LEAVES};
use crate::refusals::{self, Refusal};
use crate::room;
use crate::take_in::TakenIn;
use crate::tree;

const MOST_TURNS: u32 = 130_818;

/// The set of each object, at its number, with how many leaves it has.
type Sets = [(Seen, u32); 2 * MOST_LEAVES];

/// The sets of a side's leaves: one place each.
fn set_leaves(record: &Record, side: Side, sets: &mut Sets) {
    let other = if side == Side::Left { Side::Right } else { Side::Left };
    let places = tree::places(record.rows(other), record.layout(other));
    for (index, &right) in record.links().iter().enumerate() {
        let (leaf, place) = match side {
            Side::Left => (index + 1, places[right as usize - 1]),
            Side::Right => (right as usize, places[index]),
        };
        sets[leaf] = (Seen::none(), 1);
        sets[leaf].0.see(place as usize);
    }
}

/// How many pairs have their place in the first set past their place in the second.
fn pairs_past(first: &(Seen, u32), second: &(Seen, u32)) -> u32 {
    let mut pairs = 0;
    if first.1 < second.1 {
        first.0.each(|place| pairs += second.1 - second.0.past(place));
    } else {
        second.0.each(|place| pairs += first.0.past(place));
    }
    pairs
}

/// Frees a side; the answer is the sum of own crossings before and after.
fn free_side(record: &mut Record, side: Side, sets: &mut Sets) -> (u32, u32) {
    set_leaves(record, side, sets);
    let (mut before, mut after) = (0, 0);
    for index in 0..record.n - 1 {
        let [upper, lower] = record.rows(side)[index].map(|child| child as usize);
        let as_given = pairs_past(&sets[upper], &sets[lower]);
        let turned_over = sets[upper].1 * sets[lower].1 - as_given;
        let turned = pins::is_turned(record.layout(side)[index]);
        let (own, others) = if turned { (turned_over, as_given) } else { (as_given, turned_over) };
        let gains = others < own && !record.is_pinned(side, index);
        if gains {
            record.turn(side, index);
        }
        before += own;
        after += if gains { others } else { own };
        sets[record.n + index + 1] = both(&sets[upper], &sets[lower]);
    }
    (before, after)
}

fn both(first: &(Seen, u32), second: &(Seen, u32)) -> (Seen, u32) {
    let mut set = first.0;
    for (word, more) in set.words.iter_mut().zip(second.0.words) {
        *word |= more;
    }
    (set, first.1 + second.1)
}

/// As `firmware::free`.
pub fn free(bytes: &mut [u8], side: u16) -> Result<(u32, u32), Refusal> {
    let side = Side::of(side)?;
    let mut record = record::read(bytes)?;
    if record.held(side) {
        return Err(refusals::HELD);
    }
    let mut sets = [(Seen::none(), 0); 2 * MOST_LEAVES];
    let counts = free_side(&mut record, side, &mut sets);
    record.put_layouts(bytes);
    Ok(counts)
}

/// As `firmware::run`; the answer is the first count, the last count, the turns and settled.
pub fn run(bytes: &mut [u8], allowance: u32) -> Result<(u32, u32, u32, bool), Refusal> {
    if allowance == 0 || allowance > MOST_TURNS {
        return Err(refusals::ALLOWANCE);
    }
    let mut record = record::read(bytes)?;
    if record.hold != b'N' {
        return Err(refusals::HELD);
    }
    let mut sets = [(Seen::none(), 0); 2 * MOST_LEAVES];
    let (first, mut last) = free_side(&mut record, Side::Left, &mut sets);
    let mut turns = 1;
    let mut settled = false;
    while turns < allowance && !settled {
        turns += 1;
        let side = if turns % 2 == 1 { Side::Left } else { Side::Right };
        let (before, after) = free_side(&mut record, side, &mut sets);
        settled = before == after;
        last = after;
    }
    record.put_layouts(bytes);
    Ok((first, last, turns, settled))
}

/// The place at which each object begins in an order of n entries, at its number; nothing if the leaves
/// under some object do not stand together.
fn beginnings(rows: &[Row], order: &[u16]) -> Option<[u16; 2 * MOST_LEAVES]> {
    let n = order.len();
    let mut begins = [u16::MAX; 2 * MOST_LEAVES];
    let mut leaves = [1; 2 * MOST_LEAVES];
    for (place, &leaf) in order.iter().enumerate() {
        if leaf == 0 || leaf as usize > n || begins[leaf as usize] != u16::MAX {
            return None;
        }
        begins[leaf as usize] = place as u16;
    }
    for (index, &[upper, lower]) in rows.iter().enumerate() {
        let [upper, lower] = [upper as usize, lower as usize];
        let lower_follows = begins[upper] + leaves[upper] == begins[lower];
        if !lower_follows && begins[lower] + leaves[lower] != begins[upper] {
            return None;
        }
        begins[n + index + 1] = begins[upper].min(begins[lower]);
        leaves[n + index + 1] = leaves[upper] + leaves[lower];
    }
    Some(begins)
}

/// The bytes of the layout that gives this order, pins kept: 16, 23, or these.
fn bytes_giving(record: &Record, side: Side, order: &[u16]) -> Result<[u8; MOST_LEAVES], Refusal> {
    let rows = record.rows(side);
    let order = order.get(..record.n).ok_or(refusals::ORDER)?;
    let begins = beginnings(rows, order).ok_or(refusals::ORDER)?;
    let mut bytes = [0; MOST_LEAVES];
    for (index, &[upper, lower]) in rows.iter().enumerate() {
        let present = record.layout(side)[index];
        let turned = begins[lower as usize] < begins[upper as usize];
        if pins::is_pinned(present) && pins::is_turned(present) != turned {
            return Err(refusals::AGAINST);
        }
        bytes[index] = pins::with_pin(turned as u8, pins::is_pinned(present));
    }
    Ok(bytes)
}

/// As `take_in::take_in`.
pub fn take_in(bytes: &[u8], side: u16, order: &[u16], layout: &mut [u8]) -> Result<TakenIn, Refusal> {
    let side = Side::of(side)?;
    let record = record::read(bytes)?;
    let given = bytes_giving(&record, side, order)?;
    room::put(&given[..record.n - 1], layout)?;
    let mut sets = [(Seen::none(), 0); 2 * MOST_LEAVES];
    set_leaves(&record, side, &mut sets);
    let mut taken = TakenIn { count: 0, least: true };
    for (index, row) in record.rows(side).iter().enumerate() {
        let [upper, lower] = row.map(|child| child as usize);
        let as_given = pairs_past(&sets[upper], &sets[lower]);
        let turned_over = sets[upper].1 * sets[lower].1 - as_given;
        let turned = pins::is_turned(given[index]);
        let (own, others) = if turned { (turned_over, as_given) } else { (as_given, turned_over) };
        taken.count += own;
        taken.least &= own <= others || pins::is_pinned(given[index]);
        sets[record.n + index + 1] = both(&sets[upper], &sets[lower]);
    }
    Ok(taken)
}

#[cfg(test)]
mod tests {
    use super::*;
    use crate::calls;
    use crate::faults;
    use crate::firmware;
    use crate::made;
    use crate::random::Random;
    use crate::take_in;

    #[test]
    fn an_order_is_taken_in_as_the_definitions_say() {
        let mut random = Random::new(76);
        for round in 0..3000 {
            let n = if round % 100 == 0 { 512 } else { 1 + random.below(30) };
            let made = made::any_record(n, &mut random);
            let bytes = faults::any_bytes(&made, &mut random);
            let side = random.pick(&[1, 2, 1, 2, 1, 2, 3]);
            let order = calls::any_order_made_elsewhere(&made, 1 + (side + 1) % 2, &mut random);
            let places = (n + random.below(3)).saturating_sub(2);
            let (mut one, mut two) = (vec![9; places], vec![9; places]);
            let by_definition = take_in::take_in(&bytes, side, &order, &mut two);
            assert_eq!(super::take_in(&bytes, side, &order, &mut one), by_definition);
            assert_eq!(one, two);
        }
    }

    #[test]
    fn quick_calls_do_what_the_definitions_say() {
        let mut random = Random::new(11);
        for round in 0..500 {
            let n = if round % 50 == 0 { 512 } else { 1 + random.below(90) };
            let bytes = made::any_record(n, &mut random).bytes();
            for side in [1, 2] {
                let (mut one, mut two) = (bytes.clone(), bytes.clone());
                assert_eq!(free(&mut one, side), firmware::free(&mut two, side));
                assert_eq!(one, two);
            }
            for allowance in [0, 1, 2, 3, MOST_TURNS] {
                let (mut one, mut two) = (bytes.clone(), bytes.clone());
                let report = |run: firmware::Run| (run.first, run.last, run.turns, run.settled);
                assert_eq!(run(&mut one, allowance), firmware::run(&mut two, allowance).map(report));
                assert_eq!(one, two);
            }
        }
    }
}
