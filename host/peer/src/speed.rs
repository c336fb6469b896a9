// Nanoseconds per call of check, count, free (the left), take_in (the order that freeing leaves the left)
// and run (the whole allowance) on one record. Each call includes the complete check of the record; free
// and run restore the record's bytes from a copy before each call. The answer is the median over several
// batches.

use std::hint::black_box;
use std::time::{Duration, Instant};

use crate::firmware;
use crate::quick;
use crate::record::{self, Side};
use crate::tree;

const BATCH: Duration = Duration::from_millis(50);
const BATCHES: usize = 9;

/// The median nanoseconds per call; nothing if there is no such call or the record is refused.
pub fn speed(call: &str, record: &[u8]) -> Option<u64> {
    let mut lent = record.to_vec();
    match call {
        "check" => {
            firmware::check(record).ok()?;
            Some(median(|| {
                let _ = black_box(firmware::check(black_box(record)));
            }))
        }
        "count" => {
            firmware::count(record).ok()?;
            Some(median(|| {
                let _ = black_box(firmware::count(black_box(record)));
            }))
        }
        "free" => {
            quick::free(&mut lent, 1).ok()?;
            Some(median(|| {
                lent.copy_from_slice(black_box(record));
                let _ = black_box(quick::free(black_box(&mut lent), 1));
            }))
        }
        "take_in" => {
            let order = freed_order(record)?;
            let mut layout = vec![0; order.len() - 1];
            quick::take_in(record, 1, &order, &mut layout).ok()?;
            Some(median(|| {
                let _ = black_box(quick::take_in(black_box(record), 1, black_box(&order), &mut layout));
            }))
        }
        "run" => {
            quick::run(&mut lent, 130_818).ok()?;
            Some(median(|| {
                lent.copy_from_slice(black_box(record));
                let _ = black_box(quick::run(black_box(&mut lent), 130_818));
            }))
        }
        _ => None,
    }
}

/// The left order that freeing the left leaves.
fn freed_order(record: &[u8]) -> Option<Vec<u16>> {
    let mut freed = record.to_vec();
    quick::free(&mut freed, 1).ok()?;
    let record = record::read(&freed).ok()?;
    Some(tree::leaf_order(record.rows(Side::Left), record.layout(Side::Left)))
}

/// How long so many calls take.
fn time(calls: u64, call: &mut impl FnMut()) -> Duration {
    let start = Instant::now();
    for _ in 0..calls {
        call();
    }
    start.elapsed()
}

fn median(mut call: impl FnMut()) -> u64 {
    let mut calls = 1;
    while time(calls, &mut call) < BATCH {
        calls *= 2;
    }
    let mut batches: Vec<u64> = Vec::new();
    for _ in 0..BATCHES {
        let nanoseconds = time(calls, &mut call).as_nanos() as u64;
        batches.push((nanoseconds + calls / 2) / calls);
    }
    batches.sort_unstable();
    batches[BATCHES / 2]
}
