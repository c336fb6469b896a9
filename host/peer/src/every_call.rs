// One line for every call that takes a record, those with a side once for each or for one of them, with
// arguments that are good for the record that was made: so that a fault in its bytes is what is told.

use crate::lines;
use crate::made::Made;
use crate::spelling;

/// The calls on these bytes, which are the made record's or nearly so; the check comes first.
pub fn on(made: &Made, record: &[u8]) -> Vec<String> {
    let n = made.n as usize;
    let plain = ["check", "count", "pairs", "squared_entanglement", "thousandths"];
    let mut calls: Vec<String> = plain.map(|word| lines::plain(word, record)).into();
    for side in [1, 2] {
        calls.push(lines::order(record, side, &vec![9; n]));
        calls.push(lines::free(record, side));
    }
    calls.push(lines::run(record, 130_818));
    let last_row = made.n - 1;
    calls.push(lines::hands(record, &[(1, last_row), (2, 1)]));
    calls.push(lines::hands(record, &[]));
    calls.push(lines::pin(record, 2, last_row, 1));
    let first = made.present_order(1);
    let second = made.order_of(1, &vec![1; n - 1]);
    calls.push(lines::better("better", record, 1, &first, &second));
    calls.push(lines::better("better_check", record, 1, &first, &second));
    calls.push(lines::take_in(record, 2, &made.present_order(2), &vec![8; n - 1]));
    calls.push(lines::hold(record, b'B'));
    let numbers = [vec![8; 2 * (n - 1)], vec![8; 2 * (n - 1)], vec![8; n]];
    calls.push(lines::unpack(record, &numbers, &[vec![8; n - 1], vec![8; n - 1]]));
    let length = spelling::tree(&made.left, &made.left_layout).concat().len();
    calls.push(lines::newick_write(record, 2, &vec![8; length]));
    calls.push(lines::merge_write(record, 1, &vec![8; 2 * (n - 1)]));
    calls
}
