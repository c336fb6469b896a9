// What the program `sheet` prints for one record read from standard input: its first line, the
// orders, the count, D, W and the entanglement in thousandths, 0 for one leaf; then the run with
// the whole allowance and the orders afterwards.
// A bad record prints only its refusal, with the row after a 7 or an 8; a held one its first five
// lines and then REFUSED 11.

use crate::firmware;
use crate::record::{self, Record, Side};
use crate::refusals::Refusal;
use crate::tree;

const ALLOWANCE: u32 = 130_818;

/// More bytes than this are of the wrong length in any case, however many there are.
pub const ENOUGH: u64 = 6_143;

fn order_line(letter: char, record: &Record, side: Side) -> String {
    let order = tree::leaf_order(record.rows(side), record.layout(side));
    let leaves: Vec<String> = order.iter().map(|leaf| leaf.to_string()).collect();
    format!("{letter} {}\n", leaves.join(" "))
}

fn orders(record: &Record) -> String {
    order_line('L', record, Side::Left) + &order_line('R', record, Side::Right)
}

/// The first five lines.
fn first_lines(bytes: &[u8]) -> Result<String, Refusal> {
    let record = record::read(bytes)?;
    let count = firmware::count(bytes)?;
    let measure = firmware::squared_entanglement(bytes)?;
    let k = firmware::thousandths(bytes)?.unwrap_or(0);
    let head = format!("TGP 1 {} {}\n", record.hold as char, record.n);
    let numbers = format!("X {count}\nE {} {} {k}\n", measure.d, measure.w);
    Ok(head + &orders(&record) + &numbers)
}

/// The last three lines; the run changes the bytes.
fn run_lines(bytes: &mut [u8]) -> Result<String, Refusal> {
    let run = firmware::run(bytes, ALLOWANCE)?;
    let letter = if run.settled { 'S' } else { 'U' };
    let turns = format!("T {} {letter} {}\n", run.turns, run.last);
    Ok(turns + &orders(&record::read(bytes)?))
}

/// Everything that `sheet` prints for this input.
pub fn sheet(mut bytes: Vec<u8>) -> String {
    let refused = |refusal: Refusal| format!("REFUSED {refusal}\n");
    match first_lines(&bytes) {
        Ok(lines) => lines + &run_lines(&mut bytes).unwrap_or_else(refused),
        Err(refusal) => refused(refusal),
    }
}

#[cfg(test)]
mod tests {
    use super::*;
    use crate::displaced::displaced;
    use crate::made;

    const CASE_2: &str = "TGP 1 N 4\nL 4 3 1 2\nR 1 2 3 4\nX 5\nE 18 20 948\nT 2 S 0\nL 1 2 3 4\nR 1 2 3 4\n";
    const ONE_LEAF: &str = "TGP 1 N 1\nL 1\nR 1\nX 0\nE 0 0 0\nT 2 S 0\nL 1\nR 1\n";

    #[test]
    fn case_2_is_printed_exactly() {
        assert_eq!(sheet(made::case_2().bytes()), CASE_2);
    }

    #[test]
    fn one_leaf() {
        assert_eq!(sheet(made::example(&[], &[]).bytes()), ONE_LEAF);
    }

    #[test]
    fn the_third_number_of_the_fifth_line() {
        let pair = made::example(&[1, 2], &[1, 2]);
        for (d, wanted) in [(0, "E 0 2 0"), (2, "E 2 2 1000")] {
            let text = sheet(displaced(&pair, d).bytes());
            assert_eq!(text.lines().nth(4), Some(wanted));
        }
    }

    #[test]
    fn held_and_bad_records() {
        let mut record = made::case_2();
        for hold in [b'L', b'R', b'B'] {
            record.hold = hold;
            let wanted =
                format!("TGP 1 {} 4\nL 4 3 1 2\nR 1 2 3 4\nX 5\nE 18 20 948\nREFUSED 11\n", hold as char);
            assert_eq!(sheet(record.bytes()), wanted);
        }
        record.links[0] = 2;
        assert_eq!(sheet(record.bytes()), "REFUSED 9\n");
        record.right[3] = 1;
        assert_eq!(sheet(record.bytes()), "REFUSED 8 2\n");
        record.left[4] = 7;
        assert_eq!(sheet(record.bytes()), "REFUSED 7 3\n");
        assert_eq!(sheet(Vec::new()), "REFUSED 1\n");
        assert_eq!(sheet(vec![0; 6_143]), "REFUSED 2\n");
        let mut long = made::case_2().bytes();
        long.resize(6_143, 0);
        assert_eq!(sheet(long), "REFUSED 6\n");
    }
}
