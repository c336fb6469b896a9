// Pinned rows: what the four layout bytes say, and the call that pins or unpins one row.
//   0  as given              2  as given, pinned
//   1  turned over           3  turned over, pinned
// Orders read the turning only. Freeing, runs and hand lists leave a pinned row's byte as it is.

use crate::record::{self, Side};
use crate::refusals::Refusal;

/// The largest layout byte.
pub const MOST: u8 = 3;

/// Whether a row with this byte is turned over, pinned or not.
pub fn is_turned(byte: u8) -> bool {
    byte == 1 || byte == 3
}

/// Whether a row with this byte is pinned, turned over or not.
pub fn is_pinned(byte: u8) -> bool {
    byte == 2 || byte == 3
}

/// The byte of the same turning, pinned or not.
pub fn with_pin(byte: u8, pinned: bool) -> u8 {
    match (is_turned(byte), pinned) {
        (false, false) => 0,
        (true, false) => 1,
        (false, true) => 2,
        (true, true) => 3,
    }
}

/// Pins or unpins a row, which keeps its turning, whatever is held: 13, 1 to 10, 15.
pub fn pin(bytes: &mut [u8], side: u16, row: u16, pinned: bool) -> Result<(), Refusal> {
    let side = Side::of(side)?;
    let mut record = record::read(bytes)?;
    let index = record.index(row)?;
    record.set_pin(side, index, pinned);
    record.put_layouts(bytes);
    Ok(())
}

#[cfg(test)]
mod tests {
    use super::*;
    use crate::faults;
    use crate::firmware;
    use crate::made::{any_record, case_2, example};
    use crate::random::Random;
    use crate::refusals::told;

    #[test]
    fn the_four_bytes() {
        let bytes = [0, 1, 2, 3];
        assert_eq!(bytes.map(is_turned), [false, true, false, true]);
        assert_eq!(bytes.map(is_pinned), [false, false, true, true]);
        assert_eq!(bytes.map(|byte| with_pin(byte, true)), [2, 3, 2, 3]);
        assert_eq!(bytes.map(|byte| with_pin(byte, false)), [0, 1, 0, 1]);
    }

    #[test]
    fn one_byte_changes_and_no_order() {
        let mut random = Random::new(32);
        for round in 0..300 {
            let n = if round % 60 == 0 { 512 } else { 2 + random.below(20) };
            let made = any_record(n, &mut random);
            let (side, row) = (1 + random.below(2) as u16, 1 + random.below(n - 1) as u16);
            for pinned in [true, false] {
                let mut bytes = made.bytes();
                assert_eq!(pin(&mut bytes, side, row, pinned), Ok(()));
                let mut wanted = made.clone();
                let byte = &mut wanted.layout_mut(side)[row as usize - 1];
                *byte = *byte % 2 + if pinned { 2 } else { 0 };
                assert_eq!(bytes, wanted.bytes());
                assert_eq!(firmware::pairs(&bytes), firmware::pairs(&made.bytes()));
                assert_eq!(wanted.present_order(side), made.present_order(side));
            }
        }
    }

    #[test]
    fn a_held_side_can_be_pinned_and_unpinned() {
        for hold in *b"NLRB" {
            let mut made = case_2();
            made.hold = hold;
            for side in [1, 2] {
                let mut bytes = made.bytes();
                assert_eq!(pin(&mut bytes, side, 3, true), Ok(()));
                assert_eq!(pin(&mut bytes, side, 3, true), Ok(()));
                assert_ne!(bytes, made.bytes());
                assert_eq!(pin(&mut bytes, side, 3, false), Ok(()));
                assert_eq!(bytes, made.bytes());
            }
        }
    }

    #[test]
    fn the_side_then_the_record_then_the_row() {
        let refused = |bytes: &[u8], side: u16, row: u16| {
            let told: Vec<String> = [true, false]
                .map(|pinned| {
                    let mut lent = bytes.to_vec();
                    let result = pin(&mut lent, side, row, pinned);
                    assert!(result.is_ok() || lent == bytes);
                    told(&result)
                })
                .into();
            assert_eq!(told[0], told[1]);
            told[0].clone()
        };
        let good = case_2().bytes();
        for row in [0, 4, 5, 256, 257, 65535] {
            assert_eq!(refused(&good, 1, row), "15");
            assert_eq!(refused(&good, 2, row), "15");
        }
        for side in [0, 3, 256, 257, 258, 65535] {
            assert_eq!(refused(&good, side, 1), "13");
            assert_eq!(refused(&good, side, 0), "13");
        }
        for bytes in faults::single().iter().chain(&faults::several()) {
            let wanted = told(&firmware::check(bytes));
            assert_eq!(refused(bytes, 3, 0), "13");
            assert_eq!(refused(bytes, 1, 0), wanted);
            assert_eq!(refused(bytes, 2, 1), wanted);
        }
        let one_leaf = example(&[], &[]).bytes();
        for row in [0, 1, 2, 65535] {
            assert_eq!(refused(&one_leaf, 1, row), "15");
            assert_eq!(refused(&one_leaf, 3, row), "13");
        }
    }
}
