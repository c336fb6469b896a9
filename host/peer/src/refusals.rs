// The refusals (docs/CALLS.md): their numbers, one line each, and the row that goes with 7 and 8.
// Nothing else in this program writes such a number down, and nothing else can put a row beside
// one: it is 0 beside every other number.

use std::fmt;

#[derive(Clone, Copy, Debug, PartialEq, Eq)]
pub struct Refusal {
    number: u16,
    row: u16,
}

const fn without_row(number: u16) -> Refusal {
    Refusal { number, row: 0 }
}

pub const SHORT: Refusal = without_row(1);
pub const MARK: Refusal = without_row(2);
pub const VERSION: Refusal = without_row(3);
pub const HOLD: Refusal = without_row(4);
pub const SIZE: Refusal = without_row(5);
pub const LENGTH: Refusal = without_row(6);
pub const LINKS: Refusal = without_row(9);
pub const LAYOUT: Refusal = without_row(10);
pub const HELD: Refusal = without_row(11);
pub const ALLOWANCE: Refusal = without_row(12);
pub const SIDE: Refusal = without_row(13);
pub const BUFFER: Refusal = without_row(14);
pub const ROW: Refusal = without_row(15);
pub const ORDER: Refusal = without_row(16);
pub const HANDS: Refusal = without_row(17);
pub const GRAMMAR: Refusal = without_row(18);
pub const LEAVES: Refusal = without_row(19);
pub const ENTRY: Refusal = without_row(20);
pub const TWICE: Refusal = without_row(21);
pub const PINNED: Refusal = without_row(22);
pub const AGAINST: Refusal = without_row(23);

/// 7, with the lowest left row that breaks the tree rule.
pub const fn left_row(row: u16) -> Refusal {
    Refusal { number: 7, row }
}

/// 8, with the lowest right row that does.
pub const fn right_row(row: u16) -> Refusal {
    Refusal { number: 8, row }
}

impl fmt::Display for Refusal {
    /// As `desk` and `sheet` print it: the number, then a space and the row where it has one.
    fn fmt(&self, out: &mut fmt::Formatter) -> fmt::Result {
        match self.row {
            0 => write!(out, "{}", self.number),
            row => write!(out, "{} {row}", self.number),
        }
    }
}

/// What a call tells of itself: 0, or its refusal.
pub fn told<T>(result: &Result<T, Refusal>) -> String {
    match result {
        Ok(_) => "0".to_string(),
        Err(refusal) => refusal.to_string(),
    }
}

#[cfg(test)]
mod tests {
    use super::*;

    #[test]
    fn a_row_is_told_with_7_and_8_only() {
        let numbers = [
            SHORT, MARK, VERSION, HOLD, SIZE, LENGTH, LINKS, LAYOUT, HELD, ALLOWANCE, SIDE, BUFFER, ROW, ORDER,
            HANDS, GRAMMAR, LEAVES, ENTRY, TWICE, PINNED, AGAINST,
        ];
        assert!(numbers.iter().all(|refusal| refusal.row == 0));
        let text: Vec<String> = numbers.iter().map(|refusal| refusal.to_string()).collect();
        assert_eq!(text.join(","), "1,2,3,4,5,6,9,10,11,12,13,14,15,16,17,18,19,20,21,22,23");
        assert_eq!(left_row(3).to_string(), "7 3");
        assert_eq!(right_row(511).to_string(), "8 511");
        assert_eq!(told(&Ok(5)), "0");
        assert_eq!(told::<()>(&Err(left_row(1))), "7 1");
    }
}
