// Calls written as lines of `desk`, without their line feeds. Numbers may be given as text too,
// so that a call can be written with a number that is too large or has leading zeros.

use std::fmt::Display;

use crate::desk::{commas, hex};
use crate::made::Made;

/// A call that takes a record and nothing else.
pub fn plain(word: &str, record: &[u8]) -> String {
    format!("{word} {}", hex(record))
}

pub fn order(record: &[u8], side: impl Display, out: &[u16]) -> String {
    format!("order {} {side} {}", hex(record), commas(out))
}

pub fn free(record: &[u8], side: impl Display) -> String {
    format!("free {} {side}", hex(record))
}

pub fn run(record: &[u8], allowance: impl Display) -> String {
    format!("run {} {allowance}", hex(record))
}

pub fn hands(record: &[u8], entries: &[(u16, u16)]) -> String {
    let entry = |(side, row): &(u16, u16)| format!("{side}:{row}");
    let entries = match entries {
        [] => "-".to_string(),
        _ => entries.iter().map(entry).collect::<Vec<_>>().join(","),
    };
    format!("hands {} {entries}", hex(record))
}

/// `better` or `better_check`.
pub fn better(word: &str, record: &[u8], side: impl Display, first: &[u16], second: &[u16]) -> String {
    format!("{word} {} {side} {} {}", hex(record), commas(first), commas(second))
}

pub fn hold(record: &[u8], letter: impl Display) -> String {
    format!("hold {} {letter}", hex(record))
}

/// The flag is 1 to pin and 0 to unpin.
pub fn pin(record: &[u8], side: impl Display, row: impl Display, flag: impl Display) -> String {
    format!("pin {} {side} {row} {flag}", hex(record))
}

/// The layout is what the buffer holds before.
pub fn take_in(record: &[u8], side: impl Display, order: &[u16], layout: &[u8]) -> String {
    format!("take_in {} {side} {} {}", hex(record), commas(order), hex(layout))
}

/// The packing of a made record's lists under its hold; n is given apart from them.
pub fn pack(n: impl Display, made: &Made, out: &[u8]) -> String {
    let lists = [&made.left, &made.right, &made.links].map(|list| commas(list)).join(" ");
    let layouts = [&made.left_layout, &made.right_layout].map(|bytes| hex(bytes)).join(" ");
    format!("pack {} {n} {lists} {layouts} {}", made.hold, hex(out))
}

pub fn unpack(record: &[u8], numbers: &[Vec<u16>; 3], layouts: &[Vec<u8>; 2]) -> String {
    let lists = numbers.each_ref().map(|list| commas(list)).join(" ");
    let layouts = layouts.each_ref().map(|bytes| hex(bytes)).join(" ");
    format!("unpack {} {lists} {layouts}", hex(record))
}

pub fn newick_read(text: &[u8], out: &[u16]) -> String {
    format!("newick_read {} {}", hex(text), commas(out))
}

pub fn newick_write(record: &[u8], side: impl Display, out: &[u8]) -> String {
    format!("newick_write {} {side} {}", hex(record), hex(out))
}

/// The entries may be numbers or text.
pub fn merge_read<T: ToString>(n: impl Display, table: &[T], out: &[u16]) -> String {
    format!("merge_read {n} {} {}", commas(table), commas(out))
}

pub fn merge_write(record: &[u8], side: impl Display, out: &[i32]) -> String {
    format!("merge_write {} {side} {}", hex(record), commas(out))
}
