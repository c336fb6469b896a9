// The record: its bytes, its refusals 1 to 10, packing, unpacking and the hold.
// A record is taken apart into numbers before anything is done with it, so that the other
// files speak of rows, links and layouts only. Rows, links and layouts are kept in arrays
// for the most leaves there can be; only the first n-1 or n places are in use.

use crate::pins;
use crate::refusals::{self, Refusal};
use crate::room;
use crate::tree;

pub const MOST_LEAVES: usize = 512;
const MARK: &[u8] = b"TGP";
const VERSION: u16 = 1;
const HOLD_BYTE: usize = 5;
const HEAD: usize = 8;

/// Upper, then lower.
pub type Row = [u16; 2];

#[derive(Clone, Copy, Debug, PartialEq, Eq)]
pub enum Side {
    Left,
    Right,
}

impl Side {
    /// The side of a number, or refusal 13.
    pub fn of(number: u16) -> Result<Side, Refusal> {
        match number {
            1 => Ok(Side::Left),
            2 => Ok(Side::Right),
            _ => Err(refusals::SIDE),
        }
    }
}

/// A record whose parts have been tested, or are about to be.
pub struct Record {
    pub hold: u8,
    pub n: usize,
    rows: [[Row; MOST_LEAVES]; 2],
    links: [u16; MOST_LEAVES],
    layouts: [[u8; MOST_LEAVES]; 2],
}

impl Record {
    fn blank(hold: u8, n: usize) -> Record {
        Record {
            hold,
            n,
            rows: [[[0; 2]; MOST_LEAVES]; 2],
            links: [0; MOST_LEAVES],
            layouts: [[0; MOST_LEAVES]; 2],
        }
    }

    /// Row i stands at index i-1.
    pub fn rows(&self, side: Side) -> &[Row] {
        &self.rows[side as usize][..self.n - 1]
    }

    /// p(a) stands at index a-1.
    pub fn links(&self) -> &[u16] {
        &self.links[..self.n]
    }

    /// The byte of row i stands at index i-1.
    pub fn layout(&self, side: Side) -> &[u8] {
        &self.layouts[side as usize][..self.n - 1]
    }

    /// The index of a row, or refusal 15.
    pub fn index(&self, row: u16) -> Result<usize, Refusal> {
        if row == 0 || row as usize > self.n - 1 {
            return Err(refusals::ROW);
        }
        Ok(row as usize - 1)
    }

    /// Turns the row at this index over, from its present byte; a pin stays.
    pub fn turn(&mut self, side: Side, index: usize) {
        self.layouts[side as usize][index] ^= 1;
    }

    pub fn is_pinned(&self, side: Side, index: usize) -> bool {
        pins::is_pinned(self.layout(side)[index])
    }

    /// Pins or unpins the row at this index.
    pub fn set_pin(&mut self, side: Side, index: usize, pinned: bool) {
        let byte = &mut self.layouts[side as usize][index];
        *byte = pins::with_pin(*byte, pinned);
    }

    pub fn held(&self, side: Side) -> bool {
        match side {
            Side::Left => self.hold == b'L' || self.hold == b'B',
            Side::Right => self.hold == b'R' || self.hold == b'B',
        }
    }

    /// Refusals 7 to 10.
    fn test_parts(&self) -> Result<(), Refusal> {
        if let Some(row) = tree::lowest_bad_row(self.rows(Side::Left)) {
            return Err(refusals::left_row(row));
        }
        if let Some(row) = tree::lowest_bad_row(self.rows(Side::Right)) {
            return Err(refusals::right_row(row));
        }
        if !one_to_one(self.links()) {
            return Err(refusals::LINKS);
        }
        let bytes_of = |side| self.layout(side).iter();
        if bytes_of(Side::Left).chain(bytes_of(Side::Right)).any(|&byte| byte > pins::MOST) {
            return Err(refusals::LAYOUT);
        }
        Ok(())
    }

    /// Writes both layouts where they stand in the record's bytes.
    pub fn put_layouts(&self, bytes: &mut [u8]) {
        let (left, right) = bytes[HEAD + 10 * self.n - 8..].split_at_mut(self.n - 1);
        left.copy_from_slice(self.layout(Side::Left));
        right.copy_from_slice(self.layout(Side::Right));
    }
}

/// How many leaves this n says: 5 if it is 0 or above the most.
pub fn leaves(n: u16) -> Result<usize, Refusal> {
    match n as usize {
        leaves @ 1..=MOST_LEAVES => Ok(leaves),
        _ => Err(refusals::SIZE),
    }
}

/// 12n-2.
fn length(n: usize) -> usize {
    12 * n - 2
}

fn is_hold(letter: u8) -> bool {
    matches!(letter, b'N' | b'L' | b'R' | b'B')
}

/// Each of 1 to n once.
fn one_to_one(links: &[u16]) -> bool {
    let mut taken = [false; MOST_LEAVES + 1];
    for &right in links {
        let right = right as usize;
        if right < 1 || right > links.len() || taken[right] {
            return false;
        }
        taken[right] = true;
    }
    true
}

/// A number of two bytes, the high byte first.
fn two_bytes(bytes: &[u8]) -> u16 {
    u16::from_be_bytes([bytes[0], bytes[1]])
}

/// Refusals 1 to 5; else the hold and n.
fn read_head(bytes: &[u8]) -> Result<(u8, usize), Refusal> {
    if bytes.len() < HEAD {
        return Err(refusals::SHORT);
    }
    if &bytes[..3] != MARK {
        return Err(refusals::MARK);
    }
    if two_bytes(&bytes[3..]) != VERSION {
        return Err(refusals::VERSION);
    }
    let hold = bytes[HOLD_BYTE];
    if !is_hold(hold) {
        return Err(refusals::HOLD);
    }
    Ok((hold, leaves(two_bytes(&bytes[6..]))?))
}

/// Refusals 1 to 10; else the record.
pub fn read(bytes: &[u8]) -> Result<Record, Refusal> {
    let (hold, n) = read_head(bytes)?;
    if bytes.len() != length(n) {
        return Err(refusals::LENGTH);
    }
    let mut record = Record::blank(hold, n);
    let (left_rows, rest) = bytes[HEAD..].split_at(4 * (n - 1));
    let (right_rows, rest) = rest.split_at(4 * (n - 1));
    let (links, rest) = rest.split_at(2 * n);
    let (left_layout, right_layout) = rest.split_at(n - 1);
    read_rows(left_rows, &mut record.rows[0]);
    read_rows(right_rows, &mut record.rows[1]);
    for (link, two) in record.links.iter_mut().zip(links.chunks_exact(2)) {
        *link = two_bytes(two);
    }
    record.layouts[0][..n - 1].copy_from_slice(left_layout);
    record.layouts[1][..n - 1].copy_from_slice(right_layout);
    record.test_parts()?;
    Ok(record)
}

fn read_rows(bytes: &[u8], rows: &mut [Row; MOST_LEAVES]) {
    for (row, four) in rows.iter_mut().zip(bytes.chunks_exact(4)) {
        *row = [two_bytes(four), two_bytes(&four[2..])];
    }
}

/// Sets the hold, in byte 5: 4 for the letter, then 1 to 10.
pub fn set_hold(bytes: &mut [u8], letter: u8) -> Result<(), Refusal> {
    if !is_hold(letter) {
        return Err(refusals::HOLD);
    }
    read(bytes)?;
    bytes[HOLD_BYTE] = letter;
    Ok(())
}

/// The five lists that packing takes. Rows are flat, upper then lower.
pub struct Parts<'a> {
    pub left: &'a [u16],
    pub right: &'a [u16],
    pub links: &'a [u16],
    pub left_layout: &'a [u8],
    pub right_layout: &'a [u8],
}

/// Packs a record into the first 12n-2 bytes of `out`: 4, 5, 6, 7 to 10, 14.
pub fn pack(hold: u8, n: u16, parts: &Parts, out: &mut [u8]) -> Result<(), Refusal> {
    test_packing(hold, n, parts)?;
    let mut bytes = MARK.to_vec();
    bytes.extend(VERSION.to_be_bytes());
    bytes.push(hold);
    bytes.extend(n.to_be_bytes());
    for number in [parts.left, parts.right, parts.links].concat() {
        bytes.extend(number.to_be_bytes());
    }
    bytes.extend(parts.left_layout);
    bytes.extend(parts.right_layout);
    room::put(&bytes, out)
}

/// Packing's 4, 5, 6 and 7 to 10.
fn test_packing(hold: u8, n: u16, parts: &Parts) -> Result<(), Refusal> {
    if !is_hold(hold) {
        return Err(refusals::HOLD);
    }
    let n = leaves(n)?;
    let rows_fit = parts.left.len() == 2 * (n - 1) && parts.right.len() == 2 * (n - 1);
    let layouts_fit = parts.left_layout.len() == n - 1 && parts.right_layout.len() == n - 1;
    if !rows_fit || !layouts_fit || parts.links.len() != n {
        return Err(refusals::LENGTH);
    }
    let mut record = Record::blank(hold, n);
    for i in 0..n - 1 {
        record.rows[0][i] = [parts.left[2 * i], parts.left[2 * i + 1]];
        record.rows[1][i] = [parts.right[2 * i], parts.right[2 * i + 1]];
    }
    record.links[..n].copy_from_slice(parts.links);
    record.layouts[0][..n - 1].copy_from_slice(parts.left_layout);
    record.layouts[1][..n - 1].copy_from_slice(parts.right_layout);
    record.test_parts()
}

/// The five buffers that unpacking writes.
pub struct Buffers {
    pub left: Vec<u16>,
    pub right: Vec<u16>,
    pub links: Vec<u16>,
    pub left_layout: Vec<u8>,
    pub right_layout: Vec<u8>,
}

/// Unpacks a record into the first places of the buffers: 1 to 10, 14, or the hold and n.
pub fn unpack(bytes: &[u8], buffers: &mut Buffers) -> Result<(u8, u16), Refusal> {
    let record = read(bytes)?;
    let n = record.n;
    let rows_fit = buffers.left.len() >= 2 * (n - 1) && buffers.right.len() >= 2 * (n - 1);
    let layouts_fit = buffers.left_layout.len() >= n - 1 && buffers.right_layout.len() >= n - 1;
    if !rows_fit || !layouts_fit || buffers.links.len() < n {
        return Err(refusals::BUFFER);
    }
    buffers.left[..2 * (n - 1)].copy_from_slice(&record.rows(Side::Left).concat());
    buffers.right[..2 * (n - 1)].copy_from_slice(&record.rows(Side::Right).concat());
    buffers.links[..n].copy_from_slice(record.links());
    buffers.left_layout[..n - 1].copy_from_slice(record.layout(Side::Left));
    buffers.right_layout[..n - 1].copy_from_slice(record.layout(Side::Right));
    Ok((record.hold, n as u16))
}

#[cfg(test)]
mod tests {
    use super::*;
    use crate::made;
    use crate::random::Random;

    fn unpack_and_pack(bytes: &[u8]) -> Vec<u8> {
        let n = MOST_LEAVES;
        let mut buffers = Buffers {
            left: vec![7; 2 * n],
            right: vec![7; 2 * n],
            links: vec![7; n],
            left_layout: vec![7; n],
            right_layout: vec![7; n],
        };
        let (hold, n) = unpack(bytes, &mut buffers).unwrap();
        let leaves = n as usize;
        let parts = Parts {
            left: &buffers.left[..2 * (leaves - 1)],
            right: &buffers.right[..2 * (leaves - 1)],
            links: &buffers.links[..leaves],
            left_layout: &buffers.left_layout[..leaves - 1],
            right_layout: &buffers.right_layout[..leaves - 1],
        };
        let mut out = vec![9; bytes.len() + 3];
        assert_eq!(pack(hold, n, &parts, &mut out), Ok(()));
        assert_eq!(out.split_off(bytes.len()), [9, 9, 9]);
        out
    }

    #[test]
    fn pack_after_unpack_gives_the_same_bytes() {
        let mut random = Random::new(1);
        for round in 0..300 {
            let n = if round % 60 == 0 { 512 } else { 1 + random.below(40) };
            let bytes = made::any_record(n, &mut random).bytes();
            assert_eq!(unpack_and_pack(&bytes), bytes);
        }
    }

    #[test]
    fn the_hold_is_set_in_byte_5_only() {
        let mut random = Random::new(2);
        let before = made::any_record(9, &mut random).bytes();
        for letter in 0..=255 {
            let mut after = before.clone();
            let good = b"NLRB".contains(&letter);
            assert_eq!(set_hold(&mut after, letter), if good { Ok(()) } else { Err(refusals::HOLD) });
            let mut wanted = before.clone();
            wanted[5] = if good { letter } else { before[5] };
            assert_eq!(after, wanted);
        }
    }
}
