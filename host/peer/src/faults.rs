// Faulty records. The fixed ones are the record of case 2 with one fault or with several, so
// that every refusal from 1 to 10 and the order of the tests show; the others are good records
// damaged at random, in one of their parts, in their first bytes or length, or in any byte.

use crate::made::{case_2, Made};
use crate::random::Random;

const LEFT_ROWS: usize = 8;
const RIGHT_ROWS: usize = 20;
const LINKS: usize = 32;
const LEFT_LAYOUT: usize = 40;
const RIGHT_LAYOUT: usize = 43;

/// Case 2's bytes with some of them set.
fn with(changes: &[(usize, u8)]) -> Vec<u8> {
    let mut bytes = case_2().bytes();
    for &(at, byte) in changes {
        bytes[at] = byte;
    }
    bytes
}

fn of_length(length: usize) -> Vec<u8> {
    let mut bytes = case_2().bytes();
    bytes.resize(length, 0);
    bytes
}

/// Case 2's bytes with the two-byte number at a place set.
fn number_at(at: usize, number: u16) -> Vec<u8> {
    with(&[(at, (number / 256) as u8), (at + 1, (number % 256) as u8)])
}

/// Case 2 with one fault, for each refusal from 1 to 10 in many ways.
pub fn single() -> Vec<Vec<u8>> {
    let mut faulty: Vec<Vec<u8>> = [0, 1, 5, 7].map(of_length).into();
    faulty.extend([(0, b'X'), (1, b'g'), (2, b'M'), (2, 0)].map(|change| with(&[change])));
    faulty.extend([vec![0; 8], vec![0; 46], vec![255; 46]]);
    faulty.extend([0x0100, 0, 2, 0x0101].map(|version| number_at(3, version)));
    faulty.extend([0, b'n', b'M', 1, 255].map(|hold| with(&[(5, hold)])));
    faulty.extend([0, 513, 0x0400, 0x0404, 65535].map(|n| number_at(6, n)));
    faulty.extend([8, 9, 10, 45, 47, 58, 92].map(of_length));
    faulty.extend([1, 3, 5, 512].map(|n| number_at(6, n)));
    for rows in [LEFT_ROWS, RIGHT_ROWS] {
        faulty.extend([0, 2, 5, 6, 7, 8, 257, 65535].map(|upper| number_at(rows, upper)));
        faulty.extend([0, 1, 3, 6, 7].map(|lower| number_at(rows + 6, lower)));
        faulty.extend([0, 1, 2, 5, 7, 8, 0x0106].map(|lower| number_at(rows + 10, lower)));
    }
    faulty.extend([0, 2, 5, 257, 65535].map(|link| number_at(LINKS, link)));
    faulty.extend([0, 1, 5, 260].map(|link| number_at(LINKS + 6, link)));
    let layout_places = [LEFT_LAYOUT, LEFT_LAYOUT + 2, RIGHT_LAYOUT, RIGHT_LAYOUT + 2];
    faulty.extend(layout_places.map(|at| with(&[(at, 4)])));
    faulty.extend([255, 128, b'0'].map(|byte| with(&[(LEFT_LAYOUT + 1, byte)])));
    faulty
}

/// One change for each of the refusals 2 to 5 and 7 to 10, in this order. The bad rows are 2 and 3.
const CHANGES: [(usize, u8); 9] = [
    (0, b'X'),
    (4, 2),
    (5, b'n'),
    (6, 2),
    (LEFT_ROWS + 5, 0),
    (RIGHT_ROWS + 9, 0),
    (LINKS + 1, 0),
    (LEFT_LAYOUT, 4),
    (RIGHT_LAYOUT + 2, 4),
];

/// Case 2 with one fault for each refusal from 1 to 10, once.
pub fn one_of_each() -> Vec<Vec<u8>> {
    let mut faulty: Vec<Vec<u8>> = CHANGES.iter().map(|&change| with(&[change])).collect();
    faulty.extend([of_length(7), of_length(45)]);
    faulty
}

/// Case 2 with two faults, then with more and more of them.
pub fn several() -> Vec<Vec<u8>> {
    let mut faulty = Vec::new();
    for (index, &one) in CHANGES.iter().enumerate() {
        for &two in &CHANGES[index + 1..] {
            faulty.push(with(&[one, two]));
        }
        for length in [7, 8, 45, 47] {
            let mut bytes = with(&[one]);
            bytes.resize(length, 0);
            faulty.push(bytes);
        }
        faulty.push(with(&CHANGES[index..]));
    }
    faulty
}

/// A quarter of those with several faults, for calls that are not the check, which has them all: each call
/// has a turn, from 0 to 3.
pub fn some_of_several(turn: usize) -> Vec<Vec<u8>> {
    several().into_iter().skip(turn).step_by(4).collect()
}

/// The others.
pub fn others_of_several(turn: usize) -> Vec<Vec<u8>> {
    let others = several().into_iter().enumerate().filter(|(at, _)| at % 4 != turn);
    others.map(|(_, record)| record).collect()
}

/// Damages a row, a link or a layout byte of a made record, where it has one.
pub fn damage_a_part(made: &mut Made, random: &mut Random) {
    let n = made.n;
    match random.below(8) {
        0..=2 => damage_a_row(&mut made.left, n, random),
        3..=5 => damage_a_row(&mut made.right, n, random),
        6 => damage_a_link(&mut made.links, random),
        _ => {
            let layout = made.layout_mut(1 + random.below(2) as u16);
            if !layout.is_empty() {
                let at = random.below(layout.len());
                layout[at] = random.pick(&[4, 4, 5, 6, 7, 8, 48, 49, 128, 130, 254, 255]);
            }
        }
    }
}

/// The other entry of the row at a place, or the same where the list ends with half a row.
pub fn other_entry<T: Copy>(rows: &[T], at: usize) -> T {
    *rows.get(at ^ 1).unwrap_or(&rows[at])
}

fn damage_a_row(rows: &mut [u16], n: u16, random: &mut Random) {
    if rows.is_empty() {
        return;
    }
    let at = random.below(rows.len());
    let object = n + at as u16 / 2 + 1;
    rows[at] = match random.below(8) {
        0 => 0,
        1 => other_entry(rows, at),
        2 => object,
        3 => object + random.below(4) as u16,
        4 => rows[at].wrapping_add(256),
        5 => 2 * n - 1,
        6 => random.pick(&[65535, 32768, 2 * n, 512, 1024]),
        _ => 1 + random.below(object as usize - 1) as u16,
    };
}

fn damage_a_link(links: &mut [u16], random: &mut Random) {
    let at = random.below(links.len());
    links[at] = match random.below(5) {
        0 => 0,
        1 => links.len() as u16 + 1,
        2 => links[at].wrapping_add(256),
        3 => random.pick(&[65535, 513, 512]),
        _ => links[random.below(links.len())],
    };
}

/// Damages the first eight bytes or the length.
pub fn damage_the_head(bytes: &mut Vec<u8>, random: &mut Random) {
    match random.below(7) {
        0 => bytes.truncate(random.below(8)),
        1 => bytes[random.below(3)] ^= 1 + random.below(255) as u8,
        2 => bytes[3 + random.below(2)] ^= 1 + random.below(255) as u8,
        3 => bytes[5] = random.pick(b"nlrbMXA \0\x01\xff"),
        4 => {
            let any = 1 + random.below(600) as u16;
            let n = random.pick(&[0, 0, 513, 513, 514, 1024, 32768, 65535, any]);
            bytes[6] = (n / 256) as u8;
            bytes[7] = (n % 256) as u8;
            if random.chance(500) && (1..560).contains(&n) {
                bytes.resize(12 * n as usize - 2, 0);
            }
        }
        _ => {
            let length = match random.below(4) {
                0 => bytes.len() - 1,
                1 => bytes.len() + 1 + random.below(20),
                2 => bytes.len() + 1,
                _ => random.below(bytes.len()),
            };
            bytes.resize(length, random.below(256) as u8);
        }
    }
}

/// The bytes of a made record, in most cases as they are, the more so over 512 leaves.
pub fn any_bytes(made: &Made, random: &mut Random) -> Vec<u8> {
    let mut made = made.clone();
    let kind = random.below(if made.n == 512 { 500 } else { 100 });
    if matches!(kind, 0..=12 | 20..=23) {
        for _ in 0..random.pick(&[1, 1, 1, 2, 3]) {
            damage_a_part(&mut made, random);
        }
    }
    let mut bytes = made.bytes();
    match kind {
        13..=22 => damage_the_head(&mut bytes, random),
        23 => {
            damage_the_head(&mut bytes, random);
            if bytes.len() >= 8 {
                damage_the_head(&mut bytes, random);
            }
        }
        24..=27 => {
            for _ in 0..1 + random.below(4) {
                let at = random.below(bytes.len());
                bytes[at] = random.below(256) as u8;
            }
        }
        _ => {}
    }
    bytes
}

#[cfg(test)]
mod tests {
    use super::*;
    use crate::firmware;
    use crate::refusals::told;

    #[test]
    fn lists_of_any_length_can_be_damaged() {
        let mut random = Random::new(22);
        for _ in 0..2000 {
            let mut rows: Vec<u16> = (0..random.below(4) as u16).collect();
            damage_a_row(&mut rows, 3, &mut random);
        }
        assert_eq!([0, 1, 2].map(|at| other_entry(&[5, 6, 7], at)), [6, 5, 7]);
    }

    #[test]
    fn the_fixed_faults_show_every_refusal() {
        assert_eq!(case_2().bytes().len(), 46);
        let each: Vec<String> = one_of_each().iter().map(|bytes| told(&firmware::check(bytes))).collect();
        assert_eq!(each.join(","), "2,3,4,5,7 2,8 3,9,10,10,1,6");
        assert!(single().iter().chain(&several()).all(|bytes| firmware::check(bytes).is_err()));
    }
}
