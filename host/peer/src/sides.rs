// The fixed calls of a call that writes a side of a record into a buffer: every side on good records,
// those about 1 and 2 on faulty ones, with room and without; and, since it says no more, the others on
// faulty ones and on records that are held, and most records with several faults.

use crate::faults;
use crate::made::case_2;

/// Sides that are not about 1 and 2.
const FAR: [u16; 4] = [256, 257, 258, 65535];

/// Case 2 under a hold.
fn held(hold: u8) -> Vec<u8> {
    let mut made = case_2();
    made.hold = hold;
    made.bytes()
}

/// What says again what `of_a_writing_call` says.
pub fn again(room: usize, line: impl Fn(&[u8], u16, usize) -> String) -> Vec<String> {
    let mut calls = Vec::new();
    for record in faults::one_of_each() {
        calls.extend(FAR.map(|side| line(&record, side, 0)));
    }
    for hold in *b"LRB" {
        calls.extend(FAR.map(|side| line(&held(hold), side, room)));
    }
    calls.extend(faults::others_of_several(2).iter().map(|record| line(record, 2, 3)));
    calls
}

/// `line` writes a call by its record, its side and its places; case 2's sides want `room` of them.
pub fn of_a_writing_call(room: usize, line: impl Fn(&[u8], u16, usize) -> String) -> Vec<String> {
    let mut calls = Vec::new();
    for side in [0, 1, 2, 3] {
        calls.extend(b"NLRB".map(|hold| line(&held(hold), side, room)));
    }
    calls.extend(FAR.map(|side| line(&held(b'N'), side, room)));
    for record in faults::one_of_each() {
        calls.extend([0, 1, 2, 3].map(|side| line(&record, side, 0)));
    }
    for record in faults::one_of_each() {
        calls.push(line(&record, 1, room - 1));
        calls.push(line(&record, 2, room));
    }
    calls.extend(faults::some_of_several(2).iter().map(|record| line(record, 2, 3)));
    calls
}

/// Tries such a call, which answers what it tells of itself, on case 2 and on faults of it.
#[cfg(test)]
pub fn refuses_as_a_writing_call(room: usize, call: impl Fn(&[u8], u16, usize) -> String) {
    let good = case_2().bytes();
    let mut bad_row = case_2();
    bad_row.right[5] = 1;
    let mut bad_layout = case_2();
    bad_layout.left_layout[1] = 4;
    let (bad_row, bad_layout) = (bad_row.bytes(), bad_layout.bytes());
    let calls = [
        (&good[..], 0, 0, "13"),
        (&good, 3, 99, "13"),
        (&good, 257, 99, "13"),
        (&good, 65535, 99, "13"),
        (&bad_row, 3, 0, "13"),
        (&[], 0, 0, "13"),
        (&[], 1, 0, "1"),
        (&bad_row, 1, 0, "8 3"),
        (&bad_row, 2, 99, "8 3"),
        (&bad_layout, 2, 0, "10"),
        (&good, 1, room - 1, "14"),
        (&good, 2, 0, "14"),
        (&good, 1, room, "0"),
        (&good, 2, room + 1, "0"),
    ];
    for (bytes, side, places, wanted) in calls {
        assert_eq!(call(bytes, side, places), wanted);
    }
}
