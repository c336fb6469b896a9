// Seeded calls: the fixed ones first, then calls of every kind at random, most of them over few
// leaves and some over 512, most of them good and many of them faulty. The same seed and the
// same number give the same bytes on every machine.

use std::io::{self, Write};

use crate::crossings;
use crate::displaced;
use crate::edges;
use crate::faults;
use crate::lines;
use crate::made::{self, Made};
use crate::malformed;
use crate::orders;
use crate::random::Random;
use crate::spelling;
use crate::tables;

/// Writes so many lines.
pub fn write(seed: u64, count: u64, out: &mut impl Write) -> io::Result<()> {
    let mut random = Random::new(seed);
    let mut edges = edges::all().into_iter();
    for _ in 0..count {
        let line = match edges.next() {
            Some(line) => line.into_bytes(),
            None => any_line(&mut random),
        };
        out.write_all(&line)?;
        out.write_all(b"\n")?;
    }
    Ok(())
}

fn any_line(random: &mut Random) -> Vec<u8> {
    let call = any_call(random);
    if random.chance(40) {
        malformed::damaged(&call, random)
    } else {
        call.into_bytes()
    }
}

fn any_size(random: &mut Random) -> usize {
    match random.below(1000) {
        0..=18 => 512,
        19 => 511,
        20..=21 => 200 + random.below(311),
        22..=29 => 25 + random.below(175),
        30..=99 => 13 + random.below(12),
        100..=149 => 1,
        150..=199 => 2,
        _ => 3 + random.below(10),
    }
}

fn any_call(random: &mut Random) -> String {
    let made = made::any_record(any_size(random), random);
    let record = faults::any_bytes(&made, random);
    match random.below(156) {
        0..=4 => lines::plain("check", &record),
        5..=13 => {
            let side = any_side(random);
            lines::order(&record, side, &any_buffer(made.n as usize, random))
        }
        14..=21 => lines::plain("count", &record),
        22..=27 => lines::plain("pairs", &record),
        28..=34 => lines::plain("squared_entanglement", &record),
        35..=46 => lines::free(&record, any_side(random)),
        47..=58 => lines::run(&record, any_allowance(random)),
        59..=70 => lines::hands(&record, &any_hands(&made, random)),
        71..=77 => any_better("better", &made, &record, random),
        78..=84 => any_better("better_check", &made, &record, random),
        85..=88 => lines::hold(&record, any_letter(random)),
        89..=94 => any_pack(made, random),
        95..=99 => any_unpack(&made, &record, random),
        100..=106 => any_newick_read(&made, random),
        107..=110 => any_newick_write(&made, &record, random),
        111..=117 => any_merge_read(&made, random),
        118..=121 => any_merge_write(&made, &record, random),
        122..=133 => any_pin(&made, &record, random),
        134..=147 => any_take_in(&made, &record, random),
        _ => any_thousandths(&made, &record, random),
    }
}

/// A number as text, now and then with zeros in front.
fn text(number: u64, random: &mut Random) -> String {
    let zeros = if random.chance(15) { 1 + random.below(30) } else { 0 };
    "0".repeat(zeros) + &number.to_string()
}

fn any_side(random: &mut Random) -> String {
    let any = random.below(65536) as u64;
    let side = if random.chance(900) {
        1 + random.below(2) as u64
    } else {
        random.pick(&[0, 0, 3, 256, 257, 258, 65535, any])
    };
    text(side, random)
}

fn any_allowance(random: &mut Random) -> String {
    let few = 1 + random.below(6) as u64;
    let any = random.next() >> 32;
    let allowance = match random.below(100) {
        0..=49 => 130_818,
        50..=79 => few,
        80..=89 => random.pick(&[1, 2, 2, 130_817, 65_536]),
        90..=98 => random.pick(&[0, 130_819, 4_294_967_295, 65_536 + 130_818, 1 << 31, any]),
        _ => random.pick(&[4_294_967_296, 4_294_967_298, u64::MAX]),
    };
    text(allowance, random)
}

fn any_letter(random: &mut Random) -> String {
    let any = random.below(256) as u64;
    let letter = if random.chance(750) { random.pick(&[66, 76, 78, 82]) } else { any };
    text(letter, random)
}

/// How many places a buffer has that should have so many.
fn any_places(wanted: usize, random: &mut Random) -> usize {
    match random.below(100) {
        0..=9 => wanted.saturating_sub(1),
        10..=11 => 0,
        12..=13 => random.below(wanted + 1),
        14..=39 => wanted + 1 + random.below(4),
        _ => wanted,
    }
}

/// What stands in so many places beforehand; single digits where there are many.
fn rubbish(places: usize, random: &mut Random) -> Vec<u16> {
    let bound = random.pick(&[1, 10, 10, 600, 65536]);
    let bound = if places > 60 { 10 } else { bound };
    (0..places).map(|_| random.below(bound) as u16).collect()
}

fn rubbish_bytes(places: usize, random: &mut Random) -> Vec<u8> {
    (0..places).map(|_| random.below(256) as u8).collect()
}

fn any_buffer(wanted: usize, random: &mut Random) -> Vec<u16> {
    let places = any_places(wanted, random);
    rubbish(places, random)
}

/// The rows that a hand list may name: of these sides, in most cases the rows that are not pinned, if
/// there are such.
fn rows_for_hands(made: &Made, sides: &[u16], random: &mut Random) -> Vec<(u16, u16)> {
    let rows = 1..=(made.n - 1).max(1);
    let all: Vec<(u16, u16)> = rows.flat_map(|row| sides.iter().map(move |&side| (side, row))).collect();
    let is_pinned = |side, row: u16| made.layout(side).get(row as usize - 1).is_some_and(|&byte| byte >= 2);
    let mut unpinned = all.clone();
    unpinned.retain(|&(side, row)| !is_pinned(side, row));
    if unpinned.is_empty() || random.chance(200) {
        all
    } else {
        unpinned
    }
}

/// A hand list: in most cases short and good, sometimes with bad entries, rarely very long.
fn any_hands(made: &Made, random: &mut Random) -> Vec<(u16, u16)> {
    let length = match random.below(1000) {
        0..=79 => 0,
        80..=85 => 1024,
        86..=91 => 1025,
        92..=93 => 1026 + random.below(100),
        94..=113 => 9 + random.below(60),
        _ => 1 + random.below(8),
    };
    let sides: &[u16] = match (made.hold, random.chance(600)) {
        (b'L', true) => &[2],
        (b'R', true) => &[1],
        _ => &[1, 2],
    };
    let rows = rows_for_hands(made, sides, random);
    let mut entries: Vec<(u16, u16)> = (0..length).map(|_| random.pick(&rows)).collect();
    if length > 0 && random.chance(220) {
        for _ in 0..random.pick(&[1, 1, 2, 3]) {
            let at = random.below(length);
            let any = random.below(65536) as u16;
            match random.below(3) {
                0 => entries[at].0 = random.pick(&[0, 3, 257, 65535, any]),
                1 => entries[at].1 = random.pick(&[0, made.n, made.n + 1, 256, 65535, any]),
                _ => entries[at] = (random.pick(&[0, 3]), random.pick(&[0, made.n])),
            }
        }
    }
    entries
}

/// A proposed order for a side: in most cases compatible, else spoilt in one way.
fn any_order(made: &Made, side: u16, random: &mut Random) -> Vec<u16> {
    let n = made.n as usize;
    let layout = made::any_layout(n, random);
    let mut order = match random.below(4) {
        0 => made.present_order(side),
        _ => made.order_of(side, &layout),
    };
    let (at, other) = (random.below(n), random.below(n));
    match random.below(100) {
        0..=3 => order.swap(at, other),
        4..=6 => order.swap(at, (at + 1) % n),
        7..=8 => order[at] = order[other],
        9 => order[at] = 0,
        10 => order[at] = random.pick(&[made.n + 1, 65535, 256 + made.n, 513]),
        11..=12 => order.truncate(n - 1),
        13 => order.truncate(at),
        14 => random.shuffle(&mut order),
        15 => order.rotate_left(at),
        16..=29 => order.extend(rubbish(1 + other % 9, random)),
        _ => {}
    }
    order
}

/// Two compatible orders which cross equally often, if a few attempts find such.
fn tied_orders(made: &Made, side: u16, random: &mut Random) -> (Vec<u16>, Vec<u16>) {
    let n = made.n as usize;
    let stands = made.present_order(3 - side);
    let crossing = |order: &[u16]| {
        let (left, right) = if side == 1 { (order, &stands[..]) } else { (&stands[..], order) };
        crossings::pair_by_pair(&crossings::link_places(left, right, &made.links))
    };
    let first = made.order_of(side, &made::any_layout(n, random));
    let mut second = first.clone();
    for _ in 0..8 {
        let order = made.order_of(side, &made::any_layout(n, random));
        if order != first && crossing(&order) == crossing(&first) {
            second = order;
        }
    }
    (first, second)
}

fn any_better(word: &str, made: &Made, record: &[u8], random: &mut Random) -> String {
    let side = 1 + random.below(2) as u16;
    let (first, second) = match random.below(10) {
        0..=2 => tied_orders(made, side, random),
        _ => (any_order(made, side, random), any_order(made, side, random)),
    };
    let named = if random.chance(930) { side.to_string() } else { any_side(random) };
    lines::better(word, record, named, &first, &second)
}

/// Packing, with lists and n that may be faulty and a buffer that may be too short.
fn any_pack(mut made: Made, random: &mut Random) -> String {
    let mut n = made.n;
    let length = 12 * n as usize - 2;
    for _ in 0..random.pick(&[1, 1, 2]) {
        match random.below(100) {
            0..=21 => faults::damage_a_part(&mut made, random),
            22..=27 => made.hold = random.below(256) as u8,
            28..=33 => n = random.pick(&[0, 513, 65535, 256 + n, n + 1, n - 1]),
            34..=43 => change_a_length(&mut made, random),
            _ => {}
        }
    }
    let places = any_places(length, random);
    let n = text(n as u64, random);
    lines::pack(n, &made, &rubbish_bytes(places.min(length + 3), random))
}

fn change_a_length(made: &mut Made, random: &mut Random) {
    let longer = random.chance(500);
    let new = |length: usize| if longer { length + 1 } else { length.saturating_sub(1) };
    match random.below(5) {
        0 => made.left.resize(new(made.left.len()), 1),
        1 => made.right.resize(new(made.right.len()), 1),
        2 => made.links.resize(new(made.links.len()), 1),
        3 => made.left_layout.resize(new(made.left_layout.len()), 0),
        _ => made.right_layout.resize(new(made.right_layout.len()), 0),
    }
}

fn any_unpack(made: &Made, record: &[u8], random: &mut Random) -> String {
    let n = made.n as usize;
    let mut wanted = [2 * (n - 1), 2 * (n - 1), n, n - 1, n - 1];
    for places in &mut wanted {
        if random.chance(200) {
            *places += 1 + random.below(3);
        }
    }
    if random.chance(250) {
        let buffer = random.below(5);
        wanted[buffer] = any_places(wanted[buffer], random).saturating_sub(1);
    }
    let [left, right, links, left_layout, right_layout] = wanted;
    let numbers = [rubbish(left, random), rubbish(right, random), rubbish(links, random)];
    let layouts = [rubbish_bytes(left_layout, random), rubbish_bytes(right_layout, random)];
    lines::unpack(record, &numbers, &layouts)
}

/// A side as a text: as it is written, with lengths, or spoilt in one way or two.
fn any_text(made: &Made, random: &mut Random) -> Vec<u8> {
    let side = 1 + random.below(2) as u16;
    let mut pieces = spelling::tree(made.rows(side), made.layout(side));
    if random.chance(600) {
        spelling::add_lengths(&mut pieces, random.pick(&[100, 500, 1000]), random);
    }
    let kind = random.below(100);
    match kind {
        0..=14 | 45 => spelling::change_a_leaf(&mut pieces, random),
        15..=24 => spelling::damage_a_piece(&mut pieces, random),
        25..=29 => spelling::add_no_length(&mut pieces, random),
        _ => {}
    }
    let mut text = pieces.concat();
    match kind {
        30..=41 | 45 => spelling::damage_a_byte(&mut text, random),
        42 => text.truncate(random.below(text.len())),
        43 => drop(text.drain(..random.below(text.len()))),
        44 => text.extend(random.pick(&[&b" "[..], b"\n\n", b"\r\n", b"\r", b"1;", b";", b"\0"])),
        46..=60 => text.push(b'\n'),
        _ => {}
    }
    text
}

fn any_newick_read(made: &Made, random: &mut Random) -> String {
    let text = any_text(made, random);
    lines::newick_read(&text, &any_buffer(2 * (made.n as usize - 1), random))
}

fn any_newick_write(made: &Made, record: &[u8], random: &mut Random) -> String {
    let side = any_side(random);
    let length = spelling::tree(made.rows(1), made.layout(1)).concat().len();
    let places = any_places(length, random);
    lines::newick_write(record, side, &rubbish_bytes(places, random))
}

/// A side as a merge table: as it is, column by column, or spoilt in one way or two; n and the room
/// may be spoilt as well.
fn any_merge_read(made: &Made, random: &mut Random) -> String {
    let mut n = made.n;
    let mut table = tables::of_rows(made.rows(1 + random.below(2) as u16));
    let exact = table.len();
    for _ in 0..random.pick(&[0, 1, 1, 2]) {
        match random.below(100) {
            0..=49 if !table.is_empty() => tables::damage_an_entry(&mut table, random),
            50..=59 => tables::change_the_length(&mut table, random),
            60..=67 => n = random.pick(&[0, 1, 512, 513, 65535, 256 + n, n + 1, n - 1]),
            68..=79 => table = tables::by_columns(&table),
            _ => {}
        }
    }
    let table: Vec<String> = table.iter().map(|&entry| tables::spelt(entry, random)).collect();
    let out = any_buffer(exact, random);
    lines::merge_read(text(n as u64, random), &table, &out)
}

/// What stands in the places of a table beforehand: small numbers, or any of 32 bits.
fn any_merge_write(made: &Made, record: &[u8], random: &mut Random) -> String {
    let side = any_side(random);
    let places = any_places(2 * (made.n as usize - 1), random);
    let wide = places <= 60 && random.chance(200);
    let rubbish = |random: &mut Random| if wide { random.next() as i32 } else { random.below(19) as i32 - 9 };
    let out: Vec<i32> = (0..places).map(|_| rubbish(random)).collect();
    lines::merge_write(record, side, &out)
}

/// Pins or unpins a row: in most cases one that there is; now and then the flag is none.
fn any_pin(made: &Made, record: &[u8], random: &mut Random) -> String {
    let any = random.below(65536);
    let n = made.n as usize;
    let row = if random.chance(880) {
        1 + random.below((n - 1).max(1))
    } else {
        random.pick(&[0, n, n, n + 1, 256 + n, 65535, any])
    };
    let flag = if random.chance(970) {
        random.below(2) as u64
    } else {
        random.pick(&[2, 3, 10, 255, 256, 257, 65536, 65537, 1 << 32, (1 << 32) + 1, u64::MAX])
    };
    let side = any_side(random);
    let row = text(row as u64, random);
    lines::pin(record, side, row, text(flag, random))
}

/// An order to be taken in: the present one, the freed one, any that is compatible or permitted, the present
/// one with a pinned row turned otherwise, one that is nearly compatible, or none at all.
pub fn any_order_made_elsewhere(made: &Made, side: u16, random: &mut Random) -> Vec<u16> {
    let n = made.n as usize;
    let pinned = orders::pinned_rows(made, side);
    match random.below(100) {
        0..=9 => made.present_order(side),
        10..=29 => orders::freed(made, side),
        30..=44 => orders::compatible(made, side, random),
        45..=64 => orders::permitted(made, side, random),
        65..=74 if !pinned.is_empty() => orders::turned(made, side, random.pick(&pinned)),
        65..=79 => {
            let order = orders::permitted(made, side, random);
            orders::exchanged(order, random.below(n), random.below(n))
        }
        80..=94 => any_order(made, side, random),
        _ => any_buffer(n, random),
    }
}

fn any_take_in(made: &Made, record: &[u8], random: &mut Random) -> String {
    let side = 1 + random.below(2) as u16;
    let mut order = any_order_made_elsewhere(made, side, random);
    if random.chance(80) {
        order.extend(rubbish(1 + random.below(9), random));
    }
    let named = if random.chance(930) { side.to_string() } else { any_side(random) };
    let places = any_places(made.n as usize - 1, random);
    lines::take_in(record, named, &order, &rubbish_bytes(places, random))
}

/// Thousandths of a record as it is, or with the least displacement for some k or the one below that.
fn any_thousandths(made: &Made, record: &[u8], random: &mut Random) -> String {
    let n = made.n as usize;
    if n < 4 || random.chance(500) {
        return lines::plain("thousandths", record);
    }
    let least = displaced::least(n, 1 + random.below(1000) as u64);
    let made = displaced::displaced(made, random.pick(&[least, least - 2]));
    lines::plain("thousandths", &faults::any_bytes(&made, random))
}

#[cfg(test)]
mod tests {
    use super::*;
    use crate::desk::{self, Call};
    use crate::firmware;
    use crate::record::{self, Side};

    #[test]
    fn a_seed_gives_the_same_lines() {
        let mut one = Vec::new();
        let mut two = Vec::new();
        write(5, 12_000, &mut one).unwrap();
        write(5, 12_000, &mut two).unwrap();
        assert!(one == two);
        let lines: Vec<&[u8]> = one.split(|&byte| byte == b'\n').collect();
        assert_eq!(lines.len(), 12_001);
        assert!(lines.iter().all(|line| line.len() <= 100_000));
    }

    #[test]
    fn most_random_lines_are_calls() {
        let mut random = Random::new(12);
        let good = (0..1000).filter(|_| desk::call(&any_line(&mut random)).is_some()).count();
        assert!((900..990).contains(&good));
    }

    #[test]
    fn random_lines_have_pins() {
        let mut random = Random::new(35);
        let (mut pinned, mut by_hand, mut pin) = (0, 0, 0);
        for _ in 0..4000 {
            let call = desk::call(&any_line(&mut random));
            let has_pins = |record: &[u8]| {
                record::read(record).is_ok_and(|record| {
                    let bytes = [Side::Left, Side::Right].map(|side| record.layout(side)).concat();
                    bytes.iter().any(|&byte| byte >= 2)
                })
            };
            match call {
                Some(Call::Free(record, _)) => pinned += has_pins(&record) as usize,
                Some(Call::Pin(record, ..)) => pin += firmware::check(&record).is_ok() as usize,
                Some(Call::Hands(mut record, entries)) if !entries.is_empty() && has_pins(&record) => {
                    by_hand += firmware::hands(&mut record, &entries).is_ok() as usize;
                }
                _ => {}
            }
        }
        assert!(pinned > 60 && by_hand > 30 && pin > 150, "{pinned} {by_hand} {pin}");
    }

    #[test]
    fn random_orders_are_taken_in_and_refused_in_every_way() {
        let mut random = Random::new(75);
        let mut seen = std::collections::BTreeMap::new();
        for _ in 0..12_000 {
            let line = any_line(&mut random);
            if let Some(Call::TakeIn(..)) = desk::call(&line) {
                let answer = desk::answer(&line);
                let words: Vec<&str> = answer.split(' ').collect();
                let key = if words[0] == "0" { format!("0 {}", words[2]) } else { words[0].to_string() };
                *seen.entry(key).or_insert(0) += 1;
            }
        }
        let enough = |key: &str, times: i32| assert!(seen.get(key) > Some(&times), "{key} {seen:?}");
        enough("0 0", 100);
        enough("0 1", 150);
        enough("16", 70);
        enough("23", 30);
        enough("14", 40);
        (1..=10).for_each(|number| enough(&number.to_string(), 0));
        assert!(!seen.contains_key("11") && !seen.contains_key("22"));
    }
}
