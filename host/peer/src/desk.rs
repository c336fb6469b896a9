// The language of `desk`: one line is one call, and each line is answered with one line.
// A line is taken apart whole before anything is tested; one that is no call is answered `?`.
// At most 1,048,576 bytes are read, and a line that does not end within them gets no answer.

use crate::firmware;
use crate::merge;
use crate::newick;
use crate::pins;
use crate::record::{self, Buffers, Parts};
use crate::refusals::{told, Refusal};
use crate::take_in;

pub const MOST_BYTES: usize = 1_048_576;

#[derive(Debug, PartialEq)]
pub enum Call {
    Check(Vec<u8>),
    Order(Vec<u8>, u16, Vec<u16>),
    Count(Vec<u8>),
    Pairs(Vec<u8>),
    SquaredEntanglement(Vec<u8>),
    Thousandths(Vec<u8>),
    Free(Vec<u8>, u16),
    Run(Vec<u8>, u32),
    Hands(Vec<u8>, Vec<(u16, u16)>),
    Better(Vec<u8>, u16, Vec<u16>, Vec<u16>),
    BetterCheck(Vec<u8>, u16, Vec<u16>, Vec<u16>),
    Hold(Vec<u8>, u8),
    Pin(Vec<u8>, u16, u16, bool),
    TakeIn(Vec<u8>, u16, Vec<u16>, Vec<u8>),
    Pack(u8, u16, [Vec<u16>; 3], [Vec<u8>; 2], Vec<u8>),
    Unpack(Vec<u8>, [Vec<u16>; 3], [Vec<u8>; 2]),
    NewickRead(Vec<u8>, Vec<u16>),
    NewickWrite(Vec<u8>, u16, Vec<u8>),
    MergeRead(u16, Vec<i32>, Vec<u16>),
    MergeWrite(Vec<u8>, u16, Vec<i32>),
}

/// One or more digits making a number that is not above the most; nothing wraps.
fn number(word: &[u8], most: u64) -> Option<u64> {
    if word.is_empty() {
        return None;
    }
    let mut value: u64 = 0;
    for &digit in word {
        if !digit.is_ascii_digit() {
            return None;
        }
        value = value * 10 + (digit - b'0') as u64;
        if value > most {
            return None;
        }
    }
    Some(value)
}

fn short(word: &[u8]) -> Option<u16> {
    number(word, u16::MAX as u64).map(|value| value as u16)
}

fn allowance(word: &[u8]) -> Option<u32> {
    number(word, u32::MAX as u64).map(|value| value as u32)
}

fn letter(word: &[u8]) -> Option<u8> {
    number(word, u8::MAX as u64).map(|value| value as u8)
}

/// 1 or 0, with zeros in front or without; no other number.
fn flag(word: &[u8]) -> Option<bool> {
    number(word, 1).map(|value| value == 1)
}

/// A number with a `-` before it where it is negative.
fn signed(word: &[u8]) -> Option<i32> {
    let value = match word.strip_prefix(b"-") {
        Some(digits) => -(number(digits, 1 << 31)? as i64),
        None => number(word, (1 << 31) - 1)? as i64,
    };
    i32::try_from(value).ok()
}

/// Entries separated by commas, or `-`.
fn entries<T>(word: &[u8], entry: impl Fn(&[u8]) -> Option<T>) -> Option<Vec<T>> {
    if word == b"-" {
        return Some(Vec::new());
    }
    word.split(|&byte| byte == b',').map(entry).collect()
}

fn list(word: &[u8]) -> Option<Vec<u16>> {
    entries(word, short)
}

fn signed_list(word: &[u8]) -> Option<Vec<i32>> {
    entries(word, signed)
}

/// `side:row` pairs.
fn hands(word: &[u8]) -> Option<Vec<(u16, u16)>> {
    entries(word, |entry| {
        let colon = entry.iter().position(|&byte| byte == b':')?;
        Some((short(&entry[..colon])?, short(&entry[colon + 1..])?))
    })
}

/// Two hexadecimal digits for each byte, or `-`.
fn bytes(word: &[u8]) -> Option<Vec<u8>> {
    if word == b"-" {
        return Some(Vec::new());
    }
    if word.is_empty() || word.len() % 2 != 0 {
        return None;
    }
    word.chunks(2).map(|two| Some(digit(two[0])? * 16 + digit(two[1])?)).collect()
}

fn digit(byte: u8) -> Option<u8> {
    match byte {
        b'0'..=b'9' => Some(byte - b'0'),
        b'a'..=b'f' => Some(byte - b'a' + 10),
        _ => None,
    }
}

/// The call that a line without its line feed makes, if it makes one.
pub fn call(line: &[u8]) -> Option<Call> {
    let words: Vec<&[u8]> = line.split(|&byte| byte == b' ').collect();
    let (&word, arguments) = words.split_first()?;
    Some(match (word, arguments) {
        (b"check", &[a]) => Call::Check(bytes(a)?),
        (b"order", &[a, s, o]) => Call::Order(bytes(a)?, short(s)?, list(o)?),
        (b"count", &[a]) => Call::Count(bytes(a)?),
        (b"pairs", &[a]) => Call::Pairs(bytes(a)?),
        (b"squared_entanglement", &[a]) => Call::SquaredEntanglement(bytes(a)?),
        (b"thousandths", &[a]) => Call::Thousandths(bytes(a)?),
        (b"free", &[a, s]) => Call::Free(bytes(a)?, short(s)?),
        (b"run", &[a, t]) => Call::Run(bytes(a)?, allowance(t)?),
        (b"hands", &[a, h]) => Call::Hands(bytes(a)?, hands(h)?),
        (b"better", &[a, s, x, y]) => Call::Better(bytes(a)?, short(s)?, list(x)?, list(y)?),
        (b"better_check", &[a, s, x, y]) => Call::BetterCheck(bytes(a)?, short(s)?, list(x)?, list(y)?),
        (b"hold", &[a, h]) => Call::Hold(bytes(a)?, letter(h)?),
        (b"pin", &[a, s, r, f]) => Call::Pin(bytes(a)?, short(s)?, short(r)?, flag(f)?),
        (b"take_in", &[a, s, o, l]) => Call::TakeIn(bytes(a)?, short(s)?, list(o)?, bytes(l)?),
        (b"pack", &[h, n, l, r, p, x, y, o]) => {
            let numbers = [list(l)?, list(r)?, list(p)?];
            Call::Pack(letter(h)?, short(n)?, numbers, [bytes(x)?, bytes(y)?], bytes(o)?)
        }
        (b"unpack", &[a, l, r, p, x, y]) => {
            Call::Unpack(bytes(a)?, [list(l)?, list(r)?, list(p)?], [bytes(x)?, bytes(y)?])
        }
        (b"newick_read", &[t, o]) => Call::NewickRead(bytes(t)?, list(o)?),
        (b"newick_write", &[a, s, o]) => Call::NewickWrite(bytes(a)?, short(s)?, bytes(o)?),
        (b"merge_read", &[n, t, o]) => Call::MergeRead(short(n)?, signed_list(t)?, list(o)?),
        (b"merge_write", &[a, s, o]) => Call::MergeWrite(bytes(a)?, short(s)?, signed_list(o)?),
        _ => return None,
    })
}

/// Bytes as they are written: hexadecimal digits, or `-`.
pub fn hex(bytes: &[u8]) -> String {
    if bytes.is_empty() {
        return "-".to_string();
    }
    bytes.iter().map(|byte| format!("{byte:02x}")).collect()
}

/// A list as it is written: decimal numbers separated by commas, or `-`.
pub fn commas<T: ToString>(list: &[T]) -> String {
    if list.is_empty() {
        return "-".to_string();
    }
    list.iter().map(|number| number.to_string()).collect::<Vec<_>>().join(",")
}

fn count_answer(result: Result<u32, Refusal>) -> String {
    format!("{} {}", told(&result), result.unwrap_or(0))
}

fn order_answer(record: &[u8], side: u16, mut out: Vec<u16>) -> String {
    let result = firmware::order(record, side, &mut out);
    format!("{} {}", told(&result), commas(&out))
}

fn squared_entanglement_answer(record: &[u8]) -> String {
    match firmware::squared_entanglement(record) {
        Err(refusal) => format!("{refusal} 0 0 none"),
        Ok(measure) => {
            let ratio = measure.ratio.map(|ratio| format!("{:016x}", ratio.to_bits()));
            format!("0 {} {} {}", measure.d, measure.w, ratio.unwrap_or("none".to_string()))
        }
    }
}

fn thousandths_answer(record: &[u8]) -> String {
    let result = firmware::thousandths(record);
    let number = told(&result);
    let k = result.ok().flatten().map(|k| k.to_string());
    format!("{number} {}", k.unwrap_or("none".to_string()))
}

fn free_answer(mut record: Vec<u8>, side: u16) -> String {
    let result = firmware::free(&mut record, side);
    let (before, after) = result.unwrap_or((0, 0));
    format!("{} {before} {after} {}", told(&result), hex(&record))
}

fn run_answer(mut record: Vec<u8>, allowance: u32) -> String {
    match firmware::run(&mut record, allowance) {
        Err(refusal) => format!("{refusal} 0 0 0 0 {}", hex(&record)),
        Ok(run) => {
            let settled = run.settled as u8;
            format!("0 {} {} {} {settled} {}", run.first, run.last, run.turns, hex(&record))
        }
    }
}

fn hands_answer(mut record: Vec<u8>, entries: &[(u16, u16)]) -> String {
    let result = firmware::hands(&mut record, entries);
    format!("{} {}", told(&result), hex(&record))
}

fn hold_answer(mut record: Vec<u8>, letter: u8) -> String {
    let result = record::set_hold(&mut record, letter);
    format!("{} {}", told(&result), hex(&record))
}

fn pin_answer(mut record: Vec<u8>, side: u16, row: u16, pinned: bool) -> String {
    let result = pins::pin(&mut record, side, row, pinned);
    format!("{} {}", told(&result), hex(&record))
}

fn take_in_answer(record: &[u8], side: u16, order: &[u16], mut layout: Vec<u8>) -> String {
    let result = take_in::take_in(record, side, order, &mut layout);
    let (count, least) = result.map_or((0, false), |taken| (taken.count, taken.least));
    format!("{} {count} {} {}", told(&result), least as u8, hex(&layout))
}

fn pack_answer(hold: u8, n: u16, numbers: [Vec<u16>; 3], layouts: [Vec<u8>; 2], mut out: Vec<u8>) -> String {
    let parts = Parts {
        left: &numbers[0],
        right: &numbers[1],
        links: &numbers[2],
        left_layout: &layouts[0],
        right_layout: &layouts[1],
    };
    let result = record::pack(hold, n, &parts, &mut out);
    format!("{} {}", told(&result), hex(&out))
}

fn unpack_answer(record: &[u8], numbers: [Vec<u16>; 3], layouts: [Vec<u8>; 2]) -> String {
    let [left, right, links] = numbers;
    let [left_layout, right_layout] = layouts;
    let mut buffers = Buffers { left, right, links, left_layout, right_layout };
    let result = record::unpack(record, &mut buffers);
    let (hold, n) = result.unwrap_or((0, 0));
    let lists = [&buffers.left, &buffers.right, &buffers.links].map(|list| commas(list)).join(" ");
    let layouts = [&buffers.left_layout, &buffers.right_layout].map(|bytes| hex(bytes)).join(" ");
    format!("{} {hold} {n} {lists} {layouts}", told(&result))
}

fn newick_read_answer(text: &[u8], mut out: Vec<u16>) -> String {
    let result = newick::read(text, &mut out);
    format!("{} {} {}", told(&result), result.unwrap_or(0), commas(&out))
}

fn newick_write_answer(record: &[u8], side: u16, mut out: Vec<u8>) -> String {
    let result = newick::write(record, side, &mut out);
    format!("{} {} {}", told(&result), result.unwrap_or(0), hex(&out))
}

fn merge_read_answer(n: u16, table: &[i32], mut out: Vec<u16>) -> String {
    let result = merge::read(n, table, &mut out);
    format!("{} {}", told(&result), commas(&out))
}

fn merge_write_answer(record: &[u8], side: u16, mut out: Vec<i32>) -> String {
    let result = merge::write(record, side, &mut out);
    format!("{} {}", told(&result), commas(&out))
}

/// The answer to a line without its line feed.
pub fn answer(line: &[u8]) -> String {
    let Some(call) = call(line) else {
        return "?".to_string();
    };
    match call {
        Call::Check(record) => told(&firmware::check(&record)),
        Call::Order(record, side, out) => order_answer(&record, side, out),
        Call::Count(record) => count_answer(firmware::count(&record)),
        Call::Pairs(record) => count_answer(firmware::pairs(&record)),
        Call::SquaredEntanglement(record) => squared_entanglement_answer(&record),
        Call::Thousandths(record) => thousandths_answer(&record),
        Call::Free(record, side) => free_answer(record, side),
        Call::Run(record, allowance) => run_answer(record, allowance),
        Call::Hands(record, entries) => hands_answer(record, &entries),
        Call::Better(record, side, x, y) => commas(firmware::better(&record, side, &x, &y)),
        Call::BetterCheck(record, side, x, y) => told(&firmware::better_check(&record, side, &x, &y)),
        Call::Hold(record, letter) => hold_answer(record, letter),
        Call::Pin(record, side, row, pinned) => pin_answer(record, side, row, pinned),
        Call::TakeIn(record, side, order, layout) => take_in_answer(&record, side, &order, layout),
        Call::Pack(hold, n, numbers, layouts, out) => pack_answer(hold, n, numbers, layouts, out),
        Call::Unpack(record, numbers, layouts) => unpack_answer(&record, numbers, layouts),
        Call::NewickRead(text, out) => newick_read_answer(&text, out),
        Call::NewickWrite(record, side, out) => newick_write_answer(&record, side, out),
        Call::MergeRead(n, table, out) => merge_read_answer(n, &table, out),
        Call::MergeWrite(record, side, out) => merge_write_answer(&record, side, out),
    }
}

/// The lines of the first bytes of what was read. A last line without a line feed is one, unless
/// more was read than those: then it did not end within them.
pub fn lines(input: &[u8]) -> Vec<&[u8]> {
    let (answered, more) = input.split_at(input.len().min(MOST_BYTES));
    let mut lines: Vec<&[u8]> = answered.split(|&byte| byte == b'\n').collect();
    let rest = lines.pop().unwrap_or_default();
    if !rest.is_empty() && more.is_empty() {
        lines.push(rest);
    }
    lines
}

/// What the tests of calls ask of their answers: the number of each, and all of them in one word.
#[cfg(test)]
pub mod answered {
    pub fn numbers(lines: &[String]) -> Vec<String> {
        let number =
            |line: &String| super::answer(line.as_bytes()).split(' ').next().unwrap_or_default().to_string();
        lines.iter().map(number).collect()
    }

    pub fn told(lines: &[String]) -> String {
        numbers(lines).join(",")
    }
}

#[cfg(test)]
mod tests {
    use super::*;
    use crate::edges;
    use crate::made;

    #[test]
    fn numbers_of_any_number_of_digits() {
        assert_eq!(short(b"65535"), Some(65535));
        assert_eq!(short(b"00000000000000000000000000000000065535"), Some(65535));
        for word in ["65536", "18446744073709551617", "99999999999999999999999999999999", "", "-", "+1", "1 "] {
            assert_eq!(short(word.as_bytes()), None);
        }
        assert_eq!(allowance(b"4294967295"), Some(u32::MAX));
        assert_eq!(allowance(b"4294967296"), None);
        assert_eq!(letter(b"255"), Some(255));
        assert_eq!(letter(b"256"), None);
    }

    #[test]
    fn flags() {
        let zeros = "0".repeat(70);
        for (word, wanted) in [("0", false), ("1", true), ("00", false), ("01", true)] {
            assert_eq!(flag(word.as_bytes()), Some(wanted));
            assert_eq!(flag(format!("{zeros}{word}").as_bytes()), Some(wanted));
        }
        for word in ["2", "3", "10", "11", "256", "257", "65536", "65537", "4294967296", "18446744073709551617"]
        {
            assert_eq!(flag(word.as_bytes()), None);
            assert_eq!(flag(format!("{zeros}{word}").as_bytes()), None);
        }
        for word in ["", "-", "+1", "-0", "-1", "1.0", "1,", "true", "0x1", "1 "] {
            assert_eq!(flag(word.as_bytes()), None);
        }
    }

    #[test]
    fn lists_and_bytes() {
        assert_eq!(list(b"-"), Some(vec![]));
        assert_eq!(list(b"0,07,65535"), Some(vec![0, 7, 65535]));
        for word in ["", ",", "1,", ",1", "1,,2", "1,-", "--", "1;2"] {
            assert_eq!(list(word.as_bytes()), None);
        }
        assert_eq!(hands(b"1:2,257:0"), Some(vec![(1, 2), (257, 0)]));
        for word in ["", "1", "1:", ":1", "1:2:3", "1:2,", "1:2,,1:2", ":", "1:65536"] {
            assert_eq!(hands(word.as_bytes()), None);
        }
        assert_eq!(bytes(b"00ff"), Some(vec![0, 255]));
        for word in ["", "0", "000", "0F", "0g", "-0", "--"] {
            assert_eq!(bytes(word.as_bytes()), None);
        }
    }

    #[test]
    fn signed_lists() {
        assert_eq!(signed_list(b"-"), Some(vec![]));
        assert_eq!(signed_list(b"-1,0,-0,007,-007"), Some(vec![-1, 0, 0, 7, -7]));
        assert_eq!(signed_list(b"2147483647,-2147483648"), Some(vec![i32::MAX, i32::MIN]));
        assert_eq!(signed(b"-00000000000000000000002147483648"), Some(i32::MIN));
        for word in ["2147483648", "-2147483649", "4294967295", "-4294967297", "123456789012345678901234567890"]
        {
            assert_eq!(signed(word.as_bytes()), None);
            assert_eq!(signed_list(format!("-1,{word}").as_bytes()), None);
        }
        for word in
            ["", "--1", "1-", "-,-", "-,1", "1,-", "+1", ",", "1,", ",1", "1,,2", "- 1", "--", "-a", "1.0"]
        {
            assert_eq!(signed_list(word.as_bytes()), None, "{word}");
        }
        assert_eq!(answer(b"merge_read 4 -1,-2,-3,1,-4,2 0,0,0,0,0,0,0"), "0 1,2,3,5,4,6,0");
        assert_eq!(answer(b"merge_read 1 - -"), "0 -");
        assert_eq!(answer(b"merge_read 2 -0,-1 8"), "20 8");
        assert_eq!(answer(b"merge_write - 1 -0,-2147483648,0012"), "1 0,-2147483648,12");
        assert_eq!(answer(b"merge_write - 1 -2147483649"), "?");
    }

    #[test]
    fn lines_that_are_no_calls() {
        assert_eq!(answer(b"check -"), "1");
        for line in ["", " ", "check", "check ", " check -", "check  -", "check - ", "check -\r", "check\t-"] {
            assert_eq!(answer(line.as_bytes()), "?");
        }
        for line in ["Check -", "checks -", "check - -", "free - 65536", "run - 4294967296", "hold - 256"] {
            assert_eq!(answer(line.as_bytes()), "?");
        }
        for line in ["pin", "pin -", "pin - 1", "pin - 1 1", "pin - 1 1 ", "pin - 1 1 2", "pin - 1 1 1 1"] {
            assert_eq!(answer(line.as_bytes()), "?");
        }
        for line in
            ["pin - 65536 1 1", "pin - 1 65536 1", "pin - 3 0 2", "pin - 1 1 -", "pin 0 1 1 1", "pins - 1 1 1"]
        {
            assert_eq!(answer(line.as_bytes()), "?");
        }
        assert_eq!(answer(b"pin - 65535 65535 01"), "13 -");
        assert_eq!(answer(b"pin - 2 65535 0"), "1 -");
        assert_eq!(answer(b"free - 65535"), "13 0 0 -");
        assert_eq!(answer(b"squared_entanglement -"), "1 0 0 none");
        assert_eq!(answer(b"thousandths -"), "1 none");
    }

    #[test]
    fn the_old_word_is_no_call() {
        let record = hex(&made::case_2().bytes());
        let answered = |call: &str| answer(call.replace('R', &record).as_bytes());
        assert_eq!(answered("squared_entanglement R"), "0 18 20 3feccccccccccccd");
        assert_eq!(answered("thousandths R"), "0 948");
        for call in ["entanglement R", "entanglement -", "entanglement", "thousandths", "thousandths R R"] {
            assert_eq!(answered(call), "?");
        }
        let one_leaf = hex(&made::example(&[], &[]).bytes());
        assert_eq!(answer(format!("squared_entanglement {one_leaf}").as_bytes()), "0 0 0 none");
        assert_eq!(answer(format!("thousandths {one_leaf}").as_bytes()), "0 none");
    }

    #[test]
    fn the_row_of_every_call() {
        let mut made = made::case_2();
        made.left[5] = 3;
        made.right[0] = 0;
        let calls = [
            ("check R", "7 3"),
            ("order R 1 9,9", "7 3 9,9"),
            ("count R", "7 3 0"),
            ("pairs R", "7 3 0"),
            ("squared_entanglement R", "7 3 0 0 none"),
            ("thousandths R", "7 3 none"),
            ("free R 2", "7 3 0 0 R"),
            ("run R 1", "7 3 0 0 0 0 R"),
            ("hands R 1:1", "7 3 R"),
            ("better R 1 1,2,3,4 1,2,3,4", "-"),
            ("better_check R 1 1,2,3,4 1,2,3,4", "7 3"),
            ("hold R 78", "7 3 R"),
            ("pin R 1 0 1", "7 3 R"),
            ("take_in R 2 - 09ff", "7 3 0 0 09ff"),
            ("pack 78 4 1,2,3,5,4,3 0,2,3,4,5,6 1,2,3,4 000000 000000 00", "7 3 00"),
            ("pack 78 4 1,2,3,5,4,6 0,2,3,4,5,6 1,2,3,4 000000 000000 00", "8 1 00"),
            ("unpack R 6,6 - 0 00 -", "7 3 0 0 6,6 - 0 00 -"),
            ("newick_write R 1 0a0b", "7 3 0 0a0b"),
            ("merge_write R 2 -5,5", "7 3 -5,5"),
        ];
        let record = hex(&made.bytes());
        for (call, wanted) in calls {
            assert_eq!(answer(call.replace('R', &record).as_bytes()), wanted.replace('R', &record));
        }
    }

    /// How many words the answer has that carries no row; nothing for a call without a refusal.
    fn words_answered(call: &Call) -> Option<usize> {
        match call {
            Call::Check(..) | Call::BetterCheck(..) => Some(1),
            Call::Order(..) | Call::Count(..) | Call::Pairs(..) | Call::Thousandths(..) => Some(2),
            Call::Hands(..) | Call::Hold(..) | Call::Pin(..) | Call::Pack(..) => Some(2),
            Call::MergeRead(..) | Call::MergeWrite(..) => Some(2),
            Call::NewickRead(..) | Call::NewickWrite(..) => Some(3),
            Call::SquaredEntanglement(..) | Call::Free(..) | Call::TakeIn(..) => Some(4),
            Call::Run(..) => Some(6),
            Call::Better(..) => None,
            Call::Unpack(..) => Some(8),
        }
    }

    #[test]
    fn a_row_stands_after_7_and_8_and_no_other_number() {
        for line in edges::all() {
            let line = line.as_bytes();
            let Some(wanted) = call(line).as_ref().and_then(words_answered) else {
                continue;
            };
            let answer = answer(line);
            let words: Vec<&str> = answer.split(' ').collect();
            let has_row = words[0] == "7" || words[0] == "8";
            assert_eq!(words.len(), wanted + has_row as usize);
            assert!(!has_row || (1..=511).contains(&words[1].parse().unwrap()));
        }
    }

    #[test]
    fn the_last_line_and_the_most_bytes() {
        assert_eq!(lines(b"").len(), 0);
        assert_eq!(lines(b"\n"), [b""]);
        assert_eq!(lines(b"a\n\nb"), [b"a".as_slice(), b"", b"b"]);
        let mut input = vec![b'x'; MOST_BYTES + 1];
        assert_eq!(lines(&input).len(), 0);
        assert_eq!(lines(&input[1..]).len(), 1);
        input[10] = b'\n';
        assert_eq!(lines(&input), [[b'x'; 10]]);
        assert_eq!(lines(&input[1..]).len(), 2);
        input[MOST_BYTES] = b'\n';
        assert_eq!(lines(&input).len(), 1);
        assert_eq!(lines(&input[1..]).len(), 2);
    }
}
