// Newick text, in and out (docs/NEWICK.md): the rows of a text, and a side of a record as a text.
// A text is read whole by its grammar (18) before its leaves are looked at (19), and both come
// before the buffer (14). The groups that are open stand in a list, so that a text may be as
// deep and as long as it likes.

use crate::pins;
use crate::record::{self, Row, Side, MOST_LEAVES};
use crate::refusals::{self, Refusal};
use crate::room;

/// The most groups that may be open at once.
const MOST_OPEN: usize = 511;

/// A subtree that was read: a leaf, by its number's digits, or a group, by its row.
#[derive(Clone, Copy)]
enum Subtree<'a> {
    Leaf(&'a [u8]),
    Group(usize),
}

/// What is left of a text.
struct Text<'a> {
    left: &'a [u8],
}

impl<'a> Text<'a> {
    /// Takes this byte, where it comes next.
    fn takes(&mut self, byte: u8) -> bool {
        let is_next = self.left.first() == Some(&byte);
        if is_next {
            self.left = &self.left[1..];
        }
        is_next
    }

    /// Takes this byte, which must come next.
    fn needs(&mut self, byte: u8) -> Result<(), Refusal> {
        if self.takes(byte) {
            Ok(())
        } else {
            Err(refusals::GRAMMAR)
        }
    }

    /// Takes all digits that come next, which may be none.
    fn digits(&mut self) -> &'a [u8] {
        let many = self.left.iter().take_while(|byte| byte.is_ascii_digit()).count();
        let (digits, left) = self.left.split_at(many);
        self.left = left;
        digits
    }

    /// Takes a leaf number: digits, the first not 0.
    fn leaf(&mut self) -> Result<Subtree<'a>, Refusal> {
        match self.digits() {
            [] | [b'0', ..] => Err(refusals::GRAMMAR),
            digits => Ok(Subtree::Leaf(digits)),
        }
    }

    /// Takes the length of a subtree that was just read, where a colon says that it has one:
    /// digits, at most one point, at least one digit.
    fn length(&mut self) -> Result<(), Refusal> {
        if !self.takes(b':') {
            return Ok(());
        }
        let before = self.digits().len();
        let after = if self.takes(b'.') { self.digits().len() } else { 0 };
        if before + after == 0 {
            return Err(refusals::GRAMMAR);
        }
        Ok(())
    }

    /// The semicolon, and then nothing or one line feed.
    fn ends(&mut self) -> Result<(), Refusal> {
        self.needs(b';')?;
        self.takes(b'\n');
        if self.left.is_empty() {
            Ok(())
        } else {
            Err(refusals::GRAMMAR)
        }
    }
}

/// What the grammar finds in a text: its groups in the order in which they close, and its root.
type Found<'a> = (Vec<[Subtree<'a>; 2]>, Subtree<'a>);

/// What the grammar finds: 18, or this.
fn groups(text: &[u8]) -> Result<Found<'_>, Refusal> {
    let mut text = Text { left: text };
    let mut closed = Vec::new();
    // Each open group, with its first subtree if that has been read.
    let mut open: Vec<Option<Subtree>> = Vec::new();
    loop {
        while text.takes(b'(') {
            open.push(None);
            if open.len() > MOST_OPEN {
                return Err(refusals::GRAMMAR);
            }
        }
        let mut subtree = text.leaf()?;
        text.length()?;
        while let Some(&Some(first)) = open.last() {
            text.needs(b')')?;
            open.pop();
            closed.push([first, subtree]);
            subtree = Subtree::Group(closed.len());
            text.length()?;
        }
        match open.last_mut() {
            Some(first) => {
                text.needs(b',')?;
                *first = Some(subtree);
            }
            None => {
                text.ends()?;
                return Ok((closed, subtree));
            }
        }
    }
}

/// The leaf that the digits name, if it is one of the first n. Four digits, the first not 0, are
/// above any n.
fn leaf_number(digits: &[u8], n: usize) -> Option<usize> {
    if digits.len() > 3 {
        return None;
    }
    let number = digits.iter().fold(0, |number, digit| 10 * number + (digit - b'0') as usize);
    Some(number).filter(|number| (1..=n).contains(number))
}

/// The rows of a text: 18, then 19, or these. A group of two has one leaf more than it has groups.
fn rows(text: &[u8]) -> Result<Vec<Row>, Refusal> {
    let (groups, root) = groups(text)?;
    let n = groups.len() + 1;
    if n > MOST_LEAVES {
        return Err(refusals::LEAVES);
    }
    let mut taken = [false; MOST_LEAVES + 1];
    let mut object = |subtree: Subtree| match subtree {
        Subtree::Group(row) => Ok((n + row) as u16),
        Subtree::Leaf(digits) => match leaf_number(digits, n) {
            Some(leaf) if !taken[leaf] => {
                taken[leaf] = true;
                Ok(leaf as u16)
            }
            _ => Err(refusals::LEAVES),
        },
    };
    if groups.is_empty() {
        object(root)?;
    }
    groups.into_iter().map(|[upper, lower]| Ok([object(upper)?, object(lower)?])).collect()
}

/// Reads a text and writes its rows, upper then lower, to the first 2(n-1) places of `out`: 18,
/// 19, 14, or n.
pub fn read(text: &[u8], out: &mut [u16]) -> Result<u16, Refusal> {
    let rows = rows(text)?.concat();
    room::put(&rows, out)?;
    Ok(rows.len() as u16 / 2 + 1)
}

/// The text of an object without its semicolon: a leaf's number, or the texts of the two children,
/// the lower one first where the row is turned.
fn object_text(rows: &[Row], layout: &[u8], object: usize) -> String {
    let n = rows.len() + 1;
    if object <= n {
        return object.to_string();
    }
    let index = object - n - 1;
    let [upper, lower] = rows[index].map(|child| object_text(rows, layout, child as usize));
    if pins::is_turned(layout[index]) {
        format!("({lower},{upper})")
    } else {
        format!("({upper},{lower})")
    }
}

/// Writes a side's present layout as a text to the first places of `out`: 13, 1 to 10, 14, or the
/// text's length.
pub fn write(bytes: &[u8], side: u16, out: &mut [u8]) -> Result<usize, Refusal> {
    let side = Side::of(side)?;
    let record = record::read(bytes)?;
    let text = object_text(record.rows(side), record.layout(side), 2 * record.n - 1) + ";";
    room::put(text.as_bytes(), out)?;
    Ok(text.len())
}

#[cfg(test)]
mod tests {
    use super::*;
    use crate::made::{self, case_2, example, Made};
    use crate::random::Random;
    use crate::refusals::told;
    use crate::shapes;
    use crate::sides;
    use crate::spelling;
    use crate::tree;

    /// The number that reading tells, with n after 0; a refused call leaves the buffer.
    fn answer(text: &[u8]) -> String {
        let mut out = [7; 1030];
        let result = read(text, &mut out);
        let written = result.map_or(0, |n| 2 * (n as usize - 1));
        assert!(out[written..].iter().all(|&place| place == 7));
        match result {
            Ok(n) => format!("0 {n}"),
            Err(_) => told(&result),
        }
    }

    fn rows_of(text: &[u8]) -> Vec<u16> {
        let mut out = [7; 1022];
        let n = read(text, &mut out).unwrap();
        out[..2 * (n as usize - 1)].to_vec()
    }

    fn written(record: &Made, side: u16) -> String {
        let mut out = [0; 2962];
        let length = write(&record.bytes(), side, &mut out).unwrap();
        String::from_utf8(out[..length].to_vec()).unwrap()
    }

    fn numbers(n: usize) -> Vec<String> {
        (1..=n).map(|leaf| leaf.to_string()).collect()
    }

    #[test]
    fn texts_by_hand() {
        let answers: [(&str, &[&str]); 5] = [
            ("0 1", &["1;", "1;\n", "1:5.;", "1:.5;", "1:007;", "1:0;\n"]),
            ("0 2", &["(1,2);", "(2,1);", "(1:1,2);", "(1,2:.0);", "(1,2):5.;", "(1:1,2:1):1;\n"]),
            ("0 4", &["(4,(3,(1,2)));", "((1,2):1,(3,4):2):3;", "(((4,3),2),1);\n"]),
            ("18", &["", "0;", "01;", "1", "1;;", "1:;", "1:.;", "1:-1;", "1:1e5;", "1:2:3;", "1:1.2.3;"]),
            ("19", &["2;", "10;", "(1,1);", "(1,3);", "(2,3);", "((1,2),2);", "(1,65538);", "(257,2);"]),
        ];
        for (wanted, texts) in answers {
            for text in texts {
                assert_eq!(answer(text.as_bytes()), wanted, "{text}");
            }
        }
        for text in ["()", "();", "(1);", "(1,2,3);", "(1,2)", "(1, 2);", "(1,2);\r\n", "(1,2);\n\n", "(a,b);"]
        {
            assert_eq!(answer(text.as_bytes()), "18", "{text}");
        }
        assert_eq!(rows_of(b"(4,(3,(1,2)));"), [1, 2, 3, 5, 4, 6]);
        assert_eq!(rows_of(b"((4:1,3:2):3,(2,1)):4;"), [4, 3, 2, 1, 5, 6]);
        assert_eq!(rows_of(b"(((1,2),(3,4)),5);"), [1, 2, 3, 4, 6, 7, 8, 5]);
    }

    #[test]
    fn reading_goes_on_to_the_end_before_leaves_are_tested() {
        let huge = "9".repeat(30);
        assert_eq!(answer(format!("({huge},1);").as_bytes()), "19");
        assert_eq!(answer(format!("({huge},1);;").as_bytes()), "18");
        assert_eq!(answer(b"((1,1),1);"), "19");
        assert_eq!(answer(b"((1,1),1"), "18");
        for wide in spelling::wide(1).iter().chain(&spelling::wide(2)) {
            assert_eq!(answer(format!("{wide};").as_bytes()), "19");
            assert_eq!(answer(format!("({wide},1);").as_bytes()), "19");
            assert_eq!(answer(format!("((2,{wide}),1").as_bytes()), "18");
        }
        let rows = shapes::tree(shapes::Shape::Balanced, shapes::Exchange::Never, 513, &mut Random::new(1));
        let mut text = spelling::tree(&rows, &[0; 512]).concat();
        assert_eq!(answer(&text), "19");
        text.pop();
        assert_eq!(answer(&text), "18");
    }

    #[test]
    fn groups_open_at_once() {
        for text in [spelling::deep_first, spelling::deep_second] {
            assert_eq!(answer(&text(&numbers(512))), "0 512");
            assert_eq!(answer(&text(&numbers(513))), "18");
            let ones = |n| vec!["1".to_string(); n];
            assert_eq!(answer(&text(&ones(512))), "19");
            assert_eq!(answer(&text(&ones(513))), "18");
        }
        let half = spelling::deep_first(&numbers(257));
        let half = String::from_utf8(half[..half.len() - 1].to_vec()).unwrap();
        assert_eq!(answer(format!("({half},{half});").as_bytes()), "19");
        assert_eq!(answer("(".repeat(511).as_bytes()), "18");
        assert_eq!(answer("(".repeat(512).as_bytes()), "18");
    }

    #[test]
    fn texts_of_a_megabyte() {
        assert_eq!(answer("(".repeat(1 << 20).as_bytes()), "18");
        assert_eq!(answer(")".repeat(1 << 20).as_bytes()), "18");
        assert_eq!(answer("1".repeat(1 << 20).as_bytes()), "18");
        assert_eq!(answer(("1".repeat(1 << 20) + ";").as_bytes()), "19");
        let digits = "0123456789".repeat(52_428);
        assert_eq!(answer(format!("(2:{digits},1):.{digits};").as_bytes()), "0 2");
        assert_eq!(answer(format!("(2:{digits},1):.{digits}.;").as_bytes()), "18");
        let mut many = "1".to_string();
        for _ in 0..17 {
            many = format!("({many},{many})");
        }
        assert_eq!(answer((many.clone() + ";").as_bytes()), "19");
        assert_eq!(answer((many + ":;").as_bytes()), "18");
    }

    /// A text's runs of digits and points put as one letter each: L for a length with its colon, S
    /// for a leaf number; nothing if a run is neither.
    fn letters(text: &str) -> Option<String> {
        let mut letters = String::new();
        let mut rest = text;
        while let Some(next) = rest.chars().next() {
            let is_length = next == ':';
            let from = if is_length { &rest[1..] } else { rest };
            let run = from.find(|c: char| !c.is_ascii_digit() && c != '.').unwrap_or(from.len());
            let (run, after) = from.split_at(run);
            if is_length {
                let points = run.matches('.').count();
                letters.push(if points <= 1 && run.len() > points { 'L' } else { return None });
            } else if run.is_empty() {
                letters.push(next);
            } else {
                letters.push(if run.contains('.') || run.starts_with('0') { return None } else { 'S' });
            }
            rest = if is_length || !run.is_empty() { after } else { &rest[next.len_utf8()..] };
        }
        Some(letters)
    }

    /// Whether a text keeps the grammar, by putting a letter for each subtree again and again: S
    /// for one without a length, T for one with.
    fn keeps_the_grammar(text: &str) -> bool {
        let open = text.bytes().scan(0_i64, |open, byte| {
            *open += (byte == b'(') as i64 - (byte == b')') as i64;
            Some(*open)
        });
        let text = text.strip_suffix('\n').unwrap_or(text);
        let letters = text.strip_suffix(';').and_then(letters);
        let Some(mut letters) = letters.filter(|_| open.max() <= Some(511)) else {
            return false;
        };
        loop {
            let mut shorter = letters.replace("SL", "T");
            for group in ["(S,S)", "(S,T)", "(T,S)", "(T,T)"] {
                shorter = shorter.replace(group, "S");
            }
            if shorter == letters {
                return letters == "S" || letters == "T";
            }
            letters = shorter;
        }
    }

    /// The rows of a good text by the places of its marks: row i is the group of the i-th `)`.
    fn rows_by_places(text: &str) -> Vec<u16> {
        let closing: Vec<usize> = text.match_indices(')').map(|(at, _)| at).collect();
        let n = closing.len() + 1;
        let open = |at: usize| {
            let before = &text.as_bytes()[..at];
            before.iter().fold(0, |open, &byte| open + (byte == b'(') as i32 - (byte == b')') as i32)
        };
        let end = |from: usize| (from + 1..text.len()).find(|&at| open(at + 1) == open(from)).unwrap();
        let object = |from: usize| match text[from..].find(|c: char| !c.is_ascii_digit()) {
            Some(0) => (n + 1 + closing.iter().position(|&at| at == end(from)).unwrap()) as u16,
            digits => text[from..from + digits.unwrap()].parse().unwrap(),
        };
        let mut rows = Vec::new();
        for &at in &closing {
            let from = (0..at).rev().find(|&from| &text[from..=from] == "(" && end(from) == at).unwrap();
            let comma = (from..at).find(|&c| &text[c..=c] == "," && open(c) == open(from) + 1).unwrap();
            rows.extend([object(from + 1), object(comma + 1)]);
        }
        rows
    }

    /// Reading beside the two functions above.
    fn compare(text: &[u8]) -> bool {
        let good = std::str::from_utf8(text).is_ok_and(keeps_the_grammar);
        assert_eq!(answer(text) != "18", good, "{text:?}");
        good
    }

    /// All texts of so many of these bytes, between a beginning and an end.
    fn compare_all(alphabet: &[u8], length: u32, begin: &str, end: &str) -> usize {
        let mut good = 0;
        for number in 0..alphabet.len().pow(length) {
            let byte = |place| alphabet[number / alphabet.len().pow(place) % alphabet.len()];
            let middle: Vec<u8> = (0..length).map(byte).collect();
            good += compare(&[begin.as_bytes(), &middle, end.as_bytes()].concat()) as usize;
        }
        good
    }

    #[test]
    fn all_small_texts() {
        let good: usize = (0..=5).map(|length| compare_all(b"(),:;.01\n x", length, "", "")).sum();
        assert!(good > 0);
        assert_eq!(compare_all(b"(),:1;", 6, "", ";"), 7);
        assert_eq!(compare_all(b"(),1:", 7, "(", ";"), 13);
        assert_eq!(compare_all(b"(),1", 8, "(", ");"), 12);
        assert!(compare_all(b"01:.;", 6, "(1", ",2);\n") > 100);
    }

    #[test]
    fn random_texts() {
        let mut random = Random::new(15);
        let mut good = 0;
        for round in 0..4000 {
            let n = if round % 200 == 0 { 512 } else { 1 + random.below(20) };
            let rows = shapes::any_tree(n, &mut random);
            let layout = made::any_layout(n, &mut random);
            let mut pieces = spelling::tree(&rows, &layout);
            let without = pieces.concat();
            spelling::add_lengths(&mut pieces, 500, &mut random);
            let mut text = pieces.concat();
            assert_eq!(answer(&text), format!("0 {n}"));
            assert_eq!(rows_of(&text), rows_of(&without));
            if n < 512 {
                assert_eq!(rows_of(&without), rows_by_places(std::str::from_utf8(&without).unwrap()));
            }
            match round % 3 {
                0 => spelling::damage_a_piece(&mut pieces, &mut random),
                1 => spelling::add_no_length(&mut pieces, &mut random),
                _ => {}
            }
            text = pieces.concat();
            if round % 3 == 2 {
                spelling::damage_a_byte(&mut text, &mut random);
            }
            good += compare(&text) as usize;
        }
        assert!((100..1000).contains(&good), "{good}");
    }

    #[test]
    fn changed_leaves_keep_the_grammar_unless_led_by_0() {
        let mut random = Random::new(16);
        let mut answers = [0; 3];
        for _ in 0..2000 {
            let n = 1 + random.below(20);
            let rows = shapes::any_tree(n, &mut random);
            let mut pieces = spelling::tree(&rows, &vec![0; n - 1]);
            spelling::change_a_leaf(&mut pieces, &mut random);
            let led_by_0 = pieces.iter().any(|piece| piece[0] == b'0');
            let mut leaves: Vec<&[u8]> = pieces.iter().map(|piece| &piece[..]).collect();
            leaves.retain(|piece| piece[0].is_ascii_digit());
            let right = (1..=n).all(|leaf| leaves.contains(&leaf.to_string().as_bytes()));
            let wanted = if led_by_0 { 0 } else { 1 + right as usize };
            let texts = ["18".to_string(), "19".to_string(), format!("0 {n}")];
            assert_eq!(answer(&pieces.concat()), texts[wanted]);
            answers[wanted] += 1;
        }
        assert!(answers.iter().all(|&many| many > 50));
    }

    #[test]
    fn room_for_rows() {
        let text = b"(4,(3,(1,2)));";
        for places in 0..10 {
            let mut out = vec![9; places];
            let result = read(text, &mut out);
            if places < 6 {
                assert_eq!((told(&result), out), ("14".to_string(), vec![9; places]));
            } else {
                assert_eq!(result, Ok(4));
                assert_eq!(out, [&[1, 2, 3, 5, 4, 6][..], &vec![9; places - 6]].concat());
            }
        }
        assert_eq!(read(b"1;", &mut []), Ok(1));
        assert_eq!(told(&read(b"(1,1);", &mut [])), "19");
        assert_eq!(told(&read(b"(1,2", &mut [])), "18");
        assert_eq!(told(&read(b"(1,2);", &mut [0])), "14");
    }

    #[test]
    fn a_side_as_text() {
        let mut record = case_2();
        assert_eq!(written(&record, 1), "(4,(3,(1,2)));");
        assert_eq!(written(&record, 2), "((1,2),(3,4));");
        record.left_layout = vec![1, 0, 1];
        record.right_layout = vec![0, 1, 1];
        record.hold = b'B';
        assert_eq!(written(&record, 1), "((3,(2,1)),4);");
        assert_eq!(written(&record, 2), "((4,3),(1,2));");
        assert_eq!(written(&example(&[], &[]), 1), "1;");
        assert_eq!(written(&example(&[2, 1], &[1, 2]), 1), "(2,1);");
    }

    #[test]
    fn refusals_of_writing() {
        sides::refuses_as_a_writing_call(14, |bytes, side, places| {
            let mut out = vec![7; places];
            let result = write(bytes, side, &mut out);
            let length = result.unwrap_or(0);
            assert_eq!(length, if result.is_ok() { 14 } else { 0 });
            assert!(out[length..].iter().all(|&byte| byte == 7));
            told(&result)
        });
    }

    #[test]
    fn every_tree_over_n_leaves_has_a_text_of_the_same_length() {
        let mut random = Random::new(17);
        for n in (1..130).chain([511, 512]) {
            let length = match n {
                1..=9 => 4 * n - 2,
                10..=99 => 5 * n - 11,
                _ => 6 * n - 110,
            };
            for _ in 0..3 {
                let record = made::any_record(n, &mut random);
                assert_eq!((written(&record, 1).len(), written(&record, 2).len()), (length, length));
            }
        }
        assert_eq!(6 * 512 - 110, 2962);
    }

    /// The sets of leaves under each row, as a set.
    fn sets(rows: &[Row]) -> Vec<Vec<u16>> {
        let n = rows.len() as u16 + 1;
        let mut sets: Vec<Vec<u16>> = (1..n).map(|row| tree::leaves_under(rows, n + row)).collect();
        sets.iter_mut().for_each(|set| set.sort_unstable());
        sets.sort();
        sets
    }

    #[test]
    fn what_was_written_is_read_as_the_same_tree() {
        let mut random = Random::new(18);
        for round in 0..600 {
            let n = if round % 60 == 0 { 512 } else { 1 + random.below(60) };
            let record = made::any_record(n, &mut random);
            for side in [1, 2] {
                let text = written(&record, side);
                assert_eq!(text.as_bytes(), spelling::tree(record.rows(side), record.layout(side)).concat());
                let flat = rows_of(text.as_bytes());
                let again = example(&flat, &flat);
                assert_eq!(again.n, record.n);
                assert_eq!(told(&record::read(&again.bytes())), "0");
                assert_eq!(again.present_order(1), record.present_order(side));
                let pairs = |flat: &[u16]| flat.chunks(2).map(|row| [row[0], row[1]]).collect::<Vec<Row>>();
                assert_eq!(sets(&pairs(&flat)), sets(&pairs(record.rows(side))));
                assert_eq!(written(&again, 2), text);
            }
        }
    }
}
