// The fixed calls of Newick text: both sides of every limit of a text and of its buffers, every
// way to break the grammar in a small text, and several faults at once so that the order of the
// tests shows. The longest calls come first.

use crate::lines;
use crate::made::{case_2, example, of_shape};
use crate::random::Random;
use crate::shapes::{self, Exchange, Shape};
use crate::sides;
use crate::spelling;

/// All fixed lines of Newick text.
pub fn all() -> Vec<String> {
    let mut all = deepest_and_largest();
    all.extend(largest_written());
    all.extend(long_pieces());
    all.extend(more_than_is_read());
    all.extend(good_texts());
    all.extend(broken_texts());
    all.extend(any_byte());
    all.extend(damaged_everywhere());
    all.extend(leaf_numbers());
    all.extend(several_faults());
    all.extend(room_for_rows());
    all.extend(layouts_written());
    all.extend(room_for_text());
    all.extend(sides::of_a_writing_call(14, write_text));
    all
}

fn write_text(record: &[u8], side: u16, places: usize) -> String {
    lines::newick_write(record, side, &vec![7; places])
}

/// What says again what these say: every byte at places other than the first, and more of writing.
pub fn again() -> Vec<String> {
    let others = (0..=255).filter(|&byte| !is_about_a_mark(byte));
    let mut calls: Vec<String> = others.flat_map(after_the_first).collect();
    calls.extend(sides::again(14, write_text));
    calls
}

/// The first n leaf numbers.
fn numbers(n: usize) -> Vec<String> {
    (1..=n).map(|leaf| leaf.to_string()).collect()
}

fn balanced(n: usize) -> Vec<u8> {
    let rows = shapes::tree(Shape::Balanced, Exchange::Never, n, &mut Random::new(1));
    spelling::tree(&rows, &vec![0; n - 1]).concat()
}

fn read(text: &[u8], places: usize) -> String {
    lines::newick_read(text, &vec![9; places])
}

/// A text that is refused, with a buffer that tells whether it was touched.
fn refused(text: impl AsRef<[u8]>) -> String {
    lines::newick_read(text.as_ref(), &[9, 8, 7, 6])
}

/// 511 groups open and 512 of them, 512 leaves and 513 of them.
fn deepest_and_largest() -> Vec<String> {
    let cut = |text: Vec<u8>| text[..text.len() - 1].to_vec();
    vec![
        read(&spelling::deep_first(&numbers(512)), 1022),
        read(&spelling::deep_second(&numbers(512)), 1023),
        read(&balanced(512), 1022),
        read(&balanced(513), 1024),
        read(&balanced(512), 1021),
        read(&spelling::deep_first(&numbers(513)), 3),
        read(&spelling::deep_second(&numbers(513)), 3),
        read(&balanced(511), 1020),
        read(&cut(balanced(513)), 3),
        read(&cut(balanced(512)), 3),
        read(&cut(spelling::deep_first(&numbers(512))), 3),
    ]
}

/// Written texts of 512 leaves: balanced, and deep both ways, with room that is exact, one short
/// and more than that; layouts of every kind.
fn largest_written() -> Vec<String> {
    let mut random = Random::new(2962);
    let mut of = |shape, exchange| shapes::tree(shape, exchange, 512, &mut random);
    let balanced = of(Shape::Balanced, Exchange::AtRandom);
    let deep_upper = of(Shape::Caterpillar, Exchange::Never);
    let deep_lower = of(Shape::Caterpillar, Exchange::Always);
    let mut made = example(&balanced, &deep_lower);
    let mut calls = vec![
        lines::newick_write(&made.bytes(), 1, &[7; 2962]),
        lines::newick_write(&made.bytes(), 2, &[7; 2961]),
        lines::newick_write(&made.bytes(), 2, &[7; 2963]),
    ];
    made.right = deep_upper;
    made.right_layout = vec![1; 511];
    calls.push(lines::newick_write(&made.bytes(), 2, &[7; 2962]));
    made.right_layout = (0..511).map(|row| (row % 2) as u8).collect();
    calls.push(lines::newick_write(&made.bytes(), 2, &[7; 4000]));
    for shape in ["balanced", "caterpillar", "random"] {
        if let Some(made) = of_shape(shape, 512, &mut random) {
            calls.extend([1, 2].map(|side| lines::newick_write(&made.bytes(), side, &[0; 2962])));
        }
    }
    calls
}

/// Two subtrees as one group.
fn both(one: &[u8], two: &[u8]) -> Vec<u8> {
    [b"(", &one[..one.len() - 1], b",", &two[..two.len() - 1], b");"].concat()
}

/// Groups open on both sides of 511 over leaves that are all 1, so that the grammar alone can be
/// what differs; the 512th open with anything after it; many groups, but few of them at once.
fn more_than_is_read() -> Vec<String> {
    let ones = |n: usize| vec!["1".to_string(); n];
    let mut calls = Vec::new();
    for n in [512, 513] {
        calls.push(refused(spelling::deep_first(&ones(n))));
        calls.push(refused(spelling::deep_second(&ones(n))));
    }
    for open in [511, 512, 513, 3000] {
        calls.push(refused("(".repeat(open)));
        calls.push(refused("(".repeat(open) + "x"));
        calls.push(refused("(".repeat(open) + &")".repeat(open) + ";"));
    }
    for n in [257, 511, 512] {
        let deep = spelling::deep_first(&ones(n));
        calls.push(refused(both(&deep, &deep)));
        calls.push(refused(both(&spelling::deep_second(&ones(n)), &deep)));
        calls.push(refused(both(&deep, b"1;")));
        calls.push(refused(both(b"1;", &deep)));
    }
    calls.push(refused(spelling::deep_first(&ones(5_000))));
    calls.push(refused(vec![b'1'; 5_000]));
    calls.push(refused(balanced(2_000)));
    calls
}

/// Leaf numbers and lengths of hundreds of digits.
fn long_pieces() -> Vec<String> {
    let (zeros, nines) = ("0".repeat(500), "9".repeat(500));
    let texts = [
        format!("(1:{zeros},2:.{nines});"),
        format!("(1:{nines}.{zeros},2):{nines}.;"),
        format!("(1:{nines}.{zeros}.,2);"),
        format!("({nines},2);"),
        format!("({nines},2:);"),
        format!("(1,{zeros}2);"),
        format!("1{zeros};"),
    ];
    texts.iter().map(|text| lines::newick_read(text.as_bytes(), &[9, 8, 7])).collect()
}

/// Texts that are read, with and without lengths and a line feed.
const GOOD: [&str; 24] = [
    "1;",
    "1:5.;",
    "1:.5;",
    "1:007;",
    "1:0;",
    "1:0.0;",
    "1:18446744073709551616.18446744073709551616;",
    "(1,2);",
    "(2,1);",
    "(2:1,1:2);",
    "(2,1):3;",
    "(2:.1,1:2.):003.400;",
    "(4,(3,(1,2)));",
    "(4:1,(3:.5,(1:5.,2:007):0):12.50):3;",
    "(((1,2),3),4);",
    "((1,2),(3,4));",
    "((4,3):1,(2,1):1):1;",
    "((2,(1,4)),3);",
    "(((1,2),(3,4)),((5,6),(7,8)));",
    "((8,(7,(6,5))),(((4,3),2),1));",
    "(((((((((1,2),3),4),5),6),7),8),9),10);",
    "(10,(9,(8,(7,(6,(5,(4,(3,(2,1)))))))));",
    "((10:1,9:2):3,((8:4,7:5):6,((1:7,(3:8,2:9):1):2,(4:3,(5:4,6:5):6):7):8):9):1;",
    "(((11,10),(9,8)),((7,6),((5,4),((3,2),1))));",
];

fn good_texts() -> Vec<String> {
    let mut calls = Vec::new();
    for text in GOOD {
        calls.push(read(text.as_bytes(), 20));
        calls.push(read(format!("{text}\n").as_bytes(), 24));
    }
    calls
}

/// Texts that break the grammar, separated by spaces; none has a space itself.
const BROKEN: &str = "\
    ; ;; 1 12 0; 01; 00; 007; 1;; 1;1 1;1; 1,; ,1; ,; 1,2; 1.; 1.0; .1; . : :; :1; :1:1; 1:; 1:.; 1:..; \
    1:1..; 1:.1.; 1:1.2.3; 1:-1; 1:+1; 1:-.5; 1:1e5; 1:1E5; 1:1e-5; 1:1.5e+3; 1:e; 1:inf; 1:NaN; 1:0x1; \
    1:1,5; 1::1; 1:2:3; 1:2: 1:5.: 1:1 (1,2:1 (1,2):1 1:; 1:a; 1:1a; 1:(2); 1(2); 1(1,2); 1) 1); (1; \
    (1); ((1)); ((1,2)); (); (,); (1,); (,2); (,2,1); (1,2,3); (1,2,); (1,,2); (1,2),3; (1,2)3; \
    (1,2)3:1; (1,2)(3,4); ((1,2)(3,4)); ((1,2),(3,4),5); (1,(2,3,4)); ((1,2,3),4); (1,2)); ((1,2); (1,2) \
    (1,2 (1, (1 ( ) , )1,2(; (1;2); (1,2;) (1,2,;) (1:1,2:); (1:,2:1); (1,2):; (1,2):.; (1,2):1:2; \
    (1:1:1,2); (:1,2); (1,:2); (1,2:1)1; (1,0); (0,1); (00,1); (01,2); (1,02); (1,-2); (+1,2); (1,2.0); \
    (1.,2); (a,b); (a1,2); (1a,2); ('1',2); (\"1\",2); (1_,2); [c](1,2); (1[c],2); (1,2)[c]; (1,2);[c] \
    [&R](1,2); (1,2)95; (1,2)0.95; (1,2)95:1; (1,2)root; (1,2)'r'; {1,2}; <1,2>; [1,2]; (1|2); (1;,2); \
    (1,2);(1,2); (1,2);1; (1,2)., (1,2)!; (1/2); (1,2)\\; (1,2):1.5.; (1#,2); (1,2)#H1; (1,2*); \
    ((1,2):1,3:1:); (((1,2),3);4); ((1,2),3;) ((1,2);,3) x";

/// Texts of blanks, line ends and bytes that are no text.
const BLANKS: [&[u8]; 27] = [
    b"",
    b" ",
    b"\n",
    b"\0",
    b";\n",
    b"1\n",
    b"1;\n\n",
    b"1;\r\n",
    b"1;\r",
    b"1;\n\r",
    b"1; ",
    b"1;\t",
    b"1;\0",
    b"1;\n ",
    b"1;\n1;",
    b"1;\n1;\n",
    b" 1;",
    b"\n1;",
    b"1 ;",
    b"1\n;",
    b"1\r\n;",
    b"(1,2);\n\n",
    b"(1,2)\n;",
    b"(1,\n2);",
    b"(1,2);\r\n",
    b"\xef\xbb\xbf(1,2);",
    b"\xff\xfe1\0;\0",
];

fn broken_texts() -> Vec<String> {
    let mut calls: Vec<String> = BROKEN.split_ascii_whitespace().map(refused).collect();
    calls.extend(BLANKS.map(refused));
    for length in spelling::NO_LENGTHS {
        calls.push(refused(format!("((1,2{length}),3);")));
        calls.push(refused(format!("((1,2),3){length};")));
    }
    for word in spelling::FOREIGN {
        calls.push(refused(format!("(1,{word});")));
        calls.push(refused(format!("(1,2){word};")));
    }
    calls
}

/// Every byte as a text's first; those about the bytes that have a meaning also after a leaf, in a length and
/// after the semicolon.
fn any_byte() -> Vec<String> {
    let mut calls: Vec<String> = (0..=255).map(|byte| lines::newick_read(&[byte, b';'], &[])).collect();
    calls.extend((0..=255).filter(|&byte| is_about_a_mark(byte)).flat_map(after_the_first));
    calls
}

/// Whether a byte has a meaning in a text, or is a blank or a sign, or stands beside such a one or at an end of
/// what a byte of 7 or of 8 bits can be, or is such a one with its high bit changed.
fn is_about_a_mark(byte: u8) -> bool {
    let is_mark = |byte: u8| b"0123456789(),;:. \t\n\r+-_'[]".contains(&byte);
    let beside = [byte.wrapping_sub(1), byte, byte.wrapping_add(1), byte ^ 128];
    beside.iter().any(|&other| is_mark(other)) || [0, 1, 126, 127, 254, 255].contains(&byte)
}

/// A byte after a leaf, in a length and after the semicolon.
fn after_the_first(byte: u8) -> [String; 3] {
    let texts = [&[b'1', byte, b';'][..], &[b'1', b':', b'2', byte, b'3', b';'], &[b'1', b';', byte]];
    texts.map(|text| lines::newick_read(text, &[]))
}

/// A text with a byte at a place.
fn with_byte(text: &[u8], at: usize, byte: u8) -> Vec<u8> {
    [&text[..at], &[byte], &text[at..]].concat()
}

/// Small texts with a mark or a blank put in at every place, a byte doubled or taken out at every
/// place, and every part from either end.
fn damaged_everywhere() -> Vec<String> {
    let small = b"((1,2),3);";
    let with_lengths = b"(4:1,(3:.5,(1:5.,2:007):0):12.50):3;\n";
    let mut calls = Vec::new();
    for at in 0..=small.len() {
        for byte in *b"(),;:. \n\r0" {
            calls.push(refused(with_byte(small, at, byte)));
        }
        calls.push(refused(&small[at..]));
    }
    for at in 0..with_lengths.len() {
        let (before, after) = with_lengths.split_at(at);
        calls.push(read(before, 6));
        calls.push(read(&with_byte(with_lengths, at, with_lengths[at]), 6));
        calls.push(read(&[before, &after[1..]].concat(), 6));
        calls.push(read(&with_byte(with_lengths, at, b' '), 6));
    }
    calls
}

/// Leaves that are not 1 to n once each: 0 and numbers led by it, above n, repeated, and numbers
/// that would be right in 8, 16, 32, 64 or 128 bits.
fn leaf_numbers() -> Vec<String> {
    let mut texts: Vec<String> = Vec::new();
    for leaf in ["2", "3", "9", "10", "11", "100", "511", "512", "513", "1000", "9999", "65535", "65536"] {
        texts.push(format!("{leaf};"));
        texts.push(format!("(1,{leaf});"));
        texts.push(format!("(({leaf},1),2);"));
    }
    for wide in spelling::wide(1) {
        texts.extend([format!("{wide};"), format!("({wide},2);"), format!("(2,{wide}:1);")]);
    }
    for wide in spelling::wide(2) {
        texts.push(format!("(1,({wide},3));"));
    }
    for text in ["(1,1);", "(2,2);", "((1,2),2);", "((1,2),1);", "(1,(3,3));", "((1,2),(3,3));", "(2,(3,4));"] {
        texts.push(text.to_string());
    }
    texts.extend(["11111111111111111111;", "(1,20);", "(10,2);", "((1,2),(4,5));"].map(String::from));
    texts.iter().map(refused).collect()
}

/// 18 with 19, 19 with 14 and all three: the grammar over the whole text comes first.
fn several_faults() -> Vec<String> {
    let texts = [
        "(1,1;",
        "(1,1)",
        "(1,1));",
        "(2,2);;",
        "((1,1),3",
        "((1,1),(3,0));",
        "(513,(1,2);",
        "(1,(999999999999999999999999999999,2);",
        "(999999999999999999999999999999,2) ;",
        "(999999999999999999999999999999,2);",
        "(1,(999999999999999999999999999999,2):.);",
        "(7,7);\n\n",
        "(7,7);\r",
        "(7,7);\n",
        "2",
        "2;",
        "2; ",
        "2:;",
        "2:1;",
        "(1,2)",
        "(1,2);",
        "((1,2),2);",
        "((1,2),3);",
        "((1,2),3):;",
    ];
    let mut calls = Vec::new();
    for text in texts {
        calls.push(read(text.as_bytes(), 0));
        calls.push(read(text.as_bytes(), 1));
        calls.push(refused(text));
    }
    calls
}

/// Buffers for the rows: none, too short, exact and longer.
fn room_for_rows() -> Vec<String> {
    let mut calls = Vec::new();
    for text in ["1;", "(1,2);", "(2:1,1);\n", "((1,2),3);", "(4,(3,(1,2)));", "((1,(5,4)),(3,2));"] {
        for places in 0..=9 {
            calls.push(lines::newick_read(text.as_bytes(), &vec![65535; places]));
        }
    }
    calls
}

/// Every layout of case 2's sides, and of two leaves, with some room to spare.
fn layouts_written() -> Vec<String> {
    let mut calls = Vec::new();
    for bits in 0..8 {
        let mut made = case_2();
        made.left_layout = vec![bits & 1, bits >> 1 & 1, bits >> 2];
        made.right_layout = vec![1 - (bits & 1), bits >> 2, bits >> 1 & 1];
        calls.extend([1, 2].map(|side| lines::newick_write(&made.bytes(), side, &[7; 15])));
    }
    for turned in [0, 1] {
        let mut made = example(&[1, 2], &[2, 1]);
        made.left_layout[0] = turned;
        made.right_layout[0] = turned;
        calls.extend([1, 2].map(|side| lines::newick_write(&made.bytes(), side, &[7; 7])));
    }
    calls
}

/// Room for a text: exact, one short, one more, none; leaf numbers of one, two and three digits.
fn room_for_text() -> Vec<String> {
    let mut random = Random::new(18);
    let mut exact_or_short = Vec::new();
    let mut others = Vec::new();
    for (n, length) in [(1, 2), (2, 6), (4, 14), (9, 34), (10, 39), (11, 44), (99, 484), (100, 490)] {
        let record = example(&shapes::any_tree(n, &mut random), &shapes::any_tree(n, &mut random)).bytes();
        let of = |places: usize| lines::newick_write(&record, 1, &vec![0xa5; places]);
        exact_or_short.extend([of(length), of(length - 1)]);
        others.extend([of(length + 1), of(0), of(1)]);
    }
    [exact_or_short, others].concat()
}

#[cfg(test)]
mod tests {
    use super::*;
    use crate::desk;

    fn number(line: &str) -> String {
        desk::answer(line.as_bytes()).split(' ').next().unwrap_or_default().to_string()
    }

    #[test]
    fn broken_texts_are_broken_and_good_ones_good() {
        for line in broken_texts() {
            assert_eq!(number(&line), "18", "{line}");
        }
        assert!(good_texts().iter().all(|line| number(line) == "0"));
        assert!(leaf_numbers().iter().filter(|line| number(line) == "0").count() < 4);
    }

    #[test]
    fn the_limits_show() {
        let numbers: Vec<String> = deepest_and_largest().iter().map(|line| number(line)).collect();
        assert_eq!(numbers.join(","), "0,0,0,19,14,18,18,0,18,18,18");
        let numbers: Vec<String> = largest_written().iter().map(|line| number(line)).collect();
        assert_eq!(numbers.join(","), "0,14,0,0,0,0,0,0,0,0,0");
        let numbers: Vec<String> = long_pieces().iter().map(|line| number(line)).collect();
        assert_eq!(numbers.join(","), "0,0,18,19,18,18,19");
        for n in ["18", "19", "14", "0"] {
            assert!(several_faults().iter().any(|line| number(line) == n));
        }
    }
}
