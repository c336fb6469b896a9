// Newick texts made for calls. A tree is spelt in pieces: a leaf number, a length with its colon,
// or one of the four marks. Pieces are put in and exchanged, so that a text stays one or only just
// does not; a text can also be damaged in any byte.

use crate::random::Random;

/// The pieces of a text, none of them empty when the text is good.
pub type Pieces = Vec<Vec<u8>>;

/// A tree by its rows, flat, and its layout. From the first row on, an object's pieces are those
/// of its children with the marks around them.
pub fn tree(rows: &[u16], layout: &[u8]) -> Pieces {
    let n = layout.len() + 1;
    let mut objects: Vec<Pieces> = (1..=n).map(|leaf| vec![leaf.to_string().into_bytes()]).collect();
    for (row, byte) in rows.chunks(2).zip(layout) {
        let turned = byte % 2;
        let mut first = std::mem::take(&mut objects[row[turned as usize] as usize - 1]);
        let mut second = std::mem::take(&mut objects[row[1 - turned as usize] as usize - 1]);
        first.insert(0, b"(".to_vec());
        first.push(b",".to_vec());
        first.append(&mut second);
        first.push(b")".to_vec());
        objects.push(first);
    }
    let mut root = objects.pop().unwrap_or_default();
    root.push(b";".to_vec());
    root
}

/// A group for each leaf but one, all of them open at once, the deep subtree first.
pub fn deep_first(leaves: &[String]) -> Vec<u8> {
    let mut text = "(".repeat(leaves.len() - 1) + &leaves[0];
    for leaf in &leaves[1..] {
        text += &format!(",{leaf})");
    }
    (text + ";").into_bytes()
}

/// The same with the deep subtree second.
pub fn deep_second(leaves: &[String]) -> Vec<u8> {
    let (last, others) = leaves.split_last().unwrap();
    let mut text = String::new();
    for leaf in others {
        text += &format!("({leaf},");
    }
    (text + last + &")".repeat(others.len()) + ";").into_bytes()
}

fn is_leaf(piece: &[u8]) -> bool {
    piece.first().is_some_and(u8::is_ascii_digit)
}

fn places(pieces: &Pieces, wanted: impl Fn(&[u8]) -> bool) -> Vec<usize> {
    (0..pieces.len()).filter(|&at| wanted(&pieces[at])).collect()
}

/// Lengths of every kind that is read.
#[rustfmt::skip]
pub const LENGTHS: [&str; 14] = [
    ":5.", ":.5", ":007", ":0", ":0.0", ":1", ":12.75", ":9.", ":.0", ":512", ":65536", ":18446744073709551617",
    ":00000000000000000000000000.1", ":3.14159265358979323846264338327950288",
];

/// What is no length, or is one and something that can't follow it.
pub const NO_LENGTHS: [&str; 24] = [
    ":", ":.", ":-1", ":+1", ":1e5", ":1E-3", ":1.2.3", ":..5", ":5..", ":.5.", ":1,5", ": 1", ":1 ", "::1",
    ":1:2", ":a", ":0x1", ":nan", ":inf", ":1_000", ":1'000", "1:", ".5", ":\u{663}",
];

/// Puts lengths after so many of a thousand subtrees.
pub fn add_lengths(pieces: &mut Pieces, of_thousand: usize, random: &mut Random) {
    let mut longer = Pieces::new();
    for piece in pieces.drain(..) {
        let is_subtree = is_leaf(&piece) || piece == b")";
        longer.push(piece);
        if is_subtree && random.chance(of_thousand) {
            longer.push(random.pick(&LENGTHS).into());
        }
    }
    *pieces = longer;
}

/// Puts something that is no length after one of the subtrees.
pub fn add_no_length(pieces: &mut Pieces, random: &mut Random) {
    let at = random.pick(&places(pieces, |piece| is_leaf(piece) || piece == b")"));
    pieces.insert(at + 1, random.pick(&NO_LENGTHS).into());
}

/// Numbers whose last 8, 16, 32, 64 or 128 bits are a leaf's; the fifth has thirty digits.
pub fn wide(leaf: u128) -> [String; 6] {
    let of_128 = format!("340282366920938463463374607431768211{}", 456 + leaf);
    let narrower = [1 << 8, 1 << 16, 1 << 32, 1 << 64, 10_u128.pow(29)].map(|wide| (wide + leaf).to_string());
    let [a, b, c, d, e] = narrower;
    [a, b, c, d, e, of_128]
}

/// Exchanges the number of one leaf: for another's, for none of 1 to n, or for what is no number.
pub fn change_a_leaf(pieces: &mut Pieces, random: &mut Random) {
    let leaves = places(pieces, is_leaf);
    let n = leaves.len() as u128;
    let at = random.pick(&leaves);
    let own = String::from_utf8_lossy(&pieces[at]).into_owned();
    let other = pieces[random.pick(&leaves)].clone();
    let number: u128 = own.parse().unwrap_or(1);
    pieces[at] = match random.below(10) {
        0 => b"0".to_vec(),
        1 => format!("0{own}").into_bytes(),
        2..=3 => other,
        4 => (n + 1).to_string().into_bytes(),
        5 => random.pick(&["513", "512", "1000", "65535", "65536"]).into(),
        6 => "7".repeat(1 + random.below(40)).into_bytes(),
        7 => format!("{own}0000000000000000000000000000").into_bytes(),
        _ => wide(number)[random.below(6)].clone().into_bytes(),
    };
}

/// Names, quotes, comments and spaces, as other programs write them.
#[rustfmt::skip]
pub const FOREIGN: [&str; 22] = [
    "a", "A1", "isolate_7", "'1'", "\"1\"", "[&R]", "[1]", " ", "  ", "\t", "\r", "\n", "\r\n", "-1", "+1",
    "1.0", "1e1", "\u{663}", "\u{feff}", "\0", "_", "#",
];

/// Takes a piece out, puts one in twice, exchanges two, or puts another mark or word in.
pub fn damage_a_piece(pieces: &mut Pieces, random: &mut Random) {
    let at = random.below(pieces.len());
    let mark = random.pick(&["(", ")", ",", ";", "(", ")", ",1", ",(1,2)", "()", ":1"]);
    match random.below(8) {
        0 => drop(pieces.remove(at)),
        1 => pieces.insert(at, pieces[at].clone()),
        2 => {
            let other = random.below(pieces.len());
            pieces.swap(at, other);
        }
        3..=4 => pieces.insert(at, mark.into()),
        5 => pieces[at] = mark.into(),
        6 => pieces.insert(random.below(pieces.len() + 1), random.pick(&FOREIGN).into()),
        _ => pieces[at] = random.pick(&FOREIGN).into(),
    }
}

const BYTES: &[u8] = b"(),:;.0123456789 \n\r\t'[]-+eE\x00\x80\xb1\xff";

/// Changes, takes out, puts in or doubles one byte of a text that has some.
pub fn damage_a_byte(text: &mut Vec<u8>, random: &mut Random) {
    let at = random.below(text.len());
    let byte = random.pick(BYTES);
    match random.below(6) {
        0..=1 => text[at] = byte,
        2 => drop(text.remove(at)),
        3 => text.insert(random.below(text.len() + 1), byte),
        4 => text.insert(at, text[at]),
        _ => text[at] ^= 1 << random.below(8),
    }
}
