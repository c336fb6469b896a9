// Lines that are no calls: fixed ones, and good lines damaged in one way at random. A damaged
// line may by chance still be a call; it is then simply one more call.

use crate::random::Random;

/// Lines around one good record R, separated by `|`.
const AROUND: &str = "\
    Check R|CHECK R|chec R|checks R|check  R| check R|check R |check R\r|check\tR|check R -|check -R|\
    check R-|check 0xR|check R,R|check Rg0|check R0|check R0G|check --|check RA0|check R4E|check R:|\
    count|count R R|pairs  R|check R\0|order R 1|order R 1 |order R 1 1,2,3,|\
    order R 1 ,1,2,3|order R 1 1,,2|order R 1 1, 2|order R -1 0|order R +1 0|order R 1 0;0|\
    order R 65536 0,0,0,0|order R 1 0,0,0,65536|order R 1 -,-|order R - 0,0,0,0|order R 1 0,0,0,-|\
    order R 1 0,0,0,0 0|order R 1.0 0,0,0,0|order R 0x1 0,0,0,0|order R 1 --|free R|free R 65537|\
    free R 1 1|free R 18446744073709551617|free R 4294967297|free R 1a|free R L|free 1 R|\
    free R 340282366920938463463374607431768211457|run R|run R 4294967296|run R 4294967298|\
    run R 18446744073709551618|run R -1|run R 2.|run R 1e5|run R 130,818|run R |run R 2 N|hands R|\
    hands R 1|hands R 1:|hands R :1|hands R 1:1:1|hands R 1:1,|hands R ,1:1|hands R 1:1,,2:1|\
    hands R 1:1;2:1|hands R 65536:1|hands R 1:65536|hands R 1 :1|hands R 1,1|hands R -:-|hands R -,1:1|\
    hands R 1:1 2:1|better R 1 1,2,3,4|better R 1 1,2,3,4 1,2,3,65536|better R 1 1,2,3,4 1,2,3,4 0|\
    better R 65536 1,2,3,4 1,2,3,4|better R 1 1,2,3,4 1,2,3,|better_check R 1 1,2,3,4|\
    better-check R 1 - -|better_check R 1 - 1,2,,3|bettercheck R 1 - -|hold R N|hold R 256|hold R|\
    hold R 4294967374|hold R 334|hold R 'N'|hold R 78 |pack 78 1 - - 1 - -|pack 78 1 - - 1 - - - -|\
    pack 256 1 - - 1 - - -|pack 78 65536 - - 1 - - -|pack 78 65537 - - 1 - - -|pack N 1 - - 1 - - -|\
    pack 78 1 - - 65536 - - -|pack 78 1 - - 1 0 - -|pack 78 1 - - 1 - 000 -|pack 78 1 - - 1 - - 0|\
    pack 78 1  - 1 - - -|pack R|unpack R - - - -|unpack R - - - - - -|unpack R 0, - - - -|\
    unpack R - - - 0 -|unpack R - - - - 0g|unpack R 65536 - - - -|unpack - - - - - |unpack|desk|\
    check 0|free - 65536|run - 4294967296|run R0 0|order - 0 1,|order 00 3 0,,0|better - 0 1, -|\
    hands - 3:1,0|hold 00 256|pack 0 0 - - 1, - - -|unpack - - - - - 0|newick_read|newick_read 313b|\
    newick_read 313b |newick_read 313b - -|newick_read  313b -|newick_read 313 -|newick_read 313B -|\
    newick_read 1; -|newick_read 313b,313b -|newick_read 313b 0,|newick_read 313b 65536|newick_read 313b 00:0|\
    newick_read -- -|newick_read - --|newick_read 313b 0,-|newick_read 0x313b -|newick_read 313b\r -|\
    Newick_read 313b -|newickread 313b -|newick-read 313b -|newick 313b -|newick_read 30 0,65536|\
    newick_write|newick_write R|newick_write R 1|newick_write R 1 |newick_write R 1 - -|newick_write R 1 0|\
    newick_write R 1 000|newick_write R 1 0,0|newick_write R 65537 00|newick_write R 65536 00|\
    newick_write R - 00|newick_write R 1 0G|newick_write R 1a 00|newick_write R,R 1 00|newick_write 1 R 00|\
    newick_write R 4294967297 00|newick_writes R 1 00|newick_write - 65536 -|newick_write R0 1 00|\
    merge_read|merge_read 2|merge_read 2 -1,-2|merge_read 2 -1,-2 |merge_read 2 -1,-2 0,0 -|merge_read  2 -1,-2 0,0|\
    merge_read 2 --1,-2 0,0|merge_read 2 1-,-2 0,0|merge_read 2 -1,- 0,0|merge_read 2 -,-2 0,0|merge_read 2 -,- 0,0|\
    merge_read 2 +1,-2 0,0|merge_read 2 -+1,-2 0,0|merge_read 2 -1,+2 0,0|merge_read 2 , 0,0|merge_read 2 -1, 0,0|\
    merge_read 2 ,-2 0,0|merge_read 2 -1,,-2 0,0|merge_read 2 -1;-2 0,0|merge_read 2 -1, -2 0,0|merge_read 2 -- 0,0|\
    merge_read 2 - 1,-2 0,0|merge_read 2 -1,2147483648 0,0|merge_read 2 -2147483649,-2 0,0|\
    merge_read 2 -1,4294967294 0,0|merge_read 2 -4294967297,-2 0,0|merge_read 2 -18446744073709551617,-2 0,0|\
    merge_read 2 -1,123456789012345678901234567890 0,0|merge_read 2 -123456789012345678901234567890,-2 0,0|\
    merge_read 2 -00000000002147483649,-2 0,0|merge_read 2 -1.0,-2 0,0|merge_read 2 -1e0,-2 0,0|\
    merge_read 2 -0x1,-2 0,0|merge_read 2 -1:-2 0,0|merge_read 2 (-1,-2) 0,0|merge_read 2 -1,-2L 0,0|\
    merge_read 2 NA,-2 0,0|merge_read 2 \u{2212}1,-2 0,0|merge_read 2 -1,-2\r 0,0|merge_read 2 -1,-2 0,|\
    merge_read 2 -1,-2 0,-1|merge_read 2 -1,-2 -0,0|merge_read 2 -1,-2 0,65536|merge_read 2 -1,-2 --|\
    merge_read 65536 - -|merge_read 65537 - -|merge_read 65538 -1,-2 0,0|merge_read 4294967298 -1,-2 0,0|\
    merge_read -2 -1,-2 0,0|merge_read - -1,-2 0,0|merge_read 2. -1,-2 0,0|merge_read 513 0,2147483648 -|\
    Merge_read 1 - -|mergeread 1 - -|merge-read 1 - -|merge 1 - -|merge_write|merge_write R|merge_write R 1|\
    merge_write R 1 |merge_write R 1 - -|merge_write R 1 0,|merge_write R 1 --1|merge_write R 1 1-|\
    merge_write R 1 0,-|merge_write R 1 +1|merge_write R 1 0,2147483648|merge_write R 1 -2147483649|\
    merge_write R 1 123456789012345678901234567890|merge_write R 65536 0|merge_write R 65537 0,0,0,0,0,0|\
    merge_write R -1 0|merge_write R - 0|merge_write R,R 1 0|merge_write R0 1 0|merge_write 1 R 0|\
    merge_write R 1a 0|merge_writes R 1 0|merge_write - 65536 -|merge_write 00 3 2147483648|\
    entanglement|entanglement R|entanglement -|entanglement R 0|squared_entanglement|squared_entanglement |\
    squared_entanglement R R|squared_entanglement R 0|squared_entanglement  R|squared_entanglement R0|\
    squared_entanglements R|squared_entanglemen R|squared_entangle R|squared-entanglement R|squared entanglement R|\
    squaredentanglement R|Squared_entanglement R|squared R|_entanglement R|thousandths|thousandths |thousandths R R|\
    thousandths R 0|thousandths R -|thousandths  R| thousandths R|thousandths R |thousandths R0|thousandths R,R|\
    thousandths -R|thousandths R\r|Thousandths R|thousandth R|thousandthss R|thousands R|thousandths_ R|\
    entanglement_thousandths R|thousandths_entanglement R|thousandths 0|thousandths --|\
    pin|pin |pin R|pin R 1|pin R 1 1|pin R 1 1 |pin R 1 1 -|pin R 1 1 1 1|pin R 1 1 1 |pin  R 1 1 1| pin R 1 1 1|\
    pin R  1 1 1|pin R 1  1 1|pin R 1 1  1|pin R 1 1 +1|pin R 1 1 -1|pin R 1 1 -0|pin R 1 1 1,|pin R 1 1 1.|\
    pin R 1 1 1a|pin R 1 1 0x1|pin R 1 1 1:1|pin R 1 1 true|pin R 1 1 N|pin R 1 1 1\r|pin R 1 1 1\t|pin R 1:1 1|\
    pin R 1:1 1 1|pin R 1,1 1|pin R - 1 1|pin R 1 - 1|pin R -1 1 1|pin R 1 -1 1|pin R 1 1a 1|pin R 1a 1 1|\
    pin R 65536 1 1|pin R 65537 1 1|pin R 1 65536 1|pin R 1 65537 1|pin R 4294967297 1 1|pin R 1 4294967297 1|\
    pin R 1 18446744073709551617 1|pin R0 1 1 1|pin R, 1 1 1|pin 1 R 1 1|pin 1 1 1 R|pin - 3 0 2|pin - 0 65536 1|\
    pin 00 1 1 2|pin - - - -|Pin R 1 1 1|PIN R 1 1 1|pins R 1 1 1|pi R 1 1 1|unpin R 1 1|unpin R 1 1 1|pin R 1 1 2|\
    take_in|take_in |take_in R|take_in R 1|take_in R 1 1,2,3,4|take_in R 1 1,2,3,4 |take_in R 1 1,2,3,4 000000 0|\
    take_in R 1 1,2,3,4 000000 |take_in  R 1 1,2,3,4 000000| take_in R 1 1,2,3,4 000000|take_in R  1 1,2,3,4 000000|\
    take_in R 1  1,2,3,4 000000|take_in R 1 1,2,3,4  000000|take_in R 1 1,2,3,4 00000|take_in R 1 1,2,3,4 0|\
    take_in R 1 1,2,3,4 00000g|take_in R 1 1,2,3,4 00000A|take_in R 1 1,2,3,4 0,0,0|take_in R 1 1,2,3,4 00,00,00|\
    take_in R 1 1,2,3,4 --|take_in R 1 1,2,3,4 -00|take_in R 1 1,2,3,65536 000000|take_in R 1 65537,2,3,4 000000|\
    take_in R 1 1,2,3,4,65536 000000|take_in R 1 1,2,3,18446744073709551620 000000|take_in R 1 1,2,3, 000000|\
    take_in R 1 ,1,2,3,4 000000|take_in R 1 1,,2,3,4 000000|take_in R 1 1;2;3;4 000000|take_in R 1 1:2,3:4 000000|\
    take_in R 1 1,2,3,-4 000000|take_in R 1 1,2,3,+4 000000|take_in R 1 1,2,3,- 000000|take_in R 1 1,2,3,4. 000000|\
    take_in R 1 -- 000000|take_in R 1 1234 |take_in R 1 1 2 3 4 000000|take_in R 1 0x1,2,3,4 000000|\
    take_in R 65536 1,2,3,4 000000|take_in R 65537 1,2,3,4 000000|take_in R 4294967297 1,2,3,4 000000|\
    take_in R -1 1,2,3,4 000000|take_in R +1 1,2,3,4 000000|take_in R - 1,2,3,4 000000|take_in R 1a 1,2,3,4 000000|\
    take_in R L 1,2,3,4 000000|take_in R 1,2 1,2,3,4 000000|take_in R0 1 1,2,3,4 000000|take_in R, 1 1,2,3,4 000000|\
    take_in 1 R 1,2,3,4 000000|take_in 1,2,3,4 1 R 000000|take_in R 1 000000 1,2,3,4|take_in R 1,2,3,4 1 000000|\
    take_in R 1 1,2,3,4 000000\r|take_in R 1 1,2,3,4 000000\t|take_in R 1 1,2,3,4\t000000|take_in - 3 65536 -|\
    take_in - 65536 - -|take_in 00 3 1, 0|take_in - 0 - 0|Take_in R 1 1,2,3,4 000000|TAKE_IN R 1 1,2,3,4 000000|\
    take_i R 1 1,2,3,4 000000|take_ins R 1 1,2,3,4 000000|take R 1 1,2,3,4 000000|takein R 1 1,2,3,4 000000|\
    take-in R 1 1,2,3,4 000000|take in R 1 1,2,3,4 000000|take_in_ R 1 1,2,3,4 000000";

/// Fixed lines around one good record (its hexadecimal digits).
pub fn fixed(record: &str) -> Vec<String> {
    let without = ["", " ", "-", "?", "check", "check ", "check  ", "0", "help"];
    let around = AROUND.split('|').map(|line| line.replace('R', record));
    without.map(String::from).into_iter().chain(around).collect()
}

/// Where these bytes stand in a line.
fn places_of(line: &[u8], wanted: impl Fn(u8) -> bool) -> Vec<usize> {
    (0..line.len()).filter(|&at| wanted(line[at])).collect()
}

/// Puts some bytes in place of the one at a place that has a wanted byte.
fn replace(line: &mut Vec<u8>, wanted: impl Fn(u8) -> bool, by: &[u8], random: &mut Random) {
    let places = places_of(line, wanted);
    if !places.is_empty() {
        let at = random.pick(&places);
        line.splice(at..at + 1, by.iter().copied());
    }
}

/// Puts some bytes in front of a word other than the first.
fn before_a_word(line: &mut Vec<u8>, bytes: &[u8], random: &mut Random) {
    replace(line, |byte| byte == b' ', &[b" ", bytes].concat(), random);
}

/// Puts a word in place of one other than the first.
fn exchange_a_word(line: &mut Vec<u8>, word: &[u8], random: &mut Random) {
    let mut words: Vec<&[u8]> = line.split(|&byte| byte == b' ').collect();
    let at = random.below(words.len() - 1) + 1;
    words[at] = word;
    *line = words.join(&b' ');
}

const TOO_LARGE: [&[u8]; 8] = [
    b"65536",
    b"65537",
    b"4294967296",
    b"4294967297",
    b"18446744073709551616",
    b"18446744073709551617",
    b"100000000000000000000000000000000000000001",
    b"00000000000000000000000000000000000065536",
];

const NO_WORDS: [&[u8]; 12] =
    [b"", b"--", b"+1", b"-1", b"1,", b",1", b"1,,2", b"1:", b":1", b"1:1:1", b"0x10", b"1.5"];

const NO_BYTES: [&[u8]; 12] =
    [b"\t", b"\r", b"\0", b"\xff", b"\xc2\xa0", b"\x0b", b"\x0c", b"A", b"F", b"g", b"_", b"/"];

const NO_COMMAS: [&[u8]; 5] = [b",,", b":", b"", b", ", b";"];

const FRONTS: [&[u8]; 5] = [b"+", b"-", b",", b"0x", b"000000000000000000000"];

/// A good line damaged in one way.
pub fn damaged(line: &str, random: &mut Random) -> Vec<u8> {
    let mut line = line.as_bytes().to_vec();
    match random.below(20) {
        0 => line.clear(),
        1 => before_a_word(&mut line, b" ", random),
        2 => line.push(b' '),
        3 => line.insert(0, b' '),
        4 => replace(&mut line, |byte| byte == b' ', random.pick(&NO_BYTES), random),
        5 => line.push(b'\r'),
        6 => line[0] = line[0].to_ascii_uppercase(),
        7 => line.truncate(line.iter().rposition(|&byte| byte == b' ').unwrap_or(0)),
        8 => line.extend(random.pick(&[&b" -"[..], b" 0", b" 1", b" 00", b" 1,2"])),
        9 => replace(&mut line, |byte| byte.is_ascii_hexdigit(), b"", random),
        10 => before_a_word(&mut line, b"0", random),
        11 => replace(&mut line, |byte| byte.is_ascii_digit(), random.pick(&NO_BYTES), random),
        12 => exchange_a_word(&mut line, random.pick(&TOO_LARGE), random),
        13 => exchange_a_word(&mut line, random.pick(&NO_WORDS), random),
        14 => exchange_a_word(&mut line, b"-", random),
        15 => replace(&mut line, |byte| byte == b',' || byte == b':', random.pick(&NO_BYTES), random),
        16 => replace(&mut line, |byte| byte == b',', random.pick(&NO_COMMAS), random),
        17 => before_a_word(&mut line, random.pick(&FRONTS), random),
        18 => line.make_ascii_uppercase(),
        _ => {
            let any = random.below(256) as u8;
            let at = random.below(line.len());
            line[at] = random.pick(&[any, b' ', b'-', b'0']);
        }
    }
    line.retain(|&byte| byte != b'\n');
    line
}
