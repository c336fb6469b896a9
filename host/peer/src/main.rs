// peer: the calls (docs/CALLS.md, docs/NEWICK.md, docs/MERGE.md) and the record (docs/RECORD.md)
// written a second time, from the customer's definitions, to be compared with the firmware.
//   peer answers               answers desk's lines from standard input
//   peer calls SEED COUNT      writes so many lines of calls
//   peer sheet                 what `sheet` prints for the record on standard input
//   peer record SHAPE N SEED   one good record; SHAPE is balanced, caterpillar, random or straight
//   peer pinned SHAPE N SEED STEP   the same with rows STEP, 2 STEP and so on of both sides pinned
//   peer displaced N D SEED    one good record whose displacement is D
//   peer speed CALL            nanoseconds per call; CALL is check, count, free, take_in or run

mod bad_links;
mod bad_rows;
#[cfg(test)]
mod bench;
mod calls;
mod crossings;
mod desk;
mod displaced;
mod edges;
mod every_call;
mod faults;
mod firmware;
mod lines;
mod made;
mod malformed;
mod merge;
mod merge_edges;
mod newick;
mod newick_edges;
mod orders;
mod pin_edges;
mod pins;
mod quick;
mod random;
mod ratio_edges;
mod record;
mod refusals;
mod room;
mod shapes;
mod sheet;
mod sides;
mod speed;
mod spelling;
mod tables;
mod take_in;
mod take_in_edges;
mod tree;

use std::io::{self, BufWriter, Read, Write};
use std::process::ExitCode;

use random::Random;

const USAGE: &str =
    "usage: peer answers | calls SEED COUNT | sheet | record SHAPE N SEED | pinned SHAPE N SEED STEP | \
    displaced N D SEED | speed check|count|free|take_in|run";

fn read_at_most(bytes: u64) -> io::Result<Vec<u8>> {
    let mut input = Vec::new();
    io::stdin().lock().take(bytes).read_to_end(&mut input)?;
    Ok(input)
}

fn answers(out: &mut impl Write) -> io::Result<()> {
    let input = read_at_most(desk::MOST_BYTES as u64 + 1)?;
    for line in desk::lines(&input) {
        writeln!(out, "{}", desk::answer(line))?;
    }
    Ok(())
}

fn number(word: &str) -> io::Result<u64> {
    word.parse().map_err(io::Error::other)
}

fn leaves(word: &str) -> io::Result<usize> {
    match number(word)? {
        n @ 1..=512 => Ok(n as usize),
        _ => Err(io::Error::other("n is 1 to 512")),
    }
}

fn one_record(shape: &str, n: &str, seed: &str) -> io::Result<made::Made> {
    made::of_shape(shape, leaves(n)?, &mut Random::new(number(seed)?)).ok_or(io::Error::other(USAGE))
}

fn pinned_record(made: made::Made, step: &str, out: &mut impl Write) -> io::Result<()> {
    match number(step)? {
        0 => Err(io::Error::other("STEP is 1 or more")),
        step => out.write_all(&made.every_pinned(step as usize).bytes()),
    }
}

fn displaced_record(n: &str, d: &str, seed: &str, out: &mut impl Write) -> io::Result<()> {
    let (n, d) = (leaves(n)?, number(d)?);
    if !displaced::occurs(n, d) {
        return Err(io::Error::other("no links have this displacement"));
    }
    let made = made::any_record(n, &mut Random::new(number(seed)?));
    out.write_all(&displaced::displaced(&made, d).bytes())
}

fn speed(call: &str, out: &mut impl Write) -> io::Result<()> {
    match speed::speed(call, &read_at_most(sheet::ENOUGH)?) {
        Some(nanoseconds) => writeln!(out, "{nanoseconds}"),
        None => Err(io::Error::other("no such call, or the record is refused")),
    }
}

fn command(words: &[&str], out: &mut impl Write) -> io::Result<()> {
    match words {
        ["answers"] => answers(out)?,
        ["calls", seed, count] => calls::write(number(seed)?, number(count)?, out)?,
        ["sheet"] => write!(out, "{}", sheet::sheet(read_at_most(sheet::ENOUGH)?))?,
        ["record", shape, n, seed] => out.write_all(&one_record(shape, n, seed)?.bytes())?,
        ["pinned", shape, n, seed, step] => pinned_record(one_record(shape, n, seed)?, step, out)?,
        ["displaced", n, d, seed] => displaced_record(n, d, seed, out)?,
        ["speed", call] => speed(call, out)?,
        _ => return Err(io::Error::other(USAGE)),
    }
    out.flush()
}

fn main() -> ExitCode {
    let words: Vec<String> = std::env::args().skip(1).collect();
    let words: Vec<&str> = words.iter().map(String::as_str).collect();
    match command(&words, &mut BufWriter::new(io::stdout().lock())) {
        Ok(()) => ExitCode::SUCCESS,
        Err(problem) => {
            eprintln!("peer: {problem}");
            ExitCode::FAILURE
        }
    }
}
