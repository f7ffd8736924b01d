//! The clauses of demand 3, of the bytes that two calls left, whatever the model says of the whole
//! sheets.

use super::call::{numbers, Lend, Read};
use crate::gen::pairs::Pair;
use crate::model::c::RASTER_ANSWER;
use crate::model::sheet::line_alone;
use crate::model::{long, word};

/// What is wrong with two calls, if anything is. The second was lent so much.
pub fn holds(pair: &Pair, first: &Read, second: &Read, lend: Lend) -> Result<(), String> {
    if first.result > 1 {
        return Err(format!("the first call is refused with {}", first.result));
    }
    let (ppl, nol) = (long(&pair.first, 184) as usize, long(&pair.first, 188) as usize);
    let short = lend.pixels < 2 * ppl * nol || lend.marks < nol || lend.answer < RASTER_ANSWER;
    match (second.result > 1, short) {
        (true, true) => return Ok(()),
        (true, false) => {
            return Err(format!("refused with {}, but no buffer is too short", second.result))
        }
        (false, true) => return Err("a buffer is too short, and it is not refused".to_string()),
        (false, false) => {}
    }
    let (starts, end) = chain(&pair.first, nol);
    let ends = [first, second].map(|read| numbers(read.answer.lent(), 2)[1]);
    if ends != [end as u64; 2] {
        return Err(format!("the ends are {} and {}, not {end}", ends[0], ends[1]));
    }
    for (name, read) in [("first", first), ("second", second)] {
        let good = read.marks.lent()[..nol].iter().filter(|&&mark| mark == 0).count();
        if numbers(read.answer.lent(), 1) != [good as u64] {
            return Err(format!("{name} call: the good lines are not those marked 0"));
        }
        if read.result != u32::from(good < nol) {
            return Err(format!("{name} call: answer {} with {good} good lines", read.result));
        }
    }
    let kind = word(&pair.first, 4);
    // No change reaches a line's number, so this one is the same in both.
    let decides = starts.get(65_535).and_then(|&at| number_at(&pair.first, at));
    for (i, same) in pair.same.iter().enumerate() {
        let [old, new] = [first, second].map(|read| {
            (read.marks.lent()[i], &read.pixels.lent()[2 * ppl * i..2 * ppl * (i + 1)])
        });
        let k = i + 1;
        if *same && old != new {
            return Err(format!("line {k} differs, but its body does not"));
        }
        for (file, (mark, row)) in [(&pair.first, old), (&pair.second, new)] {
            if mark > 0 && row.iter().any(|&byte| byte > 0) {
                return Err(format!("line {k} is marked {mark} and not blank"));
            }
            let right = match starts.get(i) {
                None => mark == 9,
                Some(&at) => {
                    // A line is given no byte but its own.
                    let (wanted, pixels) =
                        line_alone(own_bytes(file, at), kind, ppl, number(k, decides));
                    mark == wanted && row.chunks(2).map(|p| word(p, 0)).eq(pixels)
                }
            };
            if !right {
                return Err(format!("line {k} is not read by its own header and body"));
            }
        }
    }
    Ok(())
}

/// The number stored in a line that starts here, if its header lies in the file.
fn number_at(file: &[u8], at: usize) -> Option<u64> {
    file.get(at..at + 8).map(|header| word(header, 4))
}

/// The number stored in line 65,536, if the chain reaches that and its header lies in the file.
pub fn decides(file: &[u8], nol: usize) -> Option<u64> {
    chain(file, nol).0.get(65_535).and_then(|&at| number_at(file, at))
}

/// The number that line `k` must have where line 65,536 has one that decides.
fn number(k: usize, decides: Option<u64>) -> u64 {
    match decides {
        Some(1) => (k as u64 - 1) % 65_535 + 1,
        _ => k as u64 % 65_536,
    }
}

/// Where the lines begin that the chain reaches, and the end: the byte after the last line, or the
/// first byte of the lost one.
fn chain(file: &[u8], nol: usize) -> (Vec<usize>, usize) {
    let mut starts = Vec::new();
    let mut at = 2 * (word(file, 2) as usize + 2);
    while starts.len() < nol {
        starts.push(at);
        let Some(header) = file.get(at..at + 8) else {
            return (starts, at);
        };
        let follow = word(header, 2) as usize;
        let next = at + 4 + 2 * follow;
        if header[1] != 0x59 || follow < 2 || next > file.len() {
            return (starts, at);
        }
        at = next;
    }
    (starts, at)
}

/// The offsets of the lines that the chain reaches and whose headers lie in the file.
pub fn offsets(file: &[u8], nol: usize) -> Vec<u64> {
    let starts = chain(file, nol).0.into_iter();
    starts.filter(|at| at + 8 <= file.len()).map(|at| word(file, at + 6)).collect()
}

/// The header and body of a line, as far as they lie in the file.
fn own_bytes(file: &[u8], at: usize) -> &[u8] {
    let rest = &file[at.min(file.len())..];
    match rest.len() {
        0..=7 => rest,
        length => &rest[..(4 + 2 * word(rest, 2) as usize).clamp(8, length)],
    }
}
