//! The files that commands are given: those of every family of the modes `header` and `sheets`, as
//! far as they do not need much memory, and names for them.

use super::Bench;
use crate::gen::{headers, sheets};
use crate::model::{header, sheet};
use crate::rng::Rng;
use std::collections::BTreeMap;

/// Pixels of a sheet that a small case may have: memory is filled for each of them.
const MOST_PIXELS: u64 = 400_000;

/// A file with its name and the family that it is of.
pub struct Given {
    pub name: Vec<u8>,
    pub file: Vec<u8>,
    pub family: &'static str,
}

/// The inputs that the other modes always run, by their families.
pub struct Stock(BTreeMap<&'static str, Vec<Vec<u8>>>);

/// The families of files that have to be reached.
pub fn families() -> Vec<&'static str> {
    [&sheets::FIXED[..], &sheets::BY_CHANCE, &headers::FIXED[1..], &headers::BY_CHANCE].concat()
}

/// Of so many in a family, no more than these are kept.
const KEPT: usize = 400;

impl Stock {
    pub fn new(seed: u64) -> Stock {
        let mut rng = Rng::new(seed, 1 << 40);
        let mut stock: BTreeMap<&'static str, Vec<Vec<u8>>> = BTreeMap::new();
        let mut add = |family, file: Vec<u8>| {
            if is_small(&file) {
                stock.entry(family).or_default().push(file);
            }
        };
        sheets::fixed(seed).into_iter().for_each(|input| add(input.family, input.file));
        headers::fixed(seed).into_iter().for_each(|input| add(input.family, input.bytes));
        for _ in 0..1_500 {
            let input = sheets::random(&mut rng);
            add(input.family, input.file);
            let input = headers::random(&mut rng);
            add(input.family, input.bytes);
        }
        for files in stock.values_mut() {
            while files.len() > KEPT {
                files.swap_remove(rng.below(files.len()));
            }
        }
        Stock(stock)
    }

    pub fn all(&self) -> impl Iterator<Item = (&'static str, &Vec<Vec<u8>>)> {
        self.0.iter().map(|(family, files)| (*family, files))
    }
}

/// Whether its pixels are few, or it is refused.
fn is_small(file: &[u8]) -> bool {
    header::read(file).map_or(true, |h| h.ppl * h.nol <= MOST_PIXELS)
}

/// A file of some family.
pub fn some(rng: &mut Rng, bench: &Bench) -> (&'static str, Vec<u8>) {
    let families: Vec<_> = bench.stock.all().collect();
    let (family, files) = families[rng.below(families.len())];
    (family, files[rng.below(files.len())].clone())
}

/// So many files, each with a name of its own, some of them odd.
pub fn named(rng: &mut Rng, bench: &Bench, count: usize) -> Vec<Given> {
    let mut list = Vec::new();
    for i in 0..count {
        let (family, file) = some(rng, bench);
        list.push(Given { name: name(rng, i), file, family });
    }
    list
}

/// Parts of names: what has to be escaped, and what looks as if it had.
const ODD: [&[u8]; 20] = [
    b"\n",
    b"\t",
    b"\r",
    b"\x1b[2J",
    b"\\",
    b"\\n",
    b" ",
    b"\"",
    b"\xc3\xa9",
    b"\xc2\x85",
    b"\xc2\xa0",
    b"\xff",
    b"\xc3",
    b"\xe2\x82",
    b"\xed\xa0\x80",
    b"\xc0\xaf",
    b"\xf0\x9f\x97\xba",
    b"\x7f",
    b"'",
    b"%s",
];

/// A name that begins with a number of its own.
pub fn name(rng: &mut Rng, i: usize) -> Vec<u8> {
    let ending = rng.pick(&[".rle", ".cot", ".crl", ".dat", ""]);
    let mut name = format!("s{i:04}").into_bytes();
    if rng.one_in(4) {
        for _ in 0..rng.range(1, 3) {
            name.extend(rng.pick(&ODD));
        }
    }
    name.extend(ending.as_bytes());
    name
}

/// The refusal of a file or the marks of its lines, as what a command reached.
pub fn reached(command: &str, file: &[u8]) -> Vec<String> {
    match sheet::read(file, u64::MAX, u64::MAX) {
        Err(number) => vec![format!("{command}: refused {number}")],
        Ok(found) => {
            let mut marks: Vec<u8> = found.lines.iter().map(|line| line.mark).collect();
            marks.sort_unstable();
            marks.dedup();
            marks.iter().map(|mark| format!("{command}: mark {mark}")).collect()
        }
    }
}
