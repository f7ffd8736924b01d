//! The whole sheet: rows, marks, good lines and end.

use super::header::{self, Header};
use super::{word, Rejection};
use std::ops::Range;

pub struct Sheet {
    pub header: Header,
    /// Every line from 1 to NOL.
    pub lines: Vec<Line>,
    /// The byte after the last line, or the first byte of the lost one.
    pub end: usize,
}

#[derive(Clone, PartialEq)]
pub struct Line {
    pub mark: u8,
    pub row: Vec<u64>,
    /// The bytes of the body as far as they lie in the file; none for a line without a header.
    pub body: Option<Range<usize>>,
}

impl Sheet {
    pub fn good(&self) -> usize {
        self.lines.iter().filter(|line| line.mark == 0).count()
    }

    /// 0 where every line is good, else 1.
    pub fn answer(&self) -> u64 {
        u64::from(self.good() < self.lines.len())
    }
}

/// What the chain does after a line.
enum Next {
    At(usize),
    Lost,
}

/// A mark, or the row of a good line.
type Reading = Result<Vec<u64>, u8>;

/// How packed words are read.
pub struct Unpacking {
    /// The words that hold so many pixels.
    pub words: fn(u64) -> u64,
    /// The pixels of a word, from the left.
    pub pixels: fn(u64) -> Vec<u64>,
    /// Whether a set bit past the last pixel is let pass.
    pub spare_taken: bool,
    /// Whether mark 10 comes before mark 6.
    pub spare_first: bool,
    /// Whether a line marked 10 is lost where it has no header.
    pub spare_loses: bool,
}

/// As the papers say.
pub const RIGHT: Unpacking = Unpacking {
    words: |pixels| pixels.div_ceil(16),
    // The leftmost in the highest bit.
    pixels: |word| (0..16).rev().map(|bit| word >> bit & 1).collect(),
    spare_taken: false,
    spare_first: false,
    spare_loses: false,
};

impl Unpacking {
    /// The row of the words, or mark 10.
    fn row(&self, words: &[u64], pixels: u64) -> Reading {
        let mut row: Vec<u64> = words.iter().flat_map(|&word| (self.pixels)(word)).collect();
        row.resize(row.len().max(pixels as usize), 0);
        let spare = row.split_off(pixels as usize);
        match spare.contains(&1) && !self.spare_taken {
            true => Err(10),
            false => Ok(row),
        }
    }
}

pub fn read(file: &[u8], pixels: u64, marks: u64) -> Result<Sheet, Rejection> {
    read_by(&RIGHT, file, pixels, marks)
}

/// The same by a reader that may read packed words in another way.
pub fn read_by(by: &Unpacking, file: &[u8], pixels: u64, marks: u64) -> Result<Sheet, Rejection> {
    let header = header::read(file)?;
    if pixels < header.ppl * header.nol {
        return Err(23);
    }
    if marks < header.nol {
        return Err(24);
    }
    let mut lines = Vec::new();
    let mut at = header.size();
    let mut lost = false;
    let mut count = Count::default();
    for _ in 0..header.nol {
        let (reading, body, next) = match (lost, header.scn) {
            (true, _) => (Err(9), None, Next::Lost),
            (false, 0) => bare_line(by, file, at, header.kind, header.ppl),
            (false, _) => {
                count.step(file.get(at + 4..at + 6).map(|stored| word(stored, 0)));
                headed_line(by, file, at, header.kind, header.ppl, count.number)
            }
        };
        match next {
            Next::At(place) => at = place,
            Next::Lost => lost = true,
        }
        let (mark, row) = match reading {
            Ok(row) => (0, row),
            Err(mark) => (mark, vec![0; header.ppl as usize]),
        };
        lines.push(Line { mark, row, body });
    }
    Ok(Sheet { header, lines, end: at })
}

/// The numbers of lines, counted from one line to the next. A word holds no more than 65,535 of
/// them, and then the count rolls over.
#[derive(Default)]
struct Count {
    number: u64,
    /// What comes after 65,535, once the first line after it has decided that.
    roll: Option<u64>,
}

impl Count {
    /// Goes on to the next line, where this number is stored, if its header lies in the file.
    fn step(&mut self, stored: Option<u64>) {
        self.number = match self.number {
            65_535 => *self.roll.get_or_insert(if stored == Some(1) { 1 } else { 0 }),
            number => number + 1,
        };
    }
}

/// A line with its header and this number, given nothing but its own bytes, as far as they lie in
/// the file.
pub fn line_alone(own: &[u8], kind: u64, ppl: usize, number: u64) -> (u8, Vec<u64>) {
    match headed_line(&RIGHT, own, 0, kind, ppl as u64, number).0 {
        Ok(row) => (0, row),
        Err(mark) => (mark, vec![0; ppl]),
    }
}

/// A line with its four words of header before it, which must have this number.
fn headed_line(
    by: &Unpacking,
    file: &[u8],
    at: usize,
    kind: u64,
    ppl: u64,
    number: u64,
) -> (Reading, Option<Range<usize>>, Next) {
    if at + 8 > file.len() {
        return (Err(1), None, Next::Lost);
    }
    if file[at + 1] != 0x59 {
        return (Err(2), None, Next::Lost);
    }
    // Words after this field: line number, offset and the body.
    let follow = word(file, at + 2) as usize;
    if follow < 2 {
        return (Err(3), None, Next::Lost);
    }
    let next = at + 4 + 2 * follow;
    if next > file.len() {
        return (Err(1), Some(at + 8..file.len()), Next::Lost);
    }
    let body = at + 8..next;
    let offset = word(file, at + 6);
    let reading = if word(file, at + 4) != number {
        Err(4)
    } else if offset > ppl {
        Err(5)
    } else {
        whole_body(by, &file[body.clone()], kind, ppl - offset)
            .map(|rest| from_column(offset, rest))
    };
    (reading, Some(body), Next::At(next))
}

/// A row whose first pixels are 0, and then those of a body.
fn from_column(offset: u64, mut rest: Vec<u64>) -> Vec<u64> {
    rest.resize(rest.len() + offset as usize, 0);
    rest.rotate_right(offset as usize);
    rest
}

/// A body whose length the line's header gives, for so many pixels: marks 6, 10, 7 and 8.
fn whole_body(by: &Unpacking, body: &[u8], kind: u64, pixels: u64) -> Reading {
    let words: Vec<u64> = body.chunks(2).map(|pair| word(pair, 0)).collect();
    let count = words.len() as u64;
    if kind == 1 && by.spare_first {
        by.row(&words, pixels)?;
    }
    let right = match kind {
        1 => count == (by.words)(pixels),
        2 => count == pixels.div_ceil(2),
        3 => count == pixels,
        9 => count % 2 == 1,
        _ => count % 2 == 0,
    };
    if !right {
        return Err(6);
    }
    let runs: Vec<(u64, u64)> = match kind {
        1 => return by.row(&words, pixels),
        2 => return Ok(body[..pixels as usize].iter().map(|&byte| u64::from(byte)).collect()),
        3 => return Ok(words),
        9 => words.iter().enumerate().map(|(i, &run)| (i as u64 % 2, run)).collect(),
        _ => words.chunks(2).map(|pair| (pair[0], pair[1])).collect(),
    };
    let total: u64 = runs.iter().map(|run| run.1).sum();
    match total {
        _ if total > pixels => Err(7),
        _ if total < pixels => Err(8),
        _ => Ok(spread(&runs)),
    }
}

/// The pixels of runs of a value and a count.
fn spread(runs: &[(u64, u64)]) -> Vec<u64> {
    let mut row = Vec::new();
    for &(value, count) in runs {
        row.resize(row.len() + count as usize, value);
    }
    row
}

/// A line that only its own pixels bound: marks 1 and 7, both lost, and 10, which is not.
fn bare_line(
    by: &Unpacking,
    file: &[u8],
    at: usize,
    kind: u64,
    ppl: u64,
) -> (Reading, Option<Range<usize>>, Next) {
    let lost = |mark| (Err(mark), None, Next::Lost);
    let width = ppl as usize;
    match kind {
        1 => {
            let end = at + 2 * (by.words)(ppl) as usize;
            let Some(body) = file.get(at..end) else {
                return lost(1);
            };
            let words: Vec<u64> = body.chunks(2).map(|pair| word(pair, 0)).collect();
            match by.row(&words, ppl) {
                Err(mark) if by.spare_loses => lost(mark),
                // Its words are taken all the same.
                reading => (reading, None, Next::At(end)),
            }
        }
        2 => match file.get(at..at + width) {
            Some(body) => {
                let row = body.iter().map(|&byte| u64::from(byte)).collect();
                (Ok(row), None, Next::At(at + width))
            }
            None => lost(1),
        },
        3 => match file.get(at..at + 2 * width) {
            Some(body) => {
                let row = body.chunks(2).map(|pair| word(pair, 0)).collect();
                (Ok(row), None, Next::At(at + 2 * width))
            }
            None => lost(1),
        },
        _ => {
            let step = if kind == 9 { 2 } else { 4 };
            let mut place = at;
            let mut runs: Vec<(u64, u64)> = Vec::new();
            let mut total = 0;
            loop {
                let Some(unit) = file.get(place..place + step) else {
                    return lost(1);
                };
                let run = match kind {
                    9 => (runs.len() as u64 % 2, word(unit, 0)),
                    _ => (word(unit, 0), word(unit, 2)),
                };
                place += step;
                runs.push(run);
                total += run.1;
                if total > ppl {
                    return lost(7);
                }
                // A type 9 line closes with an OFF run, be it of no pixels.
                let may_end = kind == 10 || run.0 == 0;
                if total == ppl && may_end {
                    return (Ok(spread(&runs)), None, Next::At(place));
                }
            }
        }
    }
}
