//! Whole sheets: rows, loosely coded bodies, line headers, and damage of every kind.

use super::header::{some_cte, some_drs, some_entries, Draft};
use crate::rng::Rng;

pub const TYPES: [u16; 5] = [1, 2, 3, 9, 10];

/// A line with its header, every field of which may be wrong.
#[derive(Clone)]
pub struct Line {
    pub id: u16,
    /// Words to follow; none is what the body needs.
    pub follow: Option<u16>,
    pub number: u16,
    pub offset: u16,
    pub body: Vec<u8>,
}

impl Line {
    /// A right line number `k`; the body has an even number of bytes.
    pub fn new(k: usize, body: Vec<u8>) -> Line {
        Line::starting(k, 0, body)
    }

    /// The same, with its first pixel in this column.
    pub fn starting(k: usize, offset: usize, body: Vec<u8>) -> Line {
        Line { id: 0x5900, follow: None, number: k as u16, offset: offset as u16, body }
    }

    pub fn bytes(&self) -> Vec<u8> {
        let follow = self.follow.unwrap_or((self.body.len() / 2 + 2) as u16);
        let words = [self.id, follow, self.number, self.offset];
        let mut bytes = Vec::with_capacity(8 + self.body.len());
        words.iter().for_each(|word| bytes.extend(word.to_le_bytes()));
        bytes.extend(&self.body);
        bytes
    }
}

pub fn words(list: &[u16]) -> Vec<u8> {
    list.iter().flat_map(|word| word.to_le_bytes()).collect()
}

/// A sheet: its header, then raster data.
pub fn sheet(header: &Draft, raster: &[u8]) -> Vec<u8> {
    let mut file = header.bytes();
    file.extend(raster);
    file
}

/// A sheet with line headers.
pub fn headed(header: &Draft, lines: &[Line]) -> Vec<u8> {
    let mut file = header.bytes();
    lines.iter().for_each(|line| file.extend(line.bytes()));
    file
}

/// A header for a sheet: accepted, of a few blocks mostly, with tables and junk.
pub fn some_header(rng: &mut Rng, dtc: u16, scn: u8, ppl: usize, nol: usize) -> Draft {
    let blocks = if rng.one_in(12) { rng.range(6, 20) } else { rng.range(2, 4) };
    let mut header = Draft::plain(dtc, blocks);
    header.ppl = ppl as u32;
    header.nol = nol as u32;
    header.scn = scn;
    header.slo = rng.below(8) as u8;
    header.drs = some_drs(rng);
    header.cte = some_cte(rng);
    header.junk = rng.one_in(2).then(|| rng.next());
    match rng.below(6) {
        0 if blocks >= 3 => header.igds(rng.bytes(768)),
        1 => {
            let count = rng.range(1, 32);
            let entries = some_entries(rng, count);
            header.environ_v(&entries);
        }
        _ => {}
    }
    header
}

/// Width and height, mostly small, within what the listing program lends.
pub fn some_size(rng: &mut Rng) -> (usize, usize) {
    match rng.below(12) {
        0 => (rng.range(1, 2000), rng.range(1, 3)),
        1 => (rng.range(1, 30), rng.range(40, 256)),
        2 => (rng.range(1, 4), rng.range(1, 20)),
        _ => (rng.range(1, 40), rng.range(1, 12)),
    }
}

/// A row of pixels in one of several styles.
pub fn some_row(rng: &mut Rng, kind: u16, width: usize) -> Vec<u16> {
    let most = match kind {
        2 => 255,
        1 | 9 => 1,
        _ => 65_535,
    };
    let value = |rng: &mut Rng| match rng.below(4) {
        0 => 0,
        1 => most as u16,
        _ => rng.range(0, most) as u16,
    };
    match rng.below(6) {
        0 => vec![0; width],
        1 => vec![value(rng); width],
        2 => (0..width).map(|_| value(rng)).collect(),
        3 => (0..width).map(|i| (i % 2) as u16).collect(),
        _ => {
            let mut row = Vec::new();
            while row.len() < width {
                let run = rng.range(1, 12).min(width - row.len());
                let pixel = value(rng);
                row.extend(vec![pixel; run]);
            }
            row
        }
    }
}

/// A body that reads as `row`, in any of the ways the format allows: runs in pieces, and zero
/// runs anywhere if `loose`. With line headers the body is closed as the format wants it.
pub fn some_body(rng: &mut Rng, kind: u16, row: &[u16], loose: bool, headers: bool) -> Vec<u8> {
    match kind {
        1 => words(&packed(row)),
        2 => {
            let mut body: Vec<u8> = row.iter().map(|&pixel| pixel as u8).collect();
            if headers && row.len() % 2 == 1 {
                body.push(rng.byte());
            }
            body
        }
        3 => words(row),
        9 => words(&runs_of_levels(rng, row, loose, headers)),
        _ => {
            let mut pairs = Vec::new();
            for (value, run) in pieces(rng, row, loose) {
                pairs.extend([value, run]);
                if loose && rng.one_in(6) {
                    pairs.extend([rng.word(), 0]);
                }
            }
            if loose && rng.one_in(6) {
                pairs.splice(0..0, [rng.word(), 0]);
            }
            words(&pairs)
        }
    }
}

/// Sixteen pixels to a word: each moves those before it up.
fn packed(row: &[u16]) -> Vec<u16> {
    let word = |part: &[u16]| {
        let bits = part.iter().chain(&[0; 16]).take(16);
        bits.fold(0, |word, pixel| word << 1 | pixel)
    };
    row.chunks(16).map(word).collect()
}

/// The bits that the last word of so many pixels has to spare.
pub fn spare_bits(pixels: usize) -> u16 {
    match pixels % 16 {
        0 => 0,
        used => u16::MAX >> used,
    }
}

/// Runs of one value, cut into pieces here and there if `loose`.
fn pieces(rng: &mut Rng, row: &[u16], loose: bool) -> Vec<(u16, u16)> {
    let mut list = Vec::new();
    let mut rest = row;
    while let Some(&value) = rest.first() {
        let run = rest.iter().take_while(|&&pixel| pixel == value).count();
        let taken = if loose && rng.one_in(4) { rng.range(1, run) } else { run };
        list.push((value, taken as u16));
        rest = &rest[taken..];
    }
    list
}

fn runs_of_levels(rng: &mut Rng, row: &[u16], loose: bool, headers: bool) -> Vec<u16> {
    let mut runs: Vec<u16> = Vec::new();
    let zeros = |rng: &mut Rng, runs: &mut Vec<u16>| {
        // Two at a time, so that the levels stay as they are.
        if loose && rng.one_in(6) {
            runs.extend([0, 0]);
        }
    };
    for (level, run) in pieces(rng, row, loose) {
        zeros(rng, &mut runs);
        if runs.len() % 2 != usize::from(level) {
            runs.push(0);
        }
        runs.push(run);
    }
    if runs.len() % 2 == 0 {
        runs.push(0);
    }
    // Without line headers these would belong to the next line, which is as good.
    if headers || rng.one_in(8) {
        zeros(rng, &mut runs);
    }
    runs
}

/// Where the lines of a sheet start.
#[derive(Clone, Copy)]
pub enum Margin {
    /// At their rows' start, as is usual.
    None,
    /// All in this column.
    Same(usize),
    /// Each where it likes.
    Ragged,
}

pub fn some_margin(rng: &mut Rng, ppl: usize) -> Margin {
    match rng.below(4) {
        0 | 1 => Margin::None,
        2 => Margin::Same(some_offset(rng, ppl)),
        _ => Margin::Ragged,
    }
}

impl Margin {
    /// The column of the next line's first pixel.
    pub fn offset(self, rng: &mut Rng, ppl: usize) -> usize {
        match self {
            Margin::None => 0,
            Margin::Same(offset) => offset,
            Margin::Ragged if rng.one_in(3) => 0,
            Margin::Ragged => some_offset(rng, ppl),
        }
    }
}

/// A column in which a line may start, PPL too: at both ends of the row, near its end, or
/// anywhere.
pub fn some_offset(rng: &mut Rng, ppl: usize) -> usize {
    match rng.below(6) {
        0 => 1,
        1 => ppl - 1,
        2 => ppl,
        // Where a reader that stores several pixels at a time would leave the row.
        3 => ppl.saturating_sub(rng.range(2, 17)),
        _ => rng.range(0, ppl),
    }
}

/// An offset that is refused; the widest line has none.
fn some_offset_above(rng: &mut Rng, ppl: usize) -> Option<u16> {
    let least = ppl + 1;
    if least > 65_535 {
        return None;
    }
    let any = rng.range(least, 65_535);
    Some(rng.pick(&[least, 256, 0x8000, 65_535, any]).max(least) as u16)
}

/// What may be wrong with a line that has a header, in the order it is looked for; last, what is
/// wrong by its offset alone.
#[derive(Clone, Copy, PartialEq)]
pub enum Flaw {
    Identifier,
    FollowBelowTwo,
    FollowPastFile,
    Number,
    Offset,
    Count,
    Spare,
    Above,
    Below,
    Misfit,
}

pub const FLAWS: [Flaw; 10] = [
    Flaw::Identifier,
    Flaw::FollowBelowTwo,
    Flaw::FollowPastFile,
    Flaw::Number,
    Flaw::Offset,
    Flaw::Count,
    Flaw::Spare,
    Flaw::Above,
    Flaw::Below,
    Flaw::Misfit,
];

pub fn damage(rng: &mut Rng, line: &mut Line, kind: u16, ppl: usize, flaw: Flaw) {
    match flaw {
        Flaw::Identifier => {
            // The delete flag, the bytes the wrong way round, neighbors, anything.
            line.id = match rng.below(2) {
                0 => rng.pick(&[0xD900, 0x0059, 0x5800, 0x5A00, 0x1900, 0x7900, 0, 0xFFFF]),
                _ => (rng.range(1, 255) as u16 ^ 0x59) << 8 | u16::from(rng.byte()),
            }
        }
        Flaw::FollowBelowTwo => line.follow = Some(rng.below(2) as u16),
        Flaw::FollowPastFile => {
            // Some of these are small again in 16 bits, doubled or with four added.
            let far =
                [0x4000, 0x7FFD, 0x7FFE, 0x7FFF, 0x8000, 0x8001, 0x8002, 0xFFFD, 0xFFFE, 0xFFFF];
            line.follow = Some(rng.pick(&far));
        }
        Flaw::Number => {
            let right = line.number;
            let near = [right.wrapping_add(1), right.wrapping_sub(1), right ^ 0x0100, 0, 65_535];
            line.number = rng.pick(&near);
            if line.number == right {
                line.number = right ^ 0x8000;
            }
        }
        Flaw::Offset => match some_offset_above(rng, ppl) {
            Some(offset) => line.offset = offset,
            None => misfit(rng, line, kind, ppl),
        },
        Flaw::Count => wrong_count(rng, &mut line.body, kind),
        Flaw::Spare => {
            let pixels = ppl.saturating_sub(line.offset.into());
            if kind != 1 || !set_spare(rng, &mut line.body, pixels) {
                wrong_count(rng, &mut line.body, kind);
            }
        }
        Flaw::Above | Flaw::Below if kind <= 3 => wrong_count(rng, &mut line.body, kind),
        Flaw::Above => {
            let by = match rng.below(4) {
                0 | 1 => 1,
                2 => rng.range(1, 65_535),
                // The same total again in 16 bits.
                _ => 65_536,
            };
            raise(rng, &mut line.body, kind, by);
        }
        Flaw::Below => lower(rng, &mut line.body, kind),
        Flaw::Misfit => misfit(rng, line, kind, ppl),
    }
}

/// Makes the line start partway, or lets it, and gives it a body for a whole row, or one of bytes
/// that has a spare one, or none, by PPL.
fn misfit(rng: &mut Rng, line: &mut Line, kind: u16, ppl: usize) {
    if line.offset == 0 {
        line.offset = rng.range(1, ppl) as u16;
    }
    let rest = ppl.saturating_sub(line.offset.into());
    if kind == 2 && rest % 2 != ppl % 2 && rng.one_in(2) {
        line.body = rng.bytes(2 * (rest / 2 + ppl % 2));
        return;
    }
    if kind == 2 && rest.div_ceil(2) == ppl.div_ceil(2) {
        // The last byte for a whole row would be the spare one.
        line.offset = 2;
    }
    let row = some_row(rng, kind, ppl);
    line.body = some_body(rng, kind, &row, true, true);
}

/// Sets one of the bits that packed words for so many pixels have to spare, or several; false where
/// there are none.
pub fn set_spare(rng: &mut Rng, body: &mut [u8], pixels: usize) -> bool {
    let (bits, last) = (spare_bits(pixels), 2 * (pixels / 16));
    let Some(word) = body.get_mut(last..last + 2).filter(|_| bits > 0) else {
        return false;
    };
    let set = match rng.below(4) {
        0 => 1,
        1 => bits ^ bits >> 1,
        2 => bits,
        _ => 1 << rng.below(bits.count_ones() as usize),
    };
    word.iter_mut().zip(set.to_le_bytes()).for_each(|(byte, more)| *byte |= more);
    true
}

fn wrong_count(rng: &mut Rng, body: &mut Vec<u8>, kind: u16) {
    match (kind, rng.below(4)) {
        (1..=3, 0) => body.extend([0, 0, 0, 0]),
        (_, 1) if body.len() >= 2 => body.truncate(body.len() - 2),
        (1..=3, 2) if !body.is_empty() => body.clear(),
        // The total as it was.
        (_, 3) => body.extend([0, 0]),
        _ => body.extend(rng.bytes(2)),
    }
}

/// The places of the runs' words in a body.
fn run_places(body: &[u8], kind: u16) -> Vec<usize> {
    let (first, step) = if kind == 9 { (0, 2) } else { (2, 4) };
    (first..body.len().saturating_sub(1)).step_by(step).collect()
}

fn run_at(body: &[u8], place: usize) -> usize {
    usize::from(u16::from_le_bytes([body[place], body[place + 1]]))
}

/// Raises the total, in the runs there are or in more of them.
fn raise(rng: &mut Rng, body: &mut Vec<u8>, kind: u16, mut by: usize) {
    let places = run_places(body, kind);
    if !places.is_empty() && rng.one_in(2) {
        let place = rng.pick(&places);
        let more = by.min(65_535 - run_at(body, place));
        let run = (run_at(body, place) + more) as u16;
        body[place..place + 2].copy_from_slice(&run.to_le_bytes());
        by -= more;
    }
    while by > 0 {
        let run = by.min(65_535) as u16;
        // In type 9 two more words keep their number odd.
        body.extend(if kind == 9 { words(&[run, 0]) } else { words(&[rng.word(), run]) });
        by -= usize::from(run);
    }
}

/// Lowers the total: a run shortened or left out, or nearly all of the body.
fn lower(rng: &mut Rng, body: &mut Vec<u8>, kind: u16) {
    let places = run_places(body, kind);
    let long: Vec<usize> = places.iter().copied().filter(|&p| run_at(body, p) > 0).collect();
    if long.is_empty() || rng.one_in(4) {
        body.clear();
        if kind == 9 {
            body.extend([0, 0]);
        }
        return;
    }
    let place = rng.pick(&long);
    let run = run_at(body, place);
    let shorter = if rng.one_in(2) { run - 1 } else { rng.below(run) } as u16;
    body[place..place + 2].copy_from_slice(&shorter.to_le_bytes());
}

/// How much of a sheet with line headers is damaged.
#[derive(Clone, Copy, PartialEq)]
pub enum Harm {
    None,
    /// Only what leaves the chain whole.
    Lines,
    /// One line or more lost, too.
    Chain,
}

/// The lines of a sheet with headers, with damage.
pub fn some_lines(rng: &mut Rng, kind: u16, ppl: usize, nol: usize, harm: Harm) -> Vec<Line> {
    let margin = some_margin(rng, ppl);
    lines_within(rng, kind, ppl, nol, harm, margin)
}

/// The same, starting in known columns.
pub fn lines_within(
    rng: &mut Rng,
    kind: u16,
    ppl: usize,
    nol: usize,
    harm: Harm,
    margin: Margin,
) -> Vec<Line> {
    let loose = rng.one_in(2);
    let rate = rng.pick(&[1, 2, 3, 8]);
    let lost = rng.range(1, nol);
    let mut lines = Vec::new();
    for k in 1..=nol {
        let offset = margin.offset(rng, ppl);
        let row = some_row(rng, kind, ppl - offset);
        let body = some_body(rng, kind, &row, loose, true);
        let mut line = Line::starting(k, offset, body);
        if rng.one_in(3) {
            // The low byte is free.
            line.id |= u16::from(rng.byte());
        }
        if harm != Harm::None && rng.one_in(rate) {
            for _ in 0..rng.pick(&[1, 1, 1, 2, 3]) {
                let flaw = rng.pick(&FLAWS[3..]);
                damage(rng, &mut line, kind, ppl, flaw);
            }
        }
        if harm == Harm::Chain && k == lost {
            let flaw = rng.pick(&FLAWS[..3]);
            damage(rng, &mut line, kind, ppl, flaw);
        }
        if harm == Harm::Chain && rng.one_in(12) {
            // The chain then goes by this word, wherever it leads.
            let right = line.body.len() / 2 + 2;
            line.follow = Some((right + rng.range(0, 6)).saturating_sub(3) as u16);
        }
        lines.push(line);
    }
    lines
}

/// Raster data without line headers.
pub fn some_bare(rng: &mut Rng, kind: u16, ppl: usize, nol: usize) -> Vec<u8> {
    let loose = rng.one_in(2);
    let mut raster = Vec::new();
    for _ in 0..nol {
        let row = some_row(rng, kind, ppl);
        raster.extend(some_body(rng, kind, &row, loose, false));
    }
    raster
}
