//! Long sheets: more lines than the number in a line's header can count. The lines are of one pixel
//! or two, so that there may be many.

use super::header::Draft;
use super::moves::movable;
use super::pairs::{changed_at, Pair};
use super::picture::Picture;
use super::sheet::{
    damage, headed, sheet, some_bare, some_body, some_header, some_margin, some_row, Flaw, Line,
    Margin, FLAWS, TYPES,
};
use super::turning::{some_spare, Turning};
use crate::rng::Rng;
use std::iter::repeat;
use std::ops::RangeInclusive;

/// Heights around the first roll, around the second one to 1 and to 0, and past the third.
const HEIGHTS: [usize; 9] =
    [65_534, 65_535, 65_536, 65_537, 131_070, 131_071, 131_072, 131_073, 200_000];

/// The line whose number decides what comes after 65,535.
const DECIDES: usize = 65_536;

/// Lines around the rolls, but for the one that decides.
const AROUND: [usize; 10] =
    [65_533, 65_534, 65_535, 65_537, 65_538, 131_069, 131_070, 131_071, 131_072, 131_073];

/// The numbers of lines where this comes after each 65,535.
fn numbers(roll: u16) -> impl Iterator<Item = u16> {
    (1..=65_535).chain(repeat(roll..=65_535).flatten())
}

/// A sheet with line headers.
struct Strip {
    header: Draft,
    lines: Vec<Line>,
}

impl Strip {
    /// Good lines, whose numbers roll so.
    fn new(rng: &mut Rng, kind: u16, height: usize, roll: u16) -> Strip {
        let ppl = rng.range(1, 2);
        let margin = some_margin(rng, ppl);
        let loose = rng.one_in(2);
        Strip::within(rng, kind, [ppl, height], roll, (margin, loose))
    }

    /// The same to be moved: lines from their rows' start, with the writer's bodies.
    fn strict(rng: &mut Rng, kind: u16, ppl: usize, height: usize, roll: u16) -> Strip {
        Strip::within(rng, kind, [ppl, height], roll, (Margin::None, false))
    }

    fn within(
        rng: &mut Rng,
        kind: u16,
        [ppl, height]: [usize; 2],
        roll: u16,
        (margin, loose): (Margin, bool),
    ) -> Strip {
        let header = some_header(rng, kind, 1, ppl, height);
        // They come again after a few, so that this takes less time than reading.
        let several: Vec<Line> = (0..7)
            .map(|_| {
                let offset = margin.offset(rng, ppl);
                let row = some_row(rng, kind, ppl - offset);
                Line::starting(0, offset, some_body(rng, kind, &row, loose, true))
            })
            .collect();
        let numbered = |(number, line): (u16, &Line)| Line { number, ..line.clone() };
        let lines = numbers(roll).zip(several.iter().cycle()).take(height).map(numbered);
        Strip { header, lines: lines.collect() }
    }

    fn line(&mut self, k: usize) -> &mut Line {
        &mut self.lines[k - 1]
    }

    /// Gives one line this number.
    fn with(mut self, k: usize, number: u16) -> Strip {
        self.line(k).number = number;
        self
    }

    /// Numbers the lines from this one on as those from another one on are where they roll so.
    fn renumbered(mut self, k: usize, from: usize, roll: u16) -> Strip {
        let lines = self.lines.iter_mut().skip(k - 1);
        lines.zip(numbers(roll).skip(from - 1)).for_each(|(line, number)| line.number = number);
        self
    }

    fn damaged(mut self, rng: &mut Rng, k: usize, flaw: Flaw) -> Strip {
        let (kind, ppl) = (self.header.dtc, self.header.ppl as usize);
        damage(rng, self.line(k), kind, ppl, flaw);
        self
    }

    /// Tells of another number of lines than there are.
    fn told(mut self, nol: usize) -> Strip {
        self.header.nol = nol as u32;
        self
    }

    fn file(&self) -> Vec<u8> {
        headed(&self.header, &self.lines)
    }

    /// The file up to some bytes past the start of a line.
    fn up_to(&self, k: usize, more: usize) -> Vec<u8> {
        let length: usize = self.lines[..k - 1].iter().map(|line| 8 + line.body.len()).sum();
        let mut file = self.file();
        file.truncate(self.header.len + length + more);
        file
    }
}

/// A long sheet whose marks are known without the model: all are 0 but these.
pub struct LongEdge {
    pub name: &'static str,
    pub file: Vec<u8>,
    pub marks: Vec<(RangeInclusive<usize>, u8)>,
}

/// Both rolls, neither, and rolls that change their mind.
pub const EDGES: [fn(&mut Rng) -> LongEdge; 15] = [
    |rng| edge("rolls to 0", strip(rng, 2, 0), &[]),
    |rng| edge("rolls to 1", strip(rng, 2, 1), &[]),
    |rng| {
        edge("2 in line 65,536, then 1", strip(rng, 9, 0).with(DECIDES, 2), &[(65_536..=65_536, 4)])
    },
    |rng| {
        edge("2 in line 65,536, then 2", strip(rng, 9, 1).with(DECIDES, 2), &[(65_536..=LAST, 4)])
    },
    |rng| {
        edge("1 in line 65,536, then 1", strip(rng, 3, 0).with(DECIDES, 1), &[(65_537..=LAST, 4)])
    },
    |rng| {
        edge("0 in line 65,536, then 2", strip(rng, 3, 1).with(DECIDES, 0), &[(65_537..=LAST, 4)])
    },
    |rng| {
        let strip = strip(rng, 10, 1).renumbered(131_071, 65_536, 0);
        edge("rolls to 1, then to 0", strip, &[(131_071..=LAST, 4)])
    },
    |rng| {
        let strip = strip(rng, 10, 0).renumbered(131_072, 65_536, 1);
        edge("rolls to 0, then to 1", strip, &[(131_072..=LAST, 4)])
    },
    |rng| {
        let mut strip = strip(rng, 10, 1);
        strip.line(DECIDES).offset = 3;
        edge("rolls to 1 in a line refused for its offset", strip, &[(65_536..=65_536, 5)])
    },
    |rng| {
        edge(
            "rolls to 1, then 0 once",
            strip(rng, 1, 1).with(131_071, 0),
            &[(131_071..=131_071, 4)],
        )
    },
    |rng| {
        edge(
            "rolls to 0, then 1 once",
            strip(rng, 1, 0).with(131_072, 1),
            &[(131_072..=131_072, 4)],
        )
    },
    |rng| edge("1 in line 65,535", strip(rng, 2, 0).with(65_535, 1), &[(65_535..=65_535, 4)]),
    |rng| edge("1 in line 65,537", strip(rng, 2, 1).with(65_537, 1), &[(65_537..=65_537, 4)]),
    |rng| {
        let mut strip = strict(rng, 1, 1);
        strip.line(DECIDES).body = vec![1, 0];
        edge("rolls to 1 in a line with a spare bit set", strip, &[(65_536..=65_536, 10)])
    },
    |rng| {
        let mut strip = strict(rng, 10, 0);
        let bodies =
            [(65_537, vec![7, 0, 2, 0]), (65_538, vec![7, 0, 0, 0]), (131_072, vec![7, 0])];
        bodies.into_iter().for_each(|(k, body)| strip.line(k).body = body);
        let marks = [(65_537..=65_537, 7), (65_538..=65_538, 8), (131_072..=131_072, 6)];
        edge("bodies refused past line 65,535", strip, &marks)
    },
];

/// The last line of these.
const LAST: usize = 131_080;

fn strip(rng: &mut Rng, kind: u16, roll: u16) -> Strip {
    Strip::new(rng, kind, LAST, roll)
}

/// The same of one pixel, from the rows' start, with the writer's bodies.
fn strict(rng: &mut Rng, kind: u16, roll: u16) -> Strip {
    Strip::strict(rng, kind, 1, LAST, roll)
}

fn edge(name: &'static str, strip: Strip, marks: &[(RangeInclusive<usize>, u8)]) -> LongEdge {
    LongEdge { name, file: strip.file(), marks: marks.to_vec() }
}

/// Good sheets of every height, rolling to 0 and to 1. Those of bytes a reader may take more
/// quickly than others, so there are more of them, all from their rows' start.
pub fn good(rng: &mut Rng, kind: u16) -> Vec<Vec<u8>> {
    let mut all = Vec::new();
    for (i, height) in HEIGHTS.into_iter().enumerate() {
        // Up to 65,535 lines nothing rolls.
        for roll in if height < DECIDES { 0..=0 } else { 0..=1 } {
            if kind == 2 {
                let ppl = rng.range(1, 3);
                all.push(Strip::strict(rng, kind, ppl, height, roll).file());
            } else if (i as u16 + roll + kind) % 2 == 0 && height < 200_000 {
                all.push(Strip::new(rng, kind, height, roll).file());
            }
        }
    }
    // One more line than is told of, which may not decide.
    let told: &[usize] = if kind == 2 { &[65_534, 65_535, 65_536] } else { &[65_535] };
    all.extend(told.iter().map(|&told| Strip::new(rng, kind, told + 1, 1).told(told).file()));
    // Fewer than are told of.
    all.push(Strip::new(rng, kind, 65_535, 0).told(65_537).file());
    all
}

/// Lines that are refused around the rolls, where the chain goes on.
pub fn damaged(rng: &mut Rng, kind: u16) -> Vec<Vec<u8>> {
    let mut all = Vec::new();
    for roll in [0, 1] {
        let mut strip = Strip::new(rng, kind, 131_074, roll);
        let flaws = FLAWS[3..].iter().cycle().skip(rng.below(7));
        for (k, &flaw) in AROUND.into_iter().zip(flaws) {
            strip = strip.damaged(rng, k, flaw);
        }
        all.push(strip.file());
        // Refused for another reason, the line decides all the same.
        let flaw = rng.pick(&[Flaw::Offset, Flaw::Count, Flaw::Spare, Flaw::Above, Flaw::Below]);
        all.push(Strip::new(rng, kind, 131_074, roll).damaged(rng, DECIDES, flaw).file());
        // A number beside the deciding one that would decide otherwise.
        let (k, number) = rng.pick(&[(65_535, roll), (65_535, 1 - roll), (65_537, 2 - roll)]);
        all.push(Strip::new(rng, kind, 65_540, roll).with(k, number).file());
    }
    all
}

/// Numbers in line 65,536 that are neither 0 nor 1, in bytes the wrong way round among them.
const NEITHER: [u16; 8] = [2, 3, 0x0100, 0x0101, 0x8000, 0xFF00, 65_534, 65_535];

/// A line 65,536 that decides nothing, and lines after it that go by either roll.
pub fn neither(rng: &mut Rng) -> Vec<Vec<u8>> {
    let mut all = Vec::new();
    for (i, number) in NEITHER.into_iter().enumerate() {
        for roll in [0, 1] {
            let kind = TYPES[(i + usize::from(roll)) % TYPES.len()];
            let height = if i % 3 == 0 { 131_074 } else { 65_539 };
            all.push(Strip::new(rng, kind, height, roll).with(DECIDES, number).file());
        }
    }
    // The lines after it go on from its number, or as if there were no such line.
    all.push(Strip::new(rng, 2, 65_560, 0).renumbered(DECIDES, 2, 0).file());
    all.push(Strip::new(rng, 9, 65_560, 0).renumbered(DECIDES, 65_535, 0).file());
    all.push(Strip::new(rng, 10, 131_090, 1).renumbered(131_071, 131_070, 1).file());
    all
}

/// Lines that are lost around the rolls, and files that end there.
pub fn lost(rng: &mut Rng) -> Vec<Vec<u8>> {
    let mut all = Vec::new();
    for (i, k) in [65_534, 65_535, 65_536, 65_537].into_iter().enumerate() {
        for (j, flaw) in FLAWS[..3].iter().enumerate() {
            let roll = (i + j) as u16 % 2;
            let kind = TYPES[(i + 2 * j) % TYPES.len()];
            all.push(Strip::new(rng, kind, 65_540, roll).damaged(rng, k, *flaw).file());
        }
    }
    for (i, k) in [131_071, 131_072].into_iter().enumerate() {
        let flaw = rng.pick(&FLAWS[..3]);
        all.push(Strip::new(rng, TYPES[i], 131_075, 1 - i as u16).damaged(rng, k, flaw).file());
    }
    for roll in [0, 1] {
        let strip = Strip::new(rng, 2, 65_537, roll);
        all.extend([0, 6, 9].map(|more| strip.up_to(DECIDES, more)));
        all.push(strip.up_to(DECIDES + 1, 7));
    }
    all
}

/// Sheets without line headers, which have no numbers: whole, cut off, and with a run too long.
pub fn bare(rng: &mut Rng, kind: u16) -> Vec<Vec<u8>> {
    let [ppl, height] = [rng.range(1, 2), rng.pick(&[65_536, 65_537, 131_073])];
    let header = some_header(rng, kind, 0, ppl, height);
    let raster = some_bare(rng, kind, ppl, height);
    let mut other = raster.clone();
    let at = raster.len() - raster.len() % 2 - 2 * rng.range(1, 4);
    other[at] ^= 3;
    other.truncate(raster.len() - rng.below(4));
    vec![sheet(&header, &raster), sheet(&header, &other)]
}

/// One of each roll, for slices that are too short.
pub fn short(rng: &mut Rng) -> [Vec<u8>; 2] {
    [0, 1].map(|roll| Strip::new(rng, 2, 65_537, roll).file())
}

/// A sheet of as many lines as may be.
pub fn longest(rng: &mut Rng) -> Vec<u8> {
    Strip::strict(rng, 2, 1, 1_000_000, 1).file()
}

/// Lines whose bodies are changed, before, at and after the one that decides.
const CHANGED: [&[usize]; 5] =
    [&[65_536], &[65_535, 65_537], &[1, 65_536, 65_539], &[131_071, 131_072], &[65_536, 131_072]];

/// A sheet, and the same with other bodies in some of these lines.
pub fn pair(rng: &mut Rng, family: &'static str, i: usize) -> Option<Pair> {
    let (kind, roll) = (TYPES[i % TYPES.len()], i / TYPES.len() % 2);
    let places = CHANGED[(i + 3 * roll) % CHANGED.len()];
    let height = if places.contains(&131_072) { 131_074 } else { 65_540 };
    let mut strip = Strip::new(rng, kind, height, roll as u16);
    if rng.one_in(3) {
        strip.line(DECIDES).number = rng.pick(&NEITHER);
    }
    // A body that there is something of to change.
    for &k in places {
        let row = some_row(rng, kind, strip.header.ppl as usize);
        let body = some_body(rng, kind, &row, false, true);
        *strip.line(k) = Line { offset: 0, body, ..strip.line(k).clone() };
    }
    changed_at(rng, family, strip.file(), places)
}

/// Type, SCN and height of pictures: some of each, one past the third roll, and one of as many
/// lines as may be.
pub const PICTURES: [(u16, u32, usize); 12] = [
    (2, 1, 65_536),
    (1, 0, 65_536),
    (1, 1, 65_537),
    (2, 0, 131_073),
    (3, 0, 65_537),
    (3, 1, 131_073),
    (9, 0, 131_072),
    (9, 1, 131_071),
    (10, 0, 131_071),
    (10, 1, 131_072),
    (2, 1, 200_000),
    (2, 1, 1_000_000),
];

pub fn picture(rng: &mut Rng, kind: u16, scn: u32, height: usize) -> Picture {
    let ppl = if height > 200_000 { 1 } else { rng.range(1, 2) };
    let several = some_row(rng, kind, 101);
    let pixels = several.into_iter().cycle().take(ppl * height).collect();
    let mut picture = Picture::plain(kind, ppl, height, scn, pixels);
    picture.fit_within(rng.pick(&[0, 0, 3]), u32::MAX);
    picture
}

/// Every code, both ways.
pub fn turnings(rng: &mut Rng) -> Vec<Turning> {
    let mut all = Vec::new();
    let heights = [65_536, 65_537, 70_001, 131_072, 200_000];
    for slo in 0..8 {
        for way in [0, 1] {
            let sides = (rng.range(1, 2), heights[(slo + way) as usize % heights.len()]);
            let spare = some_spare(rng);
            all.push(Turning::within(rng, way, slo, sides, spare, usize::MAX));
        }
    }
    all
}

/// Type, roll and height of sheets that are moved and come back.
pub const MOVES: [(u16, u16, usize); 7] = [
    (1, 0, 65_537),
    (1, 1, 65_536),
    (9, 0, 65_536),
    (9, 1, 65_537),
    (1, 0, 131_073),
    (1, 1, 131_072),
    (9, 1, 131_072),
];

pub fn returning(rng: &mut Rng, kind: u16, roll: u16, height: usize) -> Vec<u8> {
    let ppl = rng.range(1, 2);
    Strip::strict(rng, kind, ppl, height, roll).file()
}

/// The same without line headers, with any bodies.
pub fn bare_moves(rng: &mut Rng) -> Vec<Vec<u8>> {
    let sides = [(1, 1, 131_072), (9, 2, 65_537)];
    sides.map(|(kind, ppl, height)| movable(rng, kind, 0, ppl, height)).to_vec()
}

/// Sheets that are not moved for a line past 65,535, most of them for its number.
pub fn unmoved(rng: &mut Rng, kind: u16, roll: u16) -> Vec<Vec<u8>> {
    let mut strip = |height| Strip::strict(rng, kind, 1, height, roll);
    let mut partway = strip(65_538);
    // Good, and all of its row is before its body.
    let body = if kind == 1 { Vec::new() } else { vec![0, 0] };
    *partway.line(65_537) = Line { offset: 1, body, ..partway.line(65_537).clone() };
    let twice = match kind {
        1 => strip(131_074).with(131_072 - usize::from(roll), 1 - roll),
        _ => strip(131_074).renumbered(131_072, 65_536, 1 - roll),
    };
    let once = [
        strip(65_537).with(DECIDES, 2),
        strip(65_540).with(65_538, 2 - roll),
        strip(65_540).with(DECIDES, 1 - roll),
        partway,
        twice,
    ];
    once.map(|strip| strip.file()).to_vec()
}

/// A long sheet by chance, of one of these types.
pub fn some_long(rng: &mut Rng, kinds: &[u16]) -> Vec<u8> {
    let kind = rng.pick(kinds);
    let roll = rng.below(2) as u16;
    let height = some_height(rng);
    let mut strip = Strip::new(rng, kind, height, roll);
    if rng.one_in(4) {
        let number = if rng.one_in(2) { rng.pick(&NEITHER) } else { rng.word() };
        strip = strip.with(DECIDES.min(height), number);
    }
    if rng.one_in(6) {
        // A roll of another kind, or a line left out or told of twice.
        let k = rng.pick(&AROUND).min(height);
        let from = (k + rng.below(3)).saturating_sub(1);
        let roll = rng.below(2) as u16;
        strip = strip.renumbered(k, from, roll);
    }
    for _ in 0..rng.pick(&[0, 0, 1, 2, 5]) {
        let k = if rng.one_in(3) { rng.range(1, height) } else { rng.pick(&AROUND).min(height) };
        let flaw = if rng.one_in(6) { rng.pick(&FLAWS) } else { rng.pick(&FLAWS[3..]) };
        strip = strip.damaged(rng, k, flaw);
    }
    let told = match rng.below(4) {
        0 => (height + rng.below(5)).saturating_sub(2),
        _ => height,
    };
    let strip = strip.told(told);
    match rng.below(6) {
        0 => strip.up_to(rng.pick(&AROUND).min(height), rng.below(14)),
        _ => strip.file(),
    }
}

/// Mostly near a roll.
pub fn some_height(rng: &mut Rng) -> usize {
    match rng.below(8) {
        0..=3 => rng.range(65_533, 65_545),
        4 => rng.range(65_536, 131_000),
        5 | 6 => rng.range(131_068, 131_080),
        _ => rng.range(131_080, 200_000),
    }
}

/// A long sheet by chance that is moved.
pub fn some_movable(rng: &mut Rng) -> Vec<u8> {
    let (kind, roll, height) = (rng.pick(&[1, 9]), rng.below(2) as u16, some_height(rng));
    returning(rng, kind, roll, height)
}
