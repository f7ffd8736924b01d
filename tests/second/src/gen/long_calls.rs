//! The cases of `c_calls` that have more than 65,535 lines, or are said to have.

use super::calls::{all_of, needed, raster, Case, Group, What};
use super::header::Draft;
use super::long::{self, some_long};
use super::moves::Move;
use super::pairs::changed;
use super::picture::Picture;
use super::sheet::{sheet, words, TYPES};
use super::turning::Turning;
use crate::calls::call::Lend;
use crate::model::c::{COLOR_ANSWER, HEADER_ANSWER, MOVE_ANSWER, RASTER_ANSWER, WRITE_ANSWER};
use crate::model::MOST_LINES;
use crate::rng::Rng;
use std::collections::BTreeMap;

pub const EDGES: &str = "long edges by hand";
pub const LINE_COUNTS: &str = "numbers of lines";
pub const SHEETS: &str = "long sheets";
pub const PAIRS: &str = "long pairs";
pub const PICTURES: &str = "long pictures";
pub const TURNINGS: &str = "long turnings";
pub const MOVES: &str = "long moves";
/// Those of sheets of more than 65,535 lines.
pub const ALL: [&str; 7] = [EDGES, LINE_COUNTS, SHEETS, PAIRS, PICTURES, TURNINGS, MOVES];

/// Makes several of something.
type Makes<T> = Box<dyn FnOnce(&mut Rng) -> Vec<T>>;

/// The cases that are always run: all, or those of one family; every group of a family, or one in
/// so many.
pub fn fixed(seed: u64, family: Option<&str>, one_in: usize) -> impl Iterator<Item = Case> {
    let mut groups = groups();
    let mut before = BTreeMap::<&str, usize>::new();
    groups.retain(|(name, _)| {
        let count = before.entry(name).or_default();
        *count += 1;
        (*count - 1) % one_in == 0 && family.is_none_or(|family| *name == family)
    });
    let mut rng = Rng::new(seed, u64::MAX - 2);
    groups.into_iter().flat_map(move |(_, make)| make(&mut rng))
}

/// The groups of long sheets, with their families. Each holds few sheets at a time.
fn groups() -> Vec<(&'static str, Group)> {
    let mut all: Vec<(&'static str, Group)> = Vec::new();
    let mut add = |family, make: Makes<What>| {
        all.push((family, Box::new(move |rng: &mut Rng| all_of(family, make(rng))) as Group));
    };
    for make in long::EDGES {
        add(EDGES, Box::new(move |rng| vec![What::LongEdge(make(rng))]));
    }
    add(LINE_COUNTS, Box::new(line_counts));
    add(LINE_COUNTS, Box::new(sheets_said_long));
    add(LINE_COUNTS, Box::new(most_lines));
    for make in sheets() {
        add(SHEETS, Box::new(|rng| rasters(rng, make)));
    }
    add(SHEETS, Box::new(short));
    for i in 0..10 {
        add(
            PAIRS,
            Box::new(move |rng| long::pair(rng, PAIRS, i).map(What::Pair).into_iter().collect()),
        );
    }
    for (kind, scn, height) in long::PICTURES {
        add(PICTURES, Box::new(move |rng| vec![picture(rng, kind, scn, height)]));
    }
    add(PICTURES, Box::new(short_output));
    add(TURNINGS, Box::new(|rng| long::turnings(rng).into_iter().map(What::Trip).collect()));
    for (i, (kind, roll, height)) in long::MOVES.into_iter().enumerate() {
        add(
            MOVES,
            Box::new(move |rng| {
                let file = long::returning(rng, kind, roll, height);
                vec![What::ThereAndBack { file, returns: true }]
            }),
        );
        if let Some(&(kind, roll)) = [(1, 0), (9, 1), (1, 1), (9, 0)].get(i) {
            add(MOVES, Box::new(move |rng| unmoved(rng, kind, roll)));
        }
    }
    add(MOVES, Box::new(bare_moves));
    all
}

/// Sheets of every kind, to be read.
fn sheets() -> Vec<Makes<Vec<u8>>> {
    let mut all: Vec<Makes<Vec<u8>>> = vec![Box::new(long::neither), Box::new(long::lost)];
    for kind in TYPES {
        all.push(Box::new(move |rng| long::good(rng, kind)));
        all.push(Box::new(move |rng| long::damaged(rng, kind)));
        all.push(Box::new(move |rng| long::bare(rng, kind)));
    }
    all.push(Box::new(|rng| vec![long::longest(rng)]));
    all
}

/// Long sheets with slices that are just long enough, or a little more.
fn rasters(rng: &mut Rng, make: Makes<Vec<u8>>) -> Vec<What> {
    let files = make(rng);
    let mut lent = |file: Vec<u8>| {
        let enough = needed(&file);
        let (pixels, marks) = (enough.pixels + rng.below(4), enough.marks + rng.below(3));
        What::Raster { file, lend: Lend { pixels, marks, ..enough } }
    };
    files.into_iter().map(&mut lent).collect()
}

/// Either slice a byte short, and so short as a number of lines of 16 bits would have it.
fn short(rng: &mut Rng) -> Vec<What> {
    let mut all = Vec::new();
    for file in long::short(rng) {
        let enough = needed(&file);
        for lend in [
            Lend { pixels: enough.pixels - 1, ..enough },
            Lend { marks: enough.marks - 1, ..enough },
            Lend { pixels: enough.pixels - 2 * 65_536, ..enough },
            Lend { marks: enough.marks - 65_536, ..enough },
        ] {
            all.push(What::Raster { file: file.clone(), lend });
        }
    }
    all
}

fn picture(rng: &mut Rng, kind: u16, scn: u32, height: usize) -> What {
    What::Picture { picture: long::picture(rng, kind, scn, height), answer: WRITE_ANSWER }
}

/// Output that is a byte too short.
fn short_output(rng: &mut Rng) -> Vec<What> {
    let mut picture = long::picture(rng, 9, 1, 65_536);
    picture.fit_within(-1, u32::MAX);
    vec![What::Picture { picture, answer: WRITE_ANSWER }]
}

fn unmoved(rng: &mut Rng, kind: u16, roll: u16) -> Vec<What> {
    let moved = |file: Vec<u8>| Move { room: 2 * file.len(), file, answer: MOVE_ANSWER };
    long::unmoved(rng, kind, roll).into_iter().map(|file| What::Move(moved(file))).collect()
}

fn bare_moves(rng: &mut Rng) -> Vec<What> {
    let back = |file| What::ThereAndBack { file, returns: false };
    long::bare_moves(rng).into_iter().map(back).collect()
}

/// Numbers of lines on both sides of the limit and of 65,535.
const COUNTS: [u32; 10] =
    [0, 1, 65_535, 65_536, 65_537, 131_072, 999_999, 1_000_000, 1_000_001, 1_048_577];

/// Every call that takes little work by them.
fn line_counts(rng: &mut Rng) -> Vec<What> {
    let mut all = products(rng);
    for nol in COUNTS {
        let file = said_long(nol);
        all.push(What::Header { file: file.clone(), answer: HEADER_ANSWER, first: None });
        all.push(What::Color { file, value: 1, answer: COLOR_ANSWER });
        let picture = Picture { nol, ..Picture::plain(2, 1, 4, 0, vec![1; 4]) };
        all.push(What::Picture { picture, answer: WRITE_ANSWER });
        for way in [0, 1] {
            let turning = Turning::new(rng, way, 2, (1, 4), [0, 0]);
            all.push(What::Turning(Turning { nol, ..turning }));
        }
    }
    for way in [0, 1] {
        all.push(What::Turning(Turning::within(rng, way, 3, (1, 65_536), [0, 0], usize::MAX)));
    }
    all
}

/// A sheet of one line and a part of the next.
fn said_long(nol: u32) -> Vec<u8> {
    let header = Draft { scn: 1, ppl: 1, nol, ..Draft::plain(9, 2) };
    sheet(&header, &words(&[0x5900, 3, 1, 0, 1, 0x5900]))
}

/// Sheets that are read and moved by those numbers: all but their first lines are lost. Those of
/// the most lines, which take the longest, come last.
fn sheets_said_long(_: &mut Rng) -> Vec<What> {
    let mut all = Vec::new();
    let longest = [MOST_LINES - 1, MOST_LINES];
    for nol in COUNTS.into_iter().filter(|nol| !longest.contains(nol)).chain([MOST_LINES]) {
        let file = said_long(nol);
        all.push(What::Raster { file: file.clone(), lend: needed(&file) });
        all.push(What::Move(Move { file, room: 3_000, answer: MOVE_ANSWER }));
    }
    all
}

/// As many lines as may be, and one more, with all that they need.
fn most_lines(rng: &mut Rng) -> Vec<What> {
    let mut all = Vec::new();
    for nol in [MOST_LINES + 1, MOST_LINES] {
        for (kind, scn) in [(2, 0), (10, 1)] {
            let file = Draft { scn, ppl: 1, nol, ..Draft::plain(kind, 2) }.bytes();
            all.push(What::Raster { lend: needed(&file), file });
        }
        let pixels = vec![1; nol as usize];
        let picture =
            Picture { room: 1_024 + nol, ..Picture::plain(2, 1, pixels.len(), 0, pixels) };
        all.push(What::Picture { picture, answer: WRITE_ANSWER });
        for way in [0, 1] {
            let turning = Turning::within(rng, way, 3, (1, nol as usize), [0, 0], usize::MAX);
            all.push(What::Turning(turning));
        }
    }
    all
}

/// Buffers of as many pixels as 32 bits take a product for: none, or 4,096.
fn products(rng: &mut Rng) -> Vec<What> {
    let mut all = Vec::new();
    for (ppl, nol, pixels) in [(32_768, 131_072, 0), (61_681, 69_632, 4_096)] {
        let file = Draft { ppl, nol, ..Draft::plain(2, 2) }.bytes();
        let lend = Lend { pixels: 2 * pixels, marks: nol as usize, answer: RASTER_ANSWER };
        all.push(What::Raster { file, lend });
        let picture = Picture { ppl, nol, ..Picture::plain(2, 1, pixels, 0, vec![1; pixels]) };
        all.push(What::Picture { picture, answer: WRITE_ANSWER });
        for way in [0, 1] {
            let turning = Turning::new(rng, way, 1, (1, pixels), [0, 0]);
            all.push(What::Turning(Turning { ppl, nol, ..turning }));
        }
    }
    all
}

/// A case by chance.
pub fn some_case(rng: &mut Rng, family: &'static str) -> What {
    match rng.below(8) {
        0 => What::ThereAndBack { file: long::some_movable(rng), returns: true },
        1 => {
            let (kind, scn) = (rng.pick(&TYPES), rng.below(2) as u32);
            let height = long::some_height(rng);
            picture(rng, kind, scn, height)
        }
        2 => {
            let sides = (rng.range(1, 2), long::some_height(rng));
            let (way, slo) = (rng.below(2) as u32, rng.below(8) as u32);
            What::Trip(Turning::within(rng, way, slo, sides, [0, 2], usize::MAX))
        }
        3 => {
            let file = some_long(rng, &[1, 9]);
            let room = 2 * file.len();
            What::Move(Move { file, room, answer: MOVE_ANSWER })
        }
        _ => {
            let file = some_long(rng, &TYPES);
            let pair = if rng.one_in(3) { changed(rng, family, file.clone()) } else { None };
            pair.map_or_else(|| raster(rng, file), What::Pair)
        }
    }
}
