//! Large sheets, pictures and turnings: wide, tall, and sheets of a few bands, for a reader that
//! takes several lines at a time.

use super::moves::{movable, movable_of};
use super::picture::{dress, Picture};
use super::sheet::{
    damage, headed, sheet, some_bare, some_body, some_header, some_lines, some_margin, some_row,
    words, Harm, Line, Margin, FLAWS, TYPES,
};
use super::sheets::{change, cut_in_raster};
use super::turning::{some_spare, Turning};
use crate::rng::Rng;

/// Widths at both ends and around powers of two.
pub const WIDTHS: [usize; 16] = [
    1_023, 1_024, 1_025, 2_048, 4_095, 4_096, 4_097, 8_191, 8_192, 8_193, 16_383, 16_384, 16_385,
    32_767, 32_768, 65_535,
];
/// Height of the tallest sheets.
const TALLEST: usize = 65_535;

/// Each type, with headers and without, of every width, and tall.
pub fn fixed(rng: &mut Rng) -> Vec<Vec<u8>> {
    let mut all = Vec::new();
    for kind in TYPES {
        for scn in [0, 1] {
            for width in WIDTHS {
                let lines = rng.range(1, 4);
                all.push(some_sheet(rng, kind, scn, width, lines));
            }
            for width in 1..=3 {
                all.push(some_sheet(rng, kind, scn, width, TALLEST));
            }
            for _ in 0..3 {
                let (width, height) = (rng.range(1, 100), rng.range(1_000, 3_000));
                all.push(some_sheet(rng, kind, scn, width, height));
            }
        }
        for width in [4_097, 65_534, 65_535] {
            all.extend(partway(rng, kind, width));
        }
    }
    all.extend(longest_bodies(rng));
    all
}

/// Sheets whose lines start at the ends of a wide row, just past it, and where so many pixels are
/// left as a reader may store at a time, or one less or more. A body of 65,535 words fits no line,
/// and from column 2 on the rest of it does.
fn partway(rng: &mut Rng, kind: u16, width: usize) -> Vec<Vec<u8>> {
    let near = [0, 1, 2, 3, 7, 8, 9, 15, 16, 17];
    let past = [width + 1].into_iter().filter(|&offset| offset <= 65_535);
    let starts = near.into_iter().chain([width / 2]).chain(near.map(|n| width - n)).chain(past);
    starts
        .map(|offset| {
            let header = some_header(rng, kind, 1, width, 2);
            let lines = [1, 2].map(|k| {
                let row = some_row(rng, kind, width.saturating_sub(offset));
                Line::starting(k, offset, some_body(rng, kind, &row, true, true))
            });
            headed(&header, &lines)
        })
        .collect()
}

/// The longest bodies of runs and of pairs there are, of no pixels: all of the row is before them.
fn longest_bodies(rng: &mut Rng) -> Vec<Vec<u8>> {
    let lines = [(9, 65_533), (10, 65_532)].map(|(kind, count)| (kind, words(&vec![0; count])));
    let sheets = lines.map(|(kind, body)| {
        let width = rng.range(1, 100);
        headed(&some_header(rng, kind, 1, width, 1), &[Line::starting(1, width, body)])
    });
    sheets.to_vec()
}

/// A wide or a tall sheet by chance, with headers or without.
pub fn some_large(rng: &mut Rng, scn: u8) -> Vec<u8> {
    let kind = rng.pick(&TYPES);
    let (width, height) = some_sides(rng);
    some_sheet(rng, kind, scn, width, height)
}

/// The same, to be moved.
pub fn some_movable(rng: &mut Rng) -> Vec<u8> {
    let (kind, scn) = rng.pick(&[(1, 0), (1, 1), (9, 0), (9, 1)]);
    let (width, height) = some_sides(rng);
    movable(rng, kind, scn, width, height)
}

fn some_sides(rng: &mut Rng) -> (usize, usize) {
    match rng.below(8) {
        0 => (rng.range(1, 3), TALLEST - rng.below(2)),
        1 => (rng.range(1, 100), rng.range(1_000, 3_000)),
        2 => (rng.range(1, 4), rng.range(3_000, 20_000)),
        3 => (rng.range(1_000, 65_535), rng.range(1, 4)),
        4 => (rng.range(500, 1_100), rng.range(5, 60)),
        _ => (rng.pick(&WIDTHS), rng.range(1, 4)),
    }
}

/// Pixels that a reader might take at a time, the widest line and its neighbors most of all.
const BANDS: [usize; 10] =
    [65_535, 65_535, 65_536, 65_536, 65_537, 4_096, 8_192, 16_384, 32_768, 131_072];
/// Widths that fill 65,535 pixels with whole lines, and 65,536.
const DIVISORS: [usize; 14] =
    [51, 85, 255, 257, 771, 1_285, 3_855, 4_369, 13_107, 21_845, 64, 256, 1_024, 16_384];

/// A sheet of one to three bands, up to a line more or less, with damage where bands meet.
pub fn some_banded(rng: &mut Rng, scn: u8) -> Vec<u8> {
    let kind = rng.pick(&TYPES);
    let width = match rng.below(3) {
        0 => rng.pick(&DIVISORS),
        1 => rng.range(30, 400),
        _ => rng.range(400, 33_000),
    };
    let band = (rng.pick(&BANDS) / width).max(1);
    let most = (200_000 / width).max(2);
    let height = (band * rng.range(1, 3) + rng.below(4)).saturating_sub(1).clamp(1, most);
    let header = some_header(rng, kind, scn, width, height);
    let loose = rng.one_in(2);
    let margin = if scn == 1 { some_margin(rng, width) } else { Margin::None };
    // The rows come again after a few, so that this takes less time than reading.
    let several: Vec<(usize, Vec<u8>)> = (0..rng.range(1, 7))
        .map(|_| {
            let offset = margin.offset(rng, width);
            let row = some_row(rng, kind, width - offset);
            (offset, some_body(rng, kind, &row, loose, scn == 1))
        })
        .collect();
    let harmed = rng.below(4);
    let mut raster = Vec::new();
    let mut cut = None;
    for k in 1..=height {
        let at_edge = (k + 2) % band <= 3;
        let (offset, body) = several[(k * k + k / band) % several.len()].clone();
        let start = raster.len();
        if scn == 1 {
            let mut line = Line::starting(k, offset, body);
            if harmed > 0 && at_edge && rng.one_in(4) {
                // What loses the chain less often than all else.
                let flaw = if rng.one_in(4) { rng.pick(&FLAWS) } else { rng.pick(&FLAWS[3..]) };
                damage(rng, &mut line, kind, width, flaw);
            }
            raster.extend(line.bytes());
        } else {
            raster.extend(body);
        }
        if harmed == 1 && at_edge && rng.one_in(3) {
            cut = Some(rng.range(start, raster.len()));
        }
        if harmed == 2 && scn == 0 && at_edge && rng.one_in(6) {
            let at = rng.range(start, raster.len() - 1);
            raster[at] = raster[at].wrapping_add(rng.pick(&[1, 0xFF]));
        }
    }
    raster.truncate(cut.unwrap_or(usize::MAX));
    sheet(&header, &raster)
}

/// Wide and tall pictures of every kind.
pub fn pictures(rng: &mut Rng) -> Vec<Picture> {
    let mut all = Vec::new();
    for kind in TYPES {
        for scn in [0, 1] {
            let thin = rng.range(1, 3);
            for (ppl, nol) in [(thin, 65_535), (65_535, 4), (32_000, 3), (90, 2_000)] {
                all.push(some_picture_of(rng, kind, scn, ppl, nol));
            }
        }
    }
    all
}

/// A wide or a tall picture by chance.
pub fn some_large_picture(rng: &mut Rng) -> Picture {
    let (ppl, nol) = match rng.below(4) {
        0 => (rng.range(1, 3), rng.range(30_000, 65_535)),
        1 => (rng.range(1, 100), rng.range(1_000, 2_000)),
        _ => (rng.range(10_000, 65_535), rng.range(1, 4)),
    };
    let kind = rng.pick(&TYPES);
    let scn = rng.below(2) as u32;
    some_picture_of(rng, kind, scn, ppl, nol)
}

fn some_picture_of(rng: &mut Rng, kind: u16, scn: u32, ppl: usize, nol: usize) -> Picture {
    let pixels = (0..nol).flat_map(|_| some_row(rng, kind, ppl)).collect();
    let mut picture = Picture::plain(kind, ppl, nol, scn, pixels);
    dress(rng, &mut picture);
    let more = rng.pick(&[0, 0, 3, 100, -1]);
    picture.fit_within(more, u32::MAX);
    picture
}

/// Sheets to be moved: of every width and tall, blank lines and full ones, lines whose pixels go by
/// turns, and bodies around the longest there are.
pub fn moves(rng: &mut Rng) -> Vec<Vec<u8>> {
    let mut all = Vec::new();
    let sides = WIDTHS.map(|width| (width, 2)).into_iter().chain([(1, 20_000), (17, 2_000)]);
    for (width, height) in sides {
        for (kind, scn) in [(1, 0), (1, 1), (9, 0), (9, 1)] {
            all.push(movable(rng, kind, scn, width, height));
        }
    }
    for width in 65_530..=65_535 {
        for (first, scn) in [(0, 0), (0, 1), (1, 0), (1, 1)] {
            let turns: Vec<u16> = (0..width).map(|i| ((i + first) % 2) as u16).collect();
            // The long line first or last.
            let rows =
                if rng.one_in(2) { [turns, vec![1; width]] } else { [vec![0; width], turns] };
            all.push(movable_of(rng, 1, scn, &rows));
        }
    }
    all
}

/// The longest sheets under every code, and such as are above 65,536 pixels.
pub fn turnings(rng: &mut Rng) -> Vec<Turning> {
    let mut all = Vec::new();
    for sides in [(65_535, 1), (1, 65_535), (256, 257), (300, 301)] {
        for slo in 0..8 {
            for way in [0, 1] {
                all.push(some_turning_of(rng, way, slo, sides));
            }
        }
    }
    for (i, sides) in [(65_535, 3), (3, 65_535), (32_768, 4), (1_000, 130)].into_iter().enumerate()
    {
        all.push(some_turning_of(rng, 0, 2 * i as u32, sides));
        all.push(some_turning_of(rng, 1, 2 * i as u32 + 1, sides));
    }
    all
}

/// A turning of many pixels by chance.
pub fn some_large_turning(rng: &mut Rng) -> Turning {
    let sides = match rng.below(3) {
        0 => (rng.range(1, 5), rng.range(10_000, 65_535)),
        1 => (rng.range(10_000, 65_535), rng.range(1, 5)),
        _ => (rng.range(200, 400), rng.range(200, 400)),
    };
    let (way, slo) = (rng.below(2) as u32, rng.below(8) as u32);
    some_turning_of(rng, way, slo, sides)
}

fn some_turning_of(rng: &mut Rng, way: u32, slo: u32, sides: (usize, usize)) -> Turning {
    let spare = some_spare(rng);
    Turning::within(rng, way, slo, sides, spare, usize::MAX)
}

/// A sheet of this size, whole or damaged somewhere.
fn some_sheet(rng: &mut Rng, kind: u16, scn: u8, width: usize, height: usize) -> Vec<u8> {
    let header = some_header(rng, kind, scn, width, height);
    let harm = rng.pick(&[Harm::None, Harm::None, Harm::Lines, Harm::Chain]);
    let raster: Vec<u8> = match scn {
        0 => some_bare(rng, kind, width, height),
        _ => some_lines(rng, kind, width, height, harm).iter().flat_map(Line::bytes).collect(),
    };
    let mut file = sheet(&header, &raster);
    match rng.below(6) {
        0 => {
            let cut = cut_in_raster(rng, &file);
            file.truncate(cut);
        }
        1 => change(rng, &mut file),
        2 => file.extend(rng.bytes(7)),
        _ => {}
    }
    file
}
