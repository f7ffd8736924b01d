//! The picture that `view` should make of a sheet, pixel by pixel, and what it should say.

use super::pnm::Rgb;
use super::words as say;
use crate::model::header::{self, Header};
use crate::model::sheet::{self, Sheet};
use crate::model::turn::{turn, Order};
use crate::model::Rejection;
use std::collections::{BTreeMap, BTreeSet};

pub type Bytes = [u8; 3];

#[derive(Clone, Default, Debug)]
pub struct Options {
    pub as_scanned: bool,
    pub shrink: Option<usize>,
    /// The first and the last line, from 1.
    pub lines: Option<(usize, usize)>,
}

/// What one pixel of a sheet shows.
#[derive(Clone, Copy, PartialEq, Debug)]
pub enum Cell {
    Color(Bytes),
    Uncolored,
    Refused,
}

pub struct Shown {
    pub picture: Rgb,
    /// Distinct colors in the picture.
    pub colors: usize,
    /// What is said of the sheet, without its name: refused lines, pixels without a color.
    pub said: Vec<(String, String)>,
    pub status: i32,
    pub refused: bool,
    pub uncolored: bool,
}

/// A plane of a sheet's pixels, turned upright, or as it is.
pub fn upright(h: &Header, lines: usize, plane: Vec<u16>, as_scanned: bool) -> Vec<u16> {
    if as_scanned {
        return plane;
    }
    let (slo, ppl, nol) = (h.slo as u32, h.ppl as u32, lines as u32);
    let order = Order { back: false, slo, ppl, nol, pixels: &plane, room: usize::MAX };
    turn(&order).map(|turned| turned.pixels).unwrap_or_else(|n| unreachable!("refused with {n}"))
}

/// The sides of what is shown.
pub fn size(h: &Header, lines: usize, as_scanned: bool) -> (usize, usize) {
    let ppl = h.ppl as usize;
    match as_scanned || h.slo >= 4 {
        true => (ppl, lines),
        false => (lines, ppl),
    }
}

/// The color of a value, 8 bits a part.
pub fn bytes_of(file: &[u8], h: &Header, value: u16) -> Option<Bytes> {
    header::color(file, h, value.into()).map(|parts| parts.map(|part| (part / 256) as u8))
}

/// The pixels shown, at full size.
fn cells(file: &[u8], found: &Sheet, first: usize, last: usize, as_scanned: bool) -> Vec<Cell> {
    let lines = &found.lines[first - 1..last];
    let values = lines.iter().flat_map(|line| line.row.iter().map(|&pixel| pixel as u16));
    let refused = lines.iter().flat_map(|line| line.row.iter().map(|_| u16::from(line.mark > 0)));
    let h = &found.header;
    let turned = |plane: Vec<u16>| upright(h, lines.len(), plane, as_scanned);
    let (values, refused) = (turned(values.collect()), turned(refused.collect()));
    let mut known: BTreeMap<u16, Cell> = BTreeMap::new();
    let mut cell = |value: u16| {
        *known
            .entry(value)
            .or_insert_with(|| bytes_of(file, h, value).map_or(Cell::Uncolored, Cell::Color))
    };
    let both = values.iter().zip(&refused);
    both.map(|(&value, &refused)| if refused == 1 { Cell::Refused } else { cell(value) }).collect()
}

/// The two colors of the hatch, and that of pixels without a color: the first ones that nothing has.
fn extras(cells: &[Cell]) -> [Bytes; 3] {
    let used: BTreeSet<Bytes> = cells
        .iter()
        .filter_map(|cell| match cell {
            Cell::Color(color) => Some(*color),
            _ => None,
        })
        .collect();
    let named =
        [[255, 0, 255], [255, 255, 0], [0, 255, 255], [255, 128, 0], [0, 255, 0], [255, 0, 0]];
    let steps = (0..=252u8).step_by(42);
    let grid = steps.clone().flat_map(move |red| {
        let steps = steps.clone();
        steps.clone().flat_map(move |green| steps.clone().map(move |blue| [red, green, blue]))
    });
    let mut left = named.into_iter().chain(grid).filter(|color| !used.contains(color));
    [(); 3].map(|()| left.next().expect("a sheet has no more than 256 colors"))
}

/// The color of the hatch at a place.
pub fn hatch(colors: [Bytes; 2], x: usize, y: usize) -> Bytes {
    colors[(x + y) / 4 % 2]
}

/// One pixel of several.
fn merged(block: &[Cell]) -> Cell {
    if block.contains(&Cell::Refused) {
        return Cell::Refused;
    }
    let mut sums = [0u64; 3];
    for cell in block {
        let Cell::Color(color) = cell else {
            return Cell::Uncolored;
        };
        sums.iter_mut().zip(color).for_each(|(sum, &part)| *sum += u64::from(part));
    }
    let count = block.len() as u64;
    // To nearest, half up.
    Cell::Color(sums.map(|sum| ((2 * sum + count) / (2 * count)) as u8))
}

fn shrunk(cells: &[Cell], width: usize, by: usize) -> (Vec<Cell>, usize) {
    let height = cells.len() / width;
    let mut list = Vec::new();
    for top in (0..height).step_by(by) {
        for left in (0..width).step_by(by) {
            let right = (left + by).min(width);
            let rows = top..(top + by).min(height);
            let block: Vec<Cell> =
                rows.flat_map(|y| &cells[y * width + left..y * width + right]).copied().collect();
            list.push(merged(&block));
        }
    }
    (list, width.div_ceil(by))
}

/// A mean that would be one of the three colors has one less in blue, or 1 for 0.
fn apart(color: Bytes, extras: [Bytes; 3]) -> Bytes {
    let [red, green, blue] = color;
    match extras.contains(&color) {
        true => [red, green, blue.checked_sub(1).unwrap_or(1)],
        false => color,
    }
}

fn painted(cells: &[Cell], width: usize, extras: [Bytes; 3]) -> Rgb {
    let [first, second, none] = extras;
    let color = |(i, cell): (usize, &Cell)| match *cell {
        Cell::Color(color) => apart(color, extras),
        Cell::Uncolored => none,
        Cell::Refused => hatch([first, second], i % width, i / width),
    };
    let bytes = cells.iter().enumerate().flat_map(color).collect();
    Rgb { width, height: cells.len() / width, bytes }
}

/// What is shown of a file, or why it is refused.
pub fn shown(file: &[u8], options: &Options) -> Result<Shown, Rejection> {
    let found = sheet::read(file, u64::MAX, u64::MAX)?;
    let (first, last) = options.lines.unwrap_or((1, found.lines.len()));
    let marks = &say::marks(&found)[first - 1..last];
    let all = cells(file, &found, first, last, options.as_scanned);
    let extras = extras(&all);
    let (width, _) = size(&found.header, marks.len(), options.as_scanned);
    let refused = say::count_refused(marks);
    let uncolored = all.iter().filter(|cell| **cell == Cell::Uncolored).count();
    let (list, width) = match options.shrink {
        None => (all, width),
        Some(by) => shrunk(&all, width, by),
    };
    let picture = painted(&list, width, extras);
    let mut said = Vec::new();
    if refused > 0 {
        let text = format!("{} refused\n", say::some_of(refused, marks.len()));
        said.push((text, say::listing(first, marks)));
    }
    if uncolored > 0 {
        let verb = if uncolored == 1 { "has" } else { "have" };
        said.push((format!("{} {verb} no color\n", say::count(uncolored, "pixel")), String::new()));
    }
    let colors = picture.bytes.chunks(3).collect::<BTreeSet<_>>().len();
    let status = i32::from(refused > 0);
    Ok(Shown { picture, colors, said, status, refused: refused > 0, uncolored: uncolored > 0 })
}
