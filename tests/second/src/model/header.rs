//! A sheet's header and its colors.

use super::{known_type, long, word, Rejection, LONGEST_FILE, MOST_LINES};
use std::collections::HashSet;

#[derive(Clone, Copy, Debug, PartialEq)]
pub enum Resolution {
    None,
    Microns(u64),
    DotsPerInch(u64),
}

impl Resolution {
    pub fn of(drs: i16) -> Resolution {
        // Widened before it is negated: -32,768 has no 16-bit opposite.
        let size = i64::from(drs);
        match size {
            0 => Resolution::None,
            1.. => Resolution::Microns(size as u64),
            _ => Resolution::DotsPerInch(-size as u64),
        }
    }
}

#[derive(Clone, Debug, PartialEq)]
pub struct Header {
    pub kind: u64,
    pub blocks: u64,
    pub ppl: u64,
    pub nol: u64,
    pub resolution: Resolution,
    pub slo: u64,
    pub scn: u64,
    pub ctv: u64,
    pub cte: u64,
}

impl Header {
    /// The byte where raster data begin.
    pub fn size(&self) -> usize {
        self.blocks as usize * 512
    }
}

/// Where the table area starts, and how long its records are.
const TABLE: usize = 768;
const IGDS_ENTRY: usize = 3;
const ENVIRON_V_ENTRY: usize = 8;

pub fn read(file: &[u8]) -> Result<Header, Rejection> {
    if file.len() as u64 > LONGEST_FILE {
        return Err(10);
    }
    if file.len() < 1024 {
        return Err(11);
    }
    if word(file, 0) != 0x0908 {
        return Err(12);
    }
    let wtf = word(file, 2);
    let blocks = (2..=256).find(|n| 256 * n - 2 == wtf).ok_or(13u32)?;
    if 512 * blocks > file.len() as u64 {
        return Err(14);
    }
    if file[511] != 3 {
        return Err(15);
    }
    let kind = word(file, 4);
    if !known_type(kind) {
        return Err(16);
    }
    let slo = u64::from(file[194]);
    if slo > 7 {
        return Err(17);
    }
    let scn = u64::from(file[195]);
    if scn > 1 {
        return Err(18);
    }
    let ppl = long(file, 184);
    if ppl == 0 || ppl > 65_535 {
        return Err(19);
    }
    let nol = long(file, 188);
    if nol == 0 || nol > u64::from(MOST_LINES) {
        return Err(20);
    }
    let ctv = word(file, 532);
    let cte = long(file, 536);
    let fits = match ctv {
        0 => true,
        1 => blocks >= 3,
        2 => (1..=256).contains(&cte) && 768 + 8 * cte <= 512 * blocks,
        _ => false,
    };
    if !fits {
        return Err(21);
    }
    if ctv == 2 {
        let mut seen = HashSet::new();
        if !(0..cte as usize).all(|i| seen.insert(slot(file, i))) {
            return Err(22);
        }
    }
    let drs = word(file, 192) as u16 as i16;
    let resolution = Resolution::of(drs);
    Ok(Header { kind, blocks, ppl, nol, resolution, slo, scn, ctv, cte })
}

fn slot(file: &[u8], entry: usize) -> u64 {
    word(file, TABLE + ENVIRON_V_ENTRY * entry)
}

/// Red, green and blue of a value; none is rejection 25.
pub type Color = Option<[u64; 3]>;

/// How the color of a pixel value is found in a file whose header was accepted.
pub type Coloring = fn(&[u8], &Header, u64) -> Color;

/// By the table, and without one ink on paper or gray.
pub fn color(file: &[u8], header: &Header, value: u64) -> Color {
    match header.ctv {
        0 => color_by_type(header.kind, value),
        _ => plotter_color(file, header, value),
    }
}

/// What the grayscale plotter is told: by the table, and without one gray in every type.
pub fn plotter_color(file: &[u8], header: &Header, value: u64) -> Color {
    match header.ctv {
        0 => gray(value),
        1 if value <= 255 => {
            let at = TABLE + IGDS_ENTRY * value as usize;
            Some([0, 1, 2].map(|part| 256 * u64::from(file[at + part])))
        }
        2 => {
            let entry = (0..header.cte as usize).find(|&i| slot(file, i) == value)?;
            let at = TABLE + ENVIRON_V_ENTRY * entry;
            Some([2, 4, 6].map(|part| word(file, at + part)))
        }
        _ => None,
    }
}

/// Without a table: ink on paper in the bi-level types, gray in the others.
pub fn color_by_type(kind: u64, value: u64) -> Color {
    match (kind, value) {
        (1 | 9, 0) => Some([65_535; 3]),
        (1 | 9, 1) => Some([0; 3]),
        (1 | 9, _) => None,
        _ => gray(value),
    }
}

pub fn gray(value: u64) -> Color {
    (value <= 255).then_some([256 * value; 3])
}
