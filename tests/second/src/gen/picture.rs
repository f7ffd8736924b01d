//! Pictures for the writer, right ones and ones that it must refuse.

use super::header::some_drs;
use super::sheet::{some_row, words, TYPES};
use crate::model::header::{color_by_type, gray, Color};
use crate::model::writer::{self, Order};
use crate::model::{Rejection, MOST_LINES};
use crate::rng::Rng;

/// What is handed to the writing program, every number 32 bits wide.
#[derive(Clone)]
pub struct Picture {
    pub kind: u32,
    pub ppl: u32,
    pub nol: u32,
    pub slo: u32,
    pub scn: u32,
    /// The resolution in the low 16 bits.
    pub drs: u32,
    pub table: Vec<u8>,
    pub pixels: Vec<u16>,
    pub room: u32,
    /// What the output holds before the call.
    pub fill: u8,
}

impl Picture {
    pub fn plain(kind: u16, ppl: usize, nol: usize, scn: u32, pixels: Vec<u16>) -> Picture {
        let mut picture = Picture {
            kind: u32::from(kind),
            ppl: ppl as u32,
            nol: nol as u32,
            slo: 0,
            scn,
            drs: 0,
            table: Vec::new(),
            pixels,
            room: 0,
            fill: 0xA5,
        };
        picture.fit(3);
        picture
    }

    pub fn input(&self) -> Vec<u8> {
        let numbers = [
            self.kind,
            self.ppl,
            self.nol,
            self.slo,
            self.scn,
            self.drs,
            self.table.len() as u32,
            self.pixels.len() as u32,
            self.room,
            u32::from(self.fill),
        ];
        let mut input: Vec<u8> = numbers.iter().flat_map(|number| number.to_le_bytes()).collect();
        input.extend(&self.table);
        input.extend(words(&self.pixels));
        input
    }

    /// What the model writes.
    pub fn written(&self) -> Result<Vec<u8>, Rejection> {
        writer::write(&Order {
            kind: self.kind,
            ppl: self.ppl,
            nol: self.nol,
            slo: self.slo,
            scn: self.scn,
            drs: self.drs as u16 as i16,
            table: &self.table,
            pixels: &self.pixels,
            room: self.room as usize,
        })
    }

    /// The color of a value in what is written, and what the plotter is told.
    pub fn colors(&self, value: u64) -> [Color; 2] {
        if self.table.is_empty() {
            return [color_by_type(self.kind.into(), value), gray(value)];
        }
        let entry = self.table.chunks(3).nth(value as usize);
        [entry.map(|parts| [0, 1, 2].map(|i| 256 * u64::from(parts[i]))); 2]
    }

    /// Gives as much room as the file needs, and `more` bytes, as far as the program has it.
    pub fn fit(&mut self, more: i64) {
        self.fit_within(more, crate::model::probe::WRITE_ROOM as u32);
    }

    pub fn fit_within(&mut self, more: i64, most: u32) {
        self.room = most;
        let length = self.written().map_or(1_200, |file| file.len());
        self.room = (length as i64 + more).clamp(0, i64::from(most)) as u32;
    }
}

/// A picture that is written, but for the few that are too wide or too long.
pub fn some_picture(rng: &mut Rng) -> Picture {
    let kind = rng.pick(&TYPES);
    let (ppl, nol) = match rng.below(24) {
        0 => (rng.range(1, 1500), rng.range(1, 5)),
        1 => (rng.range(1, 8), rng.range(100, 300)),
        2 => (rng.range(1_500, 70_000), rng.range(1, 2)),
        _ => (rng.range(1, 50), rng.range(1, 10)),
    };
    picture_of(rng, kind, ppl, nol)
}

/// The same with few wide ones, or none.
pub fn some_small_picture(rng: &mut Rng, no_wide: bool) -> Picture {
    let kind = rng.pick(&TYPES);
    let (ppl, nol) = match rng.below(600) {
        0 if !no_wide => (rng.range(1_500, 70_000), rng.range(1, 2)),
        0..=7 => (rng.range(1, 1500), rng.range(1, 5)),
        8..=15 => (rng.range(1, 8), rng.range(100, 300)),
        _ => (rng.range(1, 50), rng.range(1, 10)),
    };
    picture_of(rng, kind, ppl, nol)
}

fn picture_of(rng: &mut Rng, kind: u16, ppl: usize, nol: usize) -> Picture {
    let mut pixels: Vec<u16> = (0..nol).flat_map(|_| some_row(rng, kind, ppl)).collect();
    if rng.one_in(4) {
        // More than the picture needs, and nothing the type could hold.
        let more = rng.range(1, 30);
        pixels.extend((0..more).map(|_| rng.word() | 0x8000));
    }
    let scn = rng.below(2) as u32;
    let mut picture = Picture::plain(kind, ppl, nol, scn, pixels);
    dress(rng, &mut picture);
    picture
}

/// Gives a picture the fields that do not touch its pixels, by chance.
pub fn dress(rng: &mut Rng, picture: &mut Picture) {
    picture.slo = rng.below(8) as u32;
    let drs = some_drs(rng);
    picture.drs = match rng.below(3) {
        0 => u32::from(drs as u16),
        1 => i32::from(drs) as u32,
        _ => u32::from(drs as u16) | rng.long() << 16,
    };
    if rng.one_in(3) {
        picture.table = rng.bytes(768);
    }
    picture.fill = rng.byte();
    let more = rng.pick(&[0, 0, 1, 2, 17, 600]);
    picture.fit(more);
}

/// Spoils a picture so that it is refused with `number`, if nothing else is wrong with it.
pub fn spoil(rng: &mut Rng, picture: &mut Picture, number: u32) {
    match number {
        16 => {
            let near = [
                0, 4, 8, 11, 24, 27, 29, 65, 257, 258, 259, 265, 266, 65_537, 65_538, 65_539,
                65_545, 65_546,
            ];
            picture.kind = match rng.below(3) {
                0 => rng.range(11, u32::MAX as usize) as u32,
                _ => rng.pick(&near),
            }
        }
        17 => {
            picture.slo = rng.pick(&[8, 9, 255, 256, 257, 263, 65_536, 65_540, 1 << 31, u32::MAX])
        }
        18 => picture.scn = rng.pick(&[2, 3, 255, 256, 257, 65_536, 65_537, 1 << 31, u32::MAX]),
        19 => picture.ppl = outside(rng, picture.ppl, 65_536),
        20 => picture.nol = outside(rng, picture.nol, MOST_LINES + 1),
        21 => {
            let length = rng.pick(&[1, 2, 3, 255, 256, 512, 766, 767, 769, 770, 1024, 1536, 2000]);
            picture.table = rng.bytes(length);
        }
        23 => {
            let keep = match rng.below(3) {
                0 => picture.pixels.len().min(needed(picture)).saturating_sub(1),
                1 => 0,
                _ => rng.below(needed(picture).clamp(1, 140_000)),
            };
            picture.pixels.truncate(keep);
        }
        26 => {
            let last = needed(picture).min(picture.pixels.len());
            if last > 0 {
                let at = match rng.below(3) {
                    0 => 0,
                    1 => last - 1,
                    _ => rng.below(last),
                };
                let above = if matches!(picture.kind, 1 | 9) {
                    [2, 3, 256, 257, 65_535]
                } else {
                    [256, 257, 511, 512, 65_535]
                };
                picture.pixels[at] = rng.pick(&above);
            }
        }
        28 => {
            let less = rng.pick(&[1, 1, 2, 8, 400]);
            picture.fit(-less);
            if rng.one_in(5) {
                picture.room = rng.pick(&[0, 1, 512, 1023]);
            }
        }
        _ => unreachable!("{number} is made by its width"),
    }
}

fn needed(picture: &Picture) -> usize {
    (picture.ppl as usize).saturating_mul(picture.nol as usize)
}

/// A size outside the limits, of which this is the first, such as 16 bits would take for the right
/// one.
fn outside(rng: &mut Rng, right: u32, first: u32) -> u32 {
    let near = first + 4_464;
    match rng.below(3) {
        0 => rng.pick(&[0, first, first + 1, near, 1 << 31, u32::MAX]),
        1 => right.wrapping_add(65_536 * rng.range(1, 60_000) as u32).max(first),
        _ => rng.range(first as usize, near as usize) as u32,
    }
}
