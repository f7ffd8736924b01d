//! Turnings, right ones and ones that must be refused.

use super::sheet::words;
use crate::model::probe::TURN_PIXELS;
use crate::model::turn::{self, Order};
use crate::model::{Rejection, MOST_LINES};
use crate::rng::Rng;

/// What is handed to the turning program, every number 32 bits wide.
#[derive(Clone)]
pub struct Turning {
    /// 0 turns upright, 1 turns back.
    pub way: u32,
    pub slo: u32,
    pub ppl: u32,
    pub nol: u32,
    /// The buffer read.
    pub pixels: Vec<u16>,
    /// Pixels in the buffer filled.
    pub room: u32,
    /// What each of those holds before the call.
    pub fill: u32,
}

impl Turning {
    /// Pixels that are all different, so that each wrong place is seen, and a fill that none of
    /// them has. As far as the limit allows, both buffers have pixels to spare.
    pub fn new(
        rng: &mut Rng,
        way: u32,
        slo: u32,
        sides: (usize, usize),
        spare: [usize; 2],
    ) -> Turning {
        Turning::within(rng, way, slo, sides, spare, TURN_PIXELS)
    }

    /// The same under another limit. From 65,537 pixels on some are alike.
    pub fn within(
        rng: &mut Rng,
        way: u32,
        slo: u32,
        sides: (usize, usize),
        spare: [usize; 2],
        most: usize,
    ) -> Turning {
        let (ppl, nol) = sides;
        let [count, room] = spare.map(|more| (ppl * nol + more).min(most));
        // An odd step meets every 16-bit number before the first comes again.
        let (first, step) = (rng.word(), rng.word() | 1);
        let nth = |i: usize| first.wrapping_add(step.wrapping_mul(i as u16));
        Turning {
            way,
            slo,
            ppl: ppl as u32,
            nol: nol as u32,
            pixels: (0..count).map(nth).collect(),
            room: room as u32,
            fill: u32::from(nth(count)),
        }
    }

    pub fn input(&self) -> Vec<u8> {
        let count = self.pixels.len() as u32;
        let numbers = [self.way, self.slo, self.ppl, self.nol, count, self.room, self.fill];
        let mut input: Vec<u8> = numbers.iter().flat_map(|number| number.to_le_bytes()).collect();
        input.extend(words(&self.pixels));
        input
    }

    /// Pixels of the sheet; both sides are within their limits.
    pub fn size(&self) -> usize {
        self.ppl as usize * self.nol as usize
    }

    /// Every number that the model could refuse it with.
    pub fn faults(&self) -> Vec<Rejection> {
        turn::faults(&Order {
            back: self.way == 1,
            slo: self.slo,
            ppl: self.ppl,
            nol: self.nol,
            pixels: &self.pixels,
            room: self.room as usize,
        })
    }
}

/// A turning that is not refused.
pub fn some_turning(rng: &mut Rng, way: u32) -> Turning {
    let sides = match rng.below(24) {
        0 => (rng.range(1, 3), rng.range(1, 5_000)),
        1 => (rng.range(1, 5_000), rng.range(1, 3)),
        2 => (rng.range(1, 240), rng.range(1, 240)),
        _ => (rng.range(1, 40), rng.range(1, 40)),
    };
    let slo = rng.below(8) as u32;
    let spare = some_spare(rng);
    Turning::new(rng, way, slo, sides, spare)
}

/// Pixels that either buffer has to spare.
pub fn some_spare(rng: &mut Rng) -> [usize; 2] {
    [0, 1].map(|_| rng.pick(&[0, 0, 1, 2, 17, 300]))
}

/// The sets of faults that can be had. As no buffer has more than 60,000 pixels, a side above its
/// limit makes both too short, and a side of 0 makes neither so.
pub const FAULTS: [&[Rejection]; 19] = [
    &[17],
    &[19],
    &[20],
    &[23],
    &[31],
    &[17, 19],
    &[17, 20],
    &[17, 23],
    &[17, 31],
    &[19, 20],
    &[23, 31],
    &[17, 19, 20],
    &[17, 23, 31],
    &[19, 23, 31],
    &[20, 23, 31],
    &[17, 19, 23, 31],
    &[17, 20, 23, 31],
    &[19, 20, 23, 31],
    &[17, 19, 20, 23, 31],
];

/// A turning with these faults and no others.
pub fn faulty(rng: &mut Rng, way: u32, faults: &[Rejection]) -> Turning {
    loop {
        let mut turning = some_turning(rng, way);
        for &number in faults {
            spoil(rng, &mut turning, number);
        }
        if turning.faults() == faults {
            return turning;
        }
    }
}

fn spoil(rng: &mut Rng, turning: &mut Turning, number: Rejection) {
    match number {
        17 => turning.slo = some_wrong_slo(rng, turning.slo),
        19 => turning.ppl = some_wrong_side(rng, turning.ppl, 65_536),
        20 => turning.nol = some_wrong_side(rng, turning.nol, MOST_LINES + 1),
        23 => {
            let length = some_less(rng, turning.pixels.len());
            turning.pixels.truncate(length);
        }
        31 => turning.room = some_less(rng, turning.room as usize) as u32,
        _ => unreachable!("turning is not refused with {number}"),
    }
}

/// A code above 7, such as fewer bits would take for the right one.
fn some_wrong_slo(rng: &mut Rng, right: u32) -> u32 {
    match rng.below(3) {
        0 => rng.pick(&[8, 9, 15, 16, 255, 256, 65_536, 1 << 31, u32::MAX]),
        _ => right | 1 << rng.range(3, 31),
    }
}

/// A side outside the limits, of which this is the first, such as 16 bits would take for the right
/// one.
fn some_wrong_side(rng: &mut Rng, right: u32, first: u32) -> u32 {
    match rng.below(3) {
        0 => 0,
        1 => rng.pick(&[first, first + 1, first + 4_464, 1 << 31, u32::MAX]),
        _ => right + 65_536 * rng.range(first.div_ceil(65_536) as usize, 60_000) as u32,
    }
}

fn some_less(rng: &mut Rng, length: usize) -> usize {
    match rng.below(4) {
        0 => 0,
        1 => rng.below(length),
        _ => length - 1,
    }
}
