//! The C functions: what each returns, and what it leaves in the slices that it is lent.

use super::header::{self, Coloring, Resolution};
use super::sheet::{self, Sheet, Unpacking};
use super::transcode;
use super::turn;
use super::writer::{self, Coding, Order};
use super::Rejection;

/// Bytes of the numbers that each function answers with.
pub const HEADER_ANSWER: usize = 40;
pub const RASTER_ANSWER: usize = 8;
pub const COLOR_ANSWER: usize = 12;
pub const WRITE_ANSWER: usize = 4;
pub const MOVE_ANSWER: usize = 4;

/// An answer slice that is too short for its numbers; looked at before all else.
pub const SHORT_ANSWER: Rejection = 29;

pub fn header(file: &[u8], answer: &mut [u8]) -> u32 {
    if answer.len() < HEADER_ANSWER {
        return SHORT_ANSWER;
    }
    let found = match header::read(file) {
        Err(number) => return number,
        Ok(found) => found,
    };
    put_numbers(answer, &header_numbers(&found));
    0
}

pub fn header_numbers(h: &header::Header) -> [u64; 10] {
    let (kind, size) = match h.resolution {
        Resolution::None => (0, 0),
        Resolution::Microns(size) => (1, size),
        Resolution::DotsPerInch(size) => (2, size),
    };
    [h.kind, h.blocks, h.ppl, h.nol, kind, size, h.slo, h.scn, h.ctv, h.cte]
}

pub fn color(file: &[u8], value: u32, answer: &mut [u8]) -> u32 {
    color_by(header::color, file, value, answer)
}

pub fn plotter_color(file: &[u8], value: u32, answer: &mut [u8]) -> u32 {
    color_by(header::plotter_color, file, value, answer)
}

/// The same by a rule that may find other colors.
pub fn color_by(by: Coloring, file: &[u8], value: u32, answer: &mut [u8]) -> u32 {
    if answer.len() < COLOR_ANSWER {
        return SHORT_ANSWER;
    }
    let found = match header::read(file) {
        Err(number) => return number,
        Ok(found) => found,
    };
    let Some(parts) = by(file, &found, u64::from(value)) else {
        return 25;
    };
    put_numbers(answer, &parts);
    0
}

pub fn raster(file: &[u8], pixels: &mut [u8], marks: &mut [u8], answer: &mut [u8]) -> u32 {
    raster_by(&sheet::RIGHT, file, pixels, marks, answer)
}

/// The same by a reader that may read packed words in another way.
pub fn raster_by(
    by: &Unpacking,
    file: &[u8],
    pixels: &mut [u8],
    marks: &mut [u8],
    answer: &mut [u8],
) -> u32 {
    if answer.len() < RASTER_ANSWER {
        return SHORT_ANSWER;
    }
    let h = match header::read(file) {
        Err(number) => return number,
        Ok(h) => h,
    };
    if (pixels.len() as u64) < 2 * h.ppl * h.nol {
        return 23;
    }
    if (marks.len() as u64) < h.nol {
        return 24;
    }
    match sheet::read_by(by, file, h.ppl * h.nol, h.nol) {
        Err(number) => unreachable!("refused with {number} after all checks"),
        Ok(found) => leave(&found, pixels, marks, answer),
    }
}

/// Leaves what was read of a sheet, in slices that are long enough.
pub fn leave(found: &Sheet, pixels: &mut [u8], marks: &mut [u8], answer: &mut [u8]) -> u32 {
    let rows = pixels.chunks_mut(2 * found.header.ppl as usize);
    for ((line, row), mark) in found.lines.iter().zip(rows).zip(marks) {
        *mark = line.mark;
        for (place, &pixel) in row.chunks_mut(2).zip(&line.row) {
            place.copy_from_slice(&(pixel as u16).to_le_bytes());
        }
    }
    put_numbers(answer, &[found.good() as u64, found.end as u64]);
    found.answer() as u32
}

/// What the turning is given, but for the buffer filled.
#[derive(Clone, Copy)]
pub struct Turn<'a> {
    pub back: bool,
    pub slo: u32,
    pub ppl: u32,
    pub nol: u32,
    pub pixels: &'a [u16],
}

pub fn turn(given: &Turn, filled: &mut [u16]) -> u32 {
    let Turn { back, slo, ppl, nol, pixels } = *given;
    match turn::turn(&turn::Order { back, slo, ppl, nol, pixels, room: filled.len() }) {
        Err(number) => number,
        Ok(turned) => {
            filled[..turned.pixels.len()].copy_from_slice(&turned.pixels);
            0
        }
    }
}

/// What the writer is given, but for the output.
#[derive(Clone, Copy)]
pub struct Write<'a> {
    pub kind: u32,
    pub ppl: u32,
    pub nol: u32,
    pub slo: u32,
    pub scn: u32,
    /// Its low 16 bits count.
    pub drs: u32,
    pub table: &'a [u8],
    pub pixels: &'a [u16],
}

pub fn write(given: &Write, out: &mut [u8], answer: &mut [u8]) -> u32 {
    write_by(&writer::RIGHT, given, out, answer)
}

/// The same by a writer that may make other words.
pub fn write_by(coding: &Coding, given: &Write, out: &mut [u8], answer: &mut [u8]) -> u32 {
    if answer.len() < WRITE_ANSWER {
        return SHORT_ANSWER;
    }
    let Write { kind, ppl, nol, slo, scn, drs, table, pixels } = *given;
    let drs = (drs % 65_536) as u16 as i16;
    let room = out.len();
    let order = Order { kind, ppl, nol, slo, scn, drs, table, pixels, room };
    leave_file(writer::write_by(coding, &order), out, answer)
}

pub fn transcode(file: &[u8], out: &mut [u8], answer: &mut [u8]) -> u32 {
    transcode_by(&transcode::RIGHT, file, out, answer)
}

/// The same by a mover that may do it in another way.
pub fn transcode_by(by: &transcode::Manner, file: &[u8], out: &mut [u8], answer: &mut [u8]) -> u32 {
    if answer.len() < MOVE_ANSWER {
        return SHORT_ANSWER;
    }
    leave_file(transcode::transcode_by(by, file, out.len()), out, answer)
}

/// Leaves a file that was made, in an output that is long enough, and its length.
fn leave_file(made: Result<Vec<u8>, Rejection>, out: &mut [u8], answer: &mut [u8]) -> u32 {
    match made {
        Err(number) => number,
        Ok(file) => {
            out[..file.len()].copy_from_slice(&file);
            put_numbers(answer, &[file.len() as u64]);
            0
        }
    }
}

/// Numbers of four bytes, the low one first; what follows them stays.
pub fn put_numbers(answer: &mut [u8], numbers: &[u64]) {
    for (place, &number) in answer.chunks_mut(4).zip(numbers) {
        place.copy_from_slice(&(number as u32).to_le_bytes());
    }
}
