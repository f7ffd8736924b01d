//! Turning: a sheet made upright, and an upright picture made the sheet again. No pixel's place
//! is computed: whole pictures are mirrored, and their columns taken for rows.

use super::{Rejection, MOST_LINES};

/// What turning is given. The numbers are as wide as they are handed over.
pub struct Order<'a> {
    /// Turns an upright picture back to the sheet.
    pub back: bool,
    pub slo: u32,
    /// PPL and NOL are the sheet's, whichever way it is turned.
    pub ppl: u32,
    pub nol: u32,
    /// The buffer read.
    pub pixels: &'a [u16],
    /// Pixels in the buffer filled.
    pub room: usize,
}

pub struct Turned {
    /// Width and height of the upright picture, whichever way it was turned.
    pub width: usize,
    pub height: usize,
    /// What the buffer filled holds from its start; the rest of it stays.
    pub pixels: Vec<u16>,
}

type Rows = Vec<Vec<u16>>;

pub fn turn(order: &Order) -> Result<Turned, Rejection> {
    if let Some(&number) = faults(order).first() {
        return Err(number);
    }
    let (ppl, nol) = (order.ppl as usize, order.nol as usize);
    let (width, height) = if lines_are_rows(order.slo) { (ppl, nol) } else { (nol, ppl) };
    let source = &order.pixels[..ppl * nol];
    let turned = match order.back {
        false => upright(rows(source, ppl), order.slo),
        true => sheet(rows(source, width), order.slo),
    };
    Ok(Turned { width, height, pixels: turned.concat() })
}

/// Every number there is a reason to refuse with, in the order in which they are looked at.
pub fn faults(order: &Order) -> Vec<Rejection> {
    let needed = u64::from(order.ppl) * u64::from(order.nol);
    let holds = |length: usize| length as u64 >= needed;
    let checks = [
        (order.slo <= 7, 17),
        ((1..=65_535).contains(&order.ppl), 19),
        ((1..=MOST_LINES).contains(&order.nol), 20),
        (holds(order.pixels.len()), 23),
        (holds(order.room), 31),
    ];
    checks.into_iter().filter(|(holds, _)| !holds).map(|(_, number)| number).collect()
}

fn lines_are_rows(slo: u32) -> bool {
    slo & 4 != 0
}

fn upright(lines: Rows, slo: u32) -> Rows {
    let picture = if lines_are_rows(slo) { lines } else { columns(&lines) };
    mirrored(picture, slo)
}

/// The same steps from the last to the first: each of them undoes itself.
fn sheet(picture: Rows, slo: u32) -> Rows {
    let picture = mirrored(picture, slo);
    if lines_are_rows(slo) {
        picture
    } else {
        columns(&picture)
    }
}

/// Moves the first pixel from the upper left to the right, to the bottom, or both.
fn mirrored(mut picture: Rows, slo: u32) -> Rows {
    if slo & 1 != 0 {
        picture.iter_mut().for_each(|row| row.reverse());
    }
    if slo & 2 != 0 {
        picture.reverse();
    }
    picture
}

/// The columns from left to right, each from its top.
fn columns(rows: &Rows) -> Rows {
    (0..rows[0].len()).map(|i| rows.iter().map(|row| row[i]).collect()).collect()
}

fn rows(pixels: &[u16], width: usize) -> Rows {
    pixels.chunks(width).map(<[u16]>::to_vec).collect()
}
