//! What each program under test must print for its standard input.

use super::header::{self, Color, Coloring, Header, Resolution};
use super::long;
use super::sheet::{self, Sheet};
use super::turn;
use super::writer::{self, Order};
use super::Rejection;
use std::fmt::Write;

pub const HEADER_LIMIT: usize = 140_000;
pub const LISTING_LIMIT: usize = 32_768;
/// What the listing program lends.
pub const LISTING_PIXELS: u64 = 8_192;
pub const LISTING_MARKS: u64 = 256;

pub const WRITE_LIMIT: usize = 400_000;
pub const WRITE_TABLE: usize = 2_000;
pub const WRITE_PIXELS: usize = 150_000;
pub const WRITE_ROOM: usize = 400_000;

/// The seven numbers that the turning program reads first.
pub const TURN_NUMBERS: usize = 28;
/// What it lends at most, each way.
pub const TURN_PIXELS: usize = 60_000;

/// The values whose colors the header program prints.
pub fn values() -> impl Iterator<Item = u64> {
    (0..=300).chain([65_535])
}

pub fn header(input: &[u8]) -> Vec<u8> {
    header_by(header::color, input)
}

/// The same by a rule that may find other colors.
pub fn header_by(by: Coloring, input: &[u8]) -> Vec<u8> {
    if input.len() > HEADER_LIMIT {
        return b"too long\n".to_vec();
    }
    let found = match header::read(input) {
        Err(number) => return refused(number),
        Ok(found) => found,
    };
    let mut text = fields(&found);
    for value in values() {
        let told = color_line(value, by(input, &found, value));
        line(&mut text, format_args!("{told}"));
    }
    text.into_bytes()
}

/// What the header program prints of a value's color.
pub fn color_line(value: u64, color: Color) -> String {
    match color {
        Some([red, green, blue]) => format!("{value}: {red} {green} {blue}"),
        None => format!("{value}: refused 25"),
    }
}

fn fields(h: &Header) -> String {
    let (kind, size) = match h.resolution {
        Resolution::None => (0, 0),
        Resolution::Microns(size) => (1, size),
        Resolution::DotsPerInch(size) => (2, size),
    };
    format!(
        "type {} blocks {} pixels {} lines {} resolution {kind} {size} slo {} scn {} ctv {} cte {}\n",
        h.kind, h.blocks, h.ppl, h.nol, h.slo, h.scn, h.ctv, h.cte
    )
}

pub fn listing(input: &[u8]) -> Vec<u8> {
    if input.len() > LISTING_LIMIT {
        return b"too long\n".to_vec();
    }
    match sheet::read(input, LISTING_PIXELS, LISTING_MARKS) {
        Err(number) => refused(number),
        Ok(found) => list(&found),
    }
}

pub fn list(sheet: &Sheet) -> Vec<u8> {
    let h = &sheet.header;
    let mut text = format!(
        "type {} pixels {} lines {} answer {} good {} end {}\n",
        h.kind,
        h.ppl,
        h.nol,
        sheet.answer(),
        sheet.good(),
        sheet.end
    );
    for (i, found) in sheet.lines.iter().enumerate() {
        let row: Vec<String> = found.row.iter().map(u64::to_string).collect();
        line(&mut text, format_args!("{} {}: {}", i + 1, found.mark, row.join(" ")));
    }
    text.into_bytes()
}

pub fn write(input: &[u8]) -> Vec<u8> {
    write_with(input, writer::write)
}

/// The same with a writer that may be wrong.
pub fn write_with(input: &[u8], writer: impl Fn(&Order) -> Result<Vec<u8>, Rejection>) -> Vec<u8> {
    if input.len() > WRITE_LIMIT {
        return b"too long\n".to_vec();
    }
    if input.len() < 40 {
        return b"short\n".to_vec();
    }
    let number = |i: usize| long(input, 4 * i) as u32;
    let [table, count, room] = [6, 7, 8].map(|i| number(i) as usize);
    if table > WRITE_TABLE || count > WRITE_PIXELS || room > WRITE_ROOM {
        return b"too long\n".to_vec();
    }
    if input.len() < 40 + table + 2 * count {
        return b"short\n".to_vec();
    }
    let (table, pixels) = input[40..40 + table + 2 * count].split_at(table);
    let pixels = pixels_of(pixels);
    let written = writer(&Order {
        kind: number(0),
        ppl: number(1),
        nol: number(2),
        slo: number(3),
        scn: number(4),
        drs: number(5) as u16 as i16,
        table,
        pixels: &pixels,
        room,
    });
    let (mut output, file) = match written {
        Err(number) => (refused(number), Vec::new()),
        Ok(file) => (format!("written {}\n", file.len()).into_bytes(), file),
    };
    let fill = number(9) as u8;
    output.extend(&file);
    output.resize(output.len() - file.len() + room, fill);
    output
}

pub fn turn(input: &[u8]) -> Vec<u8> {
    if input.len() < TURN_NUMBERS {
        return b"short\n".to_vec();
    }
    let number = |i: usize| long(input, 4 * i) as u32;
    let (way, fill) = (number(0), number(6));
    let [count, room] = [4, 5].map(|i| number(i) as usize);
    if way > 1 || count > TURN_PIXELS || room > TURN_PIXELS || fill > 65_535 {
        return b"too long\n".to_vec();
    }
    let Some(pixels) = input.get(TURN_NUMBERS..TURN_NUMBERS + 2 * count) else {
        return b"short\n".to_vec();
    };
    let turned = turn::turn(&turn::Order {
        back: way == 1,
        slo: number(1),
        ppl: number(2),
        nol: number(3),
        pixels: &pixels_of(pixels),
        room,
    });
    let (mut output, mut filled) = match turned {
        Err(number) => (refused(number), Vec::new()),
        Ok(found) => {
            (format!("turned {} {}\n", found.width, found.height).into_bytes(), found.pixels)
        }
    };
    filled.resize(room, fill as u16);
    output.extend(filled.iter().flat_map(|pixel| pixel.to_le_bytes()));
    output
}

/// Pixels of two bytes, the low one first.
pub fn pixels_of(bytes: &[u8]) -> Vec<u16> {
    bytes.chunks_exact(2).map(|pair| u16::from_le_bytes([pair[0], pair[1]])).collect()
}

fn refused(number: u32) -> Vec<u8> {
    format!("refused {number}\n").into_bytes()
}

fn line(text: &mut String, what: std::fmt::Arguments) {
    writeln!(text, "{what}").expect("a string takes all");
}
