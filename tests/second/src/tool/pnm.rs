//! Pictures in the formats of netpbm: read from what `pngtopnm` prints, and written for `make`, there
//! also through `pnmtopng`.

use super::run::{run, Room};
use crate::report::Part;
use std::io;
use std::process::Command;

/// A picture of bytes, three to a pixel, as it is compared.
#[derive(Clone, PartialEq)]
pub struct Rgb {
    pub width: usize,
    pub height: usize,
    pub bytes: Vec<u8>,
}

/// A picture of samples from 0 (black) to `most`.
#[derive(Clone)]
pub struct Samples {
    pub width: usize,
    pub height: usize,
    pub most: u32,
    /// 1 gray, 3 color.
    pub channels: usize,
    pub all: Vec<u16>,
}

/// What the header of a raw PBM, PGM or PPM says.
pub struct Head {
    pub bits: bool,
    pub channels: usize,
    pub width: usize,
    pub height: usize,
    pub most: u32,
    /// Bytes before the samples.
    pub length: usize,
}

pub fn head(bytes: &[u8]) -> Result<Head, String> {
    let (bits, channels, numbers) = match bytes.get(..2) {
        Some(b"P4") => (true, 1, 2),
        Some(b"P5") => (false, 1, 3),
        Some(b"P6") => (false, 3, 3),
        _ => return Err("neither P4 nor P5 nor P6".to_string()),
    };
    let mut at = 2;
    let mut list = Vec::new();
    while list.len() < numbers {
        while bytes.get(at).is_some_and(u8::is_ascii_whitespace) {
            at += 1;
        }
        let digits = bytes[at..].iter().take_while(|byte| byte.is_ascii_digit()).count();
        let number = std::str::from_utf8(&bytes[at..at + digits]).ok().and_then(|t| t.parse().ok());
        list.push(number.ok_or("a number is missing")?);
        at += digits;
    }
    let most = if bits { 1 } else { list[2] as u32 };
    Ok(Head { bits, channels, width: list[0], height: list[1], most, length: at + 1 })
}

impl Head {
    /// Bytes of a row.
    pub fn row(&self) -> usize {
        match (self.bits, self.most > 255) {
            (true, _) => self.width.div_ceil(8),
            (_, wide) => self.width * self.channels * if wide { 2 } else { 1 },
        }
    }

    /// The colors of a row; samples are brought to 255 exactly, or not at all.
    pub fn colors(&self, row: &[u8], colors: &mut Vec<u8>) -> Result<(), String> {
        colors.clear();
        if self.bits {
            let bit = |x: usize| row[x / 8] >> (7 - x % 8) & 1;
            (0..self.width).for_each(|x| colors.extend([255 * (1 - bit(x)); 3]));
            return Ok(());
        }
        if self.most == 255 && self.channels == 3 {
            colors.extend_from_slice(row);
            return Ok(());
        }
        let wide = self.most > 255;
        let sample = |i: usize| match wide {
            true => u32::from(row[2 * i]) << 8 | u32::from(row[2 * i + 1]),
            false => u32::from(row[i]),
        };
        for i in 0..self.width * self.channels {
            let scaled = 255 * sample(i);
            if scaled % self.most != 0 || scaled / self.most > 255 {
                return Err(format!("sample {} of {} is no byte", sample(i), self.most));
            }
            let byte = (scaled / self.most) as u8;
            // A gray sample is all three parts.
            colors.extend(&[byte; 3][..if self.channels == 1 { 3 } else { 1 }]);
        }
        Ok(())
    }
}

/// A whole picture that `pngtopnm` printed.
pub fn parse(bytes: &[u8]) -> Result<Rgb, String> {
    let head = head(bytes)?;
    let rows = &bytes[head.length.min(bytes.len())..];
    if rows.len() != head.row() * head.height {
        return Err(format!("{} bytes of samples", rows.len()));
    }
    let mut all = Vec::new();
    let mut colors = Vec::new();
    for row in rows.chunks(head.row()) {
        head.colors(row, &mut colors)?;
        all.extend_from_slice(&colors);
    }
    Ok(Rgb { width: head.width, height: head.height, bytes: all })
}

/// Decodes a PNG.
pub fn decode(room: &Room, png: &[u8]) -> io::Result<Result<Rgb, String>> {
    let command = Command::new("pngtopnm");
    let ran = run(command, Some(png), room.bench.program.patience)?;
    if ran.status != Some(0) || !ran.err.is_empty() {
        return Ok(Err(format!("pngtopnm: {}", String::from_utf8_lossy(&ran.err).trim_end())));
    }
    Ok(parse(&ran.out))
}

/// Compares a decoded picture, whose first different pixel is told.
pub fn part(wanted: &Rgb, found: &Result<Rgb, String>) -> Part {
    let size = |picture: &Rgb| format!("{} x {} pixels", picture.width, picture.height);
    let (wanted, found) = match found {
        Err(text) => (size(wanted), text.clone()),
        Ok(found) if size(wanted) != size(found) => (size(wanted), size(found)),
        Ok(found) => {
            let pixels = wanted.bytes.chunks(3).zip(found.bytes.chunks(3));
            let told = |x: usize, y: usize, color: &[u8]| format!("x {x} y {y}: {color:?}");
            let (width, differs) =
                (wanted.width, pixels.enumerate().find(|(_, (wanted, found))| wanted != found));
            match differs {
                None => (size(wanted), size(found)),
                Some((i, (wanted, found))) => {
                    (told(i % width, i / width, wanted), told(i % width, i / width, found))
                }
            }
        }
    };
    Part { name: "picture".to_string(), wanted: wanted.into_bytes(), found: found.into_bytes() }
}

/// What stands in the chunks of a PNG: bit depth, color type, interlace, and pixels per unit.
#[derive(Default)]
pub struct Chunks {
    pub depth: u8,
    pub kind: u8,
    pub interlaced: bool,
    pub density: Option<(u32, u32, u8)>,
}

pub fn chunks(png: &[u8]) -> Option<Chunks> {
    let number =
        |at: usize| png.get(at..at + 4).map(|b| u32::from_be_bytes([b[0], b[1], b[2], b[3]]));
    let mut found = Chunks::default();
    let mut at = 8;
    loop {
        let length = number(at)? as usize;
        let body = at + 8;
        match png.get(at + 4..body)? {
            b"IHDR" => {
                found.depth = *png.get(body + 8)?;
                found.kind = *png.get(body + 9)?;
                found.interlaced = *png.get(body + 12)? == 1;
            }
            b"pHYs" => {
                found.density = Some((number(body)?, number(body + 4)?, *png.get(body + 8)?))
            }
            b"IEND" => return Some(found),
            _ => {}
        }
        at = body + length + 4;
    }
}

impl Samples {
    /// The three parts of a pixel.
    pub fn parts(&self, x: usize, y: usize) -> [u16; 3] {
        let at = self.channels * (y * self.width + x);
        match self.channels {
            1 => [self.all[at]; 3],
            _ => [self.all[at], self.all[at + 1], self.all[at + 2]],
        }
    }

    /// As raw PBM (only of `most` 1 and gray), PGM or PPM; `space` stands between the numbers of the
    /// header.
    pub fn raw(&self, space: &str, bits: bool) -> Vec<u8> {
        let (width, height, most) = (self.width, self.height, self.most);
        if bits {
            let mut bytes = format!("P4{space}{width}{space}{height}\n").into_bytes();
            for row in self.all.chunks(width) {
                // In PBM 1 is black.
                let byte = |part: &[u16]| {
                    part.iter().zip((0..8).rev()).map(|(&s, bit)| ((1 - s) as u8) << bit).sum()
                };
                bytes.extend(row.chunks(8).map(byte).collect::<Vec<u8>>());
            }
            return bytes;
        }
        let magic = if self.channels == 1 { "P5" } else { "P6" };
        let head = format!("{magic}{space}{width}{space}{height}{space}{most}\n");
        let mut bytes = head.into_bytes();
        match most > 255 {
            true => bytes.extend(self.all.iter().flat_map(|sample| sample.to_be_bytes())),
            false => bytes.extend(self.all.iter().map(|&sample| sample as u8)),
        }
        bytes
    }

    /// As plain PBM, PGM or PPM.
    pub fn plain(&self, space: &str, bits: bool) -> Vec<u8> {
        let (width, height, most) = (self.width, self.height, self.most);
        let magic = if self.channels == 1 { "P2" } else { "P3" };
        let mut text = match bits {
            true => format!("P1{space}{width}{space}{height}\n"),
            false => format!("{magic}{space}{width}{space}{height}{space}{most}\n"),
        };
        for row in self.all.chunks(width * self.channels) {
            let sample = |&sample: &u16| match bits {
                true => (1 - sample).to_string(),
                false => sample.to_string(),
            };
            let row: Vec<String> = row.iter().map(sample).collect();
            // No line should be longer than 70 characters; in PBM blanks are not needed.
            for part in row.chunks(if bits { 60 } else { 10 }) {
                text.push_str(&part.join(if bits { "" } else { " " }));
                text.push('\n');
            }
        }
        text.into_bytes()
    }

    /// As PNG, with these flags of `pnmtopng`.
    pub fn png(&self, room: &Room, flags: &[&str]) -> io::Result<Vec<u8>> {
        let mut command = Command::new("pnmtopng");
        command.args(flags).current_dir(&room.dir);
        let bits = self.most == 1 && self.channels == 1;
        let ran = run(command, Some(&self.raw(" ", bits)), room.bench.program.patience)?;
        match ran.status {
            Some(0) => Ok(ran.out),
            _ => Err(io::Error::other(String::from_utf8_lossy(&ran.err).into_owned())),
        }
    }
}
