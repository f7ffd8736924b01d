//! `ingr make`: pictures of every form, and the bytes that the model's writer makes of their pixels;
//! pictures that cannot be taken, and sheets that are refused.

use super::pnm::{chunks, Samples};
use super::run::{file_part, judge, names_part, words, Room, Text, Wanted};
use super::words as say;
use crate::gen::header::Draft;
use crate::gen::sheet::TYPES;
use crate::model::turn::{turn, Order as Turn};
use crate::model::writer::{self, Order};
use crate::model::Rejection;
use crate::report::Found;
use crate::rng::Rng;
use std::ffi::OsString;
use std::io;

pub const FAMILIES: [&str; 7] = [
    "make of every type and orientation",
    "make by chance",
    "make of every kind of PNG",
    "make of a damaged picture",
    "make of what is refused",
    "make with a table that is none",
    "make of every kind of PNM",
];

/// The numbers that a picture can be refused with.
pub const REFUSALS: [u32; 4] = [19, 20, 26, 27];

/// How a sheet is to be made.
#[derive(Clone, Default)]
pub struct Making {
    pub kind: u32,
    pub headers: bool,
    pub slo: Option<u32>,
    pub drs: i16,
    pub table: Vec<u8>,
    /// The table is handed over in a sheet that has it.
    pub in_sheet: bool,
}

/// Why a picture cannot be taken.
enum Trouble {
    /// A gray pixel in a bi-level sheet, at this column and row, from 1.
    NotBilevel(usize, usize),
    Other,
}

/// The upright pixels of a picture, by the manual page.
fn pixels(picture: &Samples, making: &Making) -> Result<Vec<u16>, Trouble> {
    let places = (0..picture.height).flat_map(|y| (0..picture.width).map(move |x| (x, y)));
    places.map(|(x, y)| pixel(picture, making, x, y)).collect()
}

fn pixel(picture: &Samples, making: &Making, x: usize, y: usize) -> Result<u16, Trouble> {
    let parts = picture.parts(x, y);
    // Only pictures whose samples are shades of 255 are made, so nothing is rounded.
    let shade = |sample: u16| (255 * u32::from(sample) / picture.most) as u16;
    if !making.table.is_empty() {
        let color = parts.map(|part| shade(part) as u8);
        let place = making.table.chunks(3).position(|entry| entry == color);
        return place.map(|place| place as u16).ok_or(Trouble::Other);
    }
    let [sample, ..] = parts;
    if parts != [sample; 3] || picture.most > 255 && making.kind == 2 {
        return Err(Trouble::Other);
    }
    match (making.kind, sample) {
        (1 | 9, 0) => Ok(1),
        (1 | 9, white) if u32::from(white) == picture.most => Ok(0),
        (1 | 9, _) => Err(Trouble::NotBilevel(x + 1, y + 1)),
        _ if picture.most > 255 => Ok(sample),
        _ => Ok(shade(sample)),
    }
}

/// The file that the writer makes of upright pixels.
fn written(picture: &Samples, making: &Making, upright: &[u16]) -> Result<Vec<u8>, Rejection> {
    let slo = making.slo.unwrap_or(4);
    let (width, height) = (picture.width as u32, picture.height as u32);
    let (ppl, nol) = if slo >= 4 { (width, height) } else { (height, width) };
    let back = Turn { back: true, slo, ppl, nol, pixels: upright, room: usize::MAX };
    let pixels = turn(&back)?.pixels;
    writer::write(&Order {
        kind: making.kind,
        ppl,
        nol,
        slo,
        scn: making.headers.into(),
        drs: making.drs,
        table: &making.table,
        pixels: &pixels,
        room: usize::MAX,
    })
}

fn flags(room: &Room, making: &Making) -> io::Result<Vec<OsString>> {
    let mut list = words(["make", "--type"]);
    list.push(making.kind.to_string().into());
    if making.headers {
        list.push("--headers".into());
    }
    if let Some(slo) = making.slo {
        list.extend(["--slo".into(), slo.to_string().into()]);
    }
    match making.drs {
        0 => {}
        1.. => list.extend(["--microns".into(), making.drs.to_string().into()]),
        dots => list.extend(["--dpi".into(), (-i32::from(dots)).to_string().into()]),
    }
    if !making.table.is_empty() {
        let mut sheet = Draft::plain(2, 3);
        sheet.igds(making.table.clone());
        room.put(
            b"table",
            if making.in_sheet { sheet.bytes() } else { making.table.clone() }.as_slice(),
        )?;
        list.extend(words(["--table", "table"]));
    }
    Ok(list)
}

/// Makes a sheet of a picture with these bytes, over an old file now and then.
pub fn made(
    room: &Room,
    rng: &mut Rng,
    picture: &Samples,
    bytes: &[u8],
    making: &Making,
) -> io::Result<(Vec<String>, Found)> {
    let old = rng.one_in(3).then(|| rng.bytes(30));
    let (from_input, to_output) = (rng.one_in(12), rng.one_in(12));
    let name = if from_input { "-" } else { "pic ture" };
    let mut call = flags(room, making)?;
    call.extend(words([name, if to_output { "-" } else { "out" }]));
    if !from_input {
        room.put(name.as_bytes(), bytes)?;
    }
    if let Some(old) = &old {
        room.put(b"out", old)?;
    }
    let mut left = room.names()?;
    let mut ran = room.ingr(&call, from_input.then_some(bytes))?;
    let complaint = |status, text| (Wanted::complaint(status, text), None);
    let out = if to_output { "-" } else { "out" };
    let mut reached = format!("make: type {} slo {}", making.kind, making.slo.unwrap_or(4));
    let (wanted, file) = match pixels(picture, making).map(|all| written(picture, making, &all)) {
        Ok(Ok(file)) => (Wanted::silent(), Some(file)),
        Ok(Err(number)) => {
            reached = format!("make: refused {number}");
            let text = format!("ingr make: {out}: refused: {}\n", say::refused(number));
            complaint(1, Text::of(text))
        }
        Err(Trouble::NotBilevel(column, row)) => {
            reached = "make: neither black nor white".to_string();
            let why = format!("the pixel at column {column}, row {row} is neither black nor white");
            complaint(2, Text::of(format!("ingr make: {name}: {why}\n")))
        }
        Err(Trouble::Other) => {
            reached = "make: not taken".to_string();
            complaint(2, Text::starting(format!("ingr make: {name}: ")))
        }
    };
    let mut more = Vec::new();
    let kept = match (to_output, &file) {
        (false, Some(_)) => {
            left.push(b"out".to_vec());
            file
        }
        (true, _) => {
            let printed = std::mem::take(&mut ran.out);
            more.push(Text::All(file.unwrap_or_default()).part("made", &printed));
            old
        }
        (false, None) => old,
    };
    more.push(file_part(room, "out", kept.as_deref()));
    more.push(names_part(room, &left)?);
    Ok((vec![reached], judge(&ran, &wanted, more, bytes)))
}

/// Whites whose shades are whole.
const SHADES: [u32; 8] = [1, 3, 5, 15, 17, 51, 85, 255];
const DEEP: [u32; 5] = [256, 1_000, 4_095, 32_768, 65_535];

/// How samples are chosen.
#[derive(Clone, Copy, PartialEq)]
enum Look {
    Bilevel,
    Gray,
    Deep,
    Table,
}

fn samples(rng: &mut Rng, look: Look, making: &Making, channels: usize, most: u32) -> Samples {
    let (width, height) = match rng.below(6) {
        0 => (rng.range(1, 3), rng.range(1, 3)),
        1 => (rng.range(50, 300), rng.range(1, 5)),
        _ => (rng.range(1, 40), rng.range(1, 30)),
    };
    let longest = rng.pick(&[1, 4, 30]);
    let mut all: Vec<u16> = Vec::new();
    while all.len() < width * height * channels {
        let parts = match look {
            Look::Bilevel => [rng.pick(&[0, most as u16]); 3],
            Look::Gray => [rng.range(0, most as usize) as u16; 3],
            // Samples above 255 in any case.
            Look::Deep => {
                let any = rng.range(0, most as usize) as u16;
                [rng.pick(&[0, 255, 256, most as u16, any]); 3]
            }
            Look::Table => {
                let entry = 3 * rng.below(if matches!(making.kind, 1 | 9) { 2 } else { 256 });
                [0, 1, 2].map(|i| u16::from(making.table[entry + i]))
            }
        };
        let run = rng.range(1, longest);
        (0..run).for_each(|_| all.extend(&parts[..channels]));
    }
    all.truncate(width * height * channels);
    if look == Look::Deep {
        all[..channels].fill(most as u16);
    }
    Samples { width, height, most, channels, all }
}

pub fn some_making(rng: &mut Rng, kind: u32) -> Making {
    let table = match rng.below(3) {
        0 => rng.bytes(768),
        // Colors twice, of which the first counts.
        1 if rng.one_in(2) => (0..768).map(|i| (i / 3 % 100) as u8).collect(),
        _ => Vec::new(),
    };
    Making {
        kind,
        headers: rng.one_in(2),
        slo: rng.one_in(2).then(|| rng.below(8) as u32),
        drs: rng.pick(&[0, 0, 1, -1, 50, -200, 32_767, -32_768]),
        table,
        in_sheet: rng.one_in(2),
    }
}

/// A picture that fits, and its white.
fn fitting(rng: &mut Rng, making: &Making) -> Samples {
    let (look, most, channels) = match making.kind {
        _ if !making.table.is_empty() => (Look::Table, 255, 3),
        1 | 9 => (Look::Bilevel, rng.pick(&SHADES), rng.pick(&[1, 1, 3])),
        3 | 10 if rng.one_in(2) => (Look::Deep, rng.pick(&DEEP), rng.pick(&[1, 1, 3])),
        _ => (Look::Gray, rng.pick(&SHADES), rng.pick(&[1, 1, 3])),
    };
    samples(rng, look, making, channels, most)
}

const SPACES: [&str; 6] = [" ", "\n", "\t", "\n# a comment\n", " # 7 8\n  ", "\r\n"];

/// A picture in one of the forms that hold it.
fn encoded(room: &Room, rng: &mut Rng, picture: &Samples) -> io::Result<(Vec<u8>, &'static str)> {
    let space = rng.pick(&SPACES);
    let bits = picture.most == 1 && picture.channels == 1 && rng.one_in(2);
    let fits_png = matches!(picture.most, 1 | 3 | 15 | 255 | 65_535);
    Ok(match rng.below(4) {
        0 => (picture.plain(space, bits), "plain"),
        1..=2 if fits_png => {
            let flags: &[&str] =
                rng.pick(&[&[][..], &["-interlace"], &["-force"], &["-force", "-interlace"]]);
            (picture.png(room, flags)?, "PNG")
        }
        _ => (picture.raw(space, bits), "raw"),
    })
}

/// What a picture's form adds to what is reached.
fn form(bytes: &[u8], of: &str) -> String {
    match (of, chunks(bytes)) {
        ("PNG", Some(png)) => {
            let interlaced = if png.interlaced { " interlaced" } else { "" };
            format!("make: PNG of color type {} depth {}{interlaced}", png.kind, png.depth)
        }
        _ => format!("make: {of} P{}", bytes.get(1).copied().unwrap_or(b'?') as char),
    }
}

/// The forms that must be reached.
pub fn forms() -> Vec<String> {
    let mut list: Vec<String> =
        (1..=6).map(|n| format!("make: {} P{n}", if n <= 3 { "plain" } else { "raw" })).collect();
    for interlaced in ["", " interlaced"] {
        let kinds = [(0, 1), (0, 2), (0, 4), (0, 8), (0, 16), (2, 8), (2, 16)];
        list.extend(
            kinds.map(|(kind, d)| format!("make: PNG of color type {kind} depth {d}{interlaced}")),
        );
    }
    list.extend([1, 2, 4, 8].map(|depth| format!("make: PNG of color type 3 depth {depth}")));
    list
}

fn fitted(room: &Room, rng: &mut Rng, making: &Making) -> io::Result<(Vec<String>, Found)> {
    let picture = fitting(rng, making);
    let (bytes, of) = encoded(room, rng, &picture)?;
    let (mut reached, found) = made(room, rng, &picture, &bytes, making)?;
    reached.push(form(&bytes, of));
    Ok((reached, found))
}

/// A picture that fits, of this type and orientation.
pub fn of_kind(
    room: &Room,
    rng: &mut Rng,
    kind: u32,
    slo: u32,
    headers: bool,
) -> io::Result<(Vec<String>, Found)> {
    let making = Making { slo: Some(slo), headers, ..some_making(rng, kind) };
    fitted(room, rng, &making)
}

/// A picture by chance, which may not fit.
pub fn by_chance(room: &Room, rng: &mut Rng) -> io::Result<(Vec<String>, Found)> {
    let kind = u32::from(rng.pick(&TYPES));
    let making = some_making(rng, kind);
    if !rng.one_in(4) {
        return fitted(room, rng, &making);
    }
    let most = rng.pick(&SHADES[1..]);
    let picture = match rng.below(3) {
        // Grays of all shades, in a table that hardly has them, or in bi-level sheets.
        0 => samples(rng, Look::Gray, &making, 1, most),
        1 if making.table.is_empty() => samples(rng, Look::Deep, &making, 1, 65_535),
        _ => {
            let mut picture = samples(rng, Look::Gray, &making, 3, most);
            let at = rng.below(picture.all.len());
            picture.all[at] = (picture.all[at] + 1) % (most as u16 + 1);
            picture
        }
    };
    let bytes = picture.raw(" ", false);
    made(room, rng, &picture, &bytes, &making)
}

/// A PNG of one kind: of so many grays or colors, with these flags.
pub fn of_png(
    room: &Room,
    rng: &mut Rng,
    channels: usize,
    most: u32,
    flags: &[&str],
) -> io::Result<(Vec<String>, Found)> {
    let kind = if most > 255 { 3 } else { rng.pick(&[2, 3, 10]) };
    let making = Making { kind, slo: Some(rng.below(8) as u32), ..Making::default() };
    // Every gray there is, or many: with fewer a smaller depth would do.
    let (width, height) = (20, 30);
    let gray =
        |i: usize| [(i as u64 * u64::from(most / 255).max(1) % u64::from(most + 1)) as u16; 3];
    let all = (0..width * height).flat_map(|i| gray(i)[..channels].to_vec()).collect();
    let picture = Samples { width, height, most, channels, all };
    let bytes = picture.png(room, flags)?;
    let (mut reached, found) = made(room, rng, &picture, &bytes, &making)?;
    reached.push(form(&bytes, "PNG"));
    Ok((reached, found))
}

/// A PNM of one kind.
pub fn of_pnm(
    room: &Room,
    rng: &mut Rng,
    plain: bool,
    bits: bool,
    channels: usize,
    most: u32,
) -> io::Result<(Vec<String>, Found)> {
    let kind = if bits { rng.pick(&[1, 9]) } else { rng.pick(&[2, 3, 10]) };
    let making = Making { kind, slo: Some(rng.below(8) as u32), ..Making::default() };
    let picture = samples(rng, Look::Gray, &making, channels, most);
    let space = rng.pick(&SPACES);
    let (bytes, of) = match plain {
        true => (picture.plain(space, bits), "plain"),
        false => (picture.raw(space, bits), "raw"),
    };
    let (mut reached, found) = made(room, rng, &picture, &bytes, &making)?;
    reached.push(form(&bytes, of));
    Ok((reached, found))
}

/// A PNG of so many colors, which have a palette, and a table that has them.
pub fn of_palette(room: &Room, rng: &mut Rng, colors: usize) -> io::Result<(Vec<String>, Found)> {
    let table = rng.bytes(768);
    let making = Making { kind: rng.pick(&[2, 3, 10]), table, ..Making::default() };
    let all = (0..20 * 30).flat_map(|_| {
        let entry = 3 * rng.below(colors);
        [0, 1, 2].map(|i| u16::from(making.table[entry + i]))
    });
    let picture = Samples { width: 20, height: 30, most: 255, channels: 3, all: all.collect() };
    let bytes = picture.png(room, &[])?;
    let (mut reached, found) = made(room, rng, &picture, &bytes, &making)?;
    reached.push(form(&bytes, "PNG"));
    Ok((reached, found))
}

/// What is done to a picture, so that it is none.
pub const DAMAGES: [&str; 12] = [
    "nothing left",
    "raw, cut",
    "raw, more",
    "plain, cut",
    "PNG, cut",
    "PNG, no end",
    "PNG, a bit changed",
    "PNG, not opaque",
    "text",
    "no width",
    "white 0",
    "a sample above white",
];

fn damaged(room: &Room, rng: &mut Rng, way: &str) -> io::Result<Vec<u8>> {
    let making = Making { kind: 2, ..Making::default() };
    let picture = samples(rng, Look::Gray, &making, 1, 15);
    let cut = |bytes: Vec<u8>, by: usize| bytes[..bytes.len() - by].to_vec();
    Ok(match way {
        "raw, cut" => cut(picture.raw(" ", false), 1),
        "raw, more" => [picture.raw(" ", false), b"xyz".to_vec()].concat(),
        "plain, cut" => {
            let all = picture.plain(" ", false);
            let end = all.trim_ascii_end().iter().rposition(u8::is_ascii_whitespace).unwrap_or(0);
            all[..end].to_vec()
        }
        "PNG, cut" => {
            let png = picture.png(room, &[])?;
            png[..png.len() / 2].to_vec()
        }
        "PNG, no end" => cut(picture.png(room, &[])?, 12),
        "PNG, a bit changed" => {
            let mut png = picture.png(room, &[])?;
            let data = png.windows(4).position(|name| name == b"IDAT").unwrap_or(0);
            png[data + 8] ^= 1;
            png
        }
        "PNG, not opaque" => {
            let mut alpha = Samples { most: 255, ..picture.clone() };
            alpha.all.fill(255);
            alpha.all[0] = 100;
            room.put(b"alpha.pgm", &alpha.raw(" ", false))?;
            picture.png(room, &["-alpha=alpha.pgm"])?
        }
        "text" => b"no picture at all\n".to_vec(),
        "no width" => b"P5 0 4 255\n".to_vec(),
        "white 0" => b"P5 2 2 0\n\0\0\0\0".to_vec(),
        "a sample above white" => b"P2 2 2 15\n1 2 3 16\n".to_vec(),
        _ => Vec::new(),
    })
}

/// A picture that cannot be taken: status 2, told of by its name, and nothing is made.
pub fn of_damaged(
    room: &Room,
    rng: &mut Rng,
    way: &'static str,
) -> io::Result<(Vec<String>, Found)> {
    let bytes = damaged(room, rng, way)?;
    room.put(b"picture", &bytes)?;
    let left = room.names()?;
    let kind = rng.pick(&["2", "3", "10"]);
    let ran = room.ingr(&words(["make", "--type", kind, "picture", "out"]), None)?;
    let wanted = Wanted::complaint(2, Text::starting("ingr make: picture: "));
    let found = judge(&ran, &wanted, vec![names_part(room, &left)?], &bytes);
    Ok((vec![format!("make: {way}")], found.named(way)))
}

/// A picture that fits, but that the library refuses with this number.
pub fn of_refused(room: &Room, rng: &mut Rng, number: u32) -> io::Result<(Vec<String>, Found)> {
    let (width, height) = match number {
        19 => (65_536, 1),
        20 => (1, 1_000_001),
        27 => (65_535, 1),
        _ => (3, 3),
    };
    let mut making = Making { kind: 3, headers: number == 27, ..Making::default() };
    let mut all = vec![1; width * height];
    if number == 26 {
        making.table = (0..768).map(|i| (i / 3) as u8).collect();
        making.kind = rng.pick(&[1, 9]);
        all[5] = 2;
    }
    let picture = Samples { width, height, most: 255, channels: 1, all };
    let bytes = picture.raw(" ", false);
    made(room, rng, &picture, &bytes, &making)
}

/// Black and white of 16 bits, which bi-level sheets can have and bytes cannot.
pub fn of_deep(room: &Room, rng: &mut Rng, kind: u32) -> io::Result<(Vec<String>, Found)> {
    let making = Making { kind, ..Making::default() };
    let picture = samples(rng, Look::Bilevel, &making, 1, 65_535);
    let bytes = picture.raw(" ", false);
    made(room, rng, &picture, &bytes, &making)
}

/// A type or an orientation that there is not: whether that is refused or wrong usage is left open.
pub fn of_wrong_number(room: &Room, kind: u64, slo: u64) -> io::Result<(Vec<String>, Found)> {
    room.put(b"picture", b"P1 1 1 0\n")?;
    let left = room.names()?;
    let [kind, slo] = [kind, slo].map(|number| number.to_string());
    let call = words(["make", "--type", &kind, "--slo", &slo, "picture", "out"]);
    let ran = room.ingr(&call, None)?;
    let status = if ran.status == Some(1) { 1 } else { 2 };
    let wanted = Wanted::complaint(status, Text::starting("ingr make: "));
    Ok((Vec::new(), judge(&ran, &wanted, vec![names_part(room, &left)?], &[])))
}

/// Tables of a wrong length, and sheets without one of the right kind: told of by their name.
pub fn wrong_table(room: &Room, rng: &mut Rng, way: usize) -> io::Result<(Vec<String>, Found)> {
    let sheet = Draft::plain(9, 3).bytes();
    let mut environ_v = Draft::plain(10, 3);
    environ_v.environ_v(&[[0, 0, 0, 0]]);
    let table = match way {
        0 => rng.bytes(767),
        1 => rng.bytes(769),
        2 => Vec::new(),
        3 => sheet,
        _ => environ_v.bytes(),
    };
    room.put(b"table", &table)?;
    room.put(b"picture", b"P1 1 1 0\n")?;
    let left = room.names()?;
    let ran =
        room.ingr(&words(["make", "--type", "2", "--table", "table", "picture", "out"]), None)?;
    // Either of the two is an error; the text is not fixed.
    let status = if ran.status == Some(1) { 1 } else { 2 };
    let wanted = Wanted::complaint(status, Text::starting("ingr make: table: "));
    Ok((Vec::new(), judge(&ran, &wanted, vec![names_part(room, &left)?], &table)))
}
