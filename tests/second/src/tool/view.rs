//! `ingr view`: the cases. The PNG is decoded by `pngtopnm` and each of its pixels compared.

use super::colored::{all_values, colored, some_style, Table, TABLES};
use super::names::printed;
use super::pnm::{self, Chunks};
use super::run::{file_part, judge, names_part, os, words, Room, Text, Wanted};
use super::shown::{shown, Options, Shown};
use super::source;
use super::words as say;
use crate::gen::sheet::TYPES;
use crate::model::header::{self, Resolution};
use crate::report::{Found, Part};
use crate::rng::Rng;
use std::ffi::OsString;
use std::io;

pub const FAMILIES: [&str; 7] = [
    "view of samples",
    "view of another program's sheets",
    "view of every type, orientation and table",
    "view of 256 values",
    "view by chance",
    "view of a refused file",
    "view of lines that there are not",
];

/// What pictures must have reached.
pub const WAYS: [&str; 8] = [
    "hatch",
    "no color",
    "both",
    "more than 256 colors",
    "as scanned",
    "lines",
    "shrunk",
    "shrunk to one pixel",
];

/// What a PNG should be by its chunks: palette or not, and its pixels per meter. What the papers
/// leave open is not looked at.
fn chunks_part(found: Option<Chunks>, want: &Shown, options: &Options, file: &[u8]) -> Part {
    let Some(found) = found else {
        return Text::of("chunks").part("chunks", b"none");
    };
    let (mut wanted, mut told) = (String::new(), String::new());
    let small = options.shrink.is_some_and(|by| by > 1);
    let kind = match want.colors {
        _ if small => Some(2),
        257.. => Some(2),
        // Of those in between the three more may be counted or not.
        0..=253 if options.shrink.is_none() => Some(3),
        _ => None,
    };
    if let Some(kind) = kind {
        wanted.push_str(&format!("color type {kind} "));
        told.push_str(&format!("color type {} ", found.kind));
    }
    if found.kind == 2 {
        wanted.push_str("depth 8 ");
        told.push_str(&format!("depth {} ", found.depth));
    }
    if !small {
        let resolution = header::read(file).map_or(Resolution::None, |h| h.resolution);
        wanted.push_str(&density(resolution, found.density));
        told.push_str(&format!("pHYs {:?}", found.density));
    }
    Text::of(wanted).part("chunks", told.as_bytes())
}

/// The pixels per meter, which are told as found where they are less than 1 from the exact number.
fn density(resolution: Resolution, found: Option<(u32, u32, u8)>) -> String {
    let exact = match resolution {
        Resolution::None => return "pHYs None".to_string(),
        Resolution::Microns(size) => 1e6 / size as f64,
        Resolution::DotsPerInch(size) => size as f64 / 0.0254,
    };
    match found {
        Some((x, y, 1)) if x == y && (f64::from(x) - exact).abs() < 1.0 => {
            format!("pHYs {found:?}")
        }
        _ => format!("pHYs of {exact}"),
    }
}

fn flags(options: &Options) -> Vec<OsString> {
    let mut list = words(["view"]);
    if options.as_scanned {
        list.push("--as-scanned".into());
    }
    if let Some(by) = options.shrink {
        list.extend(["--shrink".into(), by.to_string().into()]);
    }
    match options.lines {
        Some((first, last)) if first == last => {
            list.extend(["--lines".into(), first.to_string().into()]);
        }
        Some((first, last)) => list.extend(["--lines".into(), format!("{first}-{last}").into()]),
        None => {}
    }
    list
}

/// What is reached by a picture.
fn reached(file: &[u8], options: &Options, want: &Shown) -> Vec<String> {
    let mut list = source::reached("view", file);
    let mut add = |holds: bool, what: &str| {
        if holds {
            list.push(format!("view: {what}"));
        }
    };
    add(want.refused, "hatch");
    add(want.uncolored, "no color");
    add(want.refused && want.uncolored, "both");
    add(want.colors > 256, "more than 256 colors");
    add(options.as_scanned, "as scanned");
    add(options.lines.is_some(), "lines");
    add(options.shrink.is_some_and(|by| by > 1), "shrunk");
    add(options.shrink.is_some_and(|by| by >= 1_000), "shrunk to one pixel");
    if let Ok(h) = header::read(file) {
        add(true, &format!("type {} slo {} ctv {}", h.kind, h.slo, h.ctv));
    }
    list
}

/// One sheet, seen in one way; by standard input and output now and then.
pub fn seen(
    room: &Room,
    rng: &mut Rng,
    name: &[u8],
    file: &[u8],
    options: &Options,
) -> io::Result<(Vec<String>, Found)> {
    let want = match shown(file, options) {
        Ok(want) => want,
        Err(number) => return refused(room, name, file, number),
    };
    let (from_input, to_output) = (rng.one_in(10), rng.one_in(10));
    let name = if from_input { b"-" } else { name };
    let mut call = flags(options);
    call.extend([os(name).into(), if to_output { "-".into() } else { "out.png".into() }]);
    if !from_input {
        room.put(name, file)?;
    }
    if rng.one_in(5) && !to_output {
        room.put(b"out.png", b"an old file")?;
    }
    let mut left = room.names()?;
    let mut ran = room.ingr(&call, from_input.then_some(file))?;
    let png = match to_output {
        true => std::mem::take(&mut ran.out),
        false => {
            left.push(b"out.png".to_vec());
            room.bytes("out.png").unwrap_or_default()
        }
    };
    let said = |(text, listing): &(String, String)| {
        format!("ingr view: {}: {text}{listing}", printed(name))
    };
    let err = Text::of(want.said.iter().map(said).collect::<String>());
    let wanted = Wanted { status: want.status, out: Text::none(), err };
    let more = vec![
        pnm::part(&want.picture, &pnm::decode(room, &png)?),
        chunks_part(pnm::chunks(&png), &want, options, file),
        names_part(room, &left)?,
    ];
    Ok((reached(file, options, &want), judge(&ran, &wanted, more, file)))
}

fn refused(room: &Room, name: &[u8], file: &[u8], number: u32) -> io::Result<(Vec<String>, Found)> {
    room.put(name, file)?;
    let old = b"an old file";
    room.put(b"out.png", old)?;
    let left = room.names()?;
    let mut call = words(["view"]);
    call.extend([os(name).into(), "out.png".into()]);
    let ran = room.ingr(&call, None)?;
    let text = format!("ingr view: {}: refused: {}\n", printed(name), say::refused(number));
    let wanted = Wanted::complaint(1, Text::of(text));
    let more = vec![file_part(room, "out.png", Some(old)), names_part(room, &left)?];
    Ok((source::reached("view", file), judge(&ran, &wanted, more, file)))
}

/// Ways to see a sheet of so many lines.
pub fn some_options(rng: &mut Rng, nol: usize) -> Options {
    let shrinks = [1, 2, 2, 3, 4, 5, 7, 8, 16, 1_000, 65_535];
    let lines = match rng.below(8) {
        0 => {
            let line = rng.range(1, nol);
            Some((line, line))
        }
        1..=2 => {
            let first = rng.range(1, nol);
            Some((first, rng.range(first, nol)))
        }
        _ => None,
    };
    Options { as_scanned: rng.one_in(4), shrink: rng.one_in(3).then(|| rng.pick(&shrinks)), lines }
}

/// A sheet by chance, in a way by chance.
pub fn by_chance(room: &Room, rng: &mut Rng) -> io::Result<(Vec<String>, Found)> {
    let file = match rng.below(3) {
        0 => source::some(rng, room.bench).1,
        _ => {
            let style = {
                let (kind, slo) = (rng.pick(&TYPES), rng.below(8) as u8);
                let table = rng.pick(&TABLES);
                some_style(rng, kind, slo, table)
            };
            colored(rng, &style)
        }
    };
    let nol = header::read(&file).map_or(1, |h| h.nol as usize);
    let options = some_options(rng, nol);
    let name = source::name(rng, 0);
    seen(room, rng, &name, &file, &options)
}

/// A sheet of this type, orientation and table, at full size.
pub fn of_kind(
    room: &Room,
    rng: &mut Rng,
    kind: u16,
    slo: u8,
    table: Table,
) -> io::Result<(Vec<String>, Found)> {
    let style = some_style(rng, kind, slo, table);
    let file = colored(rng, &style);
    let lines_alone = rng.one_in(4);
    let options = match lines_alone {
        true => some_options(rng, style.nol),
        false => Options::default(),
    };
    seen(room, rng, b"sheet.rle", &file, &options)
}

/// All values of a byte, and a hatch besides.
pub fn full_bytes(
    room: &Room,
    rng: &mut Rng,
    slo: u8,
    harmed: bool,
) -> io::Result<(Vec<String>, Found)> {
    let table = if harmed { Table::None } else { rng.pick(&TABLES[..2]) };
    let file = all_values(rng, slo, harmed, table);
    seen(room, rng, b"bytes.cot", &file, &Options::default())
}

/// A file whose header is refused with this number.
pub fn of_refused(room: &Room, rng: &mut Rng, number: u32) -> io::Result<(Vec<String>, Found)> {
    let file = crate::gen::sheets::refused(rng, &[number]);
    refused(room, b"refused.rle", &file, number)
}

/// Lines past the last one, and ranges that are none: nothing is made.
pub fn wrong_lines(room: &Room, rng: &mut Rng, lines: &str) -> io::Result<(Vec<String>, Found)> {
    let (kind, slo) = (rng.pick(&TYPES), rng.below(8) as u8);
    let style = some_style(rng, kind, slo, Table::None);
    let file = colored(rng, &style);
    room.put(b"sheet", &file)?;
    let left = room.names()?;
    let past = (style.nol + 1).to_string();
    let lines = lines.replace("NOL+1", &past);
    let ran = room.ingr(&words(["view", "--lines", &lines, "sheet", "out.png"]), None)?;
    let wanted = Wanted::complaint(2, Text::starting("ingr view: "));
    Ok((Vec::new(), judge(&ran, &wanted, vec![names_part(room, &left)?], &file)))
}
