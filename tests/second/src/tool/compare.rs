//! `ingr compare`: its report and its picture by the model, and the cases: pairs of sheets of which
//! the second is the first with something changed.

use super::colored::{colored, some_style, Table, TABLES};
use super::names::printed;
use super::pnm::{self, Rgb};
use super::run::{judge, names_part, words, Room, Text, Wanted};
use super::shown::{bytes_of, hatch, size, upright, Bytes};
use super::words as say;
use crate::gen::sheet::TYPES;
use crate::gen::sheets::{change, refused};
use crate::model::header::{self, Header};
use crate::model::sheet::{self, Sheet};
use crate::model::transcode::transcode;
use crate::report::Found;
use crate::rng::Rng;
use std::collections::BTreeSet;
use std::fmt::Write as _;
use std::io;

pub const FAMILIES: [&str; 4] = [
    "compare of samples",
    "compare by chance",
    "compare with a picture",
    "compare of a refused file",
];

/// What the second sheet of a pair has changed, all of which must be reached.
pub const CHANGES: [&str; 12] = [
    "nothing",
    "bytes",
    "the type",
    "SLO",
    "DRS",
    "the table",
    "a line less",
    "a line more",
    "bytes afterwards",
    "other rows",
    "another sheet",
    "the header's length",
];

/// A sheet that was read, with its file.
struct Side<'a> {
    file: &'a [u8],
    found: Sheet,
}

impl Side<'_> {
    fn header(&self) -> &Header {
        &self.found.header
    }

    /// The values that good lines have.
    fn values(&self) -> BTreeSet<u64> {
        let good = self.found.lines.iter().filter(|line| line.mark == 0);
        good.flat_map(|line| line.row.iter().copied()).collect()
    }

    fn color(&self, value: u64) -> header::Color {
        header::color(self.file, self.header(), value)
    }
}

/// The fields of a header in words, each with its key.
fn fields(h: &Header) -> [(&'static str, String); 8] {
    [
        ("type", h.kind.to_string()),
        ("pixels per line", h.ppl.to_string()),
        ("lines", h.nol.to_string()),
        ("resolution", say::resolution(h.resolution)),
        ("orientation", h.slo.to_string()),
        ("line headers", say::yes(h.scn).to_string()),
        ("color table", say::table(h)),
        ("header", format!("{} bytes", h.size())),
    ]
}

/// The report so far, and whether all was alike and good.
struct Report {
    text: String,
    alike: bool,
}

impl Report {
    fn headers(&mut self, old: &Side, new: &Side) {
        let pairs = fields(old.header()).into_iter().zip(fields(new.header()));
        let differ: Vec<String> = pairs
            .filter(|(old, new)| old.1 != new.1)
            .map(|(old, new)| format!("  {}: {} in old, {} in new\n", old.0, old.1, new.1))
            .collect();
        self.alike &= differ.is_empty();
        let told = if differ.is_empty() { "alike" } else { "differ" };
        let _ = write!(self.text, "headers: {told}\n{}", differ.concat());
    }

    fn colors(&mut self, old: &Side, new: &Side) {
        let parts = |color: header::Color| match color {
            Some([red, green, blue]) => format!("{red} {green} {blue}"),
            None => "none".to_string(),
        };
        let values: BTreeSet<u64> = old.values().union(&new.values()).copied().collect();
        let differ: Vec<u64> =
            values.into_iter().filter(|&value| old.color(value) != new.color(value)).collect();
        if differ.is_empty() {
            self.text.push_str("colors: alike\n");
            return;
        }
        self.alike = false;
        let verb = if differ.len() == 1 { "differs" } else { "differ" };
        let _ = writeln!(self.text, "colors: {} {verb}", say::count(differ.len(), "value"));
        for &value in differ.iter().take(16) {
            let (old, new) = (parts(old.color(value)), parts(new.color(value)));
            let _ = writeln!(self.text, "  value {value}: {old} in old, {new} in new");
        }
        if differ.len() > 16 {
            let _ = writeln!(self.text, "  and {} more", differ.len() - 16);
        }
    }

    fn lines(&mut self, old: &Side, new: &Side) {
        let (one, other) = (old.header(), new.header());
        if (one.ppl, one.slo) != (other.ppl, other.slo) {
            self.alike = false;
            self.text.push_str("lines: not compared\n");
            return;
        }
        let pairs = old.found.lines.iter().zip(&new.found.lines);
        let differ: Vec<Option<()>> = pairs
            .map(|(old, new)| (old.mark != new.mark || old.row != new.row).then_some(()))
            .collect();
        let count = differ.iter().flatten().count();
        self.alike &= count == 0;
        match count {
            0 => self.text.push_str(&format!("lines: all {} alike\n", differ.len())),
            _ => self.text.push_str(&format!("lines: {count} of {} differ\n", differ.len())),
        }
        for (first, last, ()) in say::ranges(1, &differ) {
            let _ = writeln!(self.text, "  {}", say::range(first, last));
        }
        let (shorter, longer) = (one.nol.min(other.nol), one.nol.max(other.nol));
        if shorter < longer {
            let side = if one.nol > other.nol { "old" } else { "new" };
            let rest = say::range(shorter as usize + 1, longer as usize);
            let _ = writeln!(self.text, "only in {side}: {rest}");
        }
    }

    fn refused(&mut self, side: &Side, name: &str) {
        let marks = say::marks(&side.found);
        let told = match say::count_refused(&marks) {
            0 => "none".to_string(),
            count => say::some_of(count, marks.len()),
        };
        self.alike &= told == "none";
        let _ = write!(self.text, "refused in {name}: {told}\n{}", say::listing(1, &marks));
    }
}

fn report(old: &Side, new: &Side) -> Report {
    let mut report = Report { text: String::new(), alike: true };
    report.headers(old, new);
    report.colors(old, new);
    report.lines(old, new);
    for (side, name) in [(old, "old"), (new, "new")] {
        report.refused(side, name);
    }
    for (side, name) in [(old, "old"), (new, "new")] {
        let (end, length) = (side.found.end, side.file.len());
        let _ = writeln!(report.text, "end of {name}: byte {end} of {length}");
    }
    report
}

/// How bright a color is.
fn luminance([red, green, blue]: Bytes) -> u32 {
    (299 * u32::from(red) + 587 * u32::from(green) + 114 * u32::from(blue) + 500) / 1000
}

/// One pixel of the picture, by its value and color in both.
fn difference(old: (u16, Option<Bytes>), new: (u16, Option<Bytes>)) -> Bytes {
    let violet = [128, 0, 255];
    let pale = |l: u32| [(192 + l / 4) as u8; 3];
    match (old.1, new.1) {
        (Some(one), Some(other)) if one == other => pale(luminance(one)),
        (Some(one), Some(other)) => match luminance(other).cmp(&luminance(one)) {
            std::cmp::Ordering::Less => [0, 0, 255],
            std::cmp::Ordering::Greater => [255, 0, 0],
            std::cmp::Ordering::Equal => violet,
        },
        (None, None) if old.0 == new.0 => pale(0),
        _ => violet,
    }
}

/// The picture of the difference, of sheets of the same size and orientation.
fn picture(old: &Side, new: &Side) -> Rgb {
    let h = old.header();
    let lines = h.nol as usize;
    let turned = |plane: Vec<u16>| upright(h, lines, plane, false);
    let values = |side: &Side| {
        turned(side.found.lines.iter().flat_map(|line| &line.row).map(|&v| v as u16).collect())
    };
    let pairs = old.found.lines.iter().zip(&new.found.lines);
    let refused = pairs.flat_map(|(one, other)| {
        let refused = u16::from(one.mark > 0 || other.mark > 0);
        vec![refused; one.row.len()]
    });
    let (one, other, refused) = (values(old), values(new), turned(refused.collect()));
    let (width, height) = size(h, lines, false);
    let pixel = |i: usize| match refused[i] {
        1 => hatch([[255, 0, 255], [255, 255, 0]], i % width, i / width),
        _ => difference(
            (one[i], bytes_of(old.file, old.header(), one[i])),
            (other[i], bytes_of(new.file, new.header(), other[i])),
        ),
    };
    Rgb { width, height, bytes: (0..width * height).flat_map(pixel).collect() }
}

/// Two files, and a picture if it is wanted. At most one of them is refused.
pub fn compared(
    room: &Room,
    rng: &mut Rng,
    old: &[u8],
    new: &[u8],
    with_picture: bool,
) -> io::Result<(Vec<String>, Found)> {
    let from_input = rng.one_in(8);
    let names: [&[u8]; 2] = [b"first.rle", if from_input { b"-" } else { b"sec\tond.rle" }];
    room.put(names[0], old)?;
    if !from_input {
        room.put(names[1], new)?;
    }
    let mut left = room.names()?;
    let mut call = words(["compare"]);
    if with_picture {
        call.extend(["--picture".into(), "out.png".into()]);
    }
    call.extend(names.map(|name| super::run::os(name).into()));
    let ran = room.ingr(&call, from_input.then_some(new))?;
    let read = |file| sheet::read(file, u64::MAX, u64::MAX).map(|found| Side { file, found });
    let (old, new) = match (read(old), read(new)) {
        (Ok(old), Ok(new)) => (old, new),
        (one, other) => {
            let (number, name) = one.err().map_or((other.err(), names[1]), |n| (Some(n), names[0]));
            let told = say::refused(number.unwrap_or_default());
            let err = format!("ingr compare: {}: refused: {told}\n", printed(name));
            let wanted = Wanted::complaint(1, Text::of(err));
            let found = judge(&ran, &wanted, vec![names_part(room, &left)?], new);
            return Ok((vec!["compare: refused".to_string()], found));
        }
    };
    let report = report(&old, &new);
    let mut reached = vec![format!("compare: {}", if report.alike { "alike" } else { "differ" })];
    let status = i32::from(!report.alike);
    let mut wanted = Wanted { status, out: Text::of(report.text), err: Text::none() };
    let mut more = Vec::new();
    let sides = |side: &Side| (side.header().ppl, side.header().nol, side.header().slo);
    if with_picture && sides(&old) == sides(&new) {
        let png = room.bytes("out.png").unwrap_or_default();
        more.push(pnm::part(&picture(&old, &new), &pnm::decode(room, &png)?));
        left.push(b"out.png".to_vec());
        reached.push("compare: picture".to_string());
    } else if with_picture {
        let why = "no picture: the sheets have not the same size and orientation";
        wanted.err = Text::of(format!("ingr compare: out.png: {why}\n"));
        wanted.status = 2;
        reached.push("compare: no picture".to_string());
    }
    more.push(names_part(room, &left)?);
    Ok((reached, judge(&ran, &wanted, more, new.file)))
}

/// Changes a sheet in one way.
fn changed(rng: &mut Rng, file: &[u8], way: &str) -> Vec<u8> {
    let mut new = file.to_vec();
    let start = header::read(file).map_or(file.len(), |h| h.size());
    match way {
        "bytes" if start < file.len() => {
            let (head, _) = file.split_at(start);
            change(rng, &mut new);
            // The header stays, or a sheet might become one that takes much memory.
            new[..start].copy_from_slice(head);
        }
        "the type" => return transcode(file, usize::MAX).unwrap_or(new),
        "SLO" => new[194] = rng.below(8) as u8,
        "DRS" => new[192..194].copy_from_slice(&rng.pick(&[0i16, 1, -1, 300, -400]).to_le_bytes()),
        "the table" => change_table(rng, &mut new),
        "a line less" => new[188..190].copy_from_slice(&(nol(file).max(2) - 1).to_le_bytes()),
        "a line more" => new[188..190].copy_from_slice(&(nol(file) + 1).to_le_bytes()),
        "bytes afterwards" => {
            let more = rng.range(1, 30);
            new.extend(rng.bytes(more));
        }
        "the header's length" => {
            let blocks = start / 512 + 1;
            new[2..4].copy_from_slice(&((256 * blocks - 2) as u16).to_le_bytes());
            new.splice(start..start, rng.bytes(512));
        }
        _ => {}
    }
    new
}

fn nol(file: &[u8]) -> u16 {
    u16::from_le_bytes([file[188], file[189]])
}

/// Another kind of table, or other colors in the one there is: a part's high byte changes, for what
/// is shown has no more.
fn change_table(rng: &mut Rng, file: &mut [u8]) {
    match (file[532], rng.below(3)) {
        (1, 0) => file[532] = 0,
        (0, _) => file[532] = 1,
        (1, _) => {
            for _ in 0..rng.pick(&[1, 5, 60]) {
                file[768 + rng.below(60)] = rng.byte();
            }
        }
        _ => {
            let entries = usize::from(file[536]).max(1);
            for _ in 0..rng.range(1, 4) {
                file[768 + 8 * rng.below(entries) + rng.pick(&[3, 5, 7])] ^= 1 << rng.below(8);
            }
        }
    }
}

/// A pair whose second sheet is changed so.
pub fn pair(
    room: &Room,
    rng: &mut Rng,
    way: &'static str,
    with_picture: bool,
) -> io::Result<(Vec<String>, Found)> {
    let kind = if way == "the type" { rng.pick(&[1, 9]) } else { rng.pick(&TYPES) };
    let (slo, table) = (rng.below(8) as u8, rng.pick(&TABLES));
    let mut style = some_style(rng, kind, slo, table);
    style.harmed &= rng.one_in(2) && way != "the type";
    let old = colored(rng, &style);
    let new = match way {
        "other rows" => {
            let header = header::read(&old).map_or(0, |h| h.size());
            let other = colored(rng, &style);
            [&old[..header], &other[header::read(&other).map_or(0, |h| h.size())..]].concat()
        }
        "another sheet" => {
            let (kind, slo) = (rng.pick(&TYPES), rng.below(8) as u8);
            let table = rng.pick(&[Table::None, Table::Igds]);
            let style = some_style(rng, kind, slo, table);
            colored(rng, &style)
        }
        _ => changed(rng, &old, way),
    };
    let (mut reached, found) = compared(room, rng, &old, &new, with_picture)?;
    reached.push(format!("compare: {way} changed"));
    Ok((reached, found))
}

pub fn by_chance(room: &Room, rng: &mut Rng) -> io::Result<(Vec<String>, Found)> {
    let way = rng.pick(&CHANGES);
    let with_picture = rng.one_in(2);
    pair(room, rng, way, with_picture)
}

/// A sheet and a file whose header is refused, in either order.
pub fn with_refused(room: &Room, rng: &mut Rng, number: u32) -> io::Result<(Vec<String>, Found)> {
    let style = some_style(rng, 9, 4, Table::None);
    let pair = [colored(rng, &style), refused(rng, &[number])];
    let first = rng.below(2);
    let with_picture = rng.one_in(3);
    compared(room, rng, &pair[first], &pair[1 - first], with_picture)
}
