//! `ingr check`: its report by the model, as text and as JSON, and its cases: directories full of
//! sheets, files, and what is no sheet at all.

use super::names::{json, printed, with_own_escapes};
use super::run::{judge, os, words, Ran, Room, Text, Wanted};
use super::source::{self, Given};
use super::words as say;
use crate::gen::header::Draft;
use crate::gen::sheet::{headed, words as bytes_of, Line};
use crate::model::sheet;
use crate::report::Found;
use crate::rng::Rng;
use std::ffi::OsString;
use std::fs::{self, File};
use std::io;

pub const FAMILIES: [&str; 8] = [
    "check of a directory, text",
    "check of a directory, JSON",
    "check of several operands",
    "check of standard input",
    "check of a file that is too long",
    "check of a sheet that fits no memory",
    "check of a directory without files",
    "check of a sheet of 100,000 lines",
];

/// Sheets in a directory.
const BATCH: usize = 200;

/// A report in one of its two forms, and the status that it calls for.
#[derive(Default)]
struct Report {
    as_json: bool,
    text: String,
    status: i32,
}

impl Report {
    fn add(&mut self, name: &[u8], file: &[u8]) {
        let found = sheet::read(file, u64::MAX, u64::MAX);
        self.status = self.status.max(found.as_ref().map_or(1, |found| found.answer() as i32));
        match (self.as_json, found) {
            (_, Err(number)) => self.refuse(name, file.len() as u64, number),
            (false, Ok(found)) => self.say(name, file.len(), &found),
            (true, Ok(found)) => self.say_json(name, file.len(), &found),
        }
    }

    fn say(&mut self, name: &[u8], length: usize, found: &sheet::Sheet) {
        let nol = found.lines.len();
        let lines = match nol - found.good() {
            0 => format!("good, {}", say::count(nol, "line")),
            refused => format!("{} refused", say::some_of(refused, nol)),
        };
        let rest = match (say::lost_line(found), length - found.end) {
            (Some(_), _) | (None, 0) => String::new(),
            (None, rest) => format!(", {} after the last line", say::count(rest, "byte")),
        };
        let listing = say::listing(1, &say::marks(found));
        self.text.push_str(&format!("{}: {lines}{rest}\n{listing}", printed(name)));
    }

    fn say_json(&mut self, name: &[u8], length: usize, found: &sheet::Sheet) {
        let h = &found.header;
        let status = if found.answer() == 0 { "good" } else { "damaged" };
        let ranges: Vec<String> = say::refused_ranges(1, &say::marks(found))
            .iter()
            .map(|&(first, last, mark)| {
                let reason = say::mark(mark);
                format!(
                    "{{\"first\":{first},\"last\":{last},\"mark\":{mark},\"reason\":\"{reason}\"}}"
                )
            })
            .collect();
        self.text.push_str(&format!(
            "{{{},\"bytes\":{length},\"status\":\"{status}\",\"type\":{},\"pixels\":{},\"lines\":{},\"good\":{},\"end\":{},\"refused\":[{}]}}\n",
            json(name),
            h.kind,
            h.ppl,
            h.nol,
            found.good(),
            found.end,
            ranges.join(",")
        ));
    }

    fn refuse(&mut self, name: &[u8], length: u64, number: u32) {
        self.status = self.status.max(1);
        self.text.push_str(&match self.as_json {
            false => format!("{}: refused: {}\n", printed(name), say::refused(number)),
            true => format!(
                "{{{},\"bytes\":{length},\"status\":\"refused\",\"number\":{number},\"reason\":\"{}\"}}\n",
                json(name),
                say::refusal(number)
            ),
        });
    }

    fn not_read(&mut self, name: &[u8], reason: &str) {
        self.status = 2;
        self.text.push_str(&match self.as_json {
            false => format!("{}: not read: {reason}\n", printed(name)),
            true => {
                format!("{{{},\"status\":\"unreadable\",\"reason\":\"{reason}\"}}\n", json(name))
            }
        });
    }

    fn words(&self) -> Vec<OsString> {
        match self.as_json {
            false => words(["check"]),
            true => words(["check", "--json"]),
        }
    }

    fn judge(self, mut ran: Ran, input: &[u8]) -> Found {
        if self.as_json {
            ran.out = with_own_escapes(&ran.out);
        }
        let wanted = Wanted { status: self.status, out: Text::of(self.text), err: Text::none() };
        judge(&ran, &wanted, Vec::new(), input)
    }
}

/// A directory of sheets, and directories in it, whose names sort so that it is one order whether
/// names are compared whole or one directory at a time.
fn batch(rng: &mut Rng, room: &Room) -> Vec<Given> {
    let mut list = source::named(rng, room.bench, BATCH);
    for given in &mut list {
        let above: &[u8] = match rng.below(6) {
            0 => b"a/",
            1 => b"a/deep/er/",
            2 => b"r\xff\n/",
            3 => b"t/t/",
            _ => b"",
        };
        given.name = [above, &given.name].concat();
    }
    list.sort_by(|one, other| one.name.cmp(&other.name));
    list
}

/// A directory full of sheets. Links to files are files, and links to directories are nothing.
pub fn directory(room: &Room, rng: &mut Rng, as_json: bool) -> io::Result<(Vec<String>, Found)> {
    let top: &[u8] = rng.pick(&[&b"top"[..], b"top/", b"./top", b"t\\op\t"]);
    let slash: &[u8] = if top.ends_with(b"/") { b"" } else { b"/" };
    let mut report = Report { as_json, ..Report::default() };
    let mut reached = Vec::new();
    for Given { name, file, family } in batch(rng, room) {
        let name = [top, slash, &name].concat();
        room.put(&name, &file)?;
        report.add(&name, &file);
        reached.extend(source::reached("check", &file));
        reached.push(format!("check: {family}"));
    }
    let inside = |name: &[u8]| room.dir.join(os(top)).join(os(name));
    fs::create_dir_all(inside(b"b/empty"))?;
    std::os::unix::fs::symlink(inside(b"a"), inside(b"link-to-directory"))?;
    let linked = room.bench.samples.first().map(|(_, file)| file.clone()).unwrap_or_default();
    room.put(b"linked", &linked)?;
    std::os::unix::fs::symlink(room.dir.join("linked"), inside(b"zz-link-to-file"))?;
    report.add(&[top, slash, b"zz-link-to-file"].concat(), &linked);
    let mut call = report.words();
    call.push(os(top).into());
    Ok((reached, report.judge(room.ingr(&call, None)?, &[])))
}

/// Files and directories by turns, some of them missing, in the order of the operands.
pub fn operands(room: &Room, rng: &mut Rng) -> io::Result<(Vec<String>, Found)> {
    let mut report = Report { as_json: rng.one_in(2), ..Report::default() };
    let mut call = report.words();
    let mut reached = Vec::new();
    let count = rng.range(2, 12);
    let mut given = source::named(rng, room.bench, count);
    given.sort_by_key(|given| given.file.len());
    for (i, Given { name, file, .. }) in given.into_iter().enumerate() {
        reached.extend(source::reached("check", &file));
        if rng.one_in(5) {
            let name = format!("missing-{i}");
            call.push(name.clone().into());
            report.not_read(name.as_bytes(), "cannot be opened: No such file or directory");
        }
        let inside = rng.one_in(3);
        let (path, operand) = match inside {
            true => ([b"d", &name[..], b"/", &name].concat(), [b"d", &name[..]].concat()),
            false => (name.clone(), name),
        };
        room.put(&path, &file)?;
        report.add(&path, &file);
        call.push(os(&operand).into());
    }
    Ok((reached, report.judge(room.ingr(&call, None)?, &[])))
}

pub fn standard_input(room: &Room, rng: &mut Rng) -> io::Result<(Vec<String>, Found)> {
    let mut report = Report { as_json: rng.one_in(2), ..Report::default() };
    let file = source::some(rng, room.bench).1;
    report.add(b"-", &file);
    let mut call = report.words();
    call.push("-".into());
    Ok((source::reached("check", &file), report.judge(room.ingr(&call, Some(&file))?, &file)))
}

/// A file of one byte too many, most of which takes no room on the disk.
pub fn too_long(room: &Room, as_json: bool) -> io::Result<(Vec<String>, Found)> {
    let length = crate::model::LONGEST_FILE + 1;
    File::create(room.dir.join("long.rle"))?.set_len(length)?;
    let mut report = Report { as_json, ..Report::default() };
    report.refuse(b"long.rle", length, 10);
    let mut call = report.words();
    call.push("long.rle".into());
    let reached = vec!["check: refused 10".to_string()];
    Ok((reached, report.judge(room.ingr(&call, None)?, &[])))
}

/// The most pixels that there may be: twice as many bytes, which no machine has here.
pub fn too_large(room: &Room) -> io::Result<(Vec<String>, Found)> {
    let (ppl, nol) = (65_535, 1_000_000);
    let header = Draft { ppl, nol, ..Draft::plain(2, 2) };
    room.put(b"vast.cot", &header.bytes())?;
    let ran = room.ingr(&words(["check", "vast.cot"]), None)?;
    let needed = say::grouped(2 * u64::from(ppl) * u64::from(nol));
    let start = format!("vast.cot: not read: needs {needed} bytes of memory, ");
    let end = match ran.out.ends_with(b"which cannot be had\n") {
        true => "which cannot be had\n",
        false => " are available\n",
    };
    let out = Text::Ends(start, end.to_string());
    let wanted = Wanted { status: 2, out, err: Text::none() };
    Ok((Vec::new(), judge(&ran, &wanted, Vec::new(), &header.bytes())))
}

/// Directories, one in the other, and no file.
pub fn no_file(room: &Room, as_json: bool) -> io::Result<(Vec<String>, Found)> {
    fs::create_dir_all(room.dir.join("empty/below"))?;
    let mut report = Report { as_json, ..Report::default() };
    report.not_read(b"empty", "there is no file in it");
    let mut call = report.words();
    call.push("empty".into());
    Ok((Vec::new(), report.judge(room.ingr(&call, None)?, &[])))
}

/// More lines than a line number counts, of one pixel each, some of them damaged past the roll, and the
/// rest lost.
pub fn long(room: &Room, rng: &mut Rng, as_json: bool) -> io::Result<(Vec<String>, Found)> {
    let nol = 100_000;
    let mut lines: Vec<Line> = (1..=nol).map(|k| Line::new(k, bytes_of(&[1]))).collect();
    for _ in 0..5 {
        let k = rng.range(65_530, 80_000);
        lines[k].body = bytes_of(&[0]);
        lines[k + 1].number ^= 7;
        lines[k + 2].number ^= 9;
    }
    lines[rng.range(80_010, nol - 1)].id = 0;
    let plain = Draft::plain(9, 2);
    let file = headed(&Draft { scn: 1, ppl: 1, nol: nol as u32, ..plain }, &lines);
    room.put(b"long.rle", &file)?;
    let mut report = Report { as_json, ..Report::default() };
    report.add(b"long.rle", &file);
    let mut call = report.words();
    call.push("long.rle".into());
    Ok((source::reached("check", &file), report.judge(room.ingr(&call, None)?, &file)))
}
