//! A sheet of 20,000 lines of 20,000 pixels: checked, seen whole and shrunk, and made. What is wanted
//! comes from the runs that it was made of, not from a reading of it.

use super::pnm::{self, Rgb};
use super::run::{file_part, judge, names_part, words, Room, Text, Wanted};
use super::shown::hatch;
use super::words as say;
use crate::gen::header::Draft;
use crate::gen::sheet::{headed, words as bytes_of, Line};
use crate::model::turn::{turn, Order as Turn};
use crate::model::writer::{self, Order};
use crate::report::{self, Found, Part};
use crate::rng::Rng;
use std::io::{self, Read};
use std::process::{ChildStdout, Command, Stdio};
use std::thread;
use std::time::{Duration, Instant};

pub const FAMILIES: [&str; 5] = [
    "large sheet checked",
    "large sheet seen whole",
    "large sheet shrunk",
    "large sheet made of a picture",
    "signal while a large sheet is seen",
];

const SIDE: usize = 20_000;
/// The damaged lines, from 1, and their marks.
const DAMAGED: [(usize, u8); 3] = [(5_001, 4), (12_345, 8), (20_000, 7)];
const HATCH: [[u8; 3]; 2] = [[255, 0, 255], [255, 255, 0]];
/// How much longer than any other a large sheet may take.
const SLOWER: u32 = 6;

/// The runs of every line, of paper and ink by turns, as a line closes: some 60.
pub struct Sheet {
    slo: u8,
    runs: Vec<Vec<u16>>,
}

impl Sheet {
    fn new(rng: &mut Rng, slo: u8) -> Sheet {
        let line = |rng: &mut Rng| {
            let mut runs = Vec::new();
            let mut left = SIDE;
            while left > 0 {
                let run = rng.range(1, 660).min(left);
                runs.push(run as u16);
                left -= run;
            }
            if runs.len() % 2 == 0 {
                runs.push(0);
            }
            runs
        };
        Sheet { slo, runs: (0..SIDE).map(|_| line(rng)).collect() }
    }

    /// The bytes, with three lines damaged.
    fn file(&self) -> Vec<u8> {
        let side = SIDE as u32;
        let plain = Draft::plain(9, 2);
        let draft = Draft { scn: 1, slo: self.slo, ppl: side, nol: side, drs: -300, ..plain };
        let line = |(i, runs): (usize, &Vec<u16>)| {
            let mut line = Line::new(i + 1, bytes_of(runs));
            match DAMAGED.iter().find(|(number, _)| *number == i + 1) {
                Some((_, 4)) => line.number ^= 0x0100,
                // No first run is shorter than one pixel.
                Some((_, 8)) => line.body[..2].copy_from_slice(&(runs[0] - 1).to_le_bytes()),
                Some(_) => line.body[..2].copy_from_slice(&(runs[0] + 1).to_le_bytes()),
                None => {}
            }
            line
        };
        headed(&draft, &self.runs.iter().enumerate().map(line).collect::<Vec<Line>>())
    }

    /// The ink of a line, as columns from and to.
    fn ink(&self, line: usize) -> impl Iterator<Item = (usize, usize)> + '_ {
        let mut at = 0;
        self.runs[line].iter().enumerate().filter_map(move |(i, &run)| {
            let from = at;
            at += usize::from(run);
            (i % 2 == 1).then_some((from, at))
        })
    }

    /// Pixels of ink in each square of so many lines and columns.
    fn squares(&self, by: usize) -> Vec<u32> {
        let side = SIDE / by;
        let mut counts = vec![0; side * side];
        for line in 0..SIDE {
            let row = &mut counts[line / by * side..][..side];
            for (from, to) in self.ink(line) {
                for (square, count) in
                    row.iter_mut().enumerate().take(to.div_ceil(by)).skip(from / by)
                {
                    let (left, right) = (from.max(square * by), to.min(square * by + by));
                    *count += right.saturating_sub(left) as u32;
                }
            }
        }
        counts
    }

    /// The upright picture, shrunk.
    fn shrunk(&self, by: usize) -> Rgb {
        let side = SIDE / by;
        let all = (by * by) as u64;
        let gray = |&ink: &u32| {
            let sum = 255 * (all - u64::from(ink));
            ((2 * sum + all) / (2 * all)) as u16
        };
        let refused = |i: usize| {
            let lines = i / side * by..(i / side + 1) * by;
            u16::from(DAMAGED.iter().any(|(number, _)| lines.contains(&(number - 1))))
        };
        let grays = self.turned(side, self.squares(by).iter().map(gray).collect());
        let refused = self.turned(side, (0..side * side).map(refused).collect());
        let pixel = |i: usize| match refused[i] {
            1 => hatch(HATCH, i % side, i / side),
            _ => [grays[i] as u8; 3],
        };
        Rgb { width: side, height: side, bytes: (0..side * side).flat_map(pixel).collect() }
    }

    /// Squares are turned as pixels are, for they fill the sheet.
    fn turned(&self, side: usize, plane: Vec<u16>) -> Vec<u16> {
        let (slo, side) = (self.slo.into(), side as u32);
        let order =
            Turn { back: false, slo, ppl: side, nol: side, pixels: &plane, room: usize::MAX };
        turn(&order).map_or(Vec::new(), |turned| turned.pixels)
    }

    /// A row of the upright picture, whose lines are rows.
    fn row(&self, y: usize, row: &mut [u8]) {
        if DAMAGED.iter().any(|(number, _)| *number == y + 1) {
            let pixels = row.chunks_mut(3).enumerate();
            pixels.for_each(|(x, pixel)| pixel.copy_from_slice(&hatch(HATCH, x, y)));
            return;
        }
        row.fill(255);
        self.ink(y).for_each(|(from, to)| row[3 * from..3 * to].fill(0));
    }

    /// The picture as raw PBM, and the sheet that the writer makes of it.
    fn picture(&self) -> (Vec<u8>, Vec<u8>) {
        let mut bits = format!("P4 {SIDE} {SIDE}\n").into_bytes();
        let start = bits.len();
        bits.resize(start + SIDE * SIDE / 8, 0);
        let mut file = header();
        let mut row = vec![0u16; SIDE];
        for line in 0..SIDE {
            row.fill(0);
            let bytes = &mut bits[start + line * SIDE / 8..][..SIDE / 8];
            for (from, to) in self.ink(line) {
                row[from..to].fill(1);
                (from..to).for_each(|x| bytes[x / 8] |= 0x80 >> (x % 8));
            }
            let body = writer::body(&writer::RIGHT, 9, 1, &row);
            file.extend(Line::new(line + 1, body).bytes());
        }
        (bits, file)
    }
}

/// The header that the writer makes of the sheet: that of one with a single line, but for NOL.
fn header() -> Vec<u8> {
    let (ppl, nol, pixels) = (SIDE as u32, 1, vec![0; SIDE]);
    let (kind, slo, scn, drs, table, room) = (9, 4, 1, -300, &[][..], usize::MAX);
    let order = Order { kind, ppl, nol, slo, scn, drs, table, pixels: &pixels, room };
    let mut file = writer::write(&order).unwrap_or_default();
    file.truncate(1_024);
    file[188..192].copy_from_slice(&(SIDE as u32).to_le_bytes());
    file
}

/// The marks of all lines.
fn marks() -> Vec<u8> {
    let mut marks = vec![0; SIDE];
    DAMAGED.iter().for_each(|&(number, mark)| marks[number - 1] = mark);
    marks
}

/// A command that may take longer than others.
fn slowly(room: &Room, call: &[std::ffi::OsString]) -> io::Result<super::run::Ran> {
    room.ingr_within(call, None, room.bench.program.patience * SLOWER)
}

pub fn checked(room: &Room, rng: &mut Rng) -> io::Result<(Vec<String>, Found)> {
    room.put(b"large.rle", &Sheet::new(rng, 4).file())?;
    let ran = slowly(room, &words(["check", "large.rle"]))?;
    let refused = say::some_of(DAMAGED.len(), SIDE);
    let out = format!("large.rle: {refused} refused\n{}", say::listing(1, &marks()));
    let wanted = Wanted { status: 1, out: Text::of(out), err: Text::none() };
    Ok((Vec::new(), judge(&ran, &wanted, Vec::new(), &[])))
}

/// What `view` says of the sheet.
fn seen() -> Wanted {
    let refused = say::some_of(DAMAGED.len(), SIDE);
    let err = format!("ingr view: large.rle: {refused} refused\n{}", say::listing(1, &marks()));
    Wanted { status: 1, out: Text::none(), err: Text::of(err) }
}

/// At full size: every pixel, row by row, for all at once would fill the memory.
pub fn seen_whole(room: &Room, rng: &mut Rng) -> io::Result<(Vec<String>, Found)> {
    let sheet = Sheet::new(rng, 4);
    room.put(b"large.rle", &sheet.file())?;
    let ran = slowly(room, &words(["view", "large.rle", "out.png"]))?;
    let mut child = Command::new("pngtopnm")
        .arg(room.dir.join("out.png"))
        .stdout(Stdio::piped())
        .stderr(Stdio::null())
        .spawn()?;
    let stream = child.stdout.take().expect("standard output is piped");
    let found = rows_found(&sheet, stream);
    let deadline = Instant::now() + Duration::from_secs(20);
    let ended = crate::run::ended(&mut child, deadline)?;
    if ended.is_none() {
        let _ = child.kill();
        child.wait()?;
    }
    let found = match (found, ended.and_then(|status| status.code())) {
        (Ok(()), Some(0)) => "every pixel is right".to_string(),
        (Ok(()), status) => format!("pngtopnm ends with {status:?}"),
        (Err(text), _) => text,
    };
    let wanted = b"every pixel is right".to_vec();
    let part = Part { name: "picture".to_string(), wanted, found: found.into_bytes() };
    Ok((Vec::new(), judge(&ran, &seen(), vec![part], &[])))
}

/// Compares the rows that come, and that no more do.
fn rows_found(sheet: &Sheet, mut stream: ChildStdout) -> Result<(), String> {
    let told = |error: io::Error| error.to_string();
    // The header ends with the third number, or in PBM the second, and a newline.
    let mut start = Vec::new();
    let head = loop {
        let mut byte = [0];
        stream.read_exact(&mut byte).map_err(told)?;
        start.push(byte[0]);
        match pnm::head(&start) {
            Ok(head) if head.length == start.len() => break head,
            _ if start.len() > 60 => return Err("no header".to_string()),
            _ => {}
        }
    };
    if (head.width, head.height) != (SIDE, SIDE) {
        return Err(format!("{} x {} pixels", head.width, head.height));
    }
    let (mut bytes, mut colors, mut wanted) = (vec![0; head.row()], Vec::new(), vec![0; 3 * SIDE]);
    for y in 0..SIDE {
        stream.read_exact(&mut bytes).map_err(told)?;
        head.colors(&bytes, &mut colors)?;
        sheet.row(y, &mut wanted);
        if wanted != colors {
            let x = wanted.iter().zip(&colors).take_while(|(a, b)| a == b).count() / 3;
            return Err(format!("x {x} y {y} differs"));
        }
    }
    match stream.read(&mut bytes).map_err(told)? {
        0 => Ok(()),
        _ => Err("more than the picture".to_string()),
    }
}

/// Shrunk, upright or from the side.
pub fn shrunk(room: &Room, rng: &mut Rng, slo: u8, by: usize) -> io::Result<(Vec<String>, Found)> {
    let sheet = Sheet::new(rng, slo);
    room.put(b"large.rle", &sheet.file())?;
    let number = by.to_string();
    let ran = slowly(room, &words(["view", "--shrink", &number, "large.rle", "out.png"]))?;
    let png = room.bytes("out.png").unwrap_or_default();
    let part = pnm::part(&sheet.shrunk(by), &pnm::decode(room, &png)?);
    Ok((Vec::new(), judge(&ran, &seen(), vec![part], &[])))
}

/// The undamaged sheet, made of its picture.
pub fn made(room: &Room, rng: &mut Rng) -> io::Result<(Vec<String>, Found)> {
    let (picture, file) = Sheet::new(rng, 4).picture();
    room.put(b"large.pbm", &picture)?;
    drop(picture);
    let call = words(["make", "--type", "9", "--headers", "--dpi", "300", "large.pbm", "out"]);
    let ran = slowly(room, &call)?;
    let part = file_part(room, "out", Some(&file));
    Ok((Vec::new(), judge(&ran, &Wanted::silent(), vec![part], &[])))
}

/// Whether a file is being written under another name.
fn is_writing(room: &Room) -> io::Result<bool> {
    Ok(room.names()?.iter().any(|name| name.starts_with(b".ingr-")))
}

/// A signal while the picture is written: nothing is left of it, and the old one stays.
pub fn interrupted(room: &Room, rng: &mut Rng) -> io::Result<(Vec<String>, Found)> {
    room.put(b"large.rle", &Sheet::new(rng, 4).file())?;
    let old = b"an old file";
    room.put(b"out.png", old)?;
    let left = room.names()?;
    let mut child = Command::new(&room.bench.program.path)
        .args(["view", "large.rle", "out.png"])
        .current_dir(&room.dir)
        .stdout(Stdio::null())
        .stderr(Stdio::null())
        .spawn()?;
    let deadline = Instant::now() + room.bench.program.patience * SLOWER;
    while !is_writing(room)? && child.try_wait()?.is_none() && Instant::now() < deadline {
        thread::sleep(Duration::from_millis(2));
    }
    let sent = Command::new("kill").args(["-TERM", &child.id().to_string()]).status()?;
    let ended = crate::run::ended(&mut child, deadline)?;
    if ended.is_none() {
        let _ = child.kill();
        child.wait()?;
    }
    let told = match ended {
        Some(status) if sent.success() && !status.success() => "ended by it",
        Some(_) => "ended before it, or well",
        None => "not ended by it",
    };
    let parts = [
        Text::of("ended by it").part("signal", told.as_bytes()),
        file_part(room, "out.png", Some(old)),
        names_part(room, &left)?,
    ];
    let command = "ingr view large.rle out.png, and kill -TERM";
    Ok((Vec::new(), report::judge_parts(command, ended.is_none(), &[], &parts)))
}
