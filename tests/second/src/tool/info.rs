//! `ingr info`: what it says of files, by the model, and its cases.

use super::names::printed;
use super::run::{judge, words, Room, Text, Wanted};
use super::source::{self, Given};
use super::words as say;
use crate::model::sheet::{self, Sheet};
use crate::report::Found;
use crate::rng::Rng;
use std::fmt::Write as _;
use std::io;

pub const FAMILIES: [&str; 4] =
    ["info of samples", "info of another program's sheets", "info", "info of standard input"];

/// What is said of a file, and the status that it calls for.
pub fn text(name: &[u8], file: &[u8]) -> (String, i32) {
    let mut text = format!("{}\n", printed(name));
    let found = match sheet::read(file, u64::MAX, u64::MAX) {
        Err(number) => {
            let _ = writeln!(text, "  refused       {}", say::refused(number));
            return (text, 1);
        }
        Ok(found) => found,
    };
    for (key, value) in fields(&found, file.len()) {
        let _ = writeln!(text, "  {key:14}{value}");
    }
    (text, found.answer() as i32)
}

fn fields(found: &Sheet, length: usize) -> [(&'static str, String); 10] {
    let h = &found.header;
    let (width, height) = if h.slo >= 4 { (h.ppl, h.nol) } else { (h.nol, h.ppl) };
    let damage = match h.nol as usize - found.good() {
        0 => "none".to_string(),
        refused => format!("{} refused", say::some_of(refused, h.nol as usize)),
    };
    let afterwards = match (say::lost_line(found), length - found.end) {
        (Some(line), _) => format!("not known: line {line}, at byte {}, is lost", found.end),
        (None, 0) => "nothing".to_string(),
        (None, rest) => format!("{}, from byte {}", say::count(rest, "byte"), found.end),
    };
    [
        ("type", format!("{}, {}", h.kind, say::kind(h.kind))),
        ("lines", format!("{} of {}", h.nol, say::count(h.ppl as usize, "pixel"))),
        ("upright", format!("{width} x {height}")),
        ("resolution", say::resolution(h.resolution)),
        ("orientation", format!("{}, {}", h.slo, say::orientation(h.slo))),
        ("line headers", say::yes(h.scn).to_string()),
        ("color table", say::table(h)),
        ("header", format!("{} bytes", h.size())),
        ("damage", damage),
        ("afterwards", afterwards),
    ]
}

/// Several files in one call; one of them may be missing.
pub fn files(room: &Room, given: &[Given], missing: bool) -> io::Result<(Vec<String>, Found)> {
    let mut call = words(["info"]);
    let mut wanted = Wanted::silent();
    let mut out = String::new();
    let mut reached = Vec::new();
    for (i, Given { name, file, .. }) in given.iter().enumerate() {
        room.put(name, file)?;
        if missing && i == given.len() / 2 {
            call.push("missing".into());
            wanted.err =
                Text::of("ingr info: missing: cannot be opened: No such file or directory\n");
            wanted.status = 2;
        }
        call.push(super::run::os(name).into());
        let (text, status) = text(name, file);
        out.push_str(&text);
        wanted.status = wanted.status.max(status);
        reached.extend(source::reached("info", file));
    }
    wanted.out = Text::of(out);
    let ran = room.ingr(&call, None)?;
    let input = given.first().map(|given| given.file.clone()).unwrap_or_default();
    Ok((reached, judge(&ran, &wanted, Vec::new(), &input)))
}

/// Files by chance.
pub fn by_chance(room: &Room, rng: &mut Rng) -> io::Result<(Vec<String>, Found)> {
    let count = rng.range(1, 6);
    let given = source::named(rng, room.bench, count);
    let missing = rng.one_in(6);
    files(room, &given, missing)
}

/// A file for each number that a header is refused with.
pub fn every_refusal(room: &Room, rng: &mut Rng) -> io::Result<(Vec<String>, Found)> {
    let mut refused = |number: u32| Given {
        name: format!("refused-{number}").into_bytes(),
        file: crate::gen::sheets::refused(rng, &[number]),
        family: "",
    };
    let given: Vec<Given> = (11..=22).map(&mut refused).collect();
    files(room, &given, false)
}

pub fn standard_input(room: &Room, rng: &mut Rng) -> io::Result<(Vec<String>, Found)> {
    let file = source::some(rng, room.bench).1;
    let (out, status) = text(b"-", &file);
    let ran = room.ingr(&words(["info", "-"]), Some(&file))?;
    let wanted = Wanted { status, out: Text::of(out), err: Text::none() };
    Ok((source::reached("info", &file), judge(&ran, &wanted, Vec::new(), &file)))
}
