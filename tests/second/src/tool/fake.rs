//! Wrong stand-ins for `ingr`: each runs the right program, which `INGR_REAL` names, and alters one
//! thing of what it leaves, or of what it is asked. They show that the mode sees it.

use std::env;
use std::ffi::{OsStr, OsString};
use std::fs;
use std::io::{self, Write};
use std::os::unix::ffi::OsStrExt;
use std::path::{Path, PathBuf};
use std::process::{Command, ExitCode, Stdio};

/// Names the right program.
pub const REAL: &str = "INGR_REAL";

/// What a run of the right program was asked and what it left.
struct Done {
    words: Vec<OsString>,
    out: Vec<u8>,
    err: Vec<u8>,
    status: u8,
    /// What stood in the file to be written before, if it was there.
    before: Option<Vec<u8>>,
}

pub struct Defect {
    pub name: &'static str,
    /// What the mode must tell.
    pub told: &'static str,
    change: Change,
}

enum Change {
    /// Of the words.
    Before(fn(&mut Vec<OsString>)),
    /// Of what was left.
    After(fn(&mut Done)),
}

const fn before(name: &'static str, told: &'static str, change: fn(&mut Vec<OsString>)) -> Defect {
    Defect { name, told, change: Change::Before(change) }
}

const fn after(name: &'static str, told: &'static str, change: fn(&mut Done)) -> Defect {
    Defect { name, told, change: Change::After(change) }
}

pub const DEFECTS: [Defect; 33] = [
    after("status-0-for-1", "exit status", |done| done.status -= u8::from(done.status == 1)),
    after("status-1-for-2", "exit status", |done| done.status -= u8::from(done.status == 2)),
    after("status-1-for-0", "exit status", |done| done.status += u8::from(done.status == 0)),
    after("ends-by-signal", "ended by a signal", |_| std::process::abort()),
    after("runs-on", "runs on and was stopped", |_| std::thread::sleep(std::time::Duration::MAX)),
    after("another-sentence", "standard output", |done| {
        replace(&mut done.out, "too little", "too few")
    }),
    after("another-mark", "standard output", |done| replace(&mut done.out, "(mark 1)", "(mark 7)")),
    after("last-line-unsaid", "standard output", |done| {
        let end = done.out.len().saturating_sub(1);
        let line = done.out[..end].iter().rposition(|&byte| byte == b'\n').map_or(0, |i| i + 1);
        done.out.truncate(line);
    }),
    after("no-newline-at-end", "standard output", |done| {
        done.out.truncate(done.out.len().max(1) - 1)
    }),
    after("json-with-blanks", "standard output", |done| replace(&mut done.out, "\",\"", "\", \"")),
    after("json-without-bytes", "standard output", |done| {
        replace(&mut done.out, "\"file_bytes\":", "\"bytes_of_file\":")
    }),
    after("names-as-they-are", "standard output", |done| replace(&mut done.out, "\\n", "\n")),
    after("rest-of-file-unsaid", "standard output", |done| {
        replace(&mut done.out, " after the last line", "")
    }),
    after("compared-too-well", "standard output", |done| {
        replace(&mut done.out, "headers: differ", "headers: alike")
    }),
    after("chatty", "standard error", |done| done.err.extend(b"done\n")),
    after("mute", "standard error", |done| done.err.clear()),
    after("refused-lines-unlisted", "standard error", |done| {
        let kept = done.err.split_inclusive(|&byte| byte == b'\n');
        done.err = kept.filter(|line| !line.starts_with(b"  ")).flatten().copied().collect();
    }),
    after("colorless-uncounted", "standard error", |done| {
        replace(&mut done.err, "no color", "a color")
    }),
    after("a-pixel", "picture: ", |done| {
        repaint(done, "view", |_, rows| one_part(rows));
    }),
    after("a-pixel-of-a-difference", "picture: ", |done| {
        repaint(done, "compare", |_, rows| one_part(rows));
    }),
    after("no-hatch", "picture: ", |done| {
        repaint(done, "view", |_, rows| {
            rows.chunks_mut(3).filter(|c| *c == [255, 0, 255]).for_each(|c| c.fill(255));
        });
    }),
    after("a-row-lost", "picture: ", |done| {
        repaint(done, "view", |(width, height), rows| {
            *height -= usize::from(*height > 1);
            rows.truncate(3 * *width * *height);
        });
    }),
    before("never-turned", "picture: ", |words| {
        if words.first().is_some_and(|word| word == "view") {
            words.insert(1, "--as-scanned".into());
        }
    }),
    before("never-shrunk", "picture: ", |words| {
        with_value(words, "--shrink", |by| {
            let by: usize = by.parse().ok()?;
            (2..65_536).contains(&by).then_some("1".to_string())
        });
    }),
    before("a-line-less", " --lines ", |words| {
        with_value(words, "--lines", |lines| {
            let (first, last) = lines.split_once('-')?;
            let (first, last): (usize, usize) = (first.parse().ok()?, last.parse().ok()?);
            (0 < first && first < last).then(|| format!("{}-{last}", first + 1))
        });
    }),
    before("headers-forgotten", "out: ", |words| without(words, "--headers", 1)),
    before("slo-forgotten", "out: ", |words| without(words, "--slo", 2)),
    before("dpi-forgotten", "out: ", |words| without(words, "--dpi", 2)),
    after("a-byte-of-what-is-moved", "out: ", |done| last_byte(done, "move")),
    after("a-byte-of-what-is-made", "out: ", |done| last_byte(done, "make")),
    after("made-though-refused", "wanted \"no file\"", |done| {
        let shown = done.is("view") || done.is("compare");
        if let Some(out) = done.target().filter(|out| done.status > 0 && !shown && !out.exists()) {
            let _ = fs::write(out, b"half a sheet");
        }
    }),
    after("old-file-lost", "wanted \"a file: ", |done| {
        // A picture with refused lines is made all the same.
        let fails = done.status > 0 && (done.is("make") || done.is("move"));
        if let Some(out) = done.target().filter(|_| fails && done.before.is_some()) {
            let _ = fs::remove_file(out);
        }
    }),
    after("other-name-left", "files left", |_| drop(fs::write(".ingr-Ab3xYz", b"half"))),
];

fn replace(text: &mut Vec<u8>, from: &str, to: &str) {
    let mut rest = std::mem::take(text);
    while let Some(at) = rest.windows(from.len()).position(|part| part == from.as_bytes()) {
        text.extend(&rest[..at]);
        text.extend(to.as_bytes());
        rest.drain(..at + from.len());
    }
    text.extend(rest);
}

/// Leaves out an option, with its value.
fn without(words: &mut Vec<OsString>, option: &str, length: usize) {
    if let Some(at) = words.iter().position(|word| word == option) {
        words.drain(at..(at + length).min(words.len()));
    }
}

/// Gives an option another value, if it has one that is to be changed.
fn with_value(words: &mut [OsString], option: &str, change: fn(&str) -> Option<String>) {
    let Some(at) = words.iter().position(|word| word == option) else {
        return;
    };
    if let Some(word) = words.get_mut(at + 1) {
        if let Some(other) = word.to_str().and_then(change) {
            *word = other.into();
        }
    }
}

impl Done {
    fn is(&self, command: &str) -> bool {
        self.words.first().is_some_and(|word| word == command)
    }

    fn target(&self) -> Option<PathBuf> {
        target(&self.words)
    }
}

/// The file that a command writes; none where it is standard output, or there is none.
fn target(words: &[OsString]) -> Option<PathBuf> {
    let out = match words.first()?.to_str()? {
        "view" | "make" | "move" => words.last()?,
        "compare" => words.get(words.iter().position(|word| word == "--picture")? + 1)?,
        _ => return None,
    };
    let is_file = out.as_bytes() != b"-" && !Path::new(out).starts_with("/dev");
    is_file.then(|| PathBuf::from(out))
}

/// Changes the last byte of what was written.
fn last_byte(done: &Done, command: &str) {
    let Some(out) = done.target().filter(|_| done.is(command) && done.status == 0) else {
        return;
    };
    if let Ok(mut bytes) = fs::read(&out) {
        bytes.last_mut().into_iter().for_each(|byte| *byte ^= 1);
        let _ = fs::write(&out, bytes);
    }
}

/// Changes one part of one pixel.
fn one_part(rows: &mut [u8]) {
    let middle = rows.len() / 2;
    rows[middle] ^= 0x80;
}

/// Rewrites a PNG with other pixels.
fn repaint(done: &Done, command: &str, paint: fn((&usize, &mut usize), &mut Vec<u8>)) {
    let Some(out) = done.target().filter(|out| done.is(command) && out.is_file()) else {
        return;
    };
    let png = fs::read(&out).unwrap_or_default();
    let Some(picture) = filtered("pngtopnm", &png).and_then(|pnm| super::pnm::parse(&pnm).ok())
    else {
        return;
    };
    let (mut rows, width, mut height) = (picture.bytes.clone(), picture.width, picture.height);
    paint((&width, &mut height), &mut rows);
    if rows == picture.bytes {
        // As it was, with all that no pixel tells.
        return;
    }
    let ppm = [format!("P6 {width} {height} 255\n").as_bytes(), &rows].concat();
    if let Some(png) = filtered("pnmtopng", &ppm) {
        let _ = fs::write(&out, png);
    }
}

/// What a program of netpbm makes of its input.
fn filtered(program: &str, input: &[u8]) -> Option<Vec<u8>> {
    let ran =
        super::run::run(Command::new(program), Some(input), std::time::Duration::from_secs(20));
    ran.ok().filter(|ran| ran.status == Some(0)).map(|ran| ran.out)
}

/// Plays `ingr` or `ingr-DEFECT`; none if there is no such stand-in.
pub fn play(name: &str) -> Option<ExitCode> {
    let rest = name.strip_prefix("ingr")?;
    let defect = match rest.strip_prefix('-') {
        Some(wrong) => Some(DEFECTS.iter().find(|defect| defect.name == wrong)?),
        None if rest.is_empty() => None,
        None => return None,
    };
    Some(run(defect).unwrap_or(ExitCode::from(99)))
}

fn run(defect: Option<&Defect>) -> io::Result<ExitCode> {
    let mut words: Vec<OsString> = env::args_os().skip(1).collect();
    if let Some(Defect { change: Change::Before(change), .. }) = defect {
        change(&mut words);
    }
    let real = env::var_os(REAL).unwrap_or_default();
    let before = target(&words).and_then(|out| fs::read(out).ok());
    let mut command = Command::new::<&OsStr>(&real);
    let output = command.args(&words).stdin(Stdio::inherit()).output()?;
    let status = output.status.code().unwrap_or(98) as u8;
    let mut done = Done { words, out: output.stdout, err: output.stderr, status, before };
    if let Some(Defect { change: Change::After(change), .. }) = defect {
        change(&mut done);
    }
    // Whoever closed the pipe wants no more.
    let _ = io::stdout().write_all(&done.out);
    let _ = io::stderr().write_all(&done.err);
    Ok(ExitCode::from(done.status))
}
