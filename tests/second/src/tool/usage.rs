//! What is common to all commands: wrong usage, help, names after `--`, files that are missing, and
//! output that fails.

use super::info;
use super::run::{judge, names_part, words, Room, Text, Wanted};
use crate::report::Found;
use std::io;

pub const FAMILIES: [&str; 5] = [
    "wrong usage",
    "help",
    "names like options",
    "output that fails",
    "no such file, or a directory for one",
];

/// Those that complain of a file on standard error; `FILE` is the file, `sheet` a good one.
pub const COMMANDS: [&[&str]; 6] = [
    &["info", "FILE"],
    &["view", "FILE", "out"],
    &["make", "--type", "2", "FILE", "out"],
    &["compare", "FILE", "sheet"],
    &["compare", "sheet", "FILE"],
    &["move", "FILE", "out"],
];

/// Commands that are not as the manual page has them; `sheet` is a good file.
pub const WRONG: [&[&str]; 24] = [
    &["info"],
    &["info", "--json", "sheet"],
    &["check"],
    &["check", "--jso", "sheet"],
    &["view"],
    &["view", "sheet"],
    &["view", "sheet", "out", "more"],
    &["view", "--shrink", "0", "sheet", "out"],
    &["view", "--shrink", "65536", "sheet", "out"],
    &["view", "--shrink", "2x", "sheet", "out"],
    &["view", "--shrink", "-1", "sheet", "out"],
    &["view", "sheet", "out", "--shrink"],
    &["make", "picture", "out"],
    &["make", "--type", "9", "picture"],
    &["make", "--type", "nine", "picture", "out"],
    &["make", "--type", "9", "--dpi", "0", "picture", "out"],
    &["make", "--type", "9", "--dpi", "32769", "picture", "out"],
    &["make", "--type", "9", "--microns", "0", "picture", "out"],
    &["make", "--type", "9", "--microns", "32768", "picture", "out"],
    &["make", "--type", "9", "--dpi", "1", "--microns", "1", "picture", "out"],
    &["compare", "sheet"],
    &["compare", "sheet", "sheet", "sheet"],
    &["move", "sheet"],
    &["move", "--type", "9", "sheet", "out"],
];

fn sheet(room: &Room) -> Vec<u8> {
    room.bench.samples.first().map(|(_, file)| file.clone()).unwrap_or_default()
}

fn list(all: &[&str]) -> Vec<std::ffi::OsString> {
    all.iter().map(std::ffi::OsString::from).collect()
}

pub fn wrong(room: &Room, call: &[&str]) -> io::Result<(Vec<String>, Found)> {
    room.put(b"sheet", &sheet(room))?;
    room.put(b"picture", b"P1 1 1 0\n")?;
    let left = room.names()?;
    let ran = room.ingr(&list(call), None)?;
    let (start, end) =
        (format!("ingr {}: ", call[0]), format!("\nTry 'ingr {} --help'.\n", call[0]));
    let wanted = Wanted::complaint(2, Text::Ends(start, end));
    Ok((Vec::new(), judge(&ran, &wanted, vec![names_part(room, &left)?], &[])))
}

/// No command, or one that there is not.
pub fn no_command(room: &Room, call: &[&str]) -> io::Result<(Vec<String>, Found)> {
    let ran = room.ingr(&list(call), None)?;
    let wanted = Wanted::complaint(2, Text::starting(""));
    Ok((Vec::new(), judge(&ran, &wanted, vec![names_part(room, &[])?], &[])))
}

pub fn help(room: &Room, call: &[&str]) -> io::Result<(Vec<String>, Found)> {
    let ran = room.ingr(&list(call), None)?;
    let out = Text::Ends("".to_string(), "\n".to_string());
    let wanted = Wanted { status: 0, out, err: Text::none() };
    Ok((Vec::new(), judge(&ran, &wanted, vec![names_part(room, &[])?], &[])))
}

/// After `--` a word is a name, whatever it looks like.
pub fn after_dashes(room: &Room, name: &str) -> io::Result<(Vec<String>, Found)> {
    let file = sheet(room);
    room.put(name.as_bytes(), &file)?;
    let ran = room.ingr(&words(["info", "--", name]), None)?;
    let (out, status) = info::text(name.as_bytes(), &file);
    let wanted = Wanted { status, out: Text::of(out), err: Text::none() };
    Ok((Vec::new(), judge(&ran, &wanted, Vec::new(), &file)))
}

/// A command with this for its file, and a good sheet beside.
fn with_file(
    room: &Room,
    command: &[&str],
    name: &str,
    told: Text,
) -> io::Result<(Vec<String>, Found)> {
    room.put(b"sheet", &sheet(room))?;
    let left = room.names()?;
    let call: Vec<&str> = command.iter().map(|&w| if w == "FILE" { name } else { w }).collect();
    let ran = room.ingr(&list(&call), None)?;
    let wanted = Wanted::complaint(2, told);
    Ok((Vec::new(), judge(&ran, &wanted, vec![names_part(room, &left)?], &[])))
}

pub fn missing(room: &Room, command: &[&str]) -> io::Result<(Vec<String>, Found)> {
    let why = "cannot be opened: No such file or directory";
    let text = format!("ingr {}: miss\\ting: {why}\n", command[0]);
    with_file(room, command, "miss\ting", Text::of(text))
}

/// A directory is no file but for `check`.
pub fn directory(room: &Room, command: &[&str]) -> io::Result<(Vec<String>, Found)> {
    std::fs::create_dir(room.dir.join("above"))?;
    with_file(room, command, "above", Text::starting(format!("ingr {}: above: ", command[0])))
}

/// A device that is always full, and a directory that there is not.
pub fn failing(room: &Room, command: &str, full: bool) -> io::Result<(Vec<String>, Found)> {
    let file = sheet(room);
    room.put(b"sheet", &file)?;
    let left = room.names()?;
    let (out, text) = match full {
        true => {
            let why = "cannot be written: No space left on device";
            ("/dev/full", Text::of(format!("ingr {command}: /dev/full: {why}\n")))
        }
        false => ("none/out", Text::starting(format!("ingr {command}: none/out: "))),
    };
    let ran = room.ingr(&words([command, "sheet", out]), None)?;
    let wanted = Wanted::complaint(2, text);
    Ok((Vec::new(), judge(&ran, &wanted, vec![names_part(room, &left)?], &file)))
}
