//! `ingr move`: the cases. What was moved is compared with the model's bytes, and a refusal leaves
//! no file, or the old one.

use super::names::printed;
use super::run::{file_part, judge, names_part, os, words, Room, Text, Wanted};
use super::source;
use super::words as say;
use crate::gen::moves::{movable_of, some_move};
use crate::model::transcode::transcode;
use crate::report::Found;
use crate::rng::Rng;
use std::io;

pub const FAMILIES: [&str; 4] =
    ["move of samples", "move by chance", "move of too long a body", "move of a file onto itself"];

/// The numbers that a move can be refused with, besides those of a header.
pub const REFUSALS: [u32; 4] = [27, 30, 41, 42];

/// Moves a file, now and then over an old one, from standard input, or to standard output.
pub fn moved(
    room: &Room,
    rng: &mut Rng,
    name: &[u8],
    file: &[u8],
) -> io::Result<(Vec<String>, Found)> {
    let old = rng.one_in(2).then(|| rng.bytes(40));
    let (from_input, to_output) = (rng.one_in(10), rng.one_in(10));
    let name = if from_input { b"-" } else { name };
    if !from_input {
        room.put(name, file)?;
    }
    if let Some(old) = &old {
        room.put(b"out", old)?;
    }
    let mut left = room.names()?;
    let mut call = words(["move"]);
    call.extend([os(name).into(), if to_output { "-".into() } else { "out".into() }]);
    let mut ran = room.ingr(&call, from_input.then_some(file))?;
    let (wanted, reached, made) = match transcode(file, usize::MAX) {
        Ok(made) => (Wanted::silent(), "moved".to_string(), Some(made)),
        Err(number) => {
            let text = format!("ingr move: {}: refused: {}\n", printed(name), say::refused(number));
            (Wanted::complaint(1, Text::of(text)), format!("refused {number}"), None)
        }
    };
    let mut more = Vec::new();
    if to_output {
        let printed = std::mem::take(&mut ran.out);
        more.push(Text::All(made.unwrap_or_default()).part("moved", &printed));
        more.push(file_part(room, "out", old.as_deref()));
    } else {
        if made.is_some() {
            left.push(b"out".to_vec());
        }
        more.push(file_part(room, "out", made.as_deref().or(old.as_deref())));
    }
    more.push(names_part(room, &left)?);
    Ok((vec![format!("move: {reached}")], judge(&ran, &wanted, more, file)))
}

pub fn by_chance(room: &Room, rng: &mut Rng) -> io::Result<(Vec<String>, Found)> {
    let file = some_move(rng);
    let name = source::name(rng, 0);
    moved(room, rng, &name, &file)
}

/// Pixels by turns in the widest line: more runs than a line's header can say.
pub fn too_long(room: &Room, rng: &mut Rng) -> io::Result<(Vec<String>, Found)> {
    let row: Vec<u16> = (0..65_535).map(|i| (i % 2) as u16).collect();
    let file = movable_of(rng, 1, 1, &[vec![0; 65_535], row]);
    moved(room, rng, b"wide.dat", &file)
}

/// The file itself is what is written: it is the new one, or as it was.
pub fn onto_itself(room: &Room, rng: &mut Rng) -> io::Result<(Vec<String>, Found)> {
    let file = some_move(rng);
    room.put(b"sheet", &file)?;
    let ran = room.ingr(&words(["move", "sheet", "sheet"]), None)?;
    let (wanted, kept) = match transcode(&file, usize::MAX) {
        Ok(made) => (Wanted::silent(), made),
        Err(number) => {
            let text = format!("ingr move: sheet: refused: {}\n", say::refused(number));
            (Wanted::complaint(1, Text::of(text)), file.clone())
        }
    };
    let more = vec![file_part(room, "sheet", Some(&kept)), names_part(room, &[b"sheet".to_vec()])?];
    Ok((Vec::new(), judge(&ran, &wanted, more, &file)))
}
