//! Stand-ins for the C functions, played by the model, right or with one defect. They show that
//! the right ones pass and that each wrong one is found; nothing more, since they are the model.

mod colors;

use super::call::ColorCall;
use super::Calls;
use crate::gen::long_calls::{EDGES, LINE_COUNTS, MOVES, PAIRS, PICTURES};
use crate::misnumber::{self, misnumber, Rule};
use crate::misread::{self, misread, Misreading};
use crate::model::c::{
    self, Turn, Write, HEADER_ANSWER, MOVE_ANSWER, RASTER_ANSWER, SHORT_ANSWER, WRITE_ANSWER,
};
use crate::model::header::Coloring;
use crate::model::sheet::Unpacking;
use crate::model::transcode::Manner;
use crate::model::writer::Coding;
use crate::model::{long, probe, sheet, turn, MOST_LINES};
use crate::{miscut, mismove, mispack};
use std::slice::{from_raw_parts, from_raw_parts_mut};
use std::sync::{Mutex, OnceLock};
use std::time::Duration;

type Header = fn(&[u8], &mut [u8]) -> u32;
type Color = fn(&[u8], u32, &mut [u8]) -> u32;
/// A color call by the right one.
type Miscall = fn(Color, &[u8], u32, &mut [u8]) -> u32;
type Raster = fn(&[u8], &mut [u8], &mut [u8], &mut [u8]) -> u32;
type Turning = fn(&Turn, &mut [u16]) -> u32;
type Writing = fn(&Write, &mut [u8], &mut [u8]) -> u32;
type Moving = fn(&[u8], &mut [u8], &mut [u8]) -> u32;

pub struct Defect {
    pub name: &'static str,
    /// What must be told of it.
    pub told: &'static str,
    /// The cases that must show it, where not all are run.
    pub family: Option<&'static str>,
    change: Change,
}

/// What a defect does.
enum Change {
    None,
    /// In the place of a right function.
    Header(Header),
    Color(ColorCall, Miscall),
    /// To the colors that one of the calls finds.
    Coloring(ColorCall, Coloring),
    Raster(Raster),
    Turn(Turning),
    Write(Writing),
    Move(Moving),
    /// To the lines that are read.
    Misread(Misreading),
    /// To the packed words that are read.
    Unpack(Unpacking),
    /// To the numbers that lines must have.
    Misnumber(Rule),
    /// To the words that are written for a row.
    Miscode(Coding),
    /// To the way a sheet is moved.
    Mismove(Manner),
    /// After a right reading of such files, to the byte behind the sheet where no more is lent.
    Behind(fn(&[u8]) -> bool),
    /// After a right function, to one byte of a buffer of this name or of its guards, told by
    /// the length of the buffer.
    Touch(&'static str, fn(isize) -> Option<isize>),
}

const fn defect(name: &'static str, told: &'static str, change: Change) -> Defect {
    Defect { name, told, family: None, change }
}

/// One that no short sheet shows.
const fn of_long(
    name: &'static str,
    family: &'static str,
    told: &'static str,
    change: Change,
) -> Defect {
    Defect { name, told, family: Some(family), change }
}

pub const RIGHT: &str = "right";

/// Those whose moves there and back must show it by themselves, and what is told.
pub const OF_RETURNS: [(&str, &str); 13] = [
    ("move-renews-header", "other bytes come back"),
    ("move-renews-identifier", "other bytes come back"),
    ("move-stamps-header", "what came back comes back otherwise"),
    ("move-keeps-w", "other bytes come back"),
    ("move-keeps-rest", "it does not read as it did"),
    ("move-sets-spare-bits", "other bytes come back"),
    ("move-goes-word-by-word", "other bytes come back"),
    ("move-makes-black-white", "it does not read as it did"),
    ("move-refuses-all", "refused"),
    ("no-ink-in-type-1", "it does not show the colors that it did"),
    ("no-ink-in-type-9", "it does not show the colors that it did"),
    ("plotter-inks-type-1", "it does not show the colors that it did"),
    ("plotter-inks-type-9", "it does not show the colors that it did"),
];

/// Those whose pairs must show it by themselves, and what is told.
pub const OF_PAIRS: [(&str, &str); 16] = [
    ("refused-row-unpainted", "differs, but its body does not"),
    ("unpainted-after-lost", "differs, but its body does not"),
    ("last-sheet-under-damage", "and not blank"),
    ("pixels-high-byte-first", "not read by its own header and body"),
    ("damage-spreads", "not read by its own header and body"),
    ("end-by-total", "the ends are"),
    ("every-sheet-good", "answer 0 with"),
    ("every-line-counted", "the good lines are not those marked 0"),
    ("odd-slices-refused", "the first call is refused with 23"),
    ("any-offset-refused", "not read by its own header and body"),
    ("margin-unpainted", "differs, but its body does not"),
    ("whole-row-wanted", "not read by its own header and body"),
    ("row-not-moved", "not read by its own header and body"),
    ("lowest-bit-first", "not read by its own header and body"),
    ("spare-bit-taken", "not read by its own header and body"),
    ("10-before-6", "not read by its own header and body"),
];

/// All but those of the color calls.
const DEFECTS: [Defect; 145] = [
    defect(RIGHT, "", Change::None),
    // 29 after another number, too early, too late.
    defect(
        "header-29-late",
        "ingr_header: result 11, 29 wanted",
        Change::Header(|file, answer| late([0; HEADER_ANSWER], answer, |to| c::header(file, to))),
    ),
    defect(
        "raster-29-late",
        "ingr_raster: result 23, 29 wanted",
        Change::Raster(|file, pixels, marks, answer| {
            if answer.len() < RASTER_ANSWER {
                let number = c::raster(file, &mut [], &mut [], &mut [0; RASTER_ANSWER]);
                if number == 23 {
                    return number;
                }
            }
            c::raster(file, pixels, marks, answer)
        }),
    ),
    defect(
        "write-29-late",
        "ingr_write: result 16, 29 wanted",
        Change::Write(|given, out, answer| {
            match c::write(given, &mut [], &mut [0; WRITE_ANSWER]) {
                28 => c::write(given, out, answer),
                number => number,
            }
        }),
    ),
    defect(
        "header-39-taken",
        "ingr_header: result 0, 29 wanted",
        Change::Header(|file, answer| {
            one_less([0; HEADER_ANSWER], answer, |to| c::header(file, to))
        }),
    ),
    defect(
        "raster-7-taken",
        "ingr_raster: result 0, 29 wanted",
        Change::Raster(|file, pixels, marks, answer| {
            one_less([0; RASTER_ANSWER], answer, |to| c::raster(file, pixels, marks, to))
        }),
    ),
    defect(
        "write-3-taken",
        "ingr_write: result 16, 29 wanted",
        Change::Write(|given, out, answer| {
            one_less([0; WRITE_ANSWER], answer, |to| c::write(given, out, to))
        }),
    ),
    defect(
        "header-40-refused",
        "ingr_header: result 29, 0 wanted",
        Change::Header(|file, answer| match answer.len() {
            HEADER_ANSWER => SHORT_ANSWER,
            _ => c::header(file, answer),
        }),
    ),
    defect(
        "raster-8-refused",
        "ingr_raster: result 29, ",
        Change::Raster(|file, pixels, marks, answer| match answer.len() {
            RASTER_ANSWER => SHORT_ANSWER,
            _ => c::raster(file, pixels, marks, answer),
        }),
    ),
    defect(
        "write-4-refused",
        "ingr_write: result 29, ",
        Change::Write(|given, out, answer| match answer.len() {
            WRITE_ANSWER => SHORT_ANSWER,
            _ => c::write(given, out, answer),
        }),
    ),
    // Answers.
    defect(
        "header-answers-refused",
        "ingr_header: answer: byte 0 of ",
        Change::Header(|file, answer| match c::header(file, answer) {
            0 => 0,
            number => clear(answer, number),
        }),
    ),
    defect(
        "raster-answers-refused",
        "ingr_raster: answer: byte 0 of ",
        Change::Raster(|file, pixels, marks, answer| {
            match c::raster(file, pixels, marks, answer) {
                24 => clear(answer, 24),
                number => number,
            }
        }),
    ),
    defect(
        "write-answers-refused",
        "ingr_write: answer: byte 0 of ",
        Change::Write(|given, out, answer| match c::write(given, out, answer) {
            28 => clear(answer, 28),
            number => number,
        }),
    ),
    defect(
        "header-past-numbers",
        "ingr_header: answer: byte 40 of ",
        Change::Header(|file, answer| {
            past(HEADER_ANSWER, answer, |answer| c::header(file, answer))
        }),
    ),
    defect(
        "raster-past-numbers",
        "ingr_raster: answer: byte 8 of ",
        Change::Raster(|file, pixels, marks, answer| {
            past(RASTER_ANSWER, answer, |answer| c::raster(file, pixels, marks, answer))
        }),
    ),
    defect(
        "write-past-numbers",
        "ingr_write: answer: byte 4 of ",
        Change::Write(|given, out, answer| {
            past(WRITE_ANSWER, answer, |answer| c::write(given, out, answer))
        }),
    ),
    defect(
        "high-byte-first",
        "ingr_header: answer: byte 0 of ",
        Change::Header(|file, answer| {
            let result = c::header(file, answer);
            if result == 0 {
                answer[..HEADER_ANSWER].chunks_mut(4).for_each(<[u8]>::reverse);
            }
            result
        }),
    ),
    defect(
        "no-resolution",
        "ingr_header: answer: byte ",
        Change::Header(|file, answer| {
            let result = c::header(file, answer);
            if result == 0 {
                answer.copy_within(24..HEADER_ANSWER, 16);
            }
            result
        }),
    ),
    defect(
        "resolution-negated-in-16-bits",
        "ingr_header: answer: byte ",
        Change::Header(|file, answer| {
            let result = c::header(file, answer);
            if result == 0 && long(answer, 20) == 32_768 {
                c::put_numbers(&mut answer[20..24], &[0xFFFF_8000]);
            }
            result
        }),
    ),
    defect(
        "good-and-end-exchanged",
        "ingr_raster: answer: byte 0 of ",
        Change::Raster(|file, pixels, marks, answer| {
            let result = c::raster(file, pixels, marks, answer);
            if result <= 1 {
                answer[..RASTER_ANSWER].rotate_left(4);
            }
            result
        }),
    ),
    defect(
        "answers-only-good-sheets",
        "ingr_raster: answer: byte ",
        Change::Raster(|file, pixels, marks, answer| {
            let before = answer.to_vec();
            let result = c::raster(file, pixels, marks, answer);
            if result == 1 {
                answer.copy_from_slice(&before);
            }
            result
        }),
    ),
    defect(
        "every-line-counted",
        "ingr_raster: answer: byte 0 of ",
        Change::Raster(|file, pixels, marks, answer| {
            let result = c::raster(file, pixels, marks, answer);
            if result == 1 {
                c::put_numbers(&mut answer[..4], &[long(file, 188)]);
            }
            result
        }),
    ),
    defect(
        "every-sheet-good",
        "ingr_raster: result 0, 1 wanted",
        Change::Raster(|file, pixels, marks, answer| {
            match c::raster(file, pixels, marks, answer) {
                1 => 0,
                number => number,
            }
        }),
    ),
    // Pixels and marks.
    defect(
        "pixels-high-byte-first",
        "ingr_raster: pixels: byte ",
        Change::Raster(|file, pixels, marks, answer| {
            let result = c::raster(file, pixels, marks, answer);
            if result <= 1 {
                let size = 2 * size_of_sheet(file);
                pixels[..size].chunks_mut(2).for_each(<[u8]>::reverse);
            }
            result
        }),
    ),
    defect(
        "23-of-pixels",
        ", 23 wanted",
        Change::Raster(|file, pixels, marks, answer| {
            match c::raster(file, pixels, marks, answer) {
                23 if pixels.len() >= size_of_sheet(file) => {
                    let mut longer = vec![0; 2 * size_of_sheet(file)];
                    c::raster(file, &mut longer, marks, answer)
                }
                number => number,
            }
        }),
    ),
    defect(
        "odd-slices-refused",
        "ingr_raster: result 23, ",
        Change::Raster(|file, pixels, marks, answer| {
            match c::raster(file, &mut [0; 0], marks, answer) {
                23 if pixels.len() % 2 == 1 => 23,
                _ => c::raster(file, pixels, marks, answer),
            }
        }),
    ),
    defect(
        "23-needs-a-byte-more",
        "ingr_raster: result 23, ",
        Change::Raster(|file, pixels, marks, answer| {
            let less = pixels.len().max(1) - 1;
            match c::raster(file, &mut pixels.to_vec()[..less], marks, answer) {
                23 => 23,
                _ => c::raster(file, pixels, marks, answer),
            }
        }),
    ),
    defect(
        "24-before-23",
        "ingr_raster: result 24, 23 wanted",
        Change::Raster(|file, pixels, marks, answer| {
            match c::raster(file, pixels, marks, answer) {
                23 if (marks.len() as u64) < long(file, 188) => 24,
                number => number,
            }
        }),
    ),
    defect(
        "24-half-done",
        "ingr_raster: pixels: byte ",
        Change::Raster(|file, pixels, marks, answer| {
            match c::raster(file, pixels, marks, answer) {
                24 => clear(pixels, 24),
                number => number,
            }
        }),
    ),
    defect(
        "odd-byte-cleared",
        "ingr_raster: pixels: byte ",
        Change::Raster(|file, pixels, marks, answer| {
            let result = c::raster(file, pixels, marks, answer);
            if let (0 | 1, Some(last)) = (result, pixels.len().checked_sub(1)) {
                if last == 2 * size_of_sheet(file) {
                    pixels[last] = 0;
                }
            }
            result
        }),
    ),
    defect(
        "pixel-past-sheet",
        "ingr_raster: pixels: byte ",
        Change::Raster(|file, pixels, marks, answer| {
            let result = c::raster(file, pixels, marks, answer);
            if result <= 1 {
                pixels[2 * size_of_sheet(file)..].fill(0);
            }
            result
        }),
    ),
    defect(
        "mark-past-lines",
        "ingr_raster: marks: byte ",
        Change::Raster(|file, pixels, marks, answer| {
            let result = c::raster(file, pixels, marks, answer);
            if result <= 1 {
                if let Some(mark) = marks.get_mut(long(file, 188) as usize) {
                    *mark = 9;
                }
            }
            result
        }),
    ),
    defect(
        "refused-row-unpainted",
        "ingr_raster: pixels: byte ",
        Change::Raster(|file, pixels, marks, answer| {
            let before = pixels.to_vec();
            under_marks(file, pixels, marks, answer, 1..9, |row, at| {
                row.copy_from_slice(&before[at..at + row.len()]);
            })
        }),
    ),
    defect(
        "unpainted-after-lost",
        "ingr_raster: pixels: byte ",
        Change::Raster(|file, pixels, marks, answer| {
            let before = pixels.to_vec();
            under_marks(file, pixels, marks, answer, 9..10, |row, at| {
                row.copy_from_slice(&before[at..at + row.len()]);
            })
        }),
    ),
    // The accident: the last sheet's picture under a damaged line.
    defect(
        "last-sheet-under-damage",
        "ingr_raster: pixels: byte ",
        Change::Raster(|file, pixels, marks, answer| {
            let mut last = LAST.lock().expect("one call at a time");
            let result = under_marks(file, pixels, marks, answer, 1..10, |row, at| {
                for (place, &byte) in row.iter_mut().zip(last.iter().skip(at)) {
                    *place = byte;
                }
            });
            if result <= 1 {
                *last = pixels.to_vec();
            }
            result
        }),
    ),
    // The line below one that has a wrong total is taken for wrong too.
    defect(
        "damage-spreads",
        "ingr_raster: ",
        Change::Raster(|file, pixels, marks, answer| {
            let result = c::raster(file, pixels, marks, answer);
            if result == 1 {
                let (width, lines) = (2 * long(file, 184) as usize, long(file, 188) as usize);
                for i in 1..lines {
                    if matches!((marks[i - 1], marks[i]), (7 | 8, 0)) {
                        marks[i] = 5;
                        pixels[i * width..(i + 1) * width].fill(0);
                        let good = long(answer, 0) - 1;
                        c::put_numbers(&mut answer[..4], &[good]);
                    }
                }
            }
            result
        }),
    ),
    defect(
        "end-by-total",
        "ingr_raster: answer: byte 4 of ",
        Change::Raster(|file, pixels, marks, answer| {
            let result = c::raster(file, pixels, marks, answer);
            if result == 1 && marks[..long(file, 188) as usize].contains(&7) {
                answer[4] ^= 2;
            }
            result
        }),
    ),
    // Lines that start partway.
    defect(
        "any-offset-refused",
        "ingr_raster: result 1, 0 wanted",
        Change::Misread(misread::any_offset_refused),
    ),
    defect(
        "offset-p-refused",
        "ingr_raster: marks: byte ",
        Change::Misread(misread::offset_p_refused),
    ),
    defect(
        "offset-in-16-bits",
        "ingr_raster: marks: byte ",
        Change::Misread(misread::offset_in_16_bits),
    ),
    defect("5-before-4", "ingr_raster: marks: byte ", Change::Misread(misread::five_before_four)),
    defect(
        "margin-unpainted",
        "ingr_raster: pixels: byte ",
        Change::Misread(misread::margin_unpainted),
    ),
    defect(
        "whole-row-wanted",
        "ingr_raster: result 1, 0 wanted",
        Change::Misread(misread::whole_row_wanted),
    ),
    defect(
        "spare-byte-by-ppl",
        "ingr_raster: result 1, 0 wanted",
        Change::Misread(misread::spare_byte_by_ppl),
    ),
    defect("row-not-moved", "ingr_raster: pixels: byte ", Change::Misread(misread::row_not_moved)),
    defect(
        "row-ends-below",
        "ingr_raster: pixels: byte ",
        Change::Misread(misread::row_ends_below),
    ),
    defect(
        "row-ends-behind-sheet",
        "pixels: guard, 0 past its end,",
        Change::Behind(misread::ends_partway),
    ),
    // Packed words.
    defect("lowest-bit-first", "ingr_raster: ", Change::Unpack(mispack::LOWEST_READ)),
    defect("first-byte-first", "ingr_raster: ", Change::Unpack(mispack::FIRST_BYTE_READ)),
    defect("spare-bit-taken", "ingr_raster: ", Change::Unpack(mispack::SPARE_TAKEN)),
    defect("10-before-6", "ingr_raster: marks: byte ", Change::Unpack(mispack::TEN_BEFORE_SIX)),
    defect("10-loses-chain", "ingr_raster: ", Change::Unpack(mispack::TEN_LOSES)),
    defect("last-word-not-read", "ingr_raster: ", Change::Unpack(mispack::WORD_NOT_READ)),
    defect("a-word-too-many", "ingr_raster: ", Change::Unpack(mispack::WORD_TOO_MANY)),
    defect(
        "type-1-refused",
        "ingr_header: result 16, 0 wanted",
        Change::Header(|file, answer| match c::header(file, answer) {
            0 if file[4] == 1 => 16,
            number => number,
        }),
    ),
    // The first line of a second band of 65,535 pixels left out.
    defect(
        "band-forgets-a-line",
        "ingr_raster: pixels: byte ",
        Change::Raster(|file, pixels, marks, answer| {
            let result = c::raster(file, pixels, marks, answer);
            if result <= 1 {
                let width = long(file, 184) as usize;
                let line = 65_535 / width;
                if line > 0 && line < long(file, 188) as usize {
                    pixels[2 * line * width..][..2 * width].fill(0);
                }
            }
            result
        }),
    ),
    // One mark far down.
    defect(
        "tall-sheet-unmarked",
        "ingr_raster: marks: byte ",
        Change::Raster(|file, pixels, marks, answer| {
            let result = c::raster(file, pixels, marks, answer);
            if result <= 1 && long(file, 188) > 60_000 {
                marks[60_000] = 255;
            }
            result
        }),
    ),
    // Turning.
    defect(
        "31-before-23",
        "result 31, 23 wanted",
        Change::Turn(|given, filled| {
            let Turn { back, slo, ppl, nol, pixels } = *given;
            let order = turn::Order { back, slo, ppl, nol, pixels, room: filled.len() };
            match turn::faults(&order)[..] {
                [23, 31] => 31,
                _ => c::turn(given, filled),
            }
        }),
    ),
    defect(
        "back-as-upright",
        "ingr_turn_back: pixels: byte ",
        Change::Turn(|given, filled| c::turn(&Turn { back: false, ..*given }, filled)),
    ),
    defect(
        "turn-clears-surplus",
        "ingr_turn: upright: byte ",
        Change::Turn(|given, filled| {
            let result = c::turn(given, filled);
            if result == 0 {
                filled[given.ppl as usize * given.nol as usize..].fill(0);
            }
            result
        }),
    ),
    // Writing.
    defect(
        "drs-not-reduced",
        "ingr_write: output: byte 192 of ",
        Change::Write(|given, out, answer| {
            c::write(&Write { drs: given.drs.min(65_535), ..*given }, out, answer)
        }),
    ),
    defect(
        "length-of-output",
        "ingr_write: answer: byte ",
        Change::Write(|given, out, answer| {
            let result = c::write(given, out, answer);
            if result == 0 {
                c::put_numbers(answer, &[out.len() as u64]);
            }
            result
        }),
    ),
    defect(
        "output-cleared",
        "ingr_write: output: byte ",
        Change::Write(|given, out, answer| {
            let result = c::write(given, out, answer);
            if result == 0 {
                let length = long(answer, 0) as usize;
                out[length..].fill(0);
            }
            result
        }),
    ),
    defect(
        "header-then-28",
        "ingr_write: output: byte 0 of ",
        Change::Write(|given, out, answer| match c::write(given, out, answer) {
            28 => {
                out.iter_mut().zip([0x08, 0x09]).for_each(|(place, byte)| *place = byte);
                28
            }
            number => number,
        }),
    ),
    defect("cuts-at-32768", "ingr_write: output: byte ", Change::Miscode(miscut::AT_32768)),
    defect("cuts-nothing", "ingr_write: output: byte ", Change::Miscode(miscut::NOTHING)),
    defect("rest-of-0", "ingr_write: result 28, 0 wanted", Change::Miscode(miscut::REST_OF_0)),
    defect("rest-first", "ingr_write: output: byte ", Change::Miscode(miscut::REST_FIRST)),
    defect(
        "zero-run-missing",
        "ingr_write: output: byte ",
        Change::Miscode(miscut::ZERO_RUN_MISSING),
    ),
    defect(
        "zero-run-in-pairs",
        "ingr_write: result 28, 0 wanted",
        Change::Miscode(miscut::ZERO_RUN_IN_PAIRS),
    ),
    defect("packs-lowest-first", OUTPUT, Change::Miscode(mispack::LOWEST_WRITTEN)),
    defect("packs-first-byte-first", OUTPUT, Change::Miscode(mispack::FIRST_BYTE_WRITTEN)),
    defect("last-word-not-written", OUTPUT, Change::Miscode(mispack::WORD_NOT_WRITTEN)),
    defect("spare-bits-written", OUTPUT, Change::Miscode(mispack::SPARE_WRITTEN)),
    defect(
        "write-type-1-refused",
        "ingr_write: result 16, 0 wanted",
        Change::Write(|given, out, answer| match c::write(given, out, answer) {
            0 if given.kind == 1 => 16,
            number => number,
        }),
    ),
    // Moving.
    defect(
        "move-29-late",
        "ingr_move: result 28, 29 wanted",
        Change::Move(|file, out, answer| {
            match c::transcode(file, &mut out.to_vec(), &mut [0; MOVE_ANSWER]) {
                0 => c::transcode(file, out, answer),
                number => number,
            }
        }),
    ),
    defect(
        "move-3-taken",
        "ingr_move: result 0, 29 wanted",
        Change::Move(|file, out, answer| {
            one_less([0; MOVE_ANSWER], answer, |to| c::transcode(file, out, to))
        }),
    ),
    defect(
        "move-4-refused",
        "ingr_move: result 29, ",
        Change::Move(|file, out, answer| match answer.len() {
            MOVE_ANSWER => SHORT_ANSWER,
            _ => c::transcode(file, out, answer),
        }),
    ),
    defect(
        "move-answers-refused",
        "ingr_move: answer: byte 0 of ",
        Change::Move(|file, out, answer| match c::transcode(file, out, answer) {
            41 => clear(answer, 41),
            number => number,
        }),
    ),
    defect(
        "move-past-numbers",
        "ingr_move: answer: byte 4 of ",
        Change::Move(|file, out, answer| {
            past(MOVE_ANSWER, answer, |answer| c::transcode(file, out, answer))
        }),
    ),
    defect("move-42-before-41", "result 42, 41 wanted", Change::Move(mismove::forty_two_first)),
    defect(
        "move-41-before-30",
        "result 41, 30 wanted",
        Change::Move(mismove::forty_one_before_thirty),
    ),
    defect("move-30-before-22", "result 30, 22 wanted", Change::Move(mismove::thirty_before_21)),
    defect(
        "move-28-before-27",
        "result 28, 27 wanted",
        Change::Move(mismove::twenty_eight_before_27),
    ),
    defect("move-header-then-28", MOVED, Change::Move(mismove::header_then_28)),
    defect(
        "move-answer-then-28",
        "ingr_move: answer: byte ",
        Change::Move(mismove::answer_then_28),
    ),
    defect("move-clears-output", MOVED, Change::Move(mismove::output_cleared)),
    defect(
        "move-answers-old-length",
        "ingr_move: answer: byte ",
        Change::Move(mismove::old_length),
    ),
    defect("move-renews-header", MOVED, Change::Mismove(mismove::HEADER_RENEWED)),
    defect("move-stamps-header", MOVED, Change::Mismove(mismove::HEADER_STAMPED)),
    defect("move-keeps-two-blocks", MOVED, Change::Mismove(mismove::TWO_BLOCKS_KEPT)),
    defect("move-keeps-type", "output: byte 4 of ", Change::Mismove(mismove::TYPE_KEPT)),
    defect("move-renews-identifier", MOVED, Change::Mismove(mismove::IDENTIFIER_RENEWED)),
    defect("move-keeps-w", MOVED, Change::Mismove(mismove::W_KEPT)),
    defect("move-counts-w-from-start", MOVED, Change::Mismove(mismove::W_FROM_START)),
    defect("move-keeps-rest", "ingr_move: ", Change::Mismove(mismove::REST_KEPT)),
    defect("move-takes-offsets", ", 42 wanted", Change::Mismove(mismove::OFFSETS_TAKEN)),
    defect("move-takes-spare-bits", "result 0, 41 wanted", Change::Mismove(mismove::SPARE_TAKEN)),
    defect("move-sets-spare-bits", MOVED, Change::Mismove(mismove::SPARE_SET)),
    defect("move-cuts-nothing", MOVED, Change::Mismove(mismove::NOT_CUT)),
    defect("move-goes-word-by-word", "ingr_move: ", Change::Mismove(mismove::WORD_BY_WORD)),
    defect("move-makes-black-white", "ingr_move: ", Change::Mismove(mismove::BLACK_WHITE)),
    defect(
        "move-refuses-all",
        "ingr_move: result 41, 0 wanted",
        Change::Move(|file, out, answer| match c::transcode(file, out, answer) {
            0 => 41,
            number => number,
        }),
    ),
    // Lines past 65,535.
    of_long("rolls-to-0-always", EDGES, MARKS, Change::Misnumber(misnumber::ALWAYS_TO_0)),
    of_long("rolls-to-1-always", EDGES, MARKS, Change::Misnumber(misnumber::ALWAYS_TO_1)),
    of_long("never-rolls", EDGES, MARKS, Change::Misnumber(misnumber::NEVER)),
    of_long("numbers-unseen-past-65535", EDGES, MARKS, Change::Misnumber(misnumber::UNSEEN)),
    of_long("second-roll-to-0", EDGES, MARKS, Change::Misnumber(misnumber::SECOND_TO_0)),
    of_long("second-roll-early", EDGES, MARKS, Change::Misnumber(misnumber::SECOND_EARLY)),
    of_long("decided-by-65535", EDGES, MARKS, Change::Misnumber(misnumber::DECIDED_BEFORE)),
    of_long("decided-by-65537", EDGES, MARKS, Change::Misnumber(misnumber::DECIDED_AFTER)),
    of_long("decided-anew", EDGES, MARKS, Change::Misnumber(misnumber::DECIDED_ANEW)),
    of_long("neither-rolls-to-1", EDGES, MARKS, Change::Misnumber(misnumber::NEITHER_TO_1)),
    of_long("only-good-decides", EDGES, MARKS, Change::Misnumber(misnumber::ONLY_GOOD_DECIDES)),
    of_long(
        "body-decides",
        PAIRS,
        "demand 3: line 65536 ",
        Change::Misnumber(misnumber::BODY_DECIDES),
    ),
    of_long("writes-roll-to-1", PICTURES, OUTPUT, Change::Write(misnumber::writes_to_1)),
    of_long(
        "move-renumbers",
        MOVES,
        "there and back: other bytes come back",
        Change::Move(misnumber::moves_anew),
    ),
    of_long(
        "move-refuses-roll-to-1",
        MOVES,
        "there and back: refused",
        Change::Move(misnumber::moves_to_0),
    ),
    of_long(
        "move-numbers-unseen",
        MOVES,
        "ingr_move: result 0, 41 wanted",
        Change::Move(misnumber::moves_unseen),
    ),
    // Numbers of lines, and what they are multiplied to.
    of_long(
        "header-65536-refused",
        LINE_COUNTS,
        "ingr_header: result 20, 0 wanted",
        Change::Header(|file, answer| up_to_65535(c::header(file, answer), lines_of(file))),
    ),
    of_long(
        "raster-65536-refused",
        LINE_COUNTS,
        "ingr_raster: result 20, 1 wanted",
        Change::Raster(|file, pixels, marks, answer| {
            up_to_65535(c::raster(file, pixels, marks, answer), lines_of(file))
        }),
    ),
    of_long(
        "write-65536-refused",
        PICTURES,
        "ingr_write: result 20, 0 wanted",
        Change::Write(|given, out, answer| {
            up_to_65535(c::write(given, out, answer), given.nol.into())
        }),
    ),
    of_long(
        "turn-65536-refused",
        LINE_COUNTS,
        "ingr_turn: result 20, 0 wanted",
        Change::Turn(|given, filled| up_to_65535(c::turn(given, filled), given.nol.into())),
    ),
    of_long(
        "move-65536-refused",
        LINE_COUNTS,
        "ingr_move: result 20, 41 wanted",
        Change::Move(|file, out, answer| match c::transcode(file, out, answer) {
            0 | 41 if lines_of(file) > 65_535 => 20,
            number => number,
        }),
    ),
    of_long(
        "header-1000001-taken",
        LINE_COUNTS,
        "ingr_header: result 0, 20 wanted",
        Change::Header(|file, answer| c::header(&with_one_more_taken(file), answer)),
    ),
    of_long(
        "raster-1000001-taken",
        LINE_COUNTS,
        "ingr_raster: result 1, 20 wanted",
        Change::Raster(|file, pixels, marks, answer| {
            c::raster(&with_one_more_taken(file), pixels, marks, answer)
        }),
    ),
    of_long(
        "write-1000001-taken",
        LINE_COUNTS,
        ", 20 wanted",
        Change::Write(|given, out, answer| {
            c::write(&Write { nol: one_more_taken(given.nol), ..*given }, out, answer)
        }),
    ),
    of_long(
        "turn-1000001-taken",
        LINE_COUNTS,
        ", 20 wanted",
        Change::Turn(|given, filled| {
            c::turn(&Turn { nol: one_more_taken(given.nol), ..*given }, filled)
        }),
    ),
    of_long(
        "move-1000001-taken",
        LINE_COUNTS,
        "ingr_move: result 41, 20 wanted",
        Change::Move(|file, out, answer| c::transcode(&with_one_more_taken(file), out, answer)),
    ),
    // None of these touches a buffer that is too short.
    of_long(
        "raster-product-in-32-bits",
        LINE_COUNTS,
        "ingr_raster: result 1, 23 wanted",
        Change::Raster(|file, pixels, marks, answer| {
            match c::raster(file, pixels, marks, answer) {
                23 if hold_in_32_bits(pixels.len(), 2 * size_of_sheet(file) as u64) => 1,
                number => number,
            }
        }),
    ),
    of_long(
        "turn-product-in-32-bits",
        LINE_COUNTS,
        "ingr_turn: result 0, 23 wanted",
        Change::Turn(|given, filled| match c::turn(given, filled) {
            23 if hold_in_32_bits(
                given.pixels.len(),
                u64::from(given.ppl) * u64::from(given.nol),
            ) =>
            {
                0
            }
            number => number,
        }),
    ),
    of_long(
        "write-product-in-32-bits",
        LINE_COUNTS,
        "ingr_write: result 28, 23 wanted",
        Change::Write(|given, out, answer| match c::write(given, out, answer) {
            23 if hold_in_32_bits(
                given.pixels.len(),
                u64::from(given.ppl) * u64::from(given.nol),
            ) =>
            {
                28
            }
            number => number,
        }),
    ),
    defect(
        "runs-on",
        "runs on",
        Change::Header(|file, answer| {
            let result = c::header(file, answer);
            if result == 22 {
                std::thread::sleep(Duration::MAX);
            }
            result
        }),
    ),
    // Bytes that no call may touch.
    defect(
        "writes-before-pixels",
        "pixels: guard, 1 before its start,",
        Change::Touch("pixels", |_| Some(-1)),
    ),
    defect("writes-behind-pixels", "pixels: guard, 0 past its end,", Change::Touch("pixels", Some)),
    defect("writes-behind-marks", "marks: guard, 0 past its end,", Change::Touch("marks", Some)),
    defect(
        "writes-before-answer",
        "answer: guard, 4 before its start,",
        Change::Touch("answer", |_| Some(-4)),
    ),
    defect(
        "writes-behind-output",
        "output: guard, 1 past its end,",
        Change::Touch("output", |len| Some(len + 1)),
    ),
    defect(
        "writes-behind-upright",
        "upright: guard, 1 past its end,",
        Change::Touch("upright", |len| Some(len + 1)),
    ),
    defect("changes-file", "file: byte 0 of ", Change::Touch("file", |len| (len > 0).then_some(0))),
    defect(
        "changes-table",
        "table: byte 767 of 768",
        Change::Touch("table", |len| (len == 768).then_some(767)),
    ),
    defect(
        "changes-written-pixels",
        "ingr_write: pixels: byte 0 of ",
        Change::Touch("written", |len| (len > 0).then_some(0)),
    ),
    defect(
        "changes-turned-pixels",
        "ingr_turn: pixels: byte 0 of ",
        Change::Touch("turned", |len| (len > 0).then_some(0)),
    ),
    defect(
        "changes-moved-file",
        "ingr_move: file: byte 0 of ",
        Change::Touch("moved", |len| (len > 0).then_some(0)),
    ),
    defect(
        "writes-behind-moved",
        "ingr_move: output: guard, 0 past its end,",
        Change::Touch("place", Some),
    ),
];

pub fn defects() -> impl Iterator<Item = &'static Defect> {
    DEFECTS.iter().chain(colors::all())
}

/// What is told of marks.
const MARKS: &str = "ingr_raster: ";
/// What is told of bytes in the output of the writer, and of the move.
const OUTPUT: &str = "ingr_write: output: byte ";
const MOVED: &str = "ingr_move: output: byte ";

/// The last picture read.
static LAST: Mutex<Vec<u8>> = Mutex::new(Vec::new());

/// Looks at the length of an answer last of all.
fn late<const N: usize>(
    mut whole: [u8; N],
    answer: &mut [u8],
    call: impl Fn(&mut [u8]) -> u32,
) -> u32 {
    match call(&mut whole) {
        0 => call(answer),
        number => number,
    }
}

/// Takes an answer slice that is one byte too short.
fn one_less<const N: usize>(
    mut whole: [u8; N],
    answer: &mut [u8],
    call: impl FnOnce(&mut [u8]) -> u32,
) -> u32 {
    if answer.len() != N - 1 {
        return call(answer);
    }
    let result = call(&mut whole);
    if result <= 1 {
        answer.copy_from_slice(&whole[..N - 1]);
    }
    result
}

/// Writes a byte past the numbers, if there is one.
fn past(needed: usize, answer: &mut [u8], call: impl FnOnce(&mut [u8]) -> u32) -> u32 {
    let result = call(answer);
    if let (0 | 1, Some(byte)) = (result, answer.get_mut(needed)) {
        *byte = 0;
    }
    result
}

fn clear(bytes: &mut [u8], number: u32) -> u32 {
    bytes.fill(0);
    number
}

/// The pixels of a sheet whose header is accepted.
fn size_of_sheet(file: &[u8]) -> usize {
    (long(file, 184) * long(file, 188)) as usize
}

/// Changes the rows that have one of these marks; a row is told where it starts.
fn under_marks(
    file: &[u8],
    pixels: &mut [u8],
    marks: &mut [u8],
    answer: &mut [u8],
    chosen: std::ops::Range<u8>,
    mut change: impl FnMut(&mut [u8], usize),
) -> u32 {
    let result = c::raster(file, pixels, marks, answer);
    if result <= 1 {
        let (width, lines) = (2 * long(file, 184) as usize, long(file, 188) as usize);
        for (i, row) in pixels.chunks_mut(width).take(lines).enumerate() {
            if chosen.contains(&marks[i]) {
                change(row, i * width);
            }
        }
    }
    result
}

/// Reads a sheet whose lines are misread.
fn misread_raster(
    file: &[u8],
    pixels: &mut [u8],
    marks: &mut [u8],
    answer: &mut [u8],
    wrong: Misreading,
) -> u32 {
    let held = probe::pixels_of(pixels);
    match (c::raster(file, pixels, marks, answer), sheet::read(file, u64::MAX, u64::MAX)) {
        (0 | 1, Ok(mut found)) => {
            misread(file, &mut found, &held, wrong);
            c::leave(&found, pixels, marks, answer)
        }
        (number, _) => number,
    }
}

/// Reads a sheet whose lines are misnumbered.
fn misnumbered_raster(
    file: &[u8],
    pixels: &mut [u8],
    marks: &mut [u8],
    answer: &mut [u8],
    wrong: Rule,
) -> u32 {
    match (c::raster(file, pixels, marks, answer), sheet::read(file, u64::MAX, u64::MAX)) {
        (0 | 1, Ok(mut found)) => {
            misnumber(file, &mut found, wrong);
            c::leave(&found, pixels, marks, answer)
        }
        (number, _) => number,
    }
}

/// NOL, if there is so much of a file.
fn lines_of(file: &[u8]) -> u64 {
    file.get(188..192).map_or(0, |bytes| long(bytes, 0))
}

/// Refuses what has more lines than a word counts.
fn up_to_65535(number: u32, lines: u64) -> u32 {
    match number {
        0 | 1 if lines > 65_535 => 20,
        _ => number,
    }
}

/// A line more than there may be, taken for as many.
fn one_more_taken(lines: u32) -> u32 {
    if lines == MOST_LINES + 1 {
        MOST_LINES
    } else {
        lines
    }
}

/// The same in a file.
fn with_one_more_taken(file: &[u8]) -> Vec<u8> {
    let mut file = file.to_vec();
    if file.len() >= 192 {
        let lines = one_more_taken(long(&file, 188) as u32);
        file[188..192].copy_from_slice(&lines.to_le_bytes());
    }
    file
}

/// Whether so many hold as much as 32 bits take a number for.
fn hold_in_32_bits(length: usize, needed: u64) -> bool {
    length as u64 >= needed % (1 << 32)
}

/// The defect that is played in this process.
static PLAYED: OnceLock<&'static Defect> = OnceLock::new();

/// The table of a stand-in. One process plays one.
pub fn table(name: &str) -> Option<Calls> {
    let defect = defects().find(|defect| defect.name == name)?;
    PLAYED.set(defect).ok()?;
    let turn = turn_upright;
    Some(Calls { header, raster, color, plotter_color, turn, turn_back, write, transcode })
}

fn played() -> &'static Change {
    PLAYED.get().map_or(&Change::None, |defect| &defect.change)
}

/// Does to a buffer what the defect does.
unsafe fn touch<T>(name: &str, at: *const T, len: usize) {
    let Change::Touch(chosen, place) = played() else {
        return;
    };
    if *chosen == name {
        if let Some(offset) = place((size_of::<T>() * len) as isize) {
            *at.cast_mut().cast::<u8>().wrapping_offset(offset) ^= 0x40;
        }
    }
}

unsafe extern "C" fn header(file: *const u8, n: usize, answer: *mut u8, len: usize) -> u32 {
    let call = if let Change::Header(call) = played() { *call } else { c::header };
    let result = call(from_raw_parts(file, n), from_raw_parts_mut(answer, len));
    touch("file", file, n);
    touch("answer", answer, len);
    result
}

unsafe extern "C" fn color(
    file: *const u8,
    n: usize,
    value: u32,
    answer: *mut u8,
    len: usize,
) -> u32 {
    let (given, numbers) = (from_raw_parts(file, n), from_raw_parts_mut(answer, len));
    let result = colored((ColorCall::Color, c::color), given, value, numbers);
    touch("colored", file, n);
    touch("color", answer, len);
    result
}

unsafe extern "C" fn plotter_color(
    file: *const u8,
    n: usize,
    value: u32,
    answer: *mut u8,
    len: usize,
) -> u32 {
    let (given, numbers) = (from_raw_parts(file, n), from_raw_parts_mut(answer, len));
    let result = colored((ColorCall::Plotter, c::plotter_color), given, value, numbers);
    touch("plotted", file, n);
    touch("plotter", answer, len);
    result
}

fn colored((call, right): (ColorCall, Color), file: &[u8], value: u32, answer: &mut [u8]) -> u32 {
    match played() {
        Change::Color(of, wrong) if *of == call => wrong(right, file, value, answer),
        Change::Coloring(of, wrong) if *of == call => c::color_by(*wrong, file, value, answer),
        _ => right(file, value, answer),
    }
}

unsafe extern "C" fn raster(
    file: *const u8,
    n: usize,
    pixels: *mut u8,
    pixels_len: usize,
    marks: *mut u8,
    marks_len: usize,
    answer: *mut u8,
    len: usize,
) -> u32 {
    let given = from_raw_parts(file, n);
    let rows = from_raw_parts_mut(pixels, pixels_len);
    let (marked, numbers) = (from_raw_parts_mut(marks, marks_len), from_raw_parts_mut(answer, len));
    let result = match played() {
        Change::Raster(call) => call(given, rows, marked, numbers),
        Change::Misread(wrong) => misread_raster(given, rows, marked, numbers, *wrong),
        Change::Unpack(wrong) => c::raster_by(wrong, given, rows, marked, numbers),
        Change::Misnumber(wrong) => misnumbered_raster(given, rows, marked, numbers, *wrong),
        _ => c::raster(given, rows, marked, numbers),
    };
    if let (Change::Behind(chosen), 0 | 1) = (played(), result) {
        if pixels_len == 2 * size_of_sheet(given) && chosen(given) {
            *pixels.wrapping_add(pixels_len) ^= 0x40;
        }
    }
    touch("file", file, n);
    touch("pixels", pixels, pixels_len);
    touch("marks", marks, marks_len);
    touch("answer", answer, len);
    result
}

unsafe extern "C" fn turn_upright(
    slo: u32,
    ppl: u32,
    nol: u32,
    pixels: *const u16,
    n: usize,
    upright: *mut u16,
    len: usize,
) -> u32 {
    turned(false, [slo, ppl, nol], (pixels, n), (upright, len))
}

unsafe extern "C" fn turn_back(
    slo: u32,
    ppl: u32,
    nol: u32,
    upright: *const u16,
    n: usize,
    pixels: *mut u16,
    len: usize,
) -> u32 {
    turned(true, [slo, ppl, nol], (upright, n), (pixels, len))
}

unsafe fn turned(
    back: bool,
    numbers: [u32; 3],
    read: (*const u16, usize),
    filled: (*mut u16, usize),
) -> u32 {
    let call = if let Change::Turn(call) = played() { *call } else { c::turn };
    let [slo, ppl, nol] = numbers;
    let given = Turn { back, slo, ppl, nol, pixels: from_raw_parts(read.0, read.1) };
    let result = call(&given, from_raw_parts_mut(filled.0, filled.1));
    touch("turned", read.0, read.1);
    touch("upright", filled.0, filled.1);
    result
}

unsafe extern "C" fn write(
    kind: u32,
    ppl: u32,
    nol: u32,
    slo: u32,
    scn: u32,
    drs: u32,
    table: *const u8,
    table_len: usize,
    pixels: *const u16,
    n: usize,
    out: *mut u8,
    out_len: usize,
    answer: *mut u8,
    len: usize,
) -> u32 {
    let given = Write {
        kind,
        ppl,
        nol,
        slo,
        scn,
        drs,
        table: from_raw_parts(table, table_len),
        pixels: from_raw_parts(pixels, n),
    };
    let (place, numbers) = (from_raw_parts_mut(out, out_len), from_raw_parts_mut(answer, len));
    let result = match played() {
        Change::Write(call) => call(&given, place, numbers),
        Change::Miscode(wrong) => c::write_by(wrong, &given, place, numbers),
        _ => c::write(&given, place, numbers),
    };
    touch("table", table, table_len);
    touch("written", pixels, n);
    touch("output", out, out_len);
    touch("answer", answer, len);
    result
}

unsafe extern "C" fn transcode(
    file: *const u8,
    n: usize,
    out: *mut u8,
    out_len: usize,
    answer: *mut u8,
    len: usize,
) -> u32 {
    let given = from_raw_parts(file, n);
    let (place, numbers) = (from_raw_parts_mut(out, out_len), from_raw_parts_mut(answer, len));
    let result = match played() {
        Change::Move(call) => call(given, place, numbers),
        Change::Mismove(wrong) => c::transcode_by(wrong, given, place, numbers),
        _ => c::transcode(given, place, numbers),
    };
    touch("moved", file, n);
    touch("place", out, out_len);
    touch("answer", answer, len);
    result
}
