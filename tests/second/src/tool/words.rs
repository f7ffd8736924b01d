//! The words for numbers, by the manual page: sentences of refusals and marks, types, orientations,
//! and how lines and ranges of them are told.

use crate::model::header::{Header, Resolution};
use crate::model::sheet::Sheet;

pub fn refusal(number: u32) -> &'static str {
    match number {
        10 => "longer than 2,147,483,647 bytes",
        11 => "shorter than 1,024 bytes",
        12 => "no INGR file: HTC is not 0908h",
        13 => "the header is not of whole blocks: WTF is not 256n - 2 for an n from 2 to 256",
        14 => "the header runs past the file",
        15 => "VER, the version, is not 3",
        16 => "the data type is not 1, 2, 3, 9 or 10",
        17 => "SLO, the orientation, is above 7",
        18 => "SCN, 1 with line headers, is above 1",
        19 => "PPL, the pixels per line, is 0 or above 65,535",
        20 => "NOL, the number of lines, is 0 or above 1,000,000",
        21 => "the color table is of no known kind or does not fit the header",
        22 => "two entries of the color table share a slot",
        26 => "a pixel is above the highest of the data type",
        27 => "the body of a line is longer than 65,533 words, which its header cannot say",
        30 => "neither of type 1 nor of type 9",
        41 => "a line is refused",
        42 => "a line does not start at its row's first pixel",
        _ => unreachable!("no file is refused with {number}"),
    }
}

pub fn mark(mark: u8) -> &'static str {
    match mark {
        1 => "header, body or next run goes past the file",
        2 => "the identifier's high byte is not 59h",
        3 => "words to follow are below 2",
        4 => "the line number is not the one wanted",
        5 => "the pixel offset is past the line's end",
        6 => "a wrong count of words",
        7 => "the runs total too much",
        8 => "the runs total too little",
        9 => "after a lost line, so nothing is known",
        10 => "a bit that is no pixel's is set",
        _ => unreachable!("no line is marked {mark}"),
    }
}

pub fn refused(number: u32) -> String {
    format!("{} ({number})", refusal(number))
}

pub fn kind(kind: u64) -> &'static str {
    match kind {
        1 => "packed bi-level",
        2 => "bytes",
        3 => "16-bit words",
        9 => "run-length bi-level",
        _ => "run-length color",
    }
}

pub fn orientation(slo: u64) -> String {
    let lines = if slo >= 4 { "rows" } else { "columns" };
    let corner = ["upper left", "upper right", "lower left", "lower right"][slo as usize % 4];
    format!("lines are {lines}, the first pixel is at the {corner}")
}

pub fn resolution(resolution: Resolution) -> String {
    match resolution {
        Resolution::None => "none".to_string(),
        Resolution::Microns(1) => "1 micron".to_string(),
        Resolution::Microns(size) => format!("{size} microns"),
        Resolution::DotsPerInch(1) => "1 dot per inch".to_string(),
        Resolution::DotsPerInch(size) => format!("{size} dots per inch"),
    }
}

pub fn table(header: &Header) -> String {
    match (header.ctv, header.cte) {
        (0, _) => "none".to_string(),
        (1, _) => "IGDS".to_string(),
        (_, 1) => "Environ-V, 1 entry".to_string(),
        (_, count) => format!("Environ-V, {count} entries"),
    }
}

pub fn yes(scn: u64) -> &'static str {
    if scn == 1 {
        "yes"
    } else {
        "no"
    }
}

/// `1 byte`, `2 bytes`.
pub fn count(number: usize, what: &str) -> String {
    let ending = if number == 1 { "" } else { "s" };
    format!("{number} {what}{ending}")
}

/// Refused lines of so many.
pub fn some_of(refused: usize, nol: usize) -> String {
    format!("{refused} of {}", count(nol, "line"))
}

/// `line 4` or `lines 4-7`.
pub fn range(first: usize, last: usize) -> String {
    match first == last {
        true => format!("line {first}"),
        false => format!("lines {first}-{last}"),
    }
}

/// Ranges of neighbors of which the same holds, and something does, as the first and the last number
/// with it; the first neighbor has this number.
pub fn ranges<T: PartialEq + Copy>(from: usize, all: &[Option<T>]) -> Vec<(usize, usize, T)> {
    let mut list: Vec<(usize, usize, T)> = Vec::new();
    for (number, held) in (from..).zip(all) {
        match (held, list.last_mut()) {
            (Some(held), Some((_, last, same))) if *last + 1 == number && *same == *held => {
                *last = number;
            }
            (Some(held), _) => list.push((number, number, *held)),
            (None, _) => {}
        }
    }
    list
}

/// The marks of refused lines, from this one on, as ranges.
pub fn refused_ranges(from: usize, marks: &[u8]) -> Vec<(usize, usize, u8)> {
    let held: Vec<Option<u8>> = marks.iter().map(|&mark| Some(mark).filter(|&m| m > 0)).collect();
    ranges(from, &held)
}

/// A range of refused lines on each line, below what is said of their sheet.
pub fn listing(from: usize, marks: &[u8]) -> String {
    let line = |&(first, last, found): &(usize, usize, u8)| {
        format!("  {}: {} (mark {found})\n", range(first, last), mark(found))
    };
    refused_ranges(from, marks).iter().map(line).collect()
}

pub fn marks(sheet: &Sheet) -> Vec<u8> {
    sheet.lines.iter().map(|line| line.mark).collect()
}

pub fn count_refused(marks: &[u8]) -> usize {
    marks.iter().filter(|&&mark| mark > 0).count()
}

/// The line, from 1, after which nothing is known: with headers 1, 2 and 3 lose the chain, without
/// 1 and 7.
pub fn lost_line(sheet: &Sheet) -> Option<usize> {
    let loses = |mark: u8| match sheet.header.scn {
        1 => matches!(mark, 1..=3),
        _ => matches!(mark, 1 | 7),
    };
    sheet.lines.iter().position(|line| loses(line.mark)).map(|i| i + 1)
}

/// A number in groups of three digits.
pub fn grouped(number: u64) -> String {
    let digits = number.to_string();
    let mut text = String::new();
    for (i, digit) in digits.chars().enumerate() {
        if i > 0 && (digits.len() - i) % 3 == 0 {
            text.push(',');
        }
        text.push(digit);
    }
    text
}
