//! Movers that are wrong, for the stand-ins of the C function. All but what is wrong is the model's.

use crate::model::c::{self, MOVE_ANSWER};
use crate::model::sheet;
use crate::model::transcode::{starts_partway, with, Manner, RIGHT};
use crate::model::writer::{self, levels, packed, Coding};
use crate::model::{header, long, word};
use crate::{miscut, mispack};

pub const HEADER_RENEWED: Manner = Manner {
    // UTC is among the bytes that the writer makes 0.
    header: |old, kind| with(&with(old, 4, kind), 6, 0),
    ..RIGHT
};

/// One more at every move.
pub const HEADER_STAMPED: Manner = Manner {
    header: |old, kind| with(&with(old, 4, kind), 6, (word(old, 6) as u16).wrapping_add(1)),
    ..RIGHT
};

/// Zeros past the first two blocks.
pub const TWO_BLOCKS_KEPT: Manner = Manner {
    header: |old, kind| {
        let mut blocks = with(old, 4, kind);
        blocks[1_024..].fill(0);
        blocks
    },
    ..RIGHT
};

pub const TYPE_KEPT: Manner = Manner { header: |old, _| old.to_vec(), ..RIGHT };

pub const IDENTIFIER_RENEWED: Manner =
    Manner { line: |old, body| with(&(RIGHT.line)(old, body), 0, 0x5900), ..RIGHT };

pub const W_KEPT: Manner = Manner { line: |old, _| old.to_vec(), ..RIGHT };

/// W counted from the line's start.
pub const W_FROM_START: Manner =
    Manner { line: |old, body| with(old, 2, (body.len() / 2 + 4) as u16), ..RIGHT };

pub const REST_KEPT: Manner = Manner { rest_kept: true, ..RIGHT };

pub const OFFSETS_TAKEN: Manner = Manner { offsets_taken: true, ..RIGHT };

pub const SPARE_TAKEN: Manner = Manner { unpacking: mispack::SPARE_TAKEN, ..RIGHT };

/// Spare bits like the last pixel.
pub const SPARE_SET: Manner = Manner { coding: mispack::SPARE_WRITTEN, ..RIGHT };

/// Long runs in one piece.
pub const NOT_CUT: Manner = Manner { coding: miscut::NOTHING, ..RIGHT };

/// ON pixels OFF and OFF ones ON: twice moved they are as they were.
pub const BLACK_WHITE: Manner = Manner {
    coding: Coding {
        packed: |row| packed(&negative(row)),
        levels: |row| levels(&negative(row), writer::cut),
        ..writer::RIGHT
    },
    ..RIGHT
};

fn negative(row: &[u16]) -> Vec<u16> {
    row.iter().map(|pixel| 1 - pixel).collect()
}

/// The runs of each word by themselves, with zero runs where one goes on in the next.
pub const WORD_BY_WORD: Manner = Manner {
    coding: Coding {
        levels: |row| {
            let mut all: Vec<u16> = Vec::new();
            for part in row.chunks(16) {
                let runs = levels(part, writer::cut);
                // Both end OFF: a run of no pixels parts them.
                all.extend((!all.is_empty()).then_some(0));
                all.extend(runs);
            }
            all
        },
        ..writer::RIGHT
    },
    ..RIGHT
};

pub fn forty_two_first(file: &[u8], out: &mut [u8], answer: &mut [u8]) -> u32 {
    match (c::transcode(file, out, answer), sheet::read(file, u64::MAX, u64::MAX)) {
        (41, Ok(found)) if starts_partway(file, &found) => 42,
        (number, _) => number,
    }
}

/// Refused lines looked for before the type is.
pub fn forty_one_before_thirty(file: &[u8], out: &mut [u8], answer: &mut [u8]) -> u32 {
    match (c::transcode(file, out, answer), sheet::read(file, u64::MAX, u64::MAX)) {
        (30, Ok(found)) if found.answer() == 1 => 41,
        (number, _) => number,
    }
}

/// The type looked at before the color table is.
pub fn thirty_before_21(file: &[u8], out: &mut [u8], answer: &mut [u8]) -> u32 {
    match c::transcode(file, out, answer) {
        21 | 22 if !matches!(file[4], 1 | 9) => 30,
        number => number,
    }
}

pub fn twenty_eight_before_27(file: &[u8], out: &mut [u8], answer: &mut [u8]) -> u32 {
    match c::transcode(file, out, answer) {
        27 if out.len() < 65_535 => 28,
        number => number,
    }
}

/// The header blocks written, and then refused.
pub fn header_then_28(file: &[u8], out: &mut [u8], answer: &mut [u8]) -> u32 {
    let number = c::transcode(file, out, answer);
    if let (28, Ok(found)) = (number, header::read(file)) {
        out.iter_mut().zip(&file[..found.size()]).for_each(|(place, &byte)| *place = byte);
    }
    number
}

pub fn answer_then_28(file: &[u8], out: &mut [u8], answer: &mut [u8]) -> u32 {
    let number = c::transcode(file, out, answer);
    if number == 28 {
        c::put_numbers(&mut answer[..MOVE_ANSWER], &[0]);
    }
    number
}

/// The output past the file cleared.
pub fn output_cleared(file: &[u8], out: &mut [u8], answer: &mut [u8]) -> u32 {
    let number = c::transcode(file, out, answer);
    if number == 0 {
        let length = long(answer, 0) as usize;
        out[length..].fill(0);
    }
    number
}

/// The length of the sheet that was moved answered.
pub fn old_length(file: &[u8], out: &mut [u8], answer: &mut [u8]) -> u32 {
    let number = c::transcode(file, out, answer);
    if number == 0 {
        c::put_numbers(&mut answer[..MOVE_ANSWER], &[file.len() as u64]);
    }
    number
}
