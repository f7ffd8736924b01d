//! Stand-ins for the two color calls. What both may do wrong is wrong in one of them at a time.

use super::{
    clear, defect, late, lines_of, of_long, one_less, past, up_to_65535, with_one_more_taken,
    Change, Defect,
};
use crate::calls::call::ColorCall::{Color, Plotter};
use crate::gen::long_calls::LINE_COUNTS;
use crate::miscolor;
use crate::model::c::{self, COLOR_ANSWER, SHORT_ANSWER};
use crate::model::header::{self, Header};
use crate::model::transcode;
use std::ops::RangeInclusive;

/// Every stand-in of this kind.
pub fn all() -> impl Iterator<Item = &'static Defect> {
    BOTH.iter().flatten().chain(&INK).chain(&PLOTTER)
}

/// The same in each of the calls.
macro_rules! both {
    ($made:ident, $name:literal, $($family:ident,)? $told:literal, $change:expr) => {
        [
            $made(
                concat!("color-", $name),
                $($family,)?
                concat!("ingr_color: ", $told),
                Change::Color(Color, $change),
            ),
            $made(
                concat!("plotter-", $name),
                $($family,)?
                concat!("ingr_plotter_color: ", $told),
                Change::Color(Plotter, $change),
            ),
        ]
    };
}

const BOTH: [[Defect; 2]; 24] = [
    // 29 after another number, missing, too early, too late.
    both!(defect, "29-late", "result 25, 29 wanted", |call, file, value, answer| {
        late([0; COLOR_ANSWER], answer, |to| call(file, value, to))
    }),
    both!(defect, "29-after-file", "result 11, 29 wanted", |call, file, value, answer| {
        match call(file, value, &mut [0; COLOR_ANSWER]) {
            number @ 10..=22 => number,
            _ => call(file, value, answer),
        }
    }),
    both!(defect, "29-missing", "result 0, 29 wanted", |call, file, value, answer| {
        let mut whole = [0; COLOR_ANSWER];
        match call(file, value, answer) {
            SHORT_ANSWER => {
                let result = call(file, value, &mut whole);
                if result == 0 {
                    answer.copy_from_slice(&whole[..answer.len()]);
                }
                result
            }
            number => number,
        }
    }),
    both!(defect, "11-taken", "result 0, 29 wanted", |call, file, value, answer| {
        one_less([0; COLOR_ANSWER], answer, |to| call(file, value, to))
    }),
    both!(defect, "12-refused", "result 29, ", |call, file, value, answer| match answer.len() {
        COLOR_ANSWER => SHORT_ANSWER,
        _ => call(file, value, answer),
    }),
    // Answers.
    both!(defect, "answers-25", "answer: byte 0 of ", |call, file, value, answer| {
        answered(25..=25, call(file, value, answer), answer)
    }),
    both!(defect, "answers-11-to-22", "answer: byte 0 of ", |call, file, value, answer| {
        answered(11..=22, call(file, value, answer), answer)
    }),
    both!(defect, "answers-29", "answer: byte 0 of ", |call, file, value, answer| {
        answered(29..=29, call(file, value, answer), answer)
    }),
    both!(defect, "past-numbers", "answer: byte 12 of ", |call, file, value, answer| {
        past(COLOR_ANSWER, answer, |to| call(file, value, to))
    }),
    both!(defect, "red-and-blue-exchanged", "answer: byte ", |call, file, value, answer| {
        let result = call(file, value, answer);
        if result == 0 {
            let (red, blue) = answer[..COLOR_ANSWER].split_at_mut(8);
            red[..4].swap_with_slice(blue);
        }
        result
    }),
    both!(defect, "high-byte-first", "answer: byte ", |call, file, value, answer| {
        let result = call(file, value, answer);
        if result == 0 {
            answer[..COLOR_ANSWER].chunks_mut(4).for_each(<[u8]>::reverse);
        }
        result
    }),
    both!(defect, "parts-of-two-bytes", "answer: byte ", |call, file, value, answer| {
        let before = answer.to_vec();
        let result = call(file, value, answer);
        if result == 0 {
            let parts = answer.chunks_mut(4).zip(before.chunks(4)).take(3);
            parts.for_each(|(part, old)| part[2..].copy_from_slice(&old[2..]));
        }
        result
    }),
    // Values.
    both!(defect, "value-in-16-bits", "result 0, 25 wanted", |call, file, value, answer| {
        call(file, value % 65_536, answer)
    }),
    both!(defect, "value-in-8-bits", "result 0, 25 wanted", |call, file, value, answer| {
        let by_slot = header_of(file).is_some_and(|header| header.ctv == 2);
        call(file, if by_slot { value } else { value % 256 }, answer)
    }),
    both!(defect, "256-gray", "result 0, 25 wanted", |call, file, value, answer| {
        match (call(file, value, answer), header_of(file)) {
            (25, Some(header)) if header.ctv == 0 && value == 256 => {
                c::put_numbers(answer, &[65_536; 3]);
                0
            }
            (number, _) => number,
        }
    }),
    both!(defect, "256-by-igds", "result 0, 25 wanted", |call, file, value, answer| {
        match (call(file, value, answer), header_of(file)) {
            (25, Some(header)) if header.ctv == 1 && value == 256 => call(file, 255, answer),
            (number, _) => number,
        }
    }),
    both!(defect, "igds-257", "answer: byte ", |call, file, value, answer| {
        let result = call(file, value, answer);
        if result == 0 && header_of(file).is_some_and(|header| header.ctv == 1) {
            answer[0] = answer[1];
        }
        result
    }),
    both!(defect, "255-white", "answer: byte ", |call, file, value, answer| {
        let result = call(file, value, answer);
        if result == 0 && value == 255 && header_of(file).is_some_and(|header| header.ctv == 0) {
            c::put_numbers(answer, &[65_535; 3]);
        }
        result
    }),
    both!(defect, "table-by-bytes-alone", "answer: byte ", |call, file, value, answer| {
        // An IGDS table looked for where CTV tells of none.
        match header_of(file) {
            Some(header) if header.ctv == 0 && header.blocks > 2 && value <= 1 => {
                call(&with_igds(file), value, answer)
            }
            _ => call(file, value, answer),
        }
    }),
    // Refusals.
    both!(defect, "25-first", "result 25, ", |call, file, value, answer| {
        match call(file, value, answer) {
            10..=22 if value > 65_535 => 25,
            number => number,
        }
    }),
    both!(defect, "25-as-22", "result 22, 25 wanted", |call, file, value, answer| {
        instead_of_25(22, call(file, value, answer))
    }),
    both!(defect, "25-as-0", "result 0, 25 wanted", |call, file, value, answer| {
        instead_of_25(0, call(file, value, answer))
    }),
    both!(
        of_long,
        "65536-refused",
        LINE_COUNTS,
        "result 20, 0 wanted",
        |call, file, value, answer| up_to_65535(call(file, value, answer), lines_of(file))
    ),
    both!(
        of_long,
        "1000001-taken",
        LINE_COUNTS,
        "result 0, 20 wanted",
        |call, file, value, answer| call(&with_one_more_taken(file), value, answer)
    ),
];

/// What is told of a color that is another, and of one that there should not be.
const OTHER: &str = "ingr_color: answer: byte ";
const TAKEN: &str = "ingr_color: result 0, 25 wanted";

const INK: [Defect; 26] = [
    defect("ink-and-paper-exchanged", OTHER, Change::Coloring(Color, miscolor::exchanged)),
    defect("paper-65280", OTHER, Change::Coloring(Color, miscolor::paper_65280)),
    defect("paper-0", OTHER, Change::Coloring(Color, miscolor::paper_0)),
    defect("ink-256", OTHER, Change::Coloring(Color, miscolor::ink_256)),
    defect("2-gray-still", TAKEN, Change::Coloring(Color, miscolor::gray_still::<2>)),
    defect("255-gray-still", TAKEN, Change::Coloring(Color, miscolor::gray_still::<255>)),
    defect("ink-of-2", TAKEN, Change::Coloring(Color, miscolor::ink_too::<2>)),
    defect("ink-of-255", TAKEN, Change::Coloring(Color, miscolor::ink_too::<255>)),
    defect("ink-of-256", TAKEN, Change::Coloring(Color, miscolor::ink_too::<256>)),
    defect("ink-of-a-byte", TAKEN, Change::Coloring(Color, miscolor::ink_of_byte)),
    defect("ink-in-type-2", OTHER, Change::Coloring(Color, miscolor::inked_too::<2>)),
    defect("ink-in-type-3", OTHER, Change::Coloring(Color, miscolor::inked_too::<3>)),
    defect("ink-in-type-10", OTHER, Change::Coloring(Color, miscolor::inked_too::<10>)),
    defect("no-ink-in-type-1", OTHER, Change::Coloring(Color, miscolor::not_inked::<1>)),
    defect("no-ink-in-type-9", OTHER, Change::Coloring(Color, miscolor::not_inked::<9>)),
    defect("no-ink", OTHER, Change::Coloring(Color, header::plotter_color)),
    defect("type-1-inked-over-igds", OTHER, Change::Coloring(Color, miscolor::inked_over::<1, 1>)),
    defect("type-9-inked-over-igds", OTHER, Change::Coloring(Color, miscolor::inked_over::<1, 9>)),
    defect(
        "type-1-inked-over-environ-v",
        OTHER,
        Change::Coloring(Color, miscolor::inked_over::<2, 1>),
    ),
    defect(
        "type-9-inked-over-environ-v",
        OTHER,
        Change::Coloring(Color, miscolor::inked_over::<2, 9>),
    ),
    defect("inked-without-slot", TAKEN, Change::Coloring(Color, miscolor::inked_without_slot)),
    defect(
        "ink-25-as-22",
        "ingr_color: result 22, 25 wanted",
        Change::Color(Color, |call, file, value, answer| {
            ink_instead_of_25(22, call(file, value, answer), file, value)
        }),
    ),
    defect(
        "ink-25-as-0",
        TAKEN,
        Change::Color(Color, |call, file, value, answer| {
            ink_instead_of_25(0, call(file, value, answer), file, value)
        }),
    ),
    defect("color-changes-file", "ingr_color: file: byte 0 of ", Change::Touch("colored", first)),
    defect(
        "color-writes-before-answer",
        "ingr_color: answer: guard, 1 before its start,",
        Change::Touch("color", |_| Some(-1)),
    ),
    defect(
        "color-writes-behind-answer",
        "ingr_color: answer: guard, 0 past its end,",
        Change::Touch("color", Some),
    ),
];

/// The same of the plotter.
const PLOTTED: &str = "ingr_plotter_color: answer: byte ";
const REFUSED: &str = "ingr_plotter_color: result 25, 0 wanted";

const PLOTTER: [Defect; 10] = [
    defect("plotter-inks-0", PLOTTED, Change::Coloring(Plotter, miscolor::plotter_inked::<0>)),
    defect("plotter-inks-1", PLOTTED, Change::Coloring(Plotter, miscolor::plotter_inked::<1>)),
    defect("plotter-refuses-2", REFUSED, Change::Coloring(Plotter, miscolor::plotter_inked::<2>)),
    defect(
        "plotter-refuses-255",
        REFUSED,
        Change::Coloring(Plotter, miscolor::plotter_inked::<255>),
    ),
    defect(
        "plotter-inks-type-1",
        PLOTTED,
        Change::Coloring(Plotter, miscolor::plotter_inked_in::<1>),
    ),
    defect(
        "plotter-inks-type-9",
        PLOTTED,
        Change::Coloring(Plotter, miscolor::plotter_inked_in::<9>),
    ),
    defect("plotter-inks-all", PLOTTED, Change::Coloring(Plotter, header::color)),
    defect(
        "plotter-changes-file",
        "ingr_plotter_color: file: byte 0 of ",
        Change::Touch("plotted", first),
    ),
    defect(
        "plotter-writes-before-answer",
        "ingr_plotter_color: answer: guard, 1 before its start,",
        Change::Touch("plotter", |_| Some(-1)),
    ),
    defect(
        "plotter-writes-behind-answer",
        "ingr_plotter_color: answer: guard, 0 past its end,",
        Change::Touch("plotter", Some),
    ),
];

/// The first byte, if there is one.
fn first(len: isize) -> Option<isize> {
    (len > 0).then_some(0)
}

fn header_of(file: &[u8]) -> Option<Header> {
    header::read(file).ok()
}

/// The same file, with its table area told to be an IGDS table.
fn with_igds(file: &[u8]) -> Vec<u8> {
    transcode::with(file, 532, 1)
}

/// Clears the answer of a call that is refused with one of these numbers.
fn answered(numbers: RangeInclusive<u32>, result: u32, answer: &mut [u8]) -> u32 {
    match numbers.contains(&result) {
        true => clear(answer, result),
        false => result,
    }
}

fn instead_of_25(other: u32, result: u32) -> u32 {
    match result {
        25 => other,
        number => number,
    }
}

/// The same of no value but such as is a gray to the plotter.
fn ink_instead_of_25(other: u32, result: u32, file: &[u8], value: u32) -> u32 {
    match header_of(file) {
        Some(header) if header.ctv == 0 && value <= 255 => instead_of_25(other, result),
        _ => result,
    }
}
