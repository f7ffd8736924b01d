//! Slices of more than 2 GB, for refusal 10. They are zeros that nobody has written, which take
//! no memory as long as that is so.

use super::bed::Bed;
use super::call::{held, Bench};
use crate::gen::put;
use crate::model::c::{
    self, COLOR_ANSWER, HEADER_ANSWER, MOVE_ANSWER, RASTER_ANSWER, SHORT_ANSWER, WRITE_ANSWER,
};
use crate::model::LONGEST_FILE;
use crate::report::{self, fault, Found};
use crate::rng::Rng;
use std::alloc::{alloc_zeroed, dealloc, Layout};

/// As long as the pixels of `WIDTH` x `HEIGHT`, which is more than a file may be.
const LENGTH: usize = 2 * WIDTH * HEIGHT;
/// Two bytes a pixel and a header are above the limit, and with a line less below it.
const WIDTH: usize = 65_535;
const HEIGHT: usize = 16_385;

struct Zeros {
    at: *mut u8,
    layout: Layout,
}

impl Zeros {
    fn new() -> Option<Zeros> {
        // Aligned to more, they would be written.
        let layout = Layout::from_size_align(LENGTH, 16).ok()?;
        // SAFETY: the length is not 0.
        let at = unsafe { alloc_zeroed(layout) };
        (!at.is_null()).then_some(Zeros { at, layout })
    }

    fn bytes(&mut self) -> &mut [u8] {
        // SAFETY: all of it is allocated and zeros.
        unsafe { std::slice::from_raw_parts_mut(self.at, LENGTH) }
    }
}

impl Drop for Zeros {
    fn drop(&mut self) {
        // SAFETY: it was allocated so.
        unsafe { dealloc(self.at, self.layout) }
    }
}

/// Every call with a file or a picture on both sides of the limit, and a sheet that nearly fills
/// the longest file.
pub fn check(bench: &Bench, reached: &mut Vec<String>) -> Found {
    let Some(mut zeros) = Zeros::new() else {
        return report::failed(fault("no memory for more than 2 GB".to_string(), Vec::new()));
    };
    let bytes = zeros.bytes();
    // A sheet of bytes without line headers, eight by three.
    put(bytes, 0, &[0x08, 0x09, 0xFE, 0x01, 2]);
    put(bytes, 184, &[8, 0, 0, 0, 3]);
    put(bytes, 194, &[5]);
    put(bytes, 511, &[3]);
    put(bytes, 1_030, &[77]);
    let mut rng = Rng::new(0, 0);
    let longest = LONGEST_FILE as usize;
    let mut found = write(bench, &mut rng, bytes, HEIGHT, 1, SHORT_ANSWER);
    for (height, number) in [(HEIGHT, 10), (HEIGHT - 1, 28)] {
        found = found.and(write(bench, &mut rng, bytes, height, 0, number));
        reached.push(format!("write refused {number}"));
    }
    for length in [longest - 1, longest, longest + 1, LENGTH] {
        for less in [0, 1] {
            let lengths = ANSWERS.map(|n| n - less);
            found = found.and(read(bench, &mut rng, &bytes[..length], lengths, reached));
        }
    }
    lay_long_lines(bytes);
    for length in [longest - 1, longest] {
        found = found.and(read(bench, &mut rng, &bytes[..length], ANSWERS, reached));
    }
    found.and(long_moves(bench, &mut rng, bytes, reached))
}

/// Of the calls that read a file.
const CALLS: [&str; 5] = ["header", "color", "raster", "move", "plotter_color"];
const ANSWERS: [usize; 5] = [HEADER_ANSWER, COLOR_ANSWER, RASTER_ANSWER, MOVE_ANSWER, COLOR_ANSWER];

/// Bytes of the longest line there is.
const LONGEST_LINE: usize = 4 + 2 * 65_535;

/// Makes a sheet of the longest lines, one pixel each, refused for their numbers, for offsets past
/// the pixel and for their bodies under offsets that are right. The last one runs past the file,
/// near its end.
fn lay_long_lines(bytes: &mut [u8]) {
    let lines = (LONGEST_FILE as usize - 1_024) / LONGEST_LINE + 1;
    put(bytes, 184, &[1, 0, 0, 0, lines as u8, (lines >> 8) as u8]);
    put(bytes, 195, &[1]);
    for i in 0..lines {
        let number = (i + 1 + i % 2) as u16;
        let [low, high] = number.to_le_bytes();
        let offset = 1 + u8::from(i % 16 < 14);
        put(bytes, 1_024 + i * LONGEST_LINE, &[0, 0x59, 0xFF, 0xFF, low, high, offset, 0]);
    }
}

fn read(
    bench: &Bench,
    rng: &mut Rng,
    file: &[u8],
    lengths: [usize; 5],
    reached: &mut Vec<String>,
) -> Found {
    let name = format!("file of {} bytes", file.len());
    let (file, len) = (file, file.len());
    let mut answers = lengths.map(|length| Bed::<u8>::dirty(rng, false, "answer", length));
    let mut pixels = Bed::<u8>::dirty(rng, false, "pixels", 40_000);
    let mut marks = Bed::<u8>::dirty(rng, false, "marks", 20_000);
    let mut out = Bed::<u8>::dirty(rng, false, "output", 2_000);
    let [mut header, mut color, mut raster, mut moved, mut plotted] = answers.clone();
    let mut buffers = (pixels.clone(), marks.clone(), out.clone());
    let wanted = [
        c::header(file, header.lent_mut()),
        c::color(file, 7, color.lent_mut()),
        c::raster(file, buffers.0.lent_mut(), buffers.1.lent_mut(), raster.lent_mut()),
        c::transcode(file, buffers.2.lent_mut(), moved.lent_mut()),
        c::plotter_color(file, 7, plotted.lent_mut()),
    ];
    for (call, number) in CALLS.iter().zip(wanted).filter(|(_, number)| *number > 1) {
        reached.push(format!("{call} refused {number}"));
    }
    let raw = answers.each_mut().map(Bed::raw);
    let ((row, row_len), (mark, mark_len), (to, to_len)) = (pixels.raw(), marks.raw(), out.raw());
    let at = file.as_ptr();
    // SAFETY: each slice is as long as is said, and none overlaps another.
    let results = unsafe {
        [
            (bench.calls.header)(at, len, raw[0].0, raw[0].1),
            (bench.calls.color)(at, len, 7, raw[1].0, raw[1].1),
            (bench.calls.raster)(at, len, row, row_len, mark, mark_len, raw[2].0, raw[2].1),
            (bench.calls.transcode)(at, len, to, to_len, raw[3].0, raw[3].1),
            (bench.calls.plotter_color)(at, len, 7, raw[4].0, raw[4].1),
        ]
    };
    let judge = |i: usize, held: &[_]| {
        let call = format!("ingr_{}", CALLS[i]);
        report::judge_call(&call, format_args!("({name})"), [wanted[i], results[i]], held)
    };
    judge(0, &[held(&header, &answers[0])])
        .and(judge(1, &[held(&color, &answers[1])]))
        .and(judge(
            2,
            &[held(&buffers.0, &pixels), held(&buffers.1, &marks), held(&raster, &answers[2])],
        ))
        .and(judge(3, &[held(&buffers.2, &out), held(&moved, &answers[3])]))
        .and(judge(4, &[held(&plotted, &answers[4])]))
}

/// The widest line of which no run is cut, its packed bytes, and so many lines that one more run makes
/// the file of their runs too long.
const UNCUT: usize = 32_767;
const PACKED: usize = 4_096;
const LINES: usize = 32_769;

/// Moves of packed lines whose pixels go by turns, OFF first, so that each is of `UNCUT` runs in type 9.
/// All but the last leave 64,511 of the bytes that a file may have; the last is of 32,255 runs, or two
/// more.
fn long_moves(bench: &Bench, rng: &mut Rng, bytes: &mut [u8], reached: &mut Vec<String>) -> Found {
    put(bytes, 4, &[1, 0]);
    let [ppl, nol] = [UNCUT, LINES].map(|side| (side as u32).to_le_bytes());
    put(bytes, 184, &[ppl, nol].concat());
    put(bytes, 195, &[0]);
    let file = &mut bytes[..1_024 + LINES * PACKED];
    file[1_024..].fill(0x55);
    file[1_024..].chunks_mut(PACKED).for_each(|line| line[PACKED - 2] = 0x54);
    // 2,015 words and most of one, and then a run to the line's end.
    let last = 1_024 + (LINES - 1) * PACKED;
    file[last + 4_032..].fill(0);
    file[last + 4_030] = 0x54;
    let most = long_move(bench, rng, file, 28);
    file[last + 4_030] = 0x55;
    let more = long_move(bench, rng, file, 10);
    reached.extend([28, 10].map(|number| format!("move refused {number}")));
    most.and(more)
}

/// A move that is refused with this number. The model would need too much memory.
fn long_move(bench: &Bench, rng: &mut Rng, file: &[u8], number: u32) -> Found {
    let mut out = Bed::<u8>::dirty(rng, false, "output", 2_000);
    let mut answer = Bed::<u8>::dirty(rng, false, "answer", MOVE_ANSWER);
    let wanted = (out.clone(), answer.clone());
    let ((to, to_len), (numbers, len)) = (out.raw(), answer.raw());
    // SAFETY: as above.
    let result =
        unsafe { (bench.calls.transcode)(file.as_ptr(), file.len(), to, to_len, numbers, len) };
    let held = [held(&wanted.0, &out), held(&wanted.1, &answer)];
    let given = format_args!("(a packed file of {} bytes)", file.len());
    report::judge_call("ingr_move", given, [number, result], &held)
}

/// A picture of words, refused with this number.
fn write(
    bench: &Bench,
    rng: &mut Rng,
    zeros: &[u8],
    height: usize,
    less: usize,
    number: u32,
) -> Found {
    let mut out = Bed::<u8>::dirty(rng, false, "output", 2_000);
    let mut answer = Bed::<u8>::dirty(rng, false, "answer", WRITE_ANSWER - less);
    let wanted = (out.clone(), answer.clone());
    let ((to, to_len), (numbers, len)) = (out.raw(), answer.raw());
    let pixels: *const u16 = zeros.as_ptr().cast();
    let count = zeros.len() / 2;
    // SAFETY: as above, and the zeros begin where pixels may.
    let result = unsafe {
        (bench.calls.write)(
            3,
            WIDTH as u32,
            height as u32,
            0,
            0,
            0,
            zeros.as_ptr(),
            0,
            pixels,
            count,
            to,
            to_len,
            numbers,
            len,
        )
    };
    let given = format_args!("(type 3 PPL {WIDTH} NOL {height})");
    let held = [held(&wanted.0, &out), held(&wanted.1, &answer)];
    report::judge_call("ingr_write", given, [number, result], &held)
}
