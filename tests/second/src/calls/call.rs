//! One call, compared whole: its result, and every byte of every buffer before and after it.

use super::bed::{Bed, Cell};
use super::Calls;
use crate::model::{c, long};
use crate::report::{self, Found, Held};
use crate::rng::Rng;

/// Where calls are made.
pub struct Bench<'a> {
    pub calls: &'a Calls,
    /// Buffers without guards, once in a while: each then is an allocation of its own, and a
    /// checker of memory sees what lies around it.
    pub bare: bool,
}

/// What a call of the reader came to.
pub struct Read {
    pub result: u32,
    pub pixels: Bed<u8>,
    pub marks: Bed<u8>,
    pub answer: Bed<u8>,
}

/// What any other call came to: what it returned, what it answered, and what it filled.
pub struct Done<T> {
    pub result: u32,
    pub answer: Vec<u8>,
    pub filled: Vec<T>,
}

/// The two functions for a color.
#[derive(Clone, Copy, PartialEq)]
pub enum ColorCall {
    Color,
    Plotter,
}

impl ColorCall {
    pub const BOTH: [ColorCall; 2] = [ColorCall::Color, ColorCall::Plotter];

    pub fn name(self) -> &'static str {
        match self {
            ColorCall::Color => "color",
            ColorCall::Plotter => "plotter_color",
        }
    }
}

/// Lengths of the slices that the reader is lent.
#[derive(Clone, Copy)]
pub struct Lend {
    pub pixels: usize,
    pub marks: usize,
    pub answer: usize,
}

impl Bench<'_> {
    fn dirty<T: Cell>(&self, rng: &mut Rng, name: &'static str, len: usize) -> Bed<T> {
        let bare = self.bare && rng.one_in(2);
        Bed::dirty(rng, bare, name, len)
    }

    fn holding<T: Cell>(&self, rng: &mut Rng, name: &'static str, content: &[T]) -> Bed<T> {
        let bare = self.bare && rng.one_in(2);
        Bed::holding(rng, bare, name, content)
    }

    pub fn header(&self, rng: &mut Rng, file: &[u8], answer: usize) -> (Done<u8>, Found) {
        let mut given = self.holding(rng, "file", file);
        let mut answer = self.dirty(rng, "answer", answer);
        let (before, mut wanted) = (given.clone(), answer.clone());
        let right = c::header(before.lent(), wanted.lent_mut());
        let (file, file_len) = given.raw();
        let (numbers, len) = answer.raw();
        // SAFETY: each slice is as long as is said, and none overlaps another.
        let result = unsafe { (self.calls.header)(file, file_len, numbers, len) };
        let held = [held(&before, &given), held(&wanted, &answer)];
        let found = report::judge_call("ingr_header", format_args!(""), [right, result], &held);
        (Done { result, answer: answer.lent().to_vec(), filled: Vec::new() }, found)
    }

    pub fn color(
        &self,
        rng: &mut Rng,
        call: ColorCall,
        file: &[u8],
        value: u32,
        answer: usize,
    ) -> (Done<u8>, Found) {
        let mut given = self.holding(rng, "file", file);
        let mut answer = self.dirty(rng, "answer", answer);
        let (before, mut wanted) = (given.clone(), answer.clone());
        let (function, right) = match call {
            ColorCall::Color => {
                (self.calls.color, c::color(before.lent(), value, wanted.lent_mut()))
            }
            ColorCall::Plotter => (
                self.calls.plotter_color,
                c::plotter_color(before.lent(), value, wanted.lent_mut()),
            ),
        };
        let (file, file_len) = given.raw();
        let (numbers, len) = answer.raw();
        // SAFETY: as above.
        let result = unsafe { function(file, file_len, value, numbers, len) };
        let held = [held(&before, &given), held(&wanted, &answer)];
        let (name, text) = (format!("ingr_{}", call.name()), format_args!("value {value}"));
        let found = report::judge_call(&name, text, [right, result], &held);
        (Done { result, answer: answer.lent().to_vec(), filled: Vec::new() }, found)
    }

    pub fn raster(&self, rng: &mut Rng, file: &[u8], lend: Lend) -> (Read, Found) {
        let mut given = self.holding(rng, "file", file);
        let mut pixels = self.dirty(rng, "pixels", lend.pixels);
        let mut marks = self.dirty(rng, "marks", lend.marks);
        let mut answer = self.dirty(rng, "answer", lend.answer);
        let before = given.clone();
        let mut wanted = [pixels.clone(), marks.clone(), answer.clone()];
        let right = {
            let [pixels, marks, answer] = &mut wanted;
            c::raster(before.lent(), pixels.lent_mut(), marks.lent_mut(), answer.lent_mut())
        };
        let (file, file_len) = given.raw();
        let (row, row_len) = pixels.raw();
        let (mark, mark_len) = marks.raw();
        let (numbers, len) = answer.raw();
        // SAFETY: as above.
        let result = unsafe {
            (self.calls.raster)(file, file_len, row, row_len, mark, mark_len, numbers, len)
        };
        let held = [
            held(&before, &given),
            held(&wanted[0], &pixels),
            held(&wanted[1], &marks),
            held(&wanted[2], &answer),
        ];
        let found = report::judge_call("ingr_raster", format_args!(""), [right, result], &held);
        (Read { result, pixels, marks, answer }, found)
    }

    pub fn turn(&self, rng: &mut Rng, given: &c::Turn, room: usize) -> (Done<u16>, Found) {
        let (call, function, read, filled) = if given.back {
            ("ingr_turn_back", self.calls.turn_back, "upright", "pixels")
        } else {
            ("ingr_turn", self.calls.turn, "pixels", "upright")
        };
        let mut read = self.holding(rng, read, given.pixels);
        let mut filled = self.dirty(rng, filled, room);
        let (before, mut wanted) = (read.clone(), filled.clone());
        let right = c::turn(given, wanted.lent_mut());
        let (from, from_len) = read.raw();
        let (to, len) = filled.raw();
        let c::Turn { slo, ppl, nol, .. } = *given;
        // SAFETY: as above, and pixels are where pixels may be.
        let result = unsafe { function(slo, ppl, nol, from, from_len, to, len) };
        let held = [held(&before, &read), held(&wanted, &filled)];
        let text = format_args!("SLO {slo} PPL {ppl} NOL {nol}");
        let found = report::judge_call(call, text, [right, result], &held);
        (Done { result, answer: Vec::new(), filled: filled.lent().to_vec() }, found)
    }

    pub fn write(
        &self,
        rng: &mut Rng,
        given: &c::Write,
        room: usize,
        answer: usize,
    ) -> (Done<u8>, Found) {
        let mut table = self.holding(rng, "table", given.table);
        let mut pixels = self.holding(rng, "pixels", given.pixels);
        let mut out = self.dirty(rng, "output", room);
        let mut answer = self.dirty(rng, "answer", answer);
        let before = (table.clone(), pixels.clone());
        let mut wanted = [out.clone(), answer.clone()];
        let right = {
            let [out, answer] = &mut wanted;
            c::write(given, out.lent_mut(), answer.lent_mut())
        };
        let c::Write { kind, ppl, nol, slo, scn, drs, .. } = *given;
        let (colors, colors_len) = table.raw();
        let (from, from_len) = pixels.raw();
        let (to, to_len) = out.raw();
        let (numbers, len) = answer.raw();
        // SAFETY: as above.
        let result = unsafe {
            (self.calls.write)(
                kind, ppl, nol, slo, scn, drs, colors, colors_len, from, from_len, to, to_len,
                numbers, len,
            )
        };
        let held = [
            held(&before.0, &table),
            held(&before.1, &pixels),
            held(&wanted[0], &out),
            held(&wanted[1], &answer),
        ];
        let text = format_args!("type {kind} PPL {ppl} NOL {nol} SLO {slo} SCN {scn} DRS {drs}");
        let found = report::judge_call("ingr_write", text, [right, result], &held);
        (Done { result, answer: answer.lent().to_vec(), filled: out.lent().to_vec() }, found)
    }
}

impl Bench<'_> {
    pub fn transcode(
        &self,
        rng: &mut Rng,
        file: &[u8],
        room: usize,
        answer: usize,
    ) -> (Done<u8>, Found) {
        let mut given = self.holding(rng, "file", file);
        let mut out = self.dirty(rng, "output", room);
        let mut answer = self.dirty(rng, "answer", answer);
        let before = given.clone();
        let mut wanted = [out.clone(), answer.clone()];
        let right = {
            let [out, answer] = &mut wanted;
            c::transcode(before.lent(), out.lent_mut(), answer.lent_mut())
        };
        let (from, from_len) = given.raw();
        let (to, to_len) = out.raw();
        let (numbers, len) = answer.raw();
        // SAFETY: as above.
        let result = unsafe { (self.calls.transcode)(from, from_len, to, to_len, numbers, len) };
        let held = [held(&before, &given), held(&wanted[0], &out), held(&wanted[1], &answer)];
        let found = report::judge_call("ingr_move", format_args!(""), [right, result], &held);
        (Done { result, answer: answer.lent().to_vec(), filled: out.lent().to_vec() }, found)
    }
}

pub fn held<'a, T: Cell>(wanted: &'a Bed<T>, found: &'a Bed<T>) -> Held<'a> {
    let (wanted, lent) = wanted.bytes();
    Held { name: found.name, wanted, found: found.bytes().0, lent }
}

/// The numbers of an answer.
pub fn numbers(answer: &[u8], count: usize) -> Vec<u64> {
    (0..count).map(|i| long(answer, 4 * i)).collect()
}
