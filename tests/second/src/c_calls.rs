//! Tries the functions of the C library, which are linked into this program.

use second::Calls;
use std::process::ExitCode;

#[link(name = "ingr", kind = "static")]
extern "C" {
    fn ingr_header(file: *const u8, file_len: usize, answer: *mut u8, answer_len: usize) -> u32;
    fn ingr_raster(
        file: *const u8,
        file_len: usize,
        pixels: *mut u8,
        pixels_len: usize,
        marks: *mut u8,
        marks_len: usize,
        answer: *mut u8,
        answer_len: usize,
    ) -> u32;
    fn ingr_color(
        file: *const u8,
        file_len: usize,
        value: u32,
        answer: *mut u8,
        answer_len: usize,
    ) -> u32;
    fn ingr_plotter_color(
        file: *const u8,
        file_len: usize,
        value: u32,
        answer: *mut u8,
        answer_len: usize,
    ) -> u32;
    fn ingr_turn(
        slo: u32,
        ppl: u32,
        nol: u32,
        pixels: *const u16,
        pixels_len: usize,
        upright: *mut u16,
        upright_len: usize,
    ) -> u32;
    fn ingr_turn_back(
        slo: u32,
        ppl: u32,
        nol: u32,
        upright: *const u16,
        upright_len: usize,
        pixels: *mut u16,
        pixels_len: usize,
    ) -> u32;
    fn ingr_write(
        kind: u32,
        ppl: u32,
        nol: u32,
        slo: u32,
        scn: u32,
        drs: u32,
        table: *const u8,
        table_len: usize,
        pixels: *const u16,
        pixels_len: usize,
        out: *mut u8,
        out_len: usize,
        answer: *mut u8,
        answer_len: usize,
    ) -> u32;
    fn ingr_move(
        file: *const u8,
        file_len: usize,
        out: *mut u8,
        out_len: usize,
        answer: *mut u8,
        answer_len: usize,
    ) -> u32;
}

const LIBRARY: Calls = Calls {
    header: ingr_header,
    raster: ingr_raster,
    color: ingr_color,
    plotter_color: ingr_plotter_color,
    turn: ingr_turn,
    turn_back: ingr_turn_back,
    write: ingr_write,
    transcode: ingr_move,
};

fn main() -> ExitCode {
    second::c_calls(&LIBRARY, &std::env::args().collect::<Vec<String>>())
}
