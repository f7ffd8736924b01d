//! The C functions, called in this process: their table, the buffers lent to them, and one call
//! compared whole.

pub mod bed;
pub mod call;
pub mod demand_3;
pub mod stand_in;
pub mod vast;

/// Functions to be tried. A slice is a pointer and the number of its elements.
#[derive(Clone, Copy)]
pub struct Calls {
    /// File, answer.
    pub header: unsafe extern "C" fn(*const u8, usize, *mut u8, usize) -> u32,
    /// File, pixels of two bytes, marks, answer.
    pub raster: unsafe extern "C" fn(
        *const u8,
        usize,
        *mut u8,
        usize,
        *mut u8,
        usize,
        *mut u8,
        usize,
    ) -> u32,
    /// File, value, answer.
    pub color: Coloring,
    pub plotter_color: Coloring,
    /// SLO, PPL, NOL, the sheet's pixels, the upright ones.
    pub turn: Turn,
    /// SLO, PPL, NOL, the upright pixels, the sheet's.
    pub turn_back: Turn,
    /// Type, PPL, NOL, SLO, SCN, DRS, table, pixels, output, answer.
    pub write: unsafe extern "C" fn(
        u32,
        u32,
        u32,
        u32,
        u32,
        u32,
        *const u8,
        usize,
        *const u16,
        usize,
        *mut u8,
        usize,
        *mut u8,
        usize,
    ) -> u32,
    /// File, output, answer.
    pub transcode: unsafe extern "C" fn(*const u8, usize, *mut u8, usize, *mut u8, usize) -> u32,
}

type Coloring = unsafe extern "C" fn(*const u8, usize, u32, *mut u8, usize) -> u32;
type Turn = unsafe extern "C" fn(u32, u32, u32, *const u16, usize, *mut u16, usize) -> u32;
