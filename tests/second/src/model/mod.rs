//! The format by its papers: reader of headers, colors and sheets, writer, turning, and the move
//! between types 1 and 9.
//! Plain and slow on purpose; every number is 64 bits wide once it is out of its field.

pub mod c;
pub mod header;
pub mod probe;
pub mod sheet;
pub mod transcode;
pub mod turn;
pub mod writer;

/// The number a call is refused with.
pub type Rejection = u32;

pub const LONGEST_FILE: u64 = 2_147_483_647;
/// The most lines that a sheet may have.
pub const MOST_LINES: u32 = 1_000_000;

pub fn word(file: &[u8], at: usize) -> u64 {
    u64::from(u16::from_le_bytes([file[at], file[at + 1]]))
}

pub fn long(file: &[u8], at: usize) -> u64 {
    word(file, at) | word(file, at + 2) << 16
}

/// The data types that are read and written.
pub fn known_type(kind: u64) -> bool {
    matches!(kind, 1 | 2 | 3 | 9 | 10)
}
