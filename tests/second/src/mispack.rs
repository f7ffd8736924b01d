//! Readers and writers that take the words of type 1 wrongly, for the stand-ins of the programs and
//! of the C functions. All but what is wrong is the model's.

use crate::model::sheet::{self, Unpacking};
use crate::model::writer::{self, packed, Coding};

/// The leftmost pixel in the lowest bit.
pub const LOWEST_READ: Unpacking =
    Unpacking { pixels: |word| (0..16).map(|bit| word >> bit & 1).collect(), ..sheet::RIGHT };

/// The leftmost pixel in the highest bit of the first byte, which is the low one.
pub const FIRST_BYTE_READ: Unpacking = Unpacking {
    pixels: |word| (sheet::RIGHT.pixels)((word as u16).swap_bytes().into()),
    ..sheet::RIGHT
};

pub const SPARE_TAKEN: Unpacking = Unpacking { spare_taken: true, ..sheet::RIGHT };

pub const TEN_BEFORE_SIX: Unpacking = Unpacking { spare_first: true, ..sheet::RIGHT };

pub const TEN_LOSES: Unpacking = Unpacking { spare_loses: true, ..sheet::RIGHT };

/// No word for one pixel more than full words hold.
pub const WORD_NOT_READ: Unpacking =
    Unpacking { words: |pixels| (pixels + 14) / 16, ..sheet::RIGHT };

/// One word more where the pixels fill theirs.
pub const WORD_TOO_MANY: Unpacking = Unpacking { words: |pixels| pixels / 16 + 1, ..sheet::RIGHT };

pub const LOWEST_WRITTEN: Coding = Coding {
    packed: |row| {
        row.chunks(16).map(|part| part.iter().zip(0..).map(|(&p, bit)| p << bit).sum()).collect()
    },
    ..writer::RIGHT
};

pub const FIRST_BYTE_WRITTEN: Coding = Coding {
    packed: |row| packed(row).into_iter().map(u16::swap_bytes).collect(),
    ..writer::RIGHT
};

pub const WORD_NOT_WRITTEN: Coding = Coding {
    packed: |row| {
        let mut words = packed(row);
        words.truncate((row.len() + 14) / 16);
        words
    },
    ..writer::RIGHT
};

/// Spare bits like the last pixel.
pub const SPARE_WRITTEN: Coding = Coding {
    packed: |row| {
        let mut whole = row.to_vec();
        whole.resize(row.len().next_multiple_of(16), row[row.len() - 1]);
        packed(&whole)
    },
    ..writer::RIGHT
};
