//! Makers of inputs: single ones (`header`, `sheet`, `picture`, `turning`) and those of a mode.

pub mod calls;
pub mod header;
pub mod headers;
pub mod large;
pub mod long;
pub mod long_calls;
pub mod moves;
pub mod pairs;
pub mod picture;
pub mod pictures;
pub mod sheet;
pub mod sheets;
pub mod turning;
pub mod turnings;

use crate::rng::Rng;

/// Puts bytes into a file, as far as they lie there.
pub fn put(file: &mut [u8], at: usize, bytes: &[u8]) {
    for (i, byte) in bytes.iter().enumerate() {
        if let Some(place) = file.get_mut(at + i) {
            *place = *byte;
        }
    }
}

/// Stops the input in the middle once in a while, to make the reader meet a short read.
pub fn some_pause(rng: &mut Rng, length: usize) -> Option<usize> {
    (length > 1 && rng.one_in(24)).then(|| rng.range(1, length - 1))
}
