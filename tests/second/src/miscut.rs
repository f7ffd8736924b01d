//! Writers that cut long runs wrongly, for the stand-ins of the writing program and of the C functions.
//! All but what is wrong is the model's.

use crate::model::writer::{cut, levels, pairs, Coding, Pieces, RIGHT};

/// Pieces of one pixel more.
pub const AT_32768: Coding =
    Coding { levels: |row| levels(row, LONGER), pairs: |row| pairs(row, LONGER), ..RIGHT };

/// Every run in one piece: a word has room for it.
pub const NOTHING: Coding =
    Coding { levels: |row| levels(row, WHOLE), pairs: |row| pairs(row, WHOLE), ..RIGHT };

/// A last piece of 0 where there is no rest.
pub const REST_OF_0: Coding =
    Coding { levels: |row| levels(row, WITH_REST), pairs: |row| pairs(row, WITH_REST), ..RIGHT };

pub const REST_FIRST: Coding =
    Coding { levels: |row| levels(row, BACKWARDS), pairs: |row| pairs(row, BACKWARDS), ..RIGHT };

/// Type 9 without zero runs but the first and the last.
pub const ZERO_RUN_MISSING: Coding = Coding {
    levels: |row| {
        let words = levels(row, cut);
        let last = words.len() - 1;
        let kept = |&(i, &word): &(usize, &u16)| word > 0 || i == 0 || i == last;
        words.iter().enumerate().filter(kept).map(|(_, &word)| word).collect()
    },
    ..RIGHT
};

/// Type 10 with a zero run between pieces too.
pub const ZERO_RUN_IN_PAIRS: Coding = Coding { pairs: |row| pairs(row, APART), ..RIGHT };

const LONGER: Pieces = |mut length| {
    let mut list = Vec::new();
    while length > 32_768 {
        list.push(32_768);
        length -= 32_768;
    }
    list.push(length as u16);
    list
};

const WHOLE: Pieces = |length| vec![length as u16];

const WITH_REST: Pieces = |length| {
    let mut list = cut(length);
    if length % 32_767 == 0 {
        list.push(0);
    }
    list
};

const BACKWARDS: Pieces = |length| cut(length).into_iter().rev().collect();

const APART: Pieces = |length| {
    let pieces: Vec<[u16; 1]> = cut(length).into_iter().map(|piece| [piece]).collect();
    pieces.join(&0)
};
