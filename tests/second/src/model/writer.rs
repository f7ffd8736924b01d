//! The writer: its bytes are fixed.

use super::{known_type, Rejection, LONGEST_FILE, MOST_LINES};

/// What the writer is given. The numbers are as wide as they are handed over.
pub struct Order<'a> {
    pub kind: u32,
    pub ppl: u32,
    pub nol: u32,
    pub slo: u32,
    pub scn: u32,
    pub drs: i16,
    pub table: &'a [u8],
    pub pixels: &'a [u16],
    /// Bytes of output lent.
    pub room: usize,
}

const LONGEST_RUN: usize = 32_767;
/// W counts line number and offset besides the body.
const LONGEST_BODY_WORDS: usize = 65_533;

/// The words of a row in types 1, 9 and 10.
pub struct Coding {
    pub packed: fn(&[u16]) -> Vec<u16>,
    pub levels: fn(&[u16]) -> Vec<u16>,
    pub pairs: fn(&[u16]) -> Vec<u16>,
}

/// As the papers say.
pub const RIGHT: Coding =
    Coding { packed, levels: |row| levels(row, cut), pairs: |row| pairs(row, cut) };

/// The pieces of a run.
pub type Pieces = fn(usize) -> Vec<u16>;

/// The file's bytes, from the first to the written length.
pub fn write(order: &Order) -> Result<Vec<u8>, Rejection> {
    write_by(&RIGHT, order)
}

/// The same by a writer that may make other words.
pub fn write_by(coding: &Coding, order: &Order) -> Result<Vec<u8>, Rejection> {
    check_fields(order)?;
    let (ppl, nol) = (order.ppl as usize, order.nol as usize);
    if (order.pixels.len() as u64) < u64::from(order.ppl) * u64::from(order.nol) {
        return Err(23);
    }
    let pixels = &order.pixels[..ppl * nol];
    let most = match order.kind {
        2 => 255,
        1 | 9 => 1,
        _ => u16::MAX,
    };
    if pixels.iter().any(|&pixel| pixel > most) {
        return Err(26);
    }
    let made = |row| body(coding, order.kind, order.scn, row);
    let bodies: Vec<Vec<u8>> = pixels.chunks(ppl).map(made).collect();
    if order.scn == 1 && bodies.iter().any(|body| is_too_long(body)) {
        return Err(27);
    }
    let mut file = header(order);
    let mut number = 0u16;
    for body in &bodies {
        // One word: after 65,535 comes 0.
        number = number.wrapping_add(1);
        if order.scn == 1 {
            let follow = (body.len() / 2 + 2) as u16;
            for word in [0x5900, follow, number, 0] {
                file.extend(word.to_le_bytes());
            }
        }
        file.extend(body);
    }
    if file.len() as u64 > LONGEST_FILE {
        return Err(10);
    }
    if order.room < file.len() {
        return Err(28);
    }
    Ok(file)
}

fn check_fields(order: &Order) -> Result<(), Rejection> {
    let checks = [
        (known_type(u64::from(order.kind)), 16),
        (order.slo <= 7, 17),
        (order.scn <= 1, 18),
        ((1..=65_535).contains(&order.ppl), 19),
        ((1..=MOST_LINES).contains(&order.nol), 20),
        (order.table.is_empty() || order.table.len() == 768, 21),
    ];
    match checks.iter().find(|(holds, _)| !holds) {
        Some((_, number)) => Err(*number),
        None => Ok(()),
    }
}

fn header(order: &Order) -> Vec<u8> {
    let blocks = if order.table.is_empty() { 2 } else { 3 };
    let mut file = vec![0; 512 * blocks];
    let mut put = |at: usize, bytes: &[u8]| file[at..at + bytes.len()].copy_from_slice(bytes);
    put(0, &0x0908u16.to_le_bytes());
    put(2, &((256 * blocks - 2) as u16).to_le_bytes());
    put(4, &(order.kind as u16).to_le_bytes());
    for diagonal in 0..4 {
        put(56 + 8 * 5 * diagonal, &1.0f64.to_le_bytes());
    }
    put(184, &order.ppl.to_le_bytes());
    put(188, &order.nol.to_le_bytes());
    put(192, &order.drs.to_le_bytes());
    put(194, &[order.slo as u8, order.scn as u8]);
    put(511, &[3]);
    put(520, &1.0f64.to_le_bytes());
    if !order.table.is_empty() {
        put(532, &1u16.to_le_bytes());
        put(768, order.table);
    }
    file
}

/// Whether a line's header cannot say how long its body is.
pub fn is_too_long(body: &[u8]) -> bool {
    body.len() / 2 > LONGEST_BODY_WORDS
}

/// The body of a line.
pub fn body(coding: &Coding, kind: u32, scn: u32, row: &[u16]) -> Vec<u8> {
    match kind {
        1 => bytes(&(coding.packed)(row)),
        2 => {
            let mut bytes: Vec<u8> = row.iter().map(|&pixel| pixel as u8).collect();
            if scn == 1 && bytes.len() % 2 == 1 {
                bytes.push(0);
            }
            bytes
        }
        3 => bytes(row),
        9 => bytes(&(coding.levels)(row)),
        _ => bytes(&(coding.pairs)(row)),
    }
}

fn bytes(words: &[u16]) -> Vec<u8> {
    words.iter().flat_map(|word| word.to_le_bytes()).collect()
}

/// Type 1: sixteen pixels to a word, the leftmost in the highest bit. Spare bits stay 0.
pub fn packed(row: &[u16]) -> Vec<u16> {
    let word =
        |part: &[u16]| part.iter().zip((0..16).rev()).map(|(&pixel, bit)| pixel << bit).sum();
    row.chunks(16).map(word).collect()
}

/// The longest runs there are, as value and length.
fn runs(row: &[u16]) -> Vec<(u16, usize)> {
    let mut list: Vec<(u16, usize)> = Vec::new();
    for &pixel in row {
        match list.last_mut() {
            Some((value, length)) if *value == pixel => *length += 1,
            _ => list.push((pixel, 1)),
        }
    }
    list
}

/// A run in pieces: full ones, then the rest, if any.
pub fn cut(length: usize) -> Vec<u16> {
    let mut list = vec![LONGEST_RUN as u16; length / LONGEST_RUN];
    if length % LONGEST_RUN > 0 {
        list.push((length % LONGEST_RUN) as u16);
    }
    list
}

/// Type 9: OFF and ON in turn, with a zero run of the other level between pieces.
pub fn levels(row: &[u16], cut: Pieces) -> Vec<u16> {
    let mut list = Vec::new();
    for (level, length) in runs(row) {
        for piece in cut(length) {
            // OFF stands at even places, ON at odd ones.
            if list.len() % 2 != usize::from(level) {
                list.push(0);
            }
            list.push(piece);
        }
    }
    if list.len() % 2 == 0 {
        list.push(0);
    }
    list
}

/// Type 10: value, then count.
pub fn pairs(row: &[u16], cut: Pieces) -> Vec<u16> {
    runs(row)
        .iter()
        .flat_map(|&(value, length)| cut(length).into_iter().flat_map(move |n| [value, n]))
        .collect()
}
