//! Headers, right ones and ones spoiled in known ways.

use super::put;
use super::sheet::TYPES;
use crate::model::{self, MOST_LINES};
use crate::rng::Rng;
use std::collections::HashSet;

/// A header about to be laid out. Every field may hold any value, right or wrong.
#[derive(Clone)]
pub struct Draft {
    pub htc: u16,
    pub wtf: u16,
    pub dtc: u16,
    pub ppl: u32,
    pub nol: u32,
    pub drs: i16,
    pub slo: u8,
    pub scn: u8,
    pub ver: u8,
    pub ctv: u16,
    pub cte: u32,
    /// Bytes from 768 on.
    pub area: Vec<u8>,
    /// Length of the whole.
    pub len: usize,
    /// Seed of what stands in all other bytes; none is zeros.
    pub junk: Option<u64>,
}

/// Entry of an Environ-V table: slot, red, green, blue.
pub type Entry = [u16; 4];

impl Draft {
    pub fn plain(dtc: u16, blocks: usize) -> Draft {
        Draft {
            htc: 0x0908,
            wtf: words_to_follow(blocks),
            dtc,
            ppl: 8,
            nol: 3,
            drs: 0,
            slo: 0,
            scn: 0,
            ver: 3,
            ctv: 0,
            cte: 0,
            area: Vec::new(),
            len: 512 * blocks,
            junk: None,
        }
    }

    /// A header that is accepted, with the edges of every field more often than chance has it.
    pub fn random(rng: &mut Rng) -> Draft {
        let blocks = match rng.below(40) {
            0 => rng.range(100, 256),
            1 | 2 => rng.range(6, 40),
            _ => rng.range(2, 5),
        };
        let dtc = rng.pick(&TYPES);
        let mut draft = Draft::plain(dtc, blocks);
        draft.ppl = some_width(rng);
        draft.nol = some_height(rng);
        draft.drs = some_drs(rng);
        draft.slo = rng.below(8) as u8;
        draft.scn = rng.below(2) as u8;
        draft.junk = rng.one_in(2).then(|| rng.next());
        draft.cte = some_cte(rng);
        match rng.below(3) {
            1 if blocks >= 3 => draft.igds(rng.bytes(768)),
            0 | 1 => {}
            _ => {
                let most = ((512 * blocks - 768) / 8).min(256);
                let count = match rng.below(4) {
                    0 => 1,
                    1 => most,
                    _ => rng.range(1, most),
                };
                let entries = some_entries(rng, count);
                draft.environ_v(&entries);
            }
        }
        draft.len += match rng.below(4) {
            0 => 0,
            1 => 1,
            _ => rng.below(700),
        };
        draft
    }

    pub fn igds(&mut self, table: Vec<u8>) {
        self.ctv = 1;
        self.area = table;
    }

    pub fn environ_v(&mut self, entries: &[Entry]) {
        self.ctv = 2;
        self.cte = entries.len() as u32;
        self.area = entries.iter().flatten().flat_map(|part| part.to_le_bytes()).collect();
    }

    pub fn bytes(&self) -> Vec<u8> {
        let mut file = match self.junk {
            Some(seed) => Rng::new(seed, 0).bytes(self.len),
            None => vec![0; self.len],
        };
        put(&mut file, 0, &self.htc.to_le_bytes());
        put(&mut file, 2, &self.wtf.to_le_bytes());
        put(&mut file, 4, &self.dtc.to_le_bytes());
        put(&mut file, 184, &self.ppl.to_le_bytes());
        put(&mut file, 188, &self.nol.to_le_bytes());
        put(&mut file, 192, &self.drs.to_le_bytes());
        put(&mut file, 194, &[self.slo, self.scn]);
        put(&mut file, 511, &[self.ver]);
        put(&mut file, 532, &self.ctv.to_le_bytes());
        put(&mut file, 536, &self.cte.to_le_bytes());
        put(&mut file, 768, &self.area);
        file
    }
}

pub fn words_to_follow(blocks: usize) -> u16 {
    (256 * blocks - 2) as u16
}

/// A width inside its limits.
fn some_width(rng: &mut Rng) -> u32 {
    match rng.below(4) {
        0 => rng.pick(&[1, 2, 255, 256, 257, 32_767, 32_768, 65_534, 65_535]),
        1 => rng.range(1, 100) as u32,
        _ => rng.range(1, 65_535) as u32,
    }
}

/// A height inside its limits, most often one that a width could be, too.
fn some_height(rng: &mut Rng) -> u32 {
    match rng.below(6) {
        0 => rng.pick(&[65_536, 65_537, 131_071, 131_072, MOST_LINES - 1, MOST_LINES]),
        1 => rng.range(65_536, MOST_LINES as usize) as u32,
        _ => some_width(rng),
    }
}

pub fn some_drs(rng: &mut Rng) -> i16 {
    match rng.below(3) {
        0 => rng.pick(&[-32_768, -32_767, -300, -200, -1, 0, 1, 25, 255, 256, 32_767]),
        _ => rng.word() as i16,
    }
}

/// What may stand in CTE where no Environ-V table is told of: anything.
pub fn some_cte(rng: &mut Rng) -> u32 {
    match rng.below(4) {
        0 => 0,
        1 => 256,
        2 => rng.pick(&[1, 255, 257, 65_535, 65_536, 1 << 29, 1 << 31, u32::MAX]),
        _ => rng.long(),
    }
}

/// Entries with a slot of their own each, in one of several orders.
pub fn some_entries(rng: &mut Rng, count: usize) -> Vec<Entry> {
    let mut slots: Vec<u16> = match rng.below(5) {
        0 => (0..count as u16).collect(),
        1 => (0..count as u16).rev().collect(),
        2 => distinct(rng, count, 310),
        3 => distinct(rng, count, 65_536),
        // High slots, the last of which the program prints.
        _ => (0..count as u16).map(|i| 65_535 - i).collect(),
    };
    if rng.one_in(3) {
        // The slots at both ends of what is printed.
        let i = rng.below(count);
        let slot = rng.pick(&[0, 255, 256, 300, 65_535]);
        if !slots.contains(&slot) {
            slots[i] = slot;
        }
    }
    slots.iter().map(|&slot| [slot, rng.word(), rng.word(), rng.word()]).collect()
}

fn distinct(rng: &mut Rng, count: usize, below: usize) -> Vec<u16> {
    let mut seen = HashSet::new();
    let mut slots = Vec::new();
    while slots.len() < count {
        let slot = rng.below(below) as u16;
        if seen.insert(slot) {
            slots.push(slot);
        }
    }
    slots
}

/// Spoils a header so that it is refused with `number`, if nothing else is wrong with it.
pub fn spoil(rng: &mut Rng, draft: &mut Draft, number: u32) {
    match number {
        11 => {
            draft.len = match rng.below(2) {
                0 => rng.pick(&[0, 1, 2, 3, 4, 194, 511, 512, 513, 767, 768, 1022, 1023]),
                _ => rng.below(1024),
            }
        }
        12 => {
            draft.htc = match rng.below(3) {
                0 => rng.pick(&[0, 0x0809, 0x0808, 0x0909, 0x09C8, 0x0948, 0x0988, 0xFFFF, 0x8908]),
                1 => 0x0908 ^ 1 << rng.below(16),
                _ => 0x0909u16.wrapping_add(rng.below(65_535) as u16),
            }
        }
        13 => {
            let n = rng.range(1, 256) as u16;
            draft.wtf = match rng.below(4) {
                0 => rng.pick(&[0, 1, 253, 254, 255, 256, 509, 511, 512, 765, 767, 768]),
                1 => rng.pick(&[65_533, 65_535, 65_279, 65_281, 1022, 1024, 32_765, 32_767]),
                2 => n.wrapping_mul(256).wrapping_sub(rng.pick(&[3, 1, 0])),
                _ => n.wrapping_mul(256).wrapping_add(rng.below(254) as u16),
            }
        }
        14 => {
            let n = match rng.below(4) {
                0 => rng.range(6, 256),
                _ => rng.range(3, 5),
            };
            draft.wtf = words_to_follow(n);
            draft.len = match rng.below(3) {
                0 => 512 * n - 1,
                1 => 512 * (n - 1),
                _ => rng.range(1024, 512 * n - 1),
            };
        }
        15 => draft.ver = other_than(rng, &[3], &[0, 1, 2, 4, 131, 255]),
        16 => {
            let near =
                [0, 4, 5, 8, 11, 24, 27, 29, 65, 0x0101, 0x0102, 0x0109, 0x0902, 0x0200, 0x8001];
            draft.dtc = match rng.below(3) {
                0 => rng.range(11, 65_535) as u16,
                _ => rng.pick(&near),
            }
        }
        17 => draft.slo = rng.pick(&[8, 9, 15, 16, 127, 128, 132, 255]),
        18 => draft.scn = rng.pick(&[2, 3, 16, 128, 129, 254, 255]),
        19 => draft.ppl = outside(rng, 65_536),
        20 => draft.nol = outside(rng, MOST_LINES + 1),
        21 => spoil_table(rng, draft),
        22 => {
            let room = room_for_entries(draft).clamp(2, 256);
            let count = match rng.below(3) {
                0 => 2,
                1 => room,
                _ => rng.range(2, room),
            };
            let mut entries = some_entries(rng, count);
            repeat_slot(rng, &mut entries);
            draft.environ_v(&entries);
        }
        _ => unreachable!("no header is refused with {number}"),
    }
}

fn other_than(rng: &mut Rng, right: &[u8], near: &[u8]) -> u8 {
    loop {
        let byte = if rng.one_in(2) { rng.pick(near) } else { rng.byte() };
        if !right.contains(&byte) {
            return byte;
        }
    }
}

/// Widths and heights outside the limits, of which this is the first, among them those that 16 or
/// 24 bits would let pass.
fn outside(rng: &mut Rng, first: u32) -> u32 {
    let wraps = first.next_multiple_of(65_536);
    let above = [first, first + 1, wraps, wraps + 8, 0x0100_0008, 1 << 31, (1 << 31) + 8, u32::MAX];
    match rng.below(10) {
        0 => 0,
        1..=4 => rng.pick(&above),
        _ => rng.range(first as usize, u32::MAX as usize) as u32,
    }
}

/// How many entries the header has room for.
fn room_for_entries(draft: &Draft) -> usize {
    let blocks = (usize::from(draft.wtf) + 2) / 256;
    (512 * blocks.clamp(2, 256) - 768) / 8
}

fn spoil_table(rng: &mut Rng, draft: &mut Draft) {
    let room = room_for_entries(draft) as u32;
    match rng.below(4) {
        0 => {
            draft.ctv =
                rng.pick(&[3, 4, 128, 255, 256, 257, 258, 512, 0x0201, 0x8001, 0x8002, 0xFFFF])
        }
        1 if room == 32 => draft.ctv = 1,
        2 if room < 256 => {
            draft.ctv = 2;
            draft.cte = rng.range(room as usize + 1, 256) as u32;
        }
        _ => {
            draft.ctv = 2;
            // Eight times some of these is small again in 32 bits.
            let wraps = [1 << 29, (1 << 29) + 1, (1 << 30) + 32, 1 << 31, (7 << 29) + 2];
            draft.cte = match rng.below(3) {
                0 => rng.pick(&[0, 257, 258, 65_535, 65_536, 65_537, u32::MAX - 1, u32::MAX]),
                1 => rng.pick(&wraps),
                _ => rng.range(257, u32::MAX as usize) as u32,
            };
        }
    }
}

/// Gives two entries the same slot: ends, neighbors or anywhere.
fn repeat_slot(rng: &mut Rng, entries: &mut [Entry]) {
    let last = entries.len() - 1;
    let (from, to) = match rng.below(5) {
        0 => (0, last),
        1 => (last, 0),
        2 => (0, 1),
        3 => (last - 1, last),
        _ => {
            let from = rng.below(last + 1);
            (from, (from + rng.range(1, last)) % (last + 1))
        }
    };
    entries[to][0] = entries[from][0];
    if rng.one_in(2) {
        // The whole entry twice is refused too.
        entries[to] = entries[from];
    }
}

/// A header with every fault of `numbers`; the papers refuse it with the least of them.
pub fn spoiled(rng: &mut Rng, numbers: &[u32]) -> Draft {
    let mut order = numbers.to_vec();
    order.sort_unstable();
    loop {
        let mut draft = Draft::random(rng);
        // From the last check to the first: the earlier faults may not undo the later ones.
        for &number in order.iter().rev() {
            spoil(rng, &mut draft, number);
        }
        // A fault may still take the ground from under another; then it is tried anew.
        if model::header::read(&draft.bytes()) == Err(order[0]) {
            return draft;
        }
    }
}
