//! The inputs of mode `header`.

use super::header::{some_entries, spoil, spoiled, Draft, Entry};
use super::put;
use super::sheet::TYPES;
use crate::rng::Rng;

/// The numbers a header is refused with; 10 needs a file of 2 GB.
pub const REJECTIONS: std::ops::RangeInclusive<u32> = 11..=22;

/// The families of the inputs that are always run, and of those by chance.
pub const FIXED: [&str; 9] = [
    "edges by hand",
    "limits of fields",
    "limits of tables",
    "slots twice",
    "cut short",
    "limit of the input",
    "one fault",
    "two faults",
    "one bit changed",
];
pub const BY_CHANCE: [&str; 4] =
    ["accepted by chance", "several faults", "bytes changed", "bytes by chance"];

pub struct Input {
    pub family: &'static str,
    pub bytes: Vec<u8>,
    /// The first line, where it is known without the model.
    pub first: Option<String>,
}

/// The inputs that are always run.
pub fn fixed(seed: u64) -> Vec<Input> {
    let mut rng = Rng::new(seed, u64::MAX);
    let mut all = by_hand();
    let mut add = |family, drafts: Vec<Draft>| {
        all.extend(drafts.iter().map(|draft| Input { family, bytes: draft.bytes(), first: None }));
    };
    add("limits of fields", limits());
    add("limits of tables", table_limits(&mut rng));
    add("slots twice", repeats(&mut rng));
    add("cut short", cuts(&mut rng));
    add("limit of the input", sizes());
    add("one fault", REJECTIONS.flat_map(|n| [n; 40]).map(|n| spoiled(&mut rng, &[n])).collect());
    let mut two = Vec::new();
    for first in REJECTIONS {
        for second in first + 1..=*REJECTIONS.end() {
            two.extend((0..8).map(|_| spoiled(&mut rng, &[first, second])));
        }
    }
    add("two faults", two);
    let family = "one bit changed";
    let changed = bits(&mut rng).into_iter();
    all.extend(changed.map(|bytes| Input { family, bytes, first: None }));
    all
}

/// The cases of "Sheets at the edges" that are about headers.
fn by_hand() -> Vec<Input> {
    let mut all = Vec::new();
    let mut add = |bytes: Vec<u8>, first: &str| {
        all.push(Input { family: "edges by hand", bytes, first: Some(first.to_string()) })
    };
    add(Vec::new(), "refused 11");
    let draft = Draft::plain(9, 2);
    assert_eq!(draft.wtf, 510);
    add(draft.bytes(), "type 9 blocks 2 pixels 8 lines 3 resolution 0 0 slo 0 scn 0 ctv 0 cte 0");
    add(Draft { wtf: 509, ..draft.clone() }.bytes(), "refused 13");
    let packed = "type 1 blocks 2 pixels 8 lines 3 resolution 0 0 slo 0 scn 0 ctv 0 cte 0";
    add(Draft { dtc: 1, ..draft.clone() }.bytes(), packed);
    let dots = "type 9 blocks 2 pixels 8 lines 3 resolution 2 200 slo 0 scn 0 ctv 0 cte 0";
    add(Draft { drs: -200, ..draft.clone() }.bytes(), dots);
    let most = "type 9 blocks 2 pixels 8 lines 3 resolution 2 32768 slo 0 scn 0 ctv 0 cte 0";
    add(Draft { drs: -32_768, ..draft.clone() }.bytes(), most);
    let microns = "type 9 blocks 2 pixels 8 lines 3 resolution 1 25 slo 0 scn 0 ctv 0 cte 0";
    add(Draft { drs: 25, ..draft.clone() }.bytes(), microns);
    for nol in [65_535, 65_536, 1_000_000] {
        let told =
            format!("type 9 blocks 2 pixels 8 lines {nol} resolution 0 0 slo 0 scn 0 ctv 0 cte 0");
        add(Draft { nol, ..draft.clone() }.bytes(), &told);
    }
    for nol in [0, 1_000_001, 1_048_576] {
        add(Draft { nol, ..draft.clone() }.bytes(), "refused 20");
    }
    add(Draft { ppl: 65_536, nol: 65_536, ..draft.clone() }.bytes(), "refused 19");
    for (blocks, count, fits) in [(2, 32, true), (2, 33, false), (3, 96, true), (3, 97, false)] {
        let mut draft = Draft::plain(10, blocks);
        draft.environ_v(&(0..count).map(|slot| [slot, 1, 2, 3]).collect::<Vec<Entry>>());
        draft.len += 512;
        let first = format!(
            "type 10 blocks {blocks} pixels 8 lines 3 resolution 0 0 slo 0 scn 0 ctv 2 cte {count}"
        );
        add(draft.bytes(), if fits { &first } else { "refused 21" });
    }
    all
}

/// Each field on both sides of each of its limits.
fn limits() -> Vec<Draft> {
    let mut all = Vec::new();
    let plain = Draft::plain(9, 2);
    for near in [0u16, 254, 510, 766, 1022, 1278, 65_278, 65_534] {
        for wtf in [-2i32, -1, 0, 1, 2].map(|by| near.wrapping_add_signed(by as i16)) {
            for len in [1024, 1535, 1536, 2048, 4096] {
                all.push(Draft { wtf, len, ..plain.clone() });
            }
        }
    }
    for len in [130_560, 131_071, 131_072, 131_073] {
        all.push(Draft { wtf: 65_534, len, ..plain.clone() });
    }
    let sizes = [
        0,
        1,
        2,
        255,
        256,
        65_534,
        65_535,
        65_536,
        65_537,
        131_071,
        131_072,
        999_999,
        1_000_000,
        1_000_001,
        1_048_575,
        1_048_576,
        0x0100_0000,
        (1 << 31) - 1,
        1 << 31,
        (1 << 31) + 1,
        u32::MAX,
    ];
    for dtc in TYPES {
        for size in sizes {
            all.push(Draft { dtc, ppl: size, ..plain.clone() });
            all.push(Draft { dtc, nol: size, ..plain.clone() });
            all.push(Draft { dtc, ppl: size, nol: size, ..plain.clone() });
        }
    }
    for byte in (0..=16).chain([31, 32, 64, 127, 128, 129, 253, 254, 255]) {
        all.push(Draft { slo: byte, ..plain.clone() });
        all.push(Draft { scn: byte, ..plain.clone() });
        all.push(Draft { ver: byte, ..plain.clone() });
    }
    for dtc in (0..=70).chain(TYPES.map(|t| 256 * t)).chain(TYPES.map(|t| 256 + t)) {
        all.push(Draft { dtc, ..plain.clone() });
    }
    for dtc in TYPES.map(|t| 0x8000 + t) {
        all.push(Draft { dtc, ..plain.clone() });
    }
    for bit in 0..16 {
        all.push(Draft { htc: 0x0908 ^ 1 << bit, ..plain.clone() });
    }
    for drs in [-32_768, -32_767, -257, -256, -255, -1, 0, 1, 255, 256, 257, 32_766, 32_767] {
        all.push(Draft { drs, ..plain.clone() });
    }
    for slo in 0..8 {
        for scn in 0..2 {
            for dtc in TYPES {
                all.push(Draft { dtc, slo, scn, ..plain.clone() });
            }
        }
    }
    all
}

/// Tables of every kind around what two and more blocks hold. Each file goes on past its
/// header with more entries, so that only the header's end can be the reason.
fn table_limits(rng: &mut Rng) -> Vec<Draft> {
    let mut all = Vec::new();
    let counts = [
        0,
        1,
        2,
        31,
        32,
        33,
        95,
        96,
        97,
        159,
        160,
        161,
        223,
        224,
        225,
        255,
        256,
        257,
        258,
        512,
        65_536,
        65_537,
        1 << 29,
        (1 << 29) + 1,
        1 << 30,
        1 << 31,
        (1 << 31) + 1,
        u32::MAX,
    ];
    let entries: Vec<Entry> = (0..300).map(|i| [300 - i, 7 * i, 8 * i, 9 * i]).collect();
    for blocks in 2..=8 {
        let mut draft = Draft::plain(10, blocks);
        draft.environ_v(&entries);
        draft.len += 3000;
        for cte in counts {
            all.push(Draft { cte, ..draft.clone() });
        }
    }
    for blocks in 2..=4 {
        for ctv in (0..=4).chain([127, 128, 255, 256, 257, 258, 259, 512, 513, 0x8001, 0xFFFF]) {
            for cte in [0, 1, 256, 257] {
                let mut draft = Draft::plain(2, blocks);
                draft.igds(rng.bytes(768));
                draft.len += 1024;
                all.push(Draft { ctv, cte, ..draft });
            }
        }
    }
    // CTE is reported as stored, and never looked at, with no table or an IGDS one.
    for ctv in 0..=1 {
        for cte in counts {
            let mut draft = Draft::plain(2, 3);
            draft.igds(rng.bytes(768));
            all.push(Draft { ctv, cte, ..draft });
        }
    }
    all
}

/// A header with each kind of table, and every bit of every field changed.
fn bits(rng: &mut Rng) -> Vec<Vec<u8>> {
    let mut all = Vec::new();
    for ctv in 0..=2 {
        let mut draft = Draft::plain(9, 3);
        match ctv {
            1 => draft.igds(rng.bytes(768)),
            2 => draft.environ_v(&some_entries(rng, 40)),
            _ => {}
        }
        // Long enough for one block more to be told of.
        draft.len = 2200;
        let file = draft.bytes();
        for at in (0..6).chain(184..196).chain([511, 532, 533]).chain(536..540) {
            for bit in 0..8 {
                let mut changed = file.clone();
                changed[at] ^= 1 << bit;
                all.push(changed);
            }
        }
    }
    all
}

/// Two entries with one slot, at each kind of place, for each kind of slot.
fn repeats(rng: &mut Rng) -> Vec<Draft> {
    let mut all = Vec::new();
    for (blocks, count) in [(2, 2), (2, 3), (2, 32), (3, 96), (6, 256), (7, 256)] {
        let last = count - 1;
        for (one, two) in [(0, 1), (0, last), (last - 1, last), (count / 2, last), (0, 0)] {
            for slot in [0, 1, 255, 256, 65_535] {
                let mut entries: Vec<Entry> =
                    (0..count as u16).map(|i| [1000 + i, rng.word(), rng.word(), i]).collect();
                // The pair (0, 0) is the same table without a fault.
                entries[one][0] = slot;
                entries[two][0] = slot;
                let mut draft = Draft::plain(10, blocks);
                draft.environ_v(&entries);
                all.push(draft);
            }
        }
    }
    // The same slot twice, but once past CTE: no fault. And slots that differ in one byte.
    let mut draft = Draft::plain(10, 2);
    draft.environ_v(&[[5, 1, 1, 1], [6, 2, 2, 2], [5, 3, 3, 3]]);
    all.push(Draft { cte: 2, ..draft.clone() });
    all.push(draft.clone());
    draft.environ_v(&[[5, 1, 1, 1], [0x0105, 2, 2, 2], [0x0500, 3, 3, 3], [0x8005, 4, 4, 4]]);
    all.push(draft);
    all
}

/// Accepted headers of two to five blocks, cut at every length near an edge.
fn cuts(rng: &mut Rng) -> Vec<Draft> {
    let mut all = Vec::new();
    for blocks in 2..=5 {
        let edges = [0, 2, 4, 184, 194, 195, 512, 532, 540, 768, 1024, 1536, 512 * blocks];
        for edge in edges {
            for len in [edge.max(1) - 1, edge, edge + 1] {
                let mut draft = Draft::plain(rng.pick(&TYPES), blocks);
                let count = (512 * blocks - 768) / 8;
                draft.environ_v(&some_entries(rng, count.min(256)));
                all.push(Draft { len, ..draft });
            }
        }
    }
    all
}

/// Inputs around the most the program takes, accepted ones and refused ones.
fn sizes() -> Vec<Draft> {
    let mut all = Vec::new();
    for len in [139_999, 140_000, 140_001, 140_002, 150_000, 262_144] {
        let draft = Draft { len, ..Draft::plain(9, 256) };
        all.push(Draft { ver: 2, ..draft.clone() });
        all.push(Draft { htc: 0, ..draft.clone() });
        all.push(draft);
    }
    all
}

/// An input by chance.
pub fn random(rng: &mut Rng) -> Input {
    let (family, bytes) = match rng.below(20) {
        0..=8 => ("accepted by chance", Draft::random(rng).bytes()),
        9..=11 => {
            let faults = rng.range(1, 4);
            let mut draft = Draft::random(rng);
            for _ in 0..faults {
                let number = rng.range(11, 22) as u32;
                spoil(rng, &mut draft, number);
            }
            ("several faults", draft.bytes())
        }
        12..=16 => {
            let mut bytes = Draft::random(rng).bytes();
            flip(rng, &mut bytes);
            ("bytes changed", bytes)
        }
        _ => ("bytes by chance", noise(rng)),
    };
    Input { family, bytes, first: None }
}

/// Changes a few bytes, mostly such as a reader looks at.
fn flip(rng: &mut Rng, bytes: &mut [u8]) {
    let fields =
        [0, 1, 2, 3, 4, 5, 184, 186, 187, 188, 190, 192, 193, 194, 195, 511, 532, 533, 536, 537];
    for _ in 0..rng.range(1, 6) {
        let at = match rng.below(4) {
            0 | 1 => rng.pick(&fields),
            2 => rng.range(768, 1023),
            _ => rng.below(bytes.len()),
        };
        if rng.one_in(2) {
            bytes[at] ^= 1 << rng.below(8);
        } else {
            bytes[at] = rng.byte();
        }
    }
}

/// Random bytes in which the first few checks hold.
fn noise(rng: &mut Rng) -> Vec<u8> {
    let len = rng.below(3000);
    let mut bytes = rng.bytes(len);
    let fields: [(usize, &[u8]); 8] = [
        (0, &[0x08, 0x09]),
        (2, &[0xFE, 0x01]),
        (511, &[3]),
        (4, &[9, 0]),
        (194, &[0, 1]),
        (184, &[8, 0, 0, 0]),
        (188, &[3, 0, 0, 0]),
        (532, &[2, 0]),
    ];
    for (at, right) in fields.iter().take(rng.below(9)) {
        put(&mut bytes, *at, right);
    }
    bytes
}
