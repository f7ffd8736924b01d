//! The inputs of mode `write`.

use super::picture::{dress, some_picture, spoil, Picture};
use super::sheet::{some_row, TYPES};
use crate::rng::Rng;

/// The numbers the writer refuses with, but for 10, which needs 2 GB, and 27, which is made
/// by the picture's width.
pub const REJECTIONS: [u32; 9] = [16, 17, 18, 19, 20, 21, 23, 26, 28];

/// The families of the inputs that are always run, and of those by chance.
pub const FIXED: [&str; 10] = [
    "limits of the input",
    "long runs",
    "limit of a body",
    "limits of fields",
    "one bit changed",
    "many lines",
    "packed words",
    "one fault",
    "two faults",
    "too wide, and a fault",
];
pub const BY_CHANCE: [&str; 2] = ["pictures by chance", "faults by chance"];

pub struct Input {
    pub family: &'static str,
    pub what: What,
}

pub enum What {
    Picture(Picture),
    /// Standard input that is cut short, too long, or has bytes to spare.
    Bytes(Vec<u8>),
}

/// The inputs that are always run.
pub fn fixed(seed: u64) -> Vec<Input> {
    let mut rng = Rng::new(seed, u64::MAX);
    let mut all: Vec<Input> = odd_inputs(&mut rng)
        .into_iter()
        .map(|bytes| Input { family: "limits of the input", what: What::Bytes(bytes) })
        .collect();
    let mut add = |family, pictures: Vec<Picture>| {
        all.extend(pictures.into_iter().map(|p| Input { family, what: What::Picture(p) }));
    };
    add("long runs", long_runs(&mut rng));
    add("limit of a body", long_bodies(&mut rng));
    add("limits of fields", limits(&mut rng));
    add("one bit changed", bits());
    add("many lines", many_lines());
    add("packed words", packed(&mut rng));
    add(
        "one fault",
        REJECTIONS.iter().flat_map(|&n| [n; 20]).map(|n| spoiled(&mut rng, &[n])).collect(),
    );
    let mut two = Vec::new();
    for (i, &first) in REJECTIONS.iter().enumerate() {
        for &second in &REJECTIONS[i + 1..] {
            two.extend((0..6).map(|_| spoiled(&mut rng, &[first, second])));
        }
    }
    add("two faults", two);
    let mut wide = Vec::new();
    for number in REJECTIONS {
        for _ in 0..3 {
            let mut picture = too_wide(&mut rng);
            if number == 26 {
                picture = alternating(&mut rng, 9, 65_534, 1);
            }
            spoil(&mut rng, &mut picture, number);
            wide.push(picture);
        }
    }
    add("too wide, and a fault", wide);
    all
}

/// A picture with every fault of `numbers`, refused with the least of them.
fn spoiled(rng: &mut Rng, numbers: &[u32]) -> Picture {
    let mut order = numbers.to_vec();
    order.sort_unstable();
    loop {
        let mut picture = some_picture(rng);
        for &number in order.iter().rev() {
            spoil(rng, &mut picture, number);
        }
        // A fault may be none in this picture, as a large pixel in type 3.
        if picture.written() == Err(order[0]) {
            return picture;
        }
    }
}

/// Runs of about one and two full pieces, alone, after and before another pixel.
fn long_runs(rng: &mut Rng) -> Vec<Picture> {
    let mut all = Vec::new();
    for kind in [9, 10] {
        for length in [32_766, 32_767, 32_768, 32_769, 65_533, 65_534, 65_535] {
            for (before, after) in [(0, 0), (1, 0), (0, 1), (1, 1)] {
                for value in [0, 1] {
                    let mut row = vec![1 - value; before];
                    row.extend(vec![value; length]);
                    row.extend(vec![1 - value; after]);
                    row.truncate(65_535);
                    let scn = rng.below(2) as u32;
                    let mut picture = Picture::plain(kind, row.len(), 1, scn, row);
                    dress(rng, &mut picture);
                    all.push(picture);
                }
            }
        }
        // Two long runs in one line, and long runs on either side of a line's end.
        for value in [0, 1] {
            let mut row = vec![value; 32_767];
            row.extend(vec![1 - value; 32_768]);
            all.push(Picture::plain(kind, 65_535, 1, 1, row.clone()));
            row.extend(vec![1 - value; 65_535]);
            all.push(Picture::plain(kind, 65_535, 2, 0, row.clone()));
            all.push(Picture::plain(kind, 65_535, 2, 1, row));
        }
    }
    all
}

/// Pixels that change at every place, from `first` on.
fn alternating(rng: &mut Rng, kind: u16, ppl: usize, first: usize) -> Picture {
    let row: Vec<u16> = (0..ppl).map(|i| ((i + first) % 2) as u16).collect();
    let mut picture = Picture::plain(kind, ppl, 1, 1, row);
    picture.fill = rng.byte();
    picture
}

/// Widths on both sides of a body of 65,533 words.
fn long_bodies(rng: &mut Rng) -> Vec<Picture> {
    let mut all = Vec::new();
    for ppl in 65_531..=65_535 {
        for first in [0, 1] {
            all.push(alternating(rng, 9, ppl, first));
        }
        all.push(alternating(rng, 1, ppl, 1));
        all.push(alternating(rng, 2, ppl, 0));
        all.push(alternating(rng, 3, ppl, 0));
        // One run more makes no body too long without line headers.
        all.push(Picture { scn: 0, ..alternating(rng, 9, ppl, 1) });
        all.push(Picture { scn: 0, ..alternating(rng, 3, ppl, 0) });
    }
    for ppl in 32_764..=32_769 {
        all.push(alternating(rng, 10, ppl, 0));
        all.push(Picture { scn: 0, ..alternating(rng, 10, ppl, 0) });
    }
    // Only the last line is too long, or just not.
    for (kind, ppl) in [(9, 65_533), (9, 65_534), (10, 32_766), (10, 32_767)] {
        let mut picture = alternating(rng, kind, ppl, 0);
        let mut pixels = vec![0; ppl];
        pixels.append(&mut picture.pixels);
        picture.pixels = pixels;
        picture.nol = 2;
        all.push(picture);
    }
    // One pair less by one pixel that is like its neighbor.
    for place in [0, 100, 32_765] {
        let mut picture = alternating(rng, 10, 32_767, 0);
        picture.pixels[place] = picture.pixels[place + 1];
        all.push(picture);
    }
    for picture in &mut all {
        let more = rng.pick(&[0, 1, 50]);
        picture.fit(more);
    }
    all
}

/// A picture with a body that is too long for a line header.
fn too_wide(rng: &mut Rng) -> Picture {
    let first = rng.below(2);
    match rng.below(3) {
        0 => alternating(rng, 3, 65_534 + first, 0),
        1 => alternating(rng, 9, 65_534 + first, 1),
        _ => alternating(rng, 10, 32_767 + 500 * first, 0),
    }
}

/// Each number on both sides of its limits, none narrowed before it is looked at.
fn limits(rng: &mut Rng) -> Vec<Picture> {
    let mut all = Vec::new();
    let plain = Picture::plain(9, 4, 2, 1, vec![0, 1, 1, 0, 1, 0, 0, 1, 7, 7]);
    let wraps = |right: u32| [right + 256, right + 65_536, right + (1 << 24), right + (1 << 31)];
    for kind in
        (0..=70).chain(TYPES.into_iter().flat_map(|kind| wraps(kind.into()))).chain([u32::MAX])
    {
        all.push(Picture { kind, ..plain.clone() });
    }
    for slo in (0..=10).chain(wraps(0)).chain(wraps(7)).chain([255, u32::MAX]) {
        all.push(Picture { slo, ..plain.clone() });
    }
    for scn in (0..=4).chain(wraps(0)).chain(wraps(1)).chain([255, u32::MAX]) {
        all.push(Picture { scn, ..plain.clone() });
    }
    let past_16_bits = [65_536, 65_540, 1_000_000, 1_000_001, 1_048_578];
    for size in [0, 1, 2, 3, 5, 6, 65_534, 65_535, 1 << 31, u32::MAX]
        .into_iter()
        .chain(past_16_bits)
        .chain(wraps(4))
    {
        all.push(Picture { ppl: size, ..plain.clone() });
        all.push(Picture { nol: size, ..plain.clone() });
        all.push(Picture { ppl: size, nol: size, ..plain.clone() });
    }
    for length in [0, 1, 255, 256, 257, 511, 512, 767, 768, 769, 1024, 1536, 1999, 2000] {
        let mut picture = Picture { table: rng.bytes(length), ..plain.clone() };
        picture.fit(5);
        all.push(picture);
    }
    for count in 0..=10 {
        all.push(Picture { pixels: plain.pixels[..count].to_vec(), ..plain.clone() });
    }
    for drs in [0, 1, 200, 32_767, 32_768, 32_769, 65_336, 65_535] {
        all.push(Picture { drs, ..plain.clone() });
        all.push(Picture { drs: drs | 0xFFFF_0000, ..plain.clone() });
        all.push(Picture { drs: drs | 0x0001_0000, ..plain.clone() });
    }
    let length = i64::from({
        let mut picture = plain.clone();
        picture.fit(0);
        picture.room
    });
    for room in [0, 1, 511, 512, 1023, 1024, 1025, length - 1, length, length + 1, 400_000] {
        all.push(Picture { room: room as u32, ..plain.clone() });
    }
    // The largest pixels, and the smallest that are too large.
    for (kind, most) in [(1, 1), (2, 255), (9, 1), (3, 65_535), (10, 65_535)] {
        for pixel in [most, most + 1, 65_535] {
            for at in 0..plain.pixels.len() {
                let mut picture = Picture { kind, ..plain.clone() };
                picture.pixels[at] = pixel.min(65_535) as u16;
                picture.fit(1);
                all.push(picture);
            }
        }
    }
    // Widths up to 70,000 with all their pixels.
    for ppl in [65_535, 65_536, 65_537, 70_000] {
        for kind in [1, 2, 9] {
            all.push(Picture::plain(kind, ppl, 1, 1, vec![1; ppl]));
        }
    }
    all
}

/// Every bit of every field's number changed.
fn bits() -> Vec<Picture> {
    let plain = Picture::plain(2, 3, 2, 1, (0..6).collect());
    let mut all = Vec::new();
    for bit in (0..32).map(|bit| 1 << bit) {
        all.push(Picture { kind: plain.kind ^ bit, ..plain.clone() });
        all.push(Picture { ppl: plain.ppl ^ bit, ..plain.clone() });
        all.push(Picture { nol: plain.nol ^ bit, ..plain.clone() });
        all.push(Picture { slo: plain.slo ^ bit, ..plain.clone() });
        all.push(Picture { scn: plain.scn ^ bit, ..plain.clone() });
        all.push(Picture { drs: plain.drs ^ bit, ..plain.clone() });
    }
    all
}

/// Line numbers above 255, as many as the room has place for.
fn many_lines() -> Vec<Picture> {
    let mut all = Vec::new();
    for (kind, nol, scn) in [
        (1, 65_535, 0),
        (2, 65_535, 0),
        (9, 65_535, 0),
        (1, 65_536, 0),
        (1, 131_073, 0),
        (2, 150_000, 0),
        (1, 39_000, 1),
        (3, 30_000, 1),
        (2, 39_000, 1),
        (9, 300, 1),
        (10, 20_000, 1),
    ] {
        let pixels = (0..nol).map(|i| (i % 2) as u16).collect();
        all.push(Picture::plain(kind, 1, nol, scn, pixels));
    }
    // More than the room can hold, more than the pixels are, and one line more than there may be.
    all.push(Picture { room: 400_000, ..Picture::plain(2, 1, 65_535, 1, vec![1; 65_535]) });
    all.push(Picture { room: 400_000, ..Picture::plain(2, 1, 65_536, 1, vec![1; 65_536]) });
    for nol in [1_000_000, 1_000_001] {
        all.push(Picture::plain(2, 1, nol, 0, vec![1; 150_000]));
    }
    // Far more; 32 bits take the first two for none and for 4,096.
    for (ppl, nol) in [(32_768, 131_072), (61_681, 69_632), (65_535, 1_000_000)] {
        all.push(Picture::plain(2, ppl, nol, 0, vec![1; 4_096]));
    }
    all
}

/// Rows of type 1 of every width around what fills words: full, with a pixel at each end, by chance.
fn packed(rng: &mut Rng) -> Vec<Picture> {
    let mut all = Vec::new();
    for ppl in (1..=34).chain([47, 48, 49, 63, 64, 65, 127, 128, 129, 255, 256, 257]) {
        let ends = (0..ppl).map(|i| u16::from(i == 0 || i == ppl - 1)).collect();
        let pixels = [vec![1; ppl], ends, some_row(rng, 1, ppl)].concat();
        all.extend([0, 1].map(|scn| Picture::plain(1, ppl, 3, scn, pixels.clone())));
    }
    all
}

/// Standard input on both sides of its limits, cut short, and with bytes to spare.
fn odd_inputs(rng: &mut Rng) -> Vec<Vec<u8>> {
    let mut all = Vec::new();
    let mut plain = Picture::plain(9, 4, 2, 1, vec![0, 1, 1, 0, 1, 0, 0, 1, 7, 7]);
    plain.table = rng.bytes(768);
    plain.fit(9);
    let whole = plain.input();
    for len in [0, 1, 3, 4, 39, 40, 41, 807, 808, 809, whole.len() - 2, whole.len() - 1] {
        all.push(whole[..len].to_vec());
    }
    for more in [1, 2, 100, 100_000, 400_000 - whole.len(), 400_001 - whole.len()] {
        let mut input = whole.clone();
        input.extend(rng.bytes(more));
        all.push(input);
    }
    for count in [149_999, 150_000, 150_001] {
        all.push(Picture { pixels: vec![1; count], ..plain.clone() }.input());
    }
    for length in [1_999, 2_000, 2_001, 2_768] {
        all.push(Picture { table: vec![1; length], ..plain.clone() }.input());
    }
    for room in [399_999, 400_000, 400_001, 1 << 31, u32::MAX] {
        all.push(Picture { room, ..plain.clone() }.input());
    }
    all
}

/// A picture by chance, whole or with faults.
pub fn random(rng: &mut Rng) -> Input {
    let mut picture = some_picture(rng);
    let faults = rng.pick(&[0, 0, 0, 0, 0, 1, 2, 3]);
    for _ in 0..faults {
        let number = rng.pick(&REJECTIONS);
        spoil(rng, &mut picture, number);
    }
    let family = if faults == 0 { "pictures by chance" } else { "faults by chance" };
    Input { family, what: What::Picture(picture) }
}
