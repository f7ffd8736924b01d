//! The inputs of mode `sheets`.

use super::header::{spoiled, words_to_follow, Draft};
use super::sheet::{
    damage, headed, sheet, some_bare, some_body, some_header, some_lines, some_margin, some_row,
    some_size, spare_bits, words, Flaw, Harm, Line, FLAWS, TYPES,
};
use crate::model::probe::{LISTING_LIMIT, LISTING_MARKS, LISTING_PIXELS};
use crate::rng::Rng;
use std::collections::BTreeSet;

/// The families of the inputs that are always run, and of those by chance.
pub const FIXED: [&str; 12] = [
    "limit of the input",
    "flaws of a line, all together",
    "lines that start partway",
    "every short body",
    "every short raster without headers",
    "every bit of packed words",
    "every bit of packed words without headers",
    "cut at every byte",
    "words to follow",
    "one bit changed",
    "limits of the buffers",
    "header refused",
];
pub const BY_CHANCE: [&str; 9] = [
    "good, with headers",
    "good, without headers",
    "damaged lines",
    "lost lines",
    "cut anywhere",
    "bytes changed",
    "runs that miss the width",
    "raster by chance",
    "more or fewer lines than told",
];

pub struct Input {
    pub family: &'static str,
    pub file: Vec<u8>,
}

/// The inputs that are always run.
pub fn fixed(seed: u64) -> Vec<Input> {
    let mut rng = Rng::new(seed, u64::MAX);
    let mut all = Vec::new();
    let mut add = |family, files: Vec<Vec<u8>>| {
        all.extend(files.into_iter().map(|file| Input { family, file }));
    };
    add("limit of the input", sizes(&mut rng));
    add("flaws of a line, all together", flaws(&mut rng));
    add("lines that start partway", partway(&mut rng));
    add("every short body", short_bodies());
    add("every short raster without headers", short_rasters());
    add("every bit of packed words", packed_bodies());
    add("every bit of packed words without headers", packed_rasters(&mut rng));
    add("cut at every byte", cuts(&mut rng));
    add("words to follow", follows());
    add("one bit changed", bits());
    add("limits of the buffers", buffers(&mut rng));
    add(
        "header refused",
        (11..=22).flat_map(|n| [n; 8]).map(|n| refused(&mut rng, &[n])).collect(),
    );
    all
}

/// The middle one of three lines with every set of flaws, which pins the order of the marks.
fn flaws(rng: &mut Rng) -> Vec<Vec<u8>> {
    let mut all = Vec::new();
    for kind in TYPES {
        for set in 0..1usize << FLAWS.len() {
            let chosen: Vec<Flaw> =
                (0..FLAWS.len()).filter(|bit| set >> bit & 1 == 1).map(|bit| FLAWS[bit]).collect();
            let has = |flaw| chosen.contains(&flaw);
            let totals = [Flaw::Above, Flaw::Below, Flaw::Misfit].into_iter().filter(|&f| has(f));
            // One word holds W, and a body has one total.
            if has(Flaw::FollowBelowTwo) && has(Flaw::FollowPastFile) || totals.count() > 1 {
                continue;
            }
            if kind <= 3 && (has(Flaw::Above) || has(Flaw::Below)) {
                continue;
            }
            if kind != 1 && has(Flaw::Spare) {
                continue;
            }
            let ppl = rng.range(1, 12);
            let mut lines = some_lines(rng, kind, ppl, 3, Harm::None);
            // The count last, for another flaw may set it right.
            let mut order = chosen.clone();
            order.sort_by_key(|&flaw| flaw == Flaw::Count);
            for flaw in order {
                damage(rng, &mut lines[1], kind, ppl, flaw);
            }
            let header = some_header(rng, kind, 1, ppl, 3);
            all.push(headed(&header, &lines));
        }
    }
    // A line's header cut short comes before all else that is wrong with it.
    for cut in 0..=8 {
        for line in [[0xD900, 3, 1, 0], [0x5900, 1, 1, 0], [0x5900, 3, 1, 0], [0x0059, 0, 7, 7]] {
            let header = Draft { scn: 1, ..Draft::plain(9, 2) };
            all.push(sheet(&header, &words(&line)[..cut]));
        }
    }
    all
}

/// Lines that start in the first columns of their rows, in the last ones and past them, with
/// bodies that fit and bodies that do not: the first line and the last of three, where the pixels
/// lent begin and end.
fn partway(rng: &mut Rng) -> Vec<Vec<u8>> {
    let mut all = Vec::new();
    for kind in TYPES {
        // On both sides of what fills words, where they are packed.
        let widths = if kind == 1 { [2, 3, 16, 17, 32, 33] } else { [1, 2, 3, 8, 9, 17] };
        for ppl in widths {
            let header = Draft { scn: 1, ppl: ppl as u32, nol: 3, ..Draft::plain(kind, 2) };
            for offset in BTreeSet::from([0, 1, ppl / 2, ppl - 1, ppl, ppl + 1, 65_535]) {
                for (pixels, flaw) in fits_and_misfits(kind, ppl, offset) {
                    let [first, last] = [1, 3].map(|k| {
                        let body = body_of(rng, kind, pixels);
                        let mut line = Line::starting(k, offset, body);
                        if let Some(flaw) = flaw {
                            damage(rng, &mut line, kind, ppl, flaw);
                        }
                        line
                    });
                    let middle = Line::new(2, body_of(rng, kind, ppl));
                    all.push(headed(&header, &[first, middle, last]));
                }
            }
        }
    }
    all
}

/// The pixels that bodies are made for under an offset, and what is wrong with them besides.
fn fits_and_misfits(kind: u16, ppl: usize, offset: usize) -> Vec<(usize, Option<Flaw>)> {
    let (fit, others) = match ppl.checked_sub(offset) {
        Some(rest) => (rest, [rest.saturating_sub(1), rest + 1, ppl]),
        // In 16 bits the row would have so many left.
        None => (0, [1, ppl, 65_536 + ppl - offset]),
    };
    let lengths: BTreeSet<usize> = others.into_iter().chain([fit]).collect();
    let short = |pixels: &usize| kind > 3 || *pixels <= 100;
    let flaws = match kind {
        1 => &[Flaw::Number, Flaw::Count, Flaw::Spare][..],
        2 | 3 => &[Flaw::Number, Flaw::Count],
        _ => &[Flaw::Number, Flaw::Count, Flaw::Above, Flaw::Below],
    };
    let lengths = lengths.into_iter().filter(short).map(|pixels| (pixels, None));
    lengths.chain(flaws.iter().map(|&flaw| (fit, Some(flaw)))).collect()
}

/// A body of so many pixels, neither end of which is blank, so that a row in the wrong place is
/// seen.
fn body_of(rng: &mut Rng, kind: u16, pixels: usize) -> Vec<u8> {
    let mut row = if pixels <= 100 { some_row(rng, kind, pixels) } else { vec![1; pixels] };
    for end in [0, pixels.max(1) - 1] {
        if let Some(pixel) = row.get_mut(end) {
            *pixel = 1;
        }
    }
    some_body(rng, kind, &row, true, true)
}

/// Every list of up to `most` of the words 0 to 3.
fn lists(most: usize) -> Vec<Vec<u16>> {
    let mut all: Vec<Vec<u16>> = vec![Vec::new()];
    let mut from = 0;
    for _ in 0..most {
        let to = all.len();
        for i in from..to {
            for word in 0..4 {
                let longer: Vec<u16> = all[i].iter().copied().chain([word]).collect();
                all.push(longer);
            }
        }
        from = to;
    }
    all
}

/// Every body of a few small words under every offset up to PPL and one above, as lines of a few
/// sheets: with headers each line stands for itself.
fn short_bodies() -> Vec<Vec<u8>> {
    let mut all = Vec::new();
    let starts = |ppl: usize| (0..=ppl + 1).map(move |offset| (ppl, offset));
    for kind in TYPES.into_iter().filter(|kind| *kind != 1) {
        for (ppl, offset) in (1..=3).flat_map(starts) {
            for bodies in lists(5).chunks(200) {
                let lines: Vec<Line> = bodies
                    .iter()
                    .enumerate()
                    .map(|(i, body)| Line::starting(i + 1, offset, words(body)))
                    .collect();
                let mut header = Draft::plain(kind, 2);
                header.scn = 1;
                header.ppl = ppl as u32;
                header.nol = lines.len() as u32;
                all.push(headed(&header, &lines));
            }
        }
    }
    all
}

/// Packed bodies of up to two words with one bit set in each, or none, around what fills words and
/// under offsets.
fn packed_bodies() -> Vec<Vec<u8>> {
    let single: Vec<u16> = (0..16).map(|bit| 1 << bit).chain([0]).collect();
    let mut bodies: Vec<Vec<u16>> = vec![Vec::new()];
    bodies.extend(single.iter().map(|&word| vec![word]));
    bodies
        .extend(single.iter().flat_map(|&first| single.iter().map(move |&last| vec![first, last])));
    let mut all = Vec::new();
    for (ppl, offset) in [
        (1, 0),
        (8, 0),
        (15, 0),
        (16, 0),
        (17, 0),
        (18, 1),
        (18, 2),
        (18, 3),
        (20, 18),
        (31, 0),
        (32, 0),
        (33, 0),
        (33, 1),
        (17, 17),
        (17, 18),
    ] {
        for bodies in bodies.chunks(200) {
            let lines: Vec<Line> = bodies
                .iter()
                .enumerate()
                .map(|(i, body)| Line::starting(i + 1, offset, words(body)))
                .collect();
            let (ppl, nol) = (ppl as u32, lines.len() as u32);
            all.push(headed(&Draft { scn: 1, ppl, nol, ..Draft::plain(1, 2) }, &lines));
        }
    }
    all
}

/// Two packed lines without headers, blank or not, with every bit of the first changed: with a spare bit
/// set the second still follows it.
fn packed_rasters(rng: &mut Rng) -> Vec<Vec<u8>> {
    let mut all = Vec::new();
    for ppl in [1, 8, 15, 16, 17, 33] {
        let header = Draft { ppl: ppl as u32, nol: 2, ..Draft::plain(1, 2) };
        let rows = [vec![0; ppl], some_row(rng, 1, ppl)];
        for row in rows {
            let body = some_body(rng, 1, &row, false, false);
            let plain = sheet(&header, &[&body[..], &body].concat());
            for bit in 0..8 * body.len() {
                let mut file = plain.clone();
                file[1_024 + bit / 8] ^= 1 << (bit % 8);
                all.push(file);
            }
            all.push(plain);
        }
    }
    all
}

/// Every raster of a few small words without headers, for two lines.
fn short_rasters() -> Vec<Vec<u8>> {
    let mut all = Vec::new();
    for raster in lists(4) {
        all.push(sheet(&Draft { ppl: 2, nol: 2, ..Draft::plain(9, 2) }, &words(&raster)));
        // The words are the counts; the values tell the pairs apart.
        let pairs: Vec<u16> =
            raster.iter().zip(5..).flat_map(|(&run, value)| [value, run]).collect();
        let header = Draft { ppl: 2, nol: 2, ..Draft::plain(10, 2) };
        all.push(sheet(&header, &words(&pairs)));
    }
    all
}

/// A small sheet of each kind, cut at every byte of its raster data. With headers each line
/// starts a column farther right than the one above.
fn cuts(rng: &mut Rng) -> Vec<Vec<u8>> {
    let mut all = Vec::new();
    for kind in TYPES {
        for scn in [0, 1] {
            // Two words a line where pixels are packed, in each line.
            let ppl = match kind {
                1 => 20,
                2 => 5,
                _ => 4,
            };
            let nol = 3;
            let header = Draft { scn, ppl, nol, ..Draft::plain(kind, 2) };
            let row: Vec<u16> = [0, 1, 1, 0, 1].into_iter().cycle().take(ppl as usize).collect();
            let raster: Vec<u8> = (0..nol as usize)
                .flat_map(|offset| match scn {
                    0 => some_body(rng, kind, &row, false, false),
                    _ => {
                        let body = some_body(rng, kind, &row[offset..], false, true);
                        Line::starting(offset + 1, offset, body).bytes()
                    }
                })
                .collect();
            all.extend((0..=raster.len()).map(|len| sheet(&header, &raster[..len])));
        }
    }
    all
}

/// Words to follow that lead just to the file's end, just past it and far past it.
fn follows() -> Vec<Vec<u8>> {
    let mut all = Vec::new();
    for kind in TYPES {
        for follow in
            (0..=16).chain([0x3FFF, 0x7FFC, 0x7FFE, 0x7FFF, 0x8000, 0x8002, 0xFFFE, 0xFFFF])
        {
            // Line 2 stands at every word that line 1's chain may lead to.
            let mut line = Line::new(1, words(&[0, 8, 0, 0]));
            line.follow = Some(follow);
            let again = Line::new(2, words(&[0, 8, 0, 0]));
            let header = Draft { scn: 1, nol: 2, ..Draft::plain(kind, 2) };
            all.push(headed(&header, &[line, again]));
        }
    }
    all
}

/// A small sheet of each kind with every bit of a line in the middle changed, header and
/// body: no part of a word may be left out of account.
fn bits() -> Vec<Vec<u8>> {
    let mut all = Vec::new();
    for (kind, body) in [
        (1, words(&[0xB000])),
        (2, words(&[0x0605, 0x0807])),
        (3, words(&[1, 256, 32_768, 9])),
        (9, words(&[1, 2, 1])),
        (10, words(&[300, 1, 7, 3])),
    ] {
        for (scn, offset) in [(0, 0), (1, 0), (1, 2)] {
            let header = Draft { scn, ppl: 4 + offset as u32, nol: 3, ..Draft::plain(kind, 2) };
            let lines: Vec<Vec<u8>> = (1..=3)
                .map(|k| match scn {
                    0 => body.clone(),
                    _ => Line::starting(k, offset, body.clone()).bytes(),
                })
                .collect();
            for bit in 0..8 * lines[1].len() {
                let mut raster = lines.concat();
                raster[lines[0].len() + bit / 8] ^= 1 << (bit % 8);
                all.push(sheet(&header, &raster));
            }
        }
    }
    all
}

/// Sizes on both sides of 8,192 pixels and 256 lines, some of which 16 bits would let pass.
fn buffers(rng: &mut Rng) -> Vec<Vec<u8>> {
    let sizes = [
        (8_192, 1),
        (8_193, 1),
        (1, 256),
        (1, 257),
        (32, 256),
        (33, 256),
        (32, 257),
        (31, 257),
        (64, 128),
        (64, 129),
        (4_096, 2),
        (4_097, 2),
        (2_731, 3),
        (2_730, 3),
        (91, 90),
        (90, 91),
        (256, 256),
        (1, 8_192),
        (1, 8_193),
        (1, 65_535),
        (65_535, 1),
        (65_535, 65_535),
        (32_768, 2),
        (8_192, 8),
        (65_535, 257),
        (16_384, 4),
    ];
    let mut all = Vec::new();
    for kind in TYPES {
        for scn in [0, 1] {
            for (ppl, nol) in sizes {
                let header = some_header(rng, kind, scn, ppl, nol);
                let lent = ppl as u64 * nol as u64 <= LISTING_PIXELS && nol as u64 <= LISTING_MARKS;
                let raster = match (lent, scn) {
                    (false, _) => rng.bytes(40),
                    (true, 0) => some_bare(rng, kind, ppl, nol),
                    (true, _) => {
                        let lines = some_lines(rng, kind, ppl, nol, Harm::None);
                        lines.iter().flat_map(Line::bytes).collect()
                    }
                };
                all.push(sheet(&header, &raster));
            }
        }
    }
    // Lines past 65,535; the last two have 2^32 pixels, and 4,096 more.
    for (kind, ppl, nol) in [
        (9, 1, 65_536),
        (2, 1, 65_537),
        (10, 1, 131_072),
        (1, 2, 1_000_000),
        (3, 65_535, 1_000_000),
        (2, 32_768, 131_072),
        (9, 61_681, 69_632),
    ] {
        for scn in [0, 1] {
            let header = some_header(rng, kind, scn, ppl, nol);
            all.push(sheet(&header, &rng.bytes(40)));
        }
    }
    // Header and size both wrong: the header's number comes first.
    for (ppl, nol) in [
        (65_536, 1),
        (1, 1_000_001),
        (1, 1_048_577),
        (0, 257),
        (65_535, 0),
        (8_193, 65_536),
        (8_193, 1_000_001),
        (65_536, 1_000_001),
    ] {
        for scn in [0, 1, 2] {
            all.push(Draft { ppl, nol, scn, ..Draft::plain(9, 2) }.bytes());
        }
    }
    all
}

/// Inputs around the most the program takes.
fn sizes(rng: &mut Rng) -> Vec<Vec<u8>> {
    let mut all = Vec::new();
    for len in [32_766, 32_767, 32_768, 32_769, 32_770, 40_000, 65_536, 100_000] {
        for scn in [0, 1] {
            let header = some_header(rng, 9, scn, 8, 3);
            let raster = match scn {
                0 => some_bare(rng, 9, 8, 3),
                _ => some_lines(rng, 9, 8, 3, Harm::None).iter().flat_map(Line::bytes).collect(),
            };
            let mut file = sheet(&header, &raster);
            file.resize(len, 0x59);
            all.push(file);
        }
        all.push(rng.bytes(len));
    }
    // Raster data that end with the last byte that is read, or start there.
    for (ppl, blocks) in [(8_192, 32), (8_192, 48), (1, 64), (1, 63)] {
        for kind in [2, 3] {
            let mut header = Draft::plain(kind, blocks);
            header.ppl = ppl;
            header.nol = 1;
            let mut file = header.bytes();
            file.extend(rng.bytes((LISTING_LIMIT - file.len()).min(17_000)));
            all.push(file);
        }
    }
    all
}

/// A sheet whose header is refused.
pub fn refused(rng: &mut Rng, numbers: &[u32]) -> Vec<u8> {
    loop {
        let header = spoiled(rng, numbers);
        if header.len < 20_000 {
            let mut file = header.bytes();
            if numbers.iter().all(|&number| number > 14) {
                file.extend(rng.bytes(60));
            }
            return file;
        }
    }
}

/// A sheet by chance.
pub fn random(rng: &mut Rng) -> Input {
    let kind = rng.pick(&TYPES);
    let (ppl, nol) = some_size(rng);
    let (family, file) = match rng.below(20) {
        0..=1 => ("good, with headers", some_headed(rng, kind, ppl, nol, Harm::None)),
        2..=3 => ("good, without headers", some_plain(rng, kind, ppl, nol)),
        4..=6 => ("damaged lines", some_headed(rng, kind, ppl, nol, Harm::Lines)),
        7..=8 => ("lost lines", some_headed(rng, kind, ppl, nol, Harm::Chain)),
        9..=10 => {
            let mut file = match rng.below(2) {
                0 => some_plain(rng, kind, ppl, nol),
                _ => some_headed(rng, kind, ppl, nol, Harm::None),
            };
            let cut = if rng.one_in(8) { rng.below(file.len()) } else { cut_in_raster(rng, &file) };
            file.truncate(cut);
            ("cut anywhere", file)
        }
        11..=13 => {
            let mut file = match rng.below(2) {
                0 => some_plain(rng, kind, ppl, nol),
                _ => some_headed(rng, kind, ppl, nol, Harm::None),
            };
            change(rng, &mut file);
            ("bytes changed", file)
        }
        14..=15 => ("runs that miss the width", missed(rng, ppl, nol)),
        16..=17 => ("raster by chance", noise(rng, kind, ppl, nol)),
        18 => {
            let told = (nol + rng.below(5)).saturating_sub(2).clamp(1, 256);
            let header = some_header(rng, kind, 1, ppl, told);
            let lines = some_lines(rng, kind, ppl, nol, Harm::None);
            ("more or fewer lines than told", headed(&header, &lines))
        }
        _ => {
            let faults: Vec<u32> = (0..rng.range(1, 2)).map(|_| rng.range(11, 22) as u32).collect();
            ("header refused", refused(rng, &faults))
        }
    };
    Input { family, file }
}

/// A sheet with headers, and often bytes after its end.
pub fn some_headed(rng: &mut Rng, kind: u16, ppl: usize, nol: usize, harm: Harm) -> Vec<u8> {
    let header = some_header(rng, kind, 1, ppl, nol);
    let lines = some_lines(rng, kind, ppl, nol, harm);
    let mut file = headed(&header, &lines);
    tail(rng, &mut file);
    file
}

fn some_plain(rng: &mut Rng, kind: u16, ppl: usize, nol: usize) -> Vec<u8> {
    let header = some_header(rng, kind, 0, ppl, nol);
    let raster = some_bare(rng, kind, ppl, nol);
    let mut file = sheet(&header, &raster);
    tail(rng, &mut file);
    file
}

fn tail(rng: &mut Rng, file: &mut Vec<u8>) {
    if rng.one_in(3) {
        let more = rng.range(1, 40);
        file.extend(rng.bytes(more));
    }
}

/// Where the raster data of an accepted sheet begin.
fn raster_start(file: &[u8]) -> usize {
    let follow = usize::from(u16::from_le_bytes([file[2], file[3]]));
    debug_assert!(follow >= usize::from(words_to_follow(2)));
    2 * (follow + 2)
}

pub fn cut_in_raster(rng: &mut Rng, file: &[u8]) -> usize {
    rng.range(raster_start(file).min(file.len()), file.len())
}

/// Changes bytes of a right sheet, mostly of its raster data.
pub fn change(rng: &mut Rng, file: &mut [u8]) {
    let start = raster_start(file);
    for _ in 0..rng.pick(&[1, 1, 2, 5, 20]) {
        let at = if start < file.len() && !rng.one_in(20) {
            rng.range(start, file.len() - 1)
        } else {
            rng.below(file.len())
        };
        file[at] = match rng.below(3) {
            0 => file[at] ^ 1 << rng.below(8),
            1 => rng.pick(&[0, 1, 2, 0x59, 0xFF]),
            _ => rng.byte(),
        };
    }
}

/// Without headers: one run a little too long or too short somewhere.
fn missed(rng: &mut Rng, ppl: usize, nol: usize) -> Vec<u8> {
    let kind = rng.pick(&[9, 10]);
    let header = some_header(rng, kind, 0, ppl, nol);
    let mut raster = some_bare(rng, kind, ppl, nol);
    for _ in 0..rng.range(1, 2) {
        let at = 2 * rng.below(raster.len() / 2);
        let run = u16::from_le_bytes([raster[at], raster[at + 1]]);
        let wrong = match rng.below(6) {
            0 | 1 => run.wrapping_add(1),
            2 | 3 => run.wrapping_sub(1),
            4 => 0,
            _ => rng.pick(&[ppl as u16, ppl as u16 + 1, 32_768, 65_535]),
        };
        raster[at..at + 2].copy_from_slice(&wrong.to_le_bytes());
    }
    sheet(&header, &raster)
}

/// Raster data of words by chance: small ones, so that lines come about, or any.
fn noise(rng: &mut Rng, kind: u16, ppl: usize, nol: usize) -> Vec<u8> {
    let scn = rng.below(2) as u8;
    let header = some_header(rng, kind, scn, ppl, nol);
    let list: Vec<u16> = (0..rng.below(400))
        .map(|_| match rng.below(8) {
            0 => rng.word(),
            1 => rng.range(0, ppl) as u16,
            2 => 0,
            // Words that fit as a rule, the last of a line too.
            3..=6 if kind == 1 => rng.word() & !spare_bits(ppl),
            _ => rng.below(8) as u16,
        })
        .collect();
    let mut raster = Vec::new();
    if scn == 1 {
        // Lines whose bodies are chance.
        let margin = some_margin(rng, ppl);
        let mut rest = &list[..];
        for k in 1..=nol {
            let taken = rng.below(8).min(rest.len());
            let offset = margin.offset(rng, ppl);
            raster.extend(Line::starting(k, offset, words(&rest[..taken])).bytes());
            rest = &rest[taken..];
        }
    } else {
        raster = words(&list);
        raster.extend(rng.bytes(1));
    }
    if rng.one_in(4) {
        let row = some_row(rng, kind, ppl);
        raster.extend(some_body(rng, kind, &row, true, false));
    }
    sheet(&header, &raster)
}
