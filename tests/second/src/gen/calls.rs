//! The cases of `c_calls`: inputs of the other modes, and the lengths of the slices lent.

use super::header::{some_entries, Draft};
use super::large::{self, some_banded, some_large, some_large_picture, some_large_turning};
use super::long::LongEdge;
use super::long_calls;
use super::moves::{self, Move};
use super::pairs::{changed, some_pair, Pair};
use super::picture::{some_small_picture, Picture};
use super::sheet::{headed, sheet, some_bare, some_lines, Harm, TYPES};
use super::turning::{faulty, some_turning, Turning, FAULTS};
use super::{headers, picture, pictures, sheets, turnings};
use crate::calls::call::Lend;
use crate::color_edges::{color_edges, ColorEdge};
use crate::edges::{self, Edge, MovedEdge, TurnedEdge, WrittenEdge};
use crate::model::c::{COLOR_ANSWER, HEADER_ANSWER, MOVE_ANSWER, RASTER_ANSWER, WRITE_ANSWER};
use crate::model::{long, word, MOST_LINES};
use crate::peer::Peer;
use crate::rng::Rng;

pub struct Case {
    pub family: &'static str,
    pub what: What,
}

pub enum What {
    Edge(Edge),
    WrittenEdge(WrittenEdge),
    TurnedEdge(TurnedEdge),
    MovedEdge(MovedEdge),
    ColorEdge(ColorEdge),
    LongEdge(LongEdge),
    Peer(Peer),
    /// With the outcome, where it is known without the model.
    Header {
        file: Vec<u8>,
        answer: usize,
        first: Option<String>,
    },
    /// Both color calls.
    Color {
        file: Vec<u8>,
        value: u32,
        answer: usize,
    },
    Raster {
        file: Vec<u8>,
        lend: Lend,
    },
    Pair(Pair),
    Picture {
        picture: Picture,
        answer: usize,
    },
    Turning(Turning),
    /// A turning whose result is turned the other way again.
    Trip(Turning),
    Move(Move),
    /// A sheet that is moved, and back; whether it must come back byte for byte.
    ThereAndBack {
        file: Vec<u8>,
        returns: bool,
    },
    /// Files and pictures of more than 2 GB.
    Vast,
}

pub const EDGES: &str = "edges by hand";
pub const OTHER: &str = "sheets of another program";
/// The other cases that are always run, small ones first.
pub const SMALL: [&str; 2] = ["lengths of answer slices", "lengths of buffers"];
pub const FIXED: [&str; 8] = [
    "headers",
    "every color",
    "sheets",
    "pictures",
    "turnings",
    "one bit changed",
    "large sheets",
    "moves",
];
pub const VAST: &str = "more than 2 GB";
const HEADERS: &str = "headers by chance";
const COLORS: &str = "colors by chance";
const SHEETS: &str = "sheets by chance";
pub const PAIRS: &str = "pairs by chance";
const PICTURES: &str = "pictures by chance";
const TURNINGS: &str = "turnings by chance";
const TRIPS: &str = "round trips by chance";
const MOVES: &str = "moves by chance";
pub const THERE_AND_BACK: &str = "moves there and back by chance";
const BANDS: &str = "bands by chance";
const LARGE: &str = "large ones by chance";
const LONG_ONES: &str = "long ones by chance";
pub const BY_CHANCE: [&str; 12] = [
    HEADERS,
    COLORS,
    SHEETS,
    PAIRS,
    PICTURES,
    TURNINGS,
    TRIPS,
    MOVES,
    THERE_AND_BACK,
    BANDS,
    LARGE,
    LONG_ONES,
];

/// Which cases there are.
#[derive(Clone, Copy, PartialEq)]
pub enum Extent {
    /// A few small ones.
    Small,
    /// All but those of more than 2 GB and two thirds of the long ones.
    Middle,
    Whole,
}

/// The largest edge of the writer in a small extent, in pixels, and of the move, in bytes.
const SMALL_PICTURE: usize = 3_000;

/// Cases of one family, to be made.
pub type Group = Box<dyn FnOnce(&mut Rng) -> Vec<Case>>;

/// The cases that are always run. No group of them is made before it is come to.
pub fn fixed(seed: u64, extent: Extent, peers: Vec<Peer>) -> impl Iterator<Item = Case> {
    let mut groups: Vec<Group> = vec![
        Box::new(move |_| known(extent, peers)),
        Box::new(|rng| all_of(SMALL[0], answers(rng))),
        Box::new(|rng| all_of(SMALL[1], buffers(rng))),
    ];
    if extent != Extent::Small {
        groups.push(Box::new(move |rng| all_of(FIXED[0], fixed_headers(rng, seed))));
        groups.push(Box::new(|rng| all_of(FIXED[1], colors(rng))));
        groups.push(Box::new(move |rng| {
            all_of(FIXED[2], sheets::fixed(seed).into_iter().map(|input| raster(rng, input.file)))
        }));
        groups.push(Box::new(move |rng| all_of(FIXED[3], fixed_pictures(rng, seed))));
        groups.push(Box::new(move |_| all_of(FIXED[4], fixed_turnings(seed))));
        groups.push(Box::new(|rng| all_of(FIXED[5], bits(rng))));
        groups.push(Box::new(|rng| all_of(FIXED[6], larges(rng))));
        groups.push(Box::new(|rng| all_of(FIXED[7], fixed_moves(rng))));
    }
    let mut rng = Rng::new(seed, u64::MAX - 1);
    let cases = groups.into_iter().flat_map(move |make| make(&mut rng));
    let one_in = if extent == Extent::Middle { 3 } else { 1 };
    let long = (extent != Extent::Small).then(|| long_calls::fixed(seed, None, one_in));
    let vast = (extent == Extent::Whole).then_some(Case { family: VAST, what: What::Vast });
    cases.chain(long.into_iter().flatten()).chain(vast)
}

pub fn all_of(family: &'static str, list: impl IntoIterator<Item = What>) -> Vec<Case> {
    list.into_iter().map(|what| Case { family, what }).collect()
}

/// Outcomes that are not made by the model.
fn known(extent: Extent, peers: Vec<Peer>) -> Vec<Case> {
    let mut all = all_of(EDGES, edges::edges().into_iter().map(What::Edge));
    let mut written = edges::written_edges();
    if extent == Extent::Small {
        written.retain(|edge| edge.picture.pixels.len() <= SMALL_PICTURE);
    }
    all.extend(all_of(EDGES, written.into_iter().map(What::WrittenEdge)));
    all.extend(all_of(EDGES, edges::turned_edges().into_iter().map(What::TurnedEdge)));
    let mut moved = edges::moved_edges();
    if extent == Extent::Small {
        moved.retain(|edge| edge.file.len() <= SMALL_PICTURE);
    }
    all.extend(all_of(EDGES, moved.into_iter().map(What::MovedEdge)));
    all.extend(all_of(EDGES, color_edges().into_iter().map(What::ColorEdge)));
    all.extend(all_of(OTHER, peers.into_iter().map(What::Peer)));
    all
}

/// Answer slices of every length up to a few bytes more than needed, for each call: accepted,
/// and refused by a check of its own, the first and the last ones that there are.
fn answers(rng: &mut Rng) -> Vec<What> {
    let mut all = Vec::new();
    let good = small_sheet(rng, 9, 1);
    let twice = [[7, 1, 1, 1], [7, 2, 2, 2]];
    let mut slots = Draft::plain(2, 2);
    slots.environ_v(&twice);
    for file in [good.clone(), Vec::new(), slots.bytes()] {
        for answer in 0..=HEADER_ANSWER + 9 {
            all.push(What::Header { file: file.clone(), answer, first: None });
        }
        for answer in 0..=COLOR_ANSWER + 9 {
            for value in [1, 2, 256] {
                all.push(What::Color { file: file.clone(), value, answer });
            }
        }
        for answer in 0..=RASTER_ANSWER + 12 {
            let enough = needed(&file);
            let short = Lend { marks: 0, ..enough };
            let shorter = Lend { pixels: 0, ..short };
            for lend in [enough, short, shorter] {
                all.push(What::Raster { file: file.clone(), lend: Lend { answer, ..lend } });
            }
        }
    }
    let picture = Picture::plain(9, 4, 2, 1, vec![0, 1, 1, 0, 1, 0, 0, 1]);
    let refused = [
        Picture { kind: 4, ..picture.clone() },
        Picture { room: picture.room - 4, ..picture.clone() },
        Picture { pixels: vec![2; 8], ..picture.clone() },
    ];
    for picture in refused.into_iter().chain([picture]) {
        for answer in 0..=WRITE_ANSWER + 9 {
            all.push(What::Picture { picture: picture.clone(), answer });
        }
    }
    let (packed, runs) = (moves::plain(rng, 1, 1), moves::plain(rng, 9, 1));
    let partway = sheet(&Draft { scn: 1, nol: 1, ..Draft::plain(1, 2) }, &[0, 0x59, 2, 0, 1, 0, 8]);
    let partway = [partway, vec![0]].concat();
    let other = small_sheet(rng, 2, 0);
    for (file, room) in [
        (runs, 2_000),
        (packed.clone(), 9_000),
        (packed, 0),
        (Vec::new(), 9),
        (partway, 9),
        (other, 9),
    ] {
        for answer in 0..=MOVE_ANSWER + 9 {
            all.push(What::Move(Move { file: file.clone(), room, answer }));
        }
    }
    all
}

/// Two lines of three pixels, whole.
fn small_sheet(rng: &mut Rng, kind: u16, scn: u8) -> Vec<u8> {
    let header = Draft { scn, ppl: 3, nol: 2, ..Draft::plain(kind, 2) };
    match scn {
        0 => sheet(&header, &some_bare(rng, kind, 3, 2)),
        _ => headed(&header, &some_lines(rng, kind, 3, 2, Harm::None)),
    }
}

/// Sides whose number of bytes, or of pixels, is small again in 32 bits or in 16.
const WRAPPED: [(u32, u32); 11] = [
    (65_535, 32_769),
    (65_535, 32_770),
    (65_534, 32_770),
    (256, 256),
    (257, 256),
    (32_768, 2),
    (32_768, 65_536),
    (32_768, 131_072),
    (61_681, 69_632),
    (65_535, 65_537),
    (65_535, 1_000_000),
];

/// Small sheets of every kind into pixel and mark slices of every length around what is needed,
/// and large ones into as few as a product of fewer bits would ask for.
fn buffers(rng: &mut Rng) -> Vec<What> {
    let mut all = Vec::new();
    for (ppl, nol) in WRAPPED {
        let file = Draft { ppl, nol, ..Draft::plain(2, 2) }.bytes();
        let bytes = 2 * u64::from(ppl) * u64::from(nol);
        for pixels in [bytes as u32 as usize, bytes as u16 as usize].map(|n| n.min(200_000)) {
            let lend = Lend { pixels, marks: nol as usize, answer: RASTER_ANSWER };
            all.push(What::Raster { file: file.clone(), lend });
        }
    }
    for kind in TYPES {
        for scn in [0, 1] {
            let long = Draft { scn, ppl: 3, nol: 2, ..Draft::plain(kind, 256) };
            let mut file = long.bytes();
            file.extend(&small_sheet(rng, kind, scn)[1_024..]);
            let lend = needed(&file);
            all.push(What::Raster { file, lend });
            let file = small_sheet(rng, kind, scn);
            let enough = needed(&file);
            for pixels in 0..=enough.pixels + 5 {
                let lend = Lend { pixels, ..enough };
                all.push(What::Raster { file: file.clone(), lend });
            }
            for marks in 0..=enough.marks + 5 {
                for more in [0, 1] {
                    let lend = Lend { marks, pixels: enough.pixels + more, ..enough };
                    all.push(What::Raster { file: file.clone(), lend });
                }
                let lend = Lend { marks, pixels: enough.pixels - 1, ..enough };
                all.push(What::Raster { file: file.clone(), lend });
            }
        }
    }
    all
}

fn fixed_headers(rng: &mut Rng, seed: u64) -> Vec<What> {
    let mut all = Vec::new();
    for headers::Input { bytes: file, first, .. } in headers::fixed(seed) {
        let value = some_value(rng, &file);
        let answer = some_length(rng, COLOR_ANSWER);
        all.push(What::Color { file: file.clone(), value, answer });
        // One that is known by hand is asked for with room for all numbers.
        let answer = if first.is_some() { HEADER_ANSWER } else { some_length(rng, HEADER_ANSWER) };
        all.push(What::Header { file, answer, first });
    }
    all
}

/// Every value that a table may have, and such as 16 or 8 bits would take for one: all in sheets of
/// some types, and those around each limit in every type with every kind of table.
fn colors(rng: &mut Rng) -> Vec<What> {
    let mut entries = some_entries(rng, 200);
    for (entry, slot) in entries.iter_mut().zip([0, 65_535, 256, 255]) {
        entry[0] = slot;
    }
    // Others may have had these slots.
    entries.sort_by_key(|entry| entry[0]);
    entries.dedup_by_key(|entry| entry[0]);
    let known = entries.iter().map(|entry| u32::from(entry[0]));
    let near = [0, 1, 2, 3, 254, 255, 65_534, 65_535, u32::MAX - 1, u32::MAX];
    let wraps = [1 << 8, 1 << 16, 1 << 24, 1 << 31, 65_536 * 65_535];
    let wrapped = wraps.into_iter().flat_map(|more| [0, 1, 2, 77, 255].map(|v| v + more));
    let limits: Vec<u32> = near.into_iter().chain(wrapped).collect();
    let slots = known.clone().chain(known.map(|slot| slot + 65_536));
    let all_values: Vec<u32> = (0..=300).chain(limits.clone()).chain(slots).collect();
    let mut all = Vec::new();
    for ctv in 0..=2 {
        for kind in TYPES {
            let mut draft = Draft { junk: Some(rng.next()), ..Draft::plain(kind, 6) };
            match ctv {
                1 => draft.igds(rng.bytes(768)),
                2 => draft.environ_v(&entries),
                _ => {}
            }
            let file = draft.bytes();
            // In one type by each table, and in two of those that have none.
            let whole = [(0, 9), (0, 10), (1, 2), (2, 3)].contains(&(ctv, kind));
            for &value in if whole { &all_values } else { &limits } {
                all.push(What::Color { file: file.clone(), value, answer: COLOR_ANSWER });
            }
        }
    }
    all
}

fn fixed_pictures(rng: &mut Rng, seed: u64) -> Vec<What> {
    let mut all = Vec::new();
    for input in pictures::fixed(seed) {
        if let pictures::What::Picture(picture) = input.what {
            let answer = some_length(rng, WRITE_ANSWER);
            all.push(What::Picture { picture, answer });
        }
    }
    all
}

fn fixed_turnings(seed: u64) -> Vec<What> {
    let made = |input: turnings::Input| match input.what {
        turnings::What::Turning(turning) => Some(What::Turning(turning)),
        turnings::What::Trip(turning) => Some(What::Trip(turning)),
        turnings::What::Bytes(_) => None,
    };
    turnings::fixed(seed).into_iter().filter_map(made).collect()
}

/// Every bit of every number that a turning is handed.
fn bits(rng: &mut Rng) -> Vec<What> {
    let mut all = Vec::new();
    for way in [0, 1] {
        let plain = Turning::new(rng, way, 6, (5, 3), [4, 4]);
        for bit in (0..32).map(|bit| 1 << bit) {
            all.push(What::Turning(Turning { slo: plain.slo ^ bit, ..plain.clone() }));
            all.push(What::Turning(Turning { ppl: plain.ppl ^ bit, ..plain.clone() }));
            all.push(What::Turning(Turning { nol: plain.nol ^ bit, ..plain.clone() }));
        }
    }
    all
}

/// Every sheet is moved, and once more back; some that are refused are lent anything.
fn fixed_moves(rng: &mut Rng) -> Vec<What> {
    let mut all = Vec::new();
    for file in moves::fixed(rng) {
        all.push(What::ThereAndBack { file: file.clone(), returns: false });
        let answer = some_length(rng, MOVE_ANSWER);
        all.push(What::Move(moves::lent(rng, file, answer)));
    }
    for file in large::moves(rng) {
        all.push(What::ThereAndBack { file, returns: false });
    }
    // Output of every length around what is needed.
    for (kind, scn) in [(1, 0), (1, 1), (9, 0), (9, 1)] {
        let file = moves::plain(rng, kind, scn);
        for room in (0..3).chain(1_020..1_200) {
            all.push(What::Move(Move { file: file.clone(), room, answer: MOVE_ANSWER }));
        }
    }
    all
}

fn larges(rng: &mut Rng) -> Vec<What> {
    let mut all = Vec::new();
    for picture in large::pictures(rng) {
        all.push(What::Picture { picture, answer: WRITE_ANSWER });
    }
    for turning in large::turnings(rng) {
        all.push(if rng.one_in(3) { What::Trip(turning) } else { What::Turning(turning) });
    }
    for file in large::fixed(rng) {
        let enough = needed(&file);
        let lend = Lend { pixels: enough.pixels + rng.below(4), ..enough };
        let with_headers = file.get(195) == Some(&1);
        all.push(What::Raster { file: file.clone(), lend });
        if with_headers && rng.one_in(3) {
            all.extend(changed(rng, FIXED[6], file).map(What::Pair));
        }
    }
    all
}

/// A case by chance, of one family or of any.
pub fn random(rng: &mut Rng, extent: Extent, family: Option<&'static str>) -> Case {
    let small = extent == Extent::Small;
    let family = family.unwrap_or_else(|| some_family(rng, small));
    Case { family, what: some_of(rng, small, family) }
}

fn some_family(rng: &mut Rng, small: bool) -> &'static str {
    match rng.below(100) {
        0..=15 => HEADERS,
        16..=29 => COLORS,
        30..=37 => PAIRS,
        38..=49 => PICTURES,
        50..=59 => TURNINGS,
        60..=63 => TRIPS,
        66..=68 => MOVES,
        69..=70 => THERE_AND_BACK,
        64 if !small && rng.one_in(2) => BANDS,
        65 if !small && rng.one_in(15) => LARGE,
        65 if !small && rng.one_in(100) => LONG_ONES,
        _ => SHEETS,
    }
}

fn some_of(rng: &mut Rng, small: bool, family: &str) -> What {
    match family {
        HEADERS => {
            let file = headers::random(rng).bytes;
            What::Header { file, answer: some_length(rng, HEADER_ANSWER), first: None }
        }
        COLORS => {
            let accepted = !rng.one_in(4);
            let file =
                if accepted { Draft::random(rng).bytes() } else { headers::random(rng).bytes };
            let value = some_value(rng, &file);
            What::Color { file, value, answer: some_length(rng, COLOR_ANSWER) }
        }
        PAIRS => What::Pair(some_pair(rng)),
        PICTURES => {
            let mut picture = some_small_picture(rng, small);
            for _ in 0..rng.pick(&[0, 0, 0, 0, 0, 1, 2, 3]) {
                let number = rng.pick(&pictures::REJECTIONS);
                picture::spoil(rng, &mut picture, number);
            }
            What::Picture { picture, answer: some_length(rng, WRITE_ANSWER) }
        }
        TURNINGS => {
            let way = rng.below(2) as u32;
            What::Turning(if rng.one_in(4) {
                let faults = rng.pick(&FAULTS);
                faulty(rng, way, faults)
            } else {
                some_turning(rng, way)
            })
        }
        TRIPS => {
            let way = rng.below(2) as u32;
            What::Trip(some_turning(rng, way))
        }
        MOVES => {
            let file = moves::some_move(rng);
            let answer = some_length(rng, MOVE_ANSWER);
            What::Move(moves::lent(rng, file, answer))
        }
        THERE_AND_BACK => match rng.below(3) {
            0 => What::ThereAndBack { file: moves::some_move(rng), returns: false },
            _ => What::ThereAndBack { file: moves::returning(rng), returns: true },
        },
        BANDS => some_pair_or_raster(rng, BANDS, some_banded),
        LARGE => some_large_case(rng),
        LONG_ONES => long_calls::some_case(rng, LONG_ONES),
        _ => {
            let file = sheets::random(rng).file;
            raster(rng, file)
        }
    }
}

fn some_large_case(rng: &mut Rng) -> What {
    match rng.below(7) {
        6 => What::ThereAndBack { file: large::some_movable(rng), returns: false },
        0 => What::Picture { picture: some_large_picture(rng), answer: WRITE_ANSWER },
        1 => What::Turning(some_large_turning(rng)),
        2 => What::Trip(some_large_turning(rng)),
        _ => some_pair_or_raster(rng, LARGE, some_large),
    }
}

/// A sheet to be read, or one of its pairs.
fn some_pair_or_raster(
    rng: &mut Rng,
    family: &'static str,
    make: fn(&mut Rng, u8) -> Vec<u8>,
) -> What {
    let scn = rng.below(2) as u8;
    let file = make(rng, scn);
    if scn == 1 && rng.one_in(3) {
        if let Some(pair) = changed(rng, family, file.clone()) {
            return What::Pair(pair);
        }
    }
    raster(rng, file)
}

pub fn raster(rng: &mut Rng, file: Vec<u8>) -> What {
    let lend = some_lend(rng, &file);
    What::Raster { file, lend }
}

/// No more pixels than so many bytes are lent for a file, whatever it says.
const MOST: u64 = 1 << 21;

/// What the reader needs for a file, by its bytes alone; a file that is short or says too much
/// gets a little.
pub fn needed(file: &[u8]) -> Lend {
    let (ppl, nol) = if file.len() < 192 { (1, 1) } else { (long(file, 184), long(file, 188)) };
    let nol = nol.min(u64::from(MOST_LINES) + 1);
    let pixels = 2 * ppl.min(65_536) * nol;
    let [pixels, marks] = match pixels {
        1..=MOST => [pixels, nol],
        _ => [pixels.min(5_000), nol.min(65_536)],
    };
    Lend { pixels: pixels as usize, marks: marks as usize, answer: RASTER_ANSWER }
}

/// Slices that are long enough as a rule.
pub fn some_lend(rng: &mut Rng, file: &[u8]) -> Lend {
    let enough = needed(file);
    let pixels = match rng.below(32) {
        0 => enough.pixels.saturating_sub(1),
        1 => enough.pixels.saturating_sub(2),
        // As many bytes as there are pixels.
        2 => enough.pixels / 2,
        3 => rng.below(enough.pixels.max(1)),
        4 if rng.one_in(3) => 0,
        _ => enough.pixels + rng.pick(&[0, 0, 0, 1, 1, 2, 3, 16, 37]),
    };
    let marks = match rng.below(28) {
        0 => enough.marks.saturating_sub(1),
        1 => rng.below(enough.marks.max(1)),
        2 if rng.one_in(3) => 0,
        _ => enough.marks + rng.pick(&[0, 0, 0, 1, 2, 9]),
    };
    Lend { pixels, marks, answer: some_length(rng, RASTER_ANSWER) }
}

/// Length of an answer slice: long enough as a rule.
pub fn some_length(rng: &mut Rng, needed: usize) -> usize {
    match rng.below(24) {
        0 => needed - 1,
        1 => rng.below(needed),
        _ => needed + rng.pick(&[0, 0, 0, 1, 2, 3, 4, 12]),
    }
}

/// A pixel value: one that may have a color, or one that only fewer bits would give one.
pub fn some_value(rng: &mut Rng, file: &[u8]) -> u32 {
    let slot = |rng: &mut Rng| {
        let entries = if file.len() < 1_024 { 0 } else { (file.len() - 768) / 8 };
        let told = if file.len() < 540 { 0 } else { long(file, 536) as usize };
        let entry = rng.below(entries.min(told).min(256).max(1));
        if entries == 0 {
            0
        } else {
            word(file, 768 + 8 * entry) as u32
        }
    };
    match rng.below(8) {
        0 | 1 => rng.below(300) as u32,
        2 | 3 => slot(rng),
        4 => slot(rng) + 65_536 * rng.range(1, 65_535) as u32,
        5 => rng.below(256) as u32 + (1 << rng.range(8, 31)),
        6 => rng.pick(&[0, 1, 2, 255, 256, 257, 65_535, 65_536, 1 << 31, u32::MAX]),
        _ => rng.long(),
    }
}
