//! The inputs of mode `turn`.

use super::turning::{faulty, some_spare, some_turning, Turning, FAULTS};
use crate::rng::Rng;

/// The families of the inputs that are always run, and of those by chance.
pub const FIXED: [&str; 12] = [
    "every code",
    "edges of bands",
    "one pixel wide or tall",
    "squares",
    "wide and tall",
    "round trips",
    "limits of the buffers",
    "limits of fields",
    "products of the sides",
    "sets of faults",
    "limits of the input",
    "one bit changed",
];
pub const BY_CHANCE: [&str; 2] = ["turnings by chance", "faults by chance"];

pub struct Input {
    pub family: &'static str,
    pub what: What,
}

pub enum What {
    Turning(Turning),
    /// A turning whose result is turned the other way again.
    Trip(Turning),
    /// Standard input that is cut short, too long, or has bytes to spare.
    Bytes(Vec<u8>),
}

/// The inputs that are always run.
pub fn fixed(seed: u64) -> Vec<Input> {
    let mut rng = Rng::new(seed, u64::MAX);
    let mut all = Vec::new();
    let mut add = |family, list: Vec<What>| {
        all.extend(list.into_iter().map(|what| Input { family, what }));
    };
    add("every code", turnings(every_code(&mut rng, &[(3, 2), (5, 8), (40, 17)])));
    add("edges of bands", turnings(bands(&mut rng)));
    add("one pixel wide or tall", turnings(thin(&mut rng)));
    add("squares", turnings(every_code(&mut rng, &[(2, 2), (3, 3), (64, 64), (100, 100)])));
    add("wide and tall", turnings(wide(&mut rng)));
    let trips = every_code(&mut rng, &[(4, 3), (1, 9), (130, 65)]);
    add("round trips", trips.into_iter().map(What::Trip).collect());
    add("limits of the buffers", turnings(buffers(&mut rng)));
    add("limits of fields", turnings(limits(&mut rng)));
    add("products of the sides", turnings(products(&mut rng)));
    add("sets of faults", turnings(sets_of_faults(&mut rng)));
    add("limits of the input", odd_inputs(&mut rng).into_iter().map(What::Bytes).collect());
    add("one bit changed", bits(&mut rng).into_iter().map(What::Bytes).collect());
    all
}

fn turnings(list: Vec<Turning>) -> Vec<What> {
    list.into_iter().map(What::Turning).collect()
}

/// Each code, each way.
fn codes() -> impl Iterator<Item = (u32, u32)> {
    (0..8).flat_map(|slo| [(0, slo), (1, slo)])
}

/// Sheets of these sides under every code, both ways.
fn every_code(rng: &mut Rng, sides: &[(usize, usize)]) -> Vec<Turning> {
    let mut all = Vec::new();
    for &sides in sides {
        for (way, slo) in codes() {
            let spare = some_spare(rng);
            all.push(Turning::new(rng, way, slo, sides, spare));
        }
    }
    all
}

/// Sheets of these sides both ways, under one code after the other.
fn one_code(rng: &mut Rng, sides: &[(usize, usize)]) -> Vec<Turning> {
    let mut all = Vec::new();
    for (i, &sides) in sides.iter().enumerate() {
        for way in [0, 1] {
            let spare = some_spare(rng);
            all.push(Turning::new(rng, way, i as u32 % 8, sides, spare));
        }
    }
    all
}

fn thin(rng: &mut Rng) -> Vec<Turning> {
    let mut sides = vec![(1, 1)];
    for length in [2, 3, 65, 1_000] {
        sides.extend([(1, length), (length, 1)]);
    }
    // As long as a buffer can be.
    sides.extend([(1, 60_000), (60_000, 1)]);
    every_code(rng, &sides)
}

/// Sides around those that a program might turn in one piece, with a short one and together.
fn bands(rng: &mut Rng) -> Vec<Turning> {
    const EDGES: [usize; 9] = [31, 32, 33, 63, 64, 65, 127, 128, 129];
    let mut all = Vec::new();
    for edge in EDGES {
        let short = rng.range(2, 7);
        all.extend(every_code(rng, &[(edge, short), (short, edge)]));
    }
    let both: Vec<_> = EDGES.iter().flat_map(|&ppl| EDGES.map(|nol| (ppl, nol))).collect();
    all.extend(one_code(rng, &both));
    all
}

fn wide(rng: &mut Rng) -> Vec<Turning> {
    let mut all = every_code(rng, &[(300, 200)]);
    let sides = [
        (200, 300),
        (257, 233),
        (233, 257),
        (1_000, 60),
        (60, 1_000),
        (20_000, 3),
        (3, 20_000),
        (256, 234),
    ];
    all.extend(one_code(rng, &sides));
    all
}

/// Each number on both sides of its limits, none narrowed before it is looked at.
fn limits(rng: &mut Rng) -> Vec<Turning> {
    let mut all = Vec::new();
    let wraps = |right: u32| [right + 256, right + 65_536, right + (1 << 24), right + (1 << 31)];
    for way in [0, 1] {
        let plain = Turning::new(rng, way, 5, (3, 2), [40, 40]);
        for slo in
            (0..=16).chain([31, 128, 255, u32::MAX]).chain([0, 5, 7].into_iter().flat_map(wraps))
        {
            all.push(Turning { slo, ..plain.clone() });
        }
        let sizes = [0, 1, 2, 65_534, 65_535, 65_536, 65_537, 1 << 31, u32::MAX];
        let most = [999_999, 1_000_000, 1_000_001, 1_048_576, 1_048_578];
        for size in sizes.into_iter().chain(most).chain([2, 3].into_iter().flat_map(wraps)) {
            all.push(Turning { ppl: size, ..plain.clone() });
            all.push(Turning { nol: size, ..plain.clone() });
            all.push(Turning { ppl: size, nol: size, ..plain.clone() });
        }
        for fill in [0, 1, 255, 256, 65_534, 65_535] {
            all.push(Turning { fill, ..plain.clone() });
        }
    }
    all
}

/// Sides whose product fewer bits, or signed ones, would take for a small number or one below 0.
fn products(rng: &mut Rng) -> Vec<Turning> {
    let just_above = [(32_768, 2), (256, 256), (257, 256), (256, 257), (65_535, 1), (1, 65_535)];
    let far_above = [
        (65_535, 65_535),
        (65_535, 32_769),
        (32_768, 65_535),
        (46_340, 46_340),
        (46_341, 46_341),
        (65_536, 65_536),
        (65_535, 65_536),
        (65_536, 65_535),
        (65_536, 0),
        (0, 65_536),
        (0, 1_000_001),
        (65_535, 65_537),
        (65_535, 1_000_000),
        (65_535, 1_000_001),
        (65_536, 1_000_000),
        // 2^32 pixels, 2^31, and a few more than 2^32.
        (32_768, 131_072),
        (32_768, 65_536),
        (61_681, 69_632),
        (1, 1_000_000),
        (1 << 31, 2),
        (2, 1 << 31),
    ];
    let mut all = Vec::new();
    for way in [0, 1] {
        let [short, long] =
            [500, 60_000].map(|length| Turning::new(rng, way, 2, (1, length), [0, 0]));
        for (ppl, nol) in just_above {
            all.push(Turning { ppl, nol, ..long.clone() });
        }
        for (ppl, nol) in just_above.into_iter().chain(far_above) {
            all.push(Turning { ppl, nol, ..short.clone() });
        }
    }
    all
}

/// Either buffer one pixel short, just long enough, one pixel longer, and empty.
fn buffers(rng: &mut Rng) -> Vec<Turning> {
    let mut all = Vec::new();
    for (way, slo) in codes() {
        let sides = (rng.range(2, 9), rng.range(2, 9));
        let longer = Turning::new(rng, way, slo, sides, [1, 1]);
        for less in [0, 1, 2] {
            let count = longer.pixels.len() - less;
            for less in [0, 1, 2] {
                let mut turning = longer.clone();
                turning.pixels.truncate(count);
                turning.room -= less;
                all.push(turning);
            }
        }
        all.push(Turning { pixels: Vec::new(), ..longer.clone() });
        all.push(Turning { room: 0, ..longer.clone() });
        all.push(Turning { pixels: Vec::new(), room: 0, ..longer });
    }
    all
}

fn sets_of_faults(rng: &mut Rng) -> Vec<Turning> {
    let mut all = Vec::new();
    for way in [0, 1] {
        for faults in FAULTS {
            all.extend((0..4).map(|_| faulty(rng, way, faults)));
        }
    }
    all
}

/// Every bit of every number changed.
fn bits(rng: &mut Rng) -> Vec<Vec<u8>> {
    let plain = Turning::new(rng, 0, 6, (5, 3), [4, 4]).input();
    let mut all = Vec::new();
    for bit in 0..7 * 32 {
        let mut input = plain.clone();
        input[bit / 8] ^= 1 << (bit % 8);
        all.push(input);
    }
    all
}

/// Standard input on both sides of its limits, cut short, and with bytes to spare.
fn odd_inputs(rng: &mut Rng) -> Vec<Vec<u8>> {
    let mut all = Vec::new();
    let plain = Turning::new(rng, 0, 3, (3, 2), [2, 2]);
    let whole = plain.input();
    for len in [0, 1, 3, 4, 27, 28, 29, whole.len() - 2, whole.len() - 1] {
        all.push(whole[..len].to_vec());
    }
    // No pixels, and none that are told of.
    all.push(Turning { pixels: Vec::new(), ..plain.clone() }.input());
    for more in [1, 2, 100, 100_000, 300_000] {
        let mut input = whole.clone();
        input.extend(rng.bytes(more));
        all.push(input);
    }
    for count in [59_999, 60_000, 60_001] {
        let input = Turning { pixels: vec![1; count], ..plain.clone() }.input();
        all.push(input[..input.len() - 1].to_vec());
        all.push([input.clone(), rng.bytes(7)].concat());
        all.push(input);
    }
    // More pixels told of than there are, up to so many that their bytes wrap.
    for count in [9, 60_000, 60_001, 65_544, 1 << 31, (1 << 31) + 8, u32::MAX] {
        let mut input = whole.clone();
        input[16..20].copy_from_slice(&u32::to_le_bytes(count));
        all.push(input);
    }
    for room in [59_999, 60_000, 60_001, 65_544, 1 << 31, u32::MAX] {
        all.push(Turning { room, ..plain.clone() }.input());
    }
    for fill in [65_535, 65_536, 65_537, 1 << 31, u32::MAX] {
        all.push(Turning { fill, ..plain.clone() }.input());
    }
    for way in [1, 2, 3, 256, 257, 65_536, 1 << 31, u32::MAX] {
        all.push(Turning { way, ..plain.clone() }.input());
    }
    // Each limit passed, in a turning that would be refused, with and without its pixels.
    let refused = Turning { slo: 8, ..plain };
    for input in [
        Turning { way: 2, ..refused.clone() }.input(),
        Turning { room: 60_001, ..refused.clone() }.input(),
        Turning { fill: 65_536, ..refused.clone() }.input(),
        Turning { pixels: vec![1; 60_001], ..refused }.input(),
    ] {
        all.extend([27, 28, input.len() - 1, input.len()].map(|len| input[..len].to_vec()));
    }
    all
}

/// A turning by chance, right or with faults.
pub fn random(rng: &mut Rng) -> Input {
    let way = rng.below(2) as u32;
    let (family, turning) = match rng.below(4) {
        0 => {
            let faults = rng.pick(&FAULTS);
            ("faults by chance", faulty(rng, way, faults))
        }
        _ => ("turnings by chance", some_turning(rng, way)),
    };
    Input { family, what: What::Turning(turning) }
}
