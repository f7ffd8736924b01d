//! Pairs for demand 3: a sheet with line headers, and the same changed inside bodies that its
//! chain reaches.

use super::put;
use super::sheet::{some_body, some_row, some_size, words, Harm, TYPES};
use super::sheets::some_headed;
use crate::model::header::Header;
use crate::model::probe::LISTING_LIMIT;
use crate::model::sheet::{self, Line, Sheet};
use crate::model::word;
use crate::rng::Rng;
use std::ops::Range;

const GOOD: &str = "good";
const DAMAGED: &str = "lines damaged";
const LOST: &str = "chain lost";
const CUT: &str = "file cut";
pub const FAMILIES: [&str; 4] = [GOOD, DAMAGED, LOST, CUT];
/// What the changes of many pairs must have done.
pub const EFFECTS: [&str; 5] = [
    "cut body changed",
    "mark changed",
    "mark kept, row changed",
    "mark changed, partway",
    "mark kept, row changed, partway",
];

pub struct Pair {
    pub family: &'static str,
    pub first: Vec<u8>,
    pub second: Vec<u8>,
    /// For each line, whether its body has the same bytes in both, or it has none.
    pub same: Vec<bool>,
}

impl Pair {
    /// What the change did, for the counts.
    pub fn effects(&self) -> Vec<String> {
        let mut all = Vec::new();
        let [first, second] = [&self.first, &self.second].map(|file| lines_of(file));
        for ((old, new), same) in first.iter().zip(&second).zip(&self.same) {
            let what = match (same, old.mark == new.mark, old.row == new.row) {
                (true, ..) => continue,
                (false, false, _) => "mark changed",
                (false, true, false) => "mark kept, row changed",
                (false, true, true) => "mark and row kept",
            };
            all.push(what.to_string());
            let body = old.body.as_ref();
            if body.is_some_and(|body| offset_before(&self.first, body) > 0) {
                all.push(format!("{what}, partway"));
            }
            if old.mark == 1 {
                all.push("cut body changed".to_string());
            }
        }
        all.sort();
        all.dedup();
        all
    }
}

/// The offset is the last word of a line's header. No change reaches it.
fn offset_before(file: &[u8], body: &Range<usize>) -> u64 {
    word(file, body.start - 2)
}

fn lines_of(file: &[u8]) -> Vec<Line> {
    match sheet::read(file, u64::MAX, u64::MAX) {
        Ok(found) => found.lines,
        Err(number) => panic!("a sheet of a pair is refused with {number}"),
    }
}

/// A pair by chance, of sheets that the listing program takes.
pub fn some_pair(rng: &mut Rng) -> Pair {
    loop {
        let kind = rng.pick(&TYPES);
        let (ppl, nol) = some_size(rng);
        let (family, harm) = match rng.below(4) {
            0 => (GOOD, Harm::None),
            1 | 2 => (DAMAGED, Harm::Lines),
            _ => (LOST, Harm::Chain),
        };
        let mut first = some_headed(rng, kind, ppl, nol, harm);
        let mut cut = false;
        if rng.one_in(3) {
            // Often in the middle of a body.
            let lines = lines_of(&first);
            let bodies: Vec<Range<usize>> =
                lines.into_iter().filter_map(|line| line.body).collect();
            if let Some(body) = bodies.get(rng.below(bodies.len().max(1))) {
                first.truncate(rng.range(body.start, body.end));
                cut = true;
            }
        }
        if first.len() > LISTING_LIMIT {
            continue;
        }
        let family = if cut { CUT } else { family };
        if let Some(pair) = changed(rng, family, first) {
            return pair;
        }
    }
}

/// A sheet and the same with bytes of its bodies changed; none where it has no bodies, or all
/// came out as they were.
pub fn changed(rng: &mut Rng, family: &'static str, first: Vec<u8>) -> Option<Pair> {
    let Sheet { header, lines, .. } = sheet::read(&first, u64::MAX, u64::MAX).ok()?;
    let bodies: Vec<Range<usize>> =
        lines.iter().filter_map(|line| line.body.clone()).filter(|body| !body.is_empty()).collect();
    if bodies.is_empty() {
        return None;
    }
    let mut second = first.clone();
    for _ in 0..rng.pick(&[1, 1, 2, 3, 10, 300]) {
        // The last body is the one that may be cut.
        let body =
            if rng.one_in(3) { bodies[bodies.len() - 1].clone() } else { any_of(rng, &bodies) };
        change_in(rng, &mut second, &header, body);
    }
    let same = same_bodies(&lines, &first, &second);
    (!same.iter().all(|same| *same)).then_some(Pair { family, first, second, same })
}

/// The same with the bodies of these lines changed, and no others; none where one of them has no
/// body.
pub fn changed_at(
    rng: &mut Rng,
    family: &'static str,
    first: Vec<u8>,
    places: &[usize],
) -> Option<Pair> {
    let Sheet { header, lines, .. } = sheet::read(&first, u64::MAX, u64::MAX).ok()?;
    let mut second = first.clone();
    for k in places {
        let body = lines[k - 1].body.clone().filter(|body| !body.is_empty())?;
        while second[body.clone()] == first[body.clone()] {
            change_in(rng, &mut second, &header, body.clone());
        }
    }
    let same = same_bodies(&lines, &first, &second);
    Some(Pair { family, first, second, same })
}

/// Changes one body of a file.
fn change_in(rng: &mut Rng, file: &mut [u8], header: &Header, body: Range<usize>) {
    let offset = offset_before(file, &body).min(header.ppl);
    let rest = (header.ppl - offset) as usize;
    change(rng, &mut file[body], header.kind as u16, [offset as usize, rest]);
}

/// For each line, whether its body has the same bytes in both files, or it has none.
fn same_bodies(lines: &[Line], first: &[u8], second: &[u8]) -> Vec<bool> {
    let same = |body: &Range<usize>| first[body.clone()] == second[body.clone()];
    lines.iter().map(|line| line.body.as_ref().is_none_or(same)).collect()
}

fn any_of(rng: &mut Rng, bodies: &[Range<usize>]) -> Range<usize> {
    bodies[rng.below(bodies.len())].clone()
}

/// Changes bytes of one body, and no others. The line has so many pixels before it and in it.
fn change(rng: &mut Rng, body: &mut [u8], kind: u16, [offset, rest]: [usize; 2]) {
    let at = rng.below(body.len());
    match rng.below(7) {
        0 => body[at] ^= 1 << rng.below(8),
        1 => body[at] = rng.byte(),
        2 => body.fill_with(|| rng.byte()),
        3 => body.fill(rng.pick(&[0, 1, 0x59, 0xFF])),
        4 => {
            // A run one longer or shorter.
            let place = at & !1;
            if let Some(run) = body.get_mut(place..place + 2) {
                let by = rng.pick(&[1u16, 0xFFFF]);
                let word = u16::from_le_bytes([run[0], run[1]]).wrapping_add(by);
                run.copy_from_slice(&word.to_le_bytes());
            }
        }
        // What looks like a line's header, for a reader that looks for one.
        5 => {
            let number = rng.range(1, 12) as u16;
            put(body, at & !1, &words(&[0x5900, 3, number, offset as u16, rest as u16]));
        }
        _ => {
            // Another row, as far as it fits: what is left of it, or the whole.
            let pixels = if rng.one_in(4) { offset + rest } else { rest };
            let row = some_row(rng, kind, pixels);
            let other = some_body(rng, kind, &row, false, true);
            put(body, 0, &other);
        }
    }
}
