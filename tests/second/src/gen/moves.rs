//! Sheets to be moved from type 1 to type 9 and back, and such as are refused.

use super::header::Draft;
use super::sheet::{
    headed, lines_within, set_spare, sheet, some_body, some_header, some_margin, some_row,
    some_size, words, Harm, Line, Margin, TYPES,
};
use super::sheets::{self, change, cut_in_raster, some_headed};
use crate::model::transcode::transcode;
use crate::model::writer::cut;
use crate::model::writer::levels;
use crate::rng::Rng;

/// A sheet to be moved, and what is lent.
#[derive(Clone)]
pub struct Move {
    pub file: Vec<u8>,
    pub room: usize,
    pub answer: usize,
}

/// The types that are moved.
const MOVED: [u16; 2] = [1, 9];

/// A sheet by chance that is moved as a rule, with bytes after its end now and then.
pub fn some_move(rng: &mut Rng) -> Vec<u8> {
    let kind = rng.pick(&MOVED);
    let scn = rng.below(2) as u8;
    let (ppl, nol) = some_size(rng);
    match rng.below(20) {
        0..=9 => {
            let mut file = movable(rng, kind, scn, ppl, nol);
            if rng.one_in(3) {
                let more = rng.range(1, 40);
                file.extend(rng.bytes(more));
            }
            file
        }
        10 => offset_lines(rng, kind, ppl, nol),
        11 => some_headed(rng, kind, ppl, nol, Harm::Lines),
        12 => some_headed(rng, kind, ppl, nol, Harm::Chain),
        13 => {
            let mut file = movable(rng, kind, scn, ppl, nol);
            let cut = cut_in_raster(rng, &file);
            file.truncate(cut);
            file
        }
        14..=15 => {
            let mut file = movable(rng, kind, scn, ppl, nol);
            change(rng, &mut file);
            file
        }
        16 => spare_set(rng, scn, ppl, nol),
        17 => {
            let kind = rng.pick(&TYPES);
            movable(rng, kind, scn, ppl, nol)
        }
        _ => sheets::random(rng).file,
    }
}

/// A sheet that is moved, if its type is: every line good and from its row's start.
pub fn movable(rng: &mut Rng, kind: u16, scn: u8, ppl: usize, nol: usize) -> Vec<u8> {
    let header = some_header(rng, kind, scn, ppl, nol);
    raster_of(rng, &header)
}

/// A small one with nothing in its header but what is needed.
pub fn plain(rng: &mut Rng, kind: u16, scn: u8) -> Vec<u8> {
    raster_of(rng, &Draft { scn, ppl: 19, nol: 2, ..Draft::plain(kind, 2) })
}

/// One of this header.
fn raster_of(rng: &mut Rng, header: &Draft) -> Vec<u8> {
    let (kind, ppl, nol) = (header.dtc, header.ppl as usize, header.nol as usize);
    if header.scn == 1 {
        return headed(header, &lines_within(rng, kind, ppl, nol, Harm::None, Margin::None));
    }
    let rows: Vec<Vec<u16>> = (0..nol).map(|_| some_row(rng, kind, ppl)).collect();
    sheet(header, &rasters(rng, kind, &rows))
}

/// One of known rows.
pub fn movable_of(rng: &mut Rng, kind: u16, scn: u8, rows: &[Vec<u16>]) -> Vec<u8> {
    let header = some_header(rng, kind, scn, rows[0].len(), rows.len());
    if scn == 0 {
        return sheet(&header, &rasters(rng, kind, rows));
    }
    let lines: Vec<Line> = (1..)
        .zip(rows)
        .map(|(k, row)| Line::new(k, some_body(rng, kind, row, true, true)))
        .collect();
    headed(&header, &lines)
}

fn rasters(rng: &mut Rng, kind: u16, rows: &[Vec<u16>]) -> Vec<u8> {
    let loose = rng.one_in(2);
    rows.iter().flat_map(|row| some_body(rng, kind, row, loose, false)).collect()
}

/// Good lines, some of which start partway, and now and then one that is not good.
fn offset_lines(rng: &mut Rng, kind: u16, ppl: usize, nol: usize) -> Vec<u8> {
    let header = some_header(rng, kind, 1, ppl, nol);
    let margin = some_margin(rng, ppl);
    let mut lines = lines_within(rng, kind, ppl, nol, Harm::None, margin);
    if rng.one_in(3) {
        let k = rng.below(nol);
        lines[k].number ^= 1 << rng.below(16);
    }
    headed(&header, &lines)
}

/// A packed sheet in one line of which spare bits are set, if it has any.
fn spare_set(rng: &mut Rng, scn: u8, ppl: usize, nol: usize) -> Vec<u8> {
    let mut file = movable(rng, 1, scn, ppl, nol);
    let line = 2 * ppl.div_ceil(16) + if scn == 1 { 8 } else { 0 };
    let k = rng.below(nol);
    let end = file.len() - k * line;
    let start = end - 2 * ppl.div_ceil(16);
    set_spare(rng, &mut file[start..end], ppl);
    file
}

/// A sheet that must come back byte for byte: of type 1, or of type 9 with the bodies that the writer
/// makes. Nothing follows its last line.
pub fn returning(rng: &mut Rng) -> Vec<u8> {
    let kind = rng.pick(&MOVED);
    let scn = rng.below(2) as u8;
    let (ppl, nol) = some_size(rng);
    let header = some_header(rng, kind, scn, ppl, nol);
    let mut file = header.bytes();
    for k in 1..=nol {
        let row = some_row(rng, kind, ppl);
        let body = match kind {
            1 => some_body(rng, 1, &row, false, true),
            _ => words(&levels(&row, cut)),
        };
        match scn {
            0 => file.extend(body),
            _ => {
                let mut line = Line::new(k, body);
                line.id |= u16::from(rng.byte());
                file.extend(line.bytes());
            }
        }
    }
    file
}

/// What is lent for a sheet: enough as a rule.
pub fn lent(rng: &mut Rng, file: Vec<u8>, answer: usize) -> Move {
    let length = transcode(&file, usize::MAX).map_or(file.len() + 100, |moved| moved.len());
    let room = match rng.below(16) {
        0 => length - 1,
        1 => rng.below(length),
        2 => rng.pick(&[0, 1, 4, 512, 1_024]),
        _ => length + rng.pick(&[0, 0, 0, 1, 2, 5, 64]),
    };
    Move { file, room, answer }
}

/// The sheets that are always moved: every width around what fills words, of blank lines, full ones,
/// single pixels and pixels by turns; every kind of header; every cut of a small sheet,
/// and bytes after it.
pub fn fixed(rng: &mut Rng) -> Vec<Vec<u8>> {
    let mut all = Vec::new();
    for ppl in (1..=34).chain([47, 48, 49, 63, 64, 65, 255, 256, 257]) {
        let turns = |first| (0..ppl).map(|i| ((i + first) % 2) as u16).collect::<Vec<u16>>();
        let edge = |at| (0..ppl).map(|i| u16::from(i == at)).collect::<Vec<u16>>();
        let rows = [vec![0; ppl], vec![1; ppl], turns(0), turns(1), edge(0), edge(ppl - 1)];
        for (kind, scn) in [(1, 0), (1, 1), (9, 0), (9, 1)] {
            all.push(movable_of(rng, kind, scn, &rows));
        }
    }
    for kind in MOVED {
        for blocks in [2, 3, 7, 256] {
            for scn in [0, 1] {
                let junk = Some(rng.next());
                let draft = Draft { scn, ppl: 20, nol: 3, junk, ..Draft::plain(kind, blocks) };
                all.push(raster_of(rng, &draft));
            }
        }
        for scn in [0, 1] {
            let whole = plain(rng, kind, scn);
            all.extend((1_024..=whole.len()).map(|end| whole[..end].to_vec()));
            for more in [1, 2, 9] {
                all.push([whole.clone(), rng.bytes(more)].concat());
            }
        }
    }
    for kind in TYPES {
        for scn in [0, 1] {
            all.push(movable(rng, kind, scn, 9, 2));
        }
    }
    // Each number of a file's, and the type that is no move's.
    for number in 11..=22 {
        all.extend((0..4).map(|_| sheets::refused(rng, &[number])));
    }
    all
}
