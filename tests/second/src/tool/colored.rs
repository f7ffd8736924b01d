//! Sheets for what is seen: every type, orientation and kind of color table, with values that have a
//! color and values that have none, and colors that the hatch would have.

use crate::gen::header::{Draft, Entry};
use crate::gen::sheet::{damage, headed, sheet, some_body, Line, FLAWS};
use crate::rng::Rng;

#[derive(Clone, Copy, PartialEq, Debug)]
pub enum Table {
    None,
    Igds,
    /// An IGDS table of the colors that the hatch would have, first of all.
    IgdsClash,
    EnvironV,
    EnvironVClash,
}

pub const TABLES: [Table; 5] =
    [Table::None, Table::Igds, Table::IgdsClash, Table::EnvironV, Table::EnvironVClash];

/// What a sheet is to have.
#[derive(Clone, Copy)]
pub struct Style {
    pub kind: u16,
    pub scn: u8,
    pub slo: u8,
    pub table: Table,
    pub ppl: usize,
    pub nol: usize,
    /// Whether lines are damaged, if they have headers.
    pub harmed: bool,
}

pub fn some_style(rng: &mut Rng, kind: u16, slo: u8, table: Table) -> Style {
    let (ppl, nol) = match rng.below(6) {
        0 => (rng.range(1, 3), rng.range(1, 3)),
        1 => (rng.range(60, 140), rng.range(1, 40)),
        _ => (rng.range(1, 40), rng.range(1, 24)),
    };
    let harmed = rng.one_in(2);
    let scn = if harmed { 1 } else { rng.below(2) as u8 };
    Style { kind, scn, slo, table, ppl, nol, harmed }
}

/// The colors that are first taken for hatch and for pixels without a color.
const CLASHING: [[u8; 3]; 12] = [
    [255, 0, 255],
    [255, 255, 0],
    [0, 255, 255],
    [255, 128, 0],
    [0, 255, 0],
    [255, 0, 0],
    [0, 0, 0],
    [0, 0, 42],
    [0, 0, 84],
    [0, 0, 252],
    [0, 42, 0],
    [255, 255, 255],
];

fn igds(rng: &mut Rng, clash: bool) -> Vec<u8> {
    let mut table = rng.bytes(768);
    if clash {
        // All of them, or a few that leave gaps.
        let count = rng.range(1, CLASHING.len());
        table[..3 * count].copy_from_slice(&CLASHING[..count].concat());
    }
    table
}

fn environ_v(rng: &mut Rng, clash: bool) -> Vec<Entry> {
    let count = rng.pick(&[1, 2, 7, 17, 40, 256]);
    let step = rng.pick(&[1, 1, 3, 255]);
    let mut entries: Vec<Entry> = (0..count as u16)
        .map(|i| [i.wrapping_mul(step), rng.word(), rng.word(), rng.word()])
        .collect();
    if clash {
        // The low bytes are not shown.
        for (entry, color) in entries.iter_mut().zip(CLASHING) {
            let part = |i: usize, low: u8| u16::from(color[i]) << 8 | u16::from(low);
            *entry = [entry[0], part(0, rng.byte()), part(1, rng.byte()), part(2, rng.byte())];
        }
    }
    entries
}

pub fn draft(rng: &mut Rng, style: &Style) -> Draft {
    let mut draft = Draft::plain(style.kind, rng.range(6, 7));
    draft.ppl = style.ppl as u32;
    draft.nol = style.nol as u32;
    draft.slo = style.slo;
    draft.scn = style.scn;
    draft.drs = rng.pick(&[0, 1, -1, 50, -200, -300, 32_767, -32_768, 25]);
    match style.table {
        Table::None => {}
        Table::Igds | Table::IgdsClash => draft.igds(igds(rng, style.table == Table::IgdsClash)),
        _ => draft.environ_v(&environ_v(rng, style.table == Table::EnvironVClash)),
    }
    draft
}

/// A value that the type may hold, mostly a small one.
fn value(rng: &mut Rng, kind: u16) -> u16 {
    match (kind, rng.below(8)) {
        (1 | 9, _) => rng.below(2) as u16,
        (2, 0..=3) | (_, 0..=1) => rng.below(256) as u16,
        (2, _) | (_, 2..=5) => rng.below(13) as u16,
        (_, 6) => rng.word(),
        _ => rng.pick(&[255, 256, 65_535, 3, 6]),
    }
}

fn row(rng: &mut Rng, kind: u16, width: usize) -> Vec<u16> {
    let longest = rng.pick(&[1, 3, 9, 60]);
    let mut row = Vec::new();
    while row.len() < width {
        let run = rng.range(1, longest).min(width - row.len());
        let pixel = value(rng, kind);
        row.extend(vec![pixel; run]);
    }
    row
}

/// Rows of small values, so that all may have colors.
pub fn rows(rng: &mut Rng, style: &Style) -> Vec<Vec<u16>> {
    (0..style.nol).map(|_| row(rng, style.kind, style.ppl)).collect()
}

pub fn with_rows(rng: &mut Rng, draft: &Draft, rows: &[Vec<u16>], harmed: bool) -> Vec<u8> {
    if draft.scn == 0 {
        let bodies: Vec<Vec<u8>> =
            rows.iter().map(|row| some_body(rng, draft.dtc, row, false, false)).collect();
        return sheet(draft, &bodies.concat());
    }
    let rate = rng.pick(&[2, 4, 9]);
    let mut lines = Vec::new();
    for (k, row) in (1..).zip(rows) {
        let mut line = Line::new(k, some_body(rng, draft.dtc, row, false, true));
        if harmed && rng.one_in(rate) {
            // Now and then the chain is lost too.
            let flaw = if rng.one_in(8) { rng.pick(&FLAWS) } else { rng.pick(&FLAWS[3..]) };
            damage(rng, &mut line, draft.dtc, row.len(), flaw);
        }
        lines.push(line);
    }
    headed(draft, &lines)
}

pub fn colored(rng: &mut Rng, style: &Style) -> Vec<u8> {
    let draft = draft(rng, style);
    let rows = rows(rng, style);
    with_rows(rng, &draft, &rows, style.harmed)
}

/// A sheet of bytes with all 256 values, so that no palette has a place for a hatch too.
pub fn all_values(rng: &mut Rng, slo: u8, harmed: bool, table: Table) -> Vec<u8> {
    let style = Style { kind: 2, scn: 1, slo, table, ppl: 64, nol: 9, harmed };
    let draft = draft(rng, &style);
    let rows: Vec<Vec<u16>> = (0..9usize)
        .map(|k| (0..64).map(|i| ((64 * k + i) % 256) as u16).collect::<Vec<u16>>())
        .collect();
    let mut file = with_rows(rng, &draft, &rows, false);
    if harmed {
        // Another number in the last line's header: the others still have every value.
        let last = file.len() - 64 - 4;
        file[last] ^= 1;
    }
    file
}
