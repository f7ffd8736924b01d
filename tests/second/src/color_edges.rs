//! Colors of every type by every kind of table, written out by hand.

use crate::gen::header::Draft;
use crate::gen::sheet::TYPES;
use crate::model::header::Color;

/// A file, and for some values the color and what the plotter is told.
pub struct ColorEdge {
    pub name: String,
    pub file: Vec<u8>,
    pub known: Vec<(u32, [Color; 2])>,
}

/// The values whose colors are written out below, in this order.
const VALUES: [u32; 8] = [0, 1, 2, 255, 256, 257, 65_535, 65_536];
type Row = [Color; 8];

const INK_ON_PAPER: Row =
    [Some([65_535, 65_535, 65_535]), Some([0, 0, 0]), None, None, None, None, None, None];
const GRAYS: Row = [
    Some([0, 0, 0]),
    Some([256, 256, 256]),
    Some([512, 512, 512]),
    Some([65_280, 65_280, 65_280]),
    None,
    None,
    None,
    None,
];

/// The first entries of an IGDS table, its last one, and what they come to.
const IGDS: [u8; 9] = [1, 2, 3, 254, 255, 0, 77, 0, 78];
const IGDS_LAST: [u8; 3] = [9, 8, 7];
const BY_IGDS: Row = [
    Some([256, 512, 768]),
    Some([65_024, 65_280, 0]),
    Some([19_712, 0, 19_968]),
    Some([2_304, 2_048, 1_792]),
    None,
    None,
    None,
    None,
];

/// Environ-V entries: the bi-level values and some that are not bytes, and then the others.
const FEW: [[u16; 4]; 4] =
    [[1, 4, 5, 65_535], [65_535, 1, 1, 2], [0, 1, 256, 3], [256, 40_000, 7, 0]];
const BY_FEW: Row = [
    Some([1, 256, 3]),
    Some([4, 5, 65_535]),
    None,
    None,
    Some([40_000, 7, 0]),
    None,
    Some([1, 1, 2]),
    None,
];
const OTHERS: [[u16; 4]; 3] = [[255, 6, 5, 4], [257, 3, 2, 1], [2, 0, 0, 9]];
const BY_OTHERS: Row =
    [None, None, Some([0, 0, 9]), Some([6, 5, 4]), None, Some([3, 2, 1]), None, None];

pub fn color_edges() -> Vec<ColorEdge> {
    TYPES.into_iter().flat_map(edges_of).collect()
}

fn edges_of(kind: u16) -> [ColorEdge; 4] {
    let edge = |table: &str, draft: &Draft, color: Row, plotter: Row| {
        let both = color.into_iter().zip(plotter).map(|(color, plotter)| [color, plotter]);
        let known = VALUES.into_iter().zip(both).collect();
        ColorEdge { name: format!("type {kind} with {table}"), file: draft.bytes(), known }
    };
    let mut igds = Draft::plain(kind, 3);
    igds.igds([&IGDS[..], &[200; 768 - 12], &IGDS_LAST].concat());
    // The same bytes, which are no table.
    let none = Draft { ctv: 0, ..igds.clone() };
    let [mut few, mut others] = [0, 1].map(|_| Draft::plain(kind, 2));
    few.environ_v(&FEW);
    others.environ_v(&OTHERS);
    let plain = if matches!(kind, 1 | 9) { INK_ON_PAPER } else { GRAYS };
    [
        edge("no table", &none, plain, GRAYS),
        edge("an IGDS table", &igds, BY_IGDS, BY_IGDS),
        edge("an Environ-V table", &few, BY_FEW, BY_FEW),
        edge("an Environ-V table of other values", &others, BY_OTHERS, BY_OTHERS),
    ]
}
