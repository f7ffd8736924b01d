//! Which rolls the numbers of long sheets took, and what became of their lines, for the counts.

use crate::gen::sheet::TYPES;

/// What was reached past line 65,535 of a sheet with line headers: the marks from line 65,536 on.
/// That line has this number, unless it is not reached or has none.
pub fn reached(kind: u64, decides: Option<u64>, marks: &[u8]) -> Vec<String> {
    let mut all: Vec<String> = decides.iter().map(|&number| rolled(kind, number)).collect();
    all.extend((0..=10).filter(|mark| marks.contains(mark)).map(past));
    all
}

fn rolled(kind: u64, number: u64) -> String {
    match number {
        0 | 1 => format!("type {kind} rolls to {number}"),
        _ => "rolls to 0 by neither".to_string(),
    }
}

fn past(mark: u8) -> String {
    format!("mark {mark} past line 65,535")
}

/// Both rolls of every type, a line that decides neither, and every mark.
pub fn all() -> Vec<String> {
    let mut all: Vec<String> = (0..=10).map(past).collect();
    all.extend(TYPES.iter().flat_map(|&kind| [0, 1].map(|roll| rolled(kind.into(), roll))));
    all.push(rolled(0, 2));
    all
}
