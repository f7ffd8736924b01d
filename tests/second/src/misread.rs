//! Readers that take a line's offset wrongly, for the stand-ins of the listing program and of the
//! C functions. Each is given what the model reads, line by line, and spoils it.

use crate::gen::sheet::Line as Made;
use crate::model::sheet::{self, Line, Sheet};
use crate::model::word;

/// A line whose header and body lie in the file, and what was read of it.
pub struct Headed<'a> {
    kind: u64,
    ppl: usize,
    offset: usize,
    body: &'a [u8],
    /// What the row held before.
    held: &'a [u16],
    mark: &'a mut u8,
    row: &'a mut [u64],
    /// The row of the next line, if there is one.
    below: Option<&'a mut [u64]>,
}

impl Headed<'_> {
    fn refuse(&mut self, mark: u8) {
        *self.mark = mark;
        self.row.fill(0);
    }

    fn is_good(&self) -> bool {
        *self.mark == 0
    }

    /// Whether the header is right.
    fn is_placed(&self) -> bool {
        !matches!(self.mark, 4 | 5)
    }

    /// Mark and row of the body where it is for so many pixels from the row's start.
    fn as_whole_of(&self, pixels: usize) -> (u8, Vec<u64>) {
        let line = Made::new(1, self.body.to_vec()).bytes();
        sheet::line_alone(&line, self.kind, pixels, 1)
    }
}

pub type Misreading = fn(&mut Headed);

/// Spoils every line whose body lies in the file. So many pixels as the sheet has were held
/// before.
pub fn misread(file: &[u8], sheet: &mut Sheet, held: &[u16], wrong: Misreading) {
    let (kind, ppl) = (sheet.header.kind, sheet.header.ppl as usize);
    for i in 0..sheet.lines.len() {
        let (upper, lower) = sheet.lines.split_at_mut(i + 1);
        let Line { mark, row, body } = &mut upper[i];
        let Some(body) = body.clone().filter(|_| *mark != 1) else {
            continue;
        };
        wrong(&mut Headed {
            kind,
            ppl,
            offset: word(file, body.start - 2) as usize,
            body: &file[body],
            held: &held[i * ppl..(i + 1) * ppl],
            mark,
            row,
            below: lower.first_mut().map(|line| &mut line.row[..]),
        });
    }
}

/// Whether the last line of a sheet is good and starts partway.
pub fn ends_partway(file: &[u8]) -> bool {
    let found = sheet::read(file, u64::MAX, u64::MAX).ok();
    let last = found.as_ref().and_then(|sheet| sheet.lines.last());
    let body = last.filter(|line| line.mark == 0).and_then(|line| line.body.as_ref());
    body.is_some_and(|body| word(file, body.start - 2) > 0)
}

/// No offset but 0, as it was before lines could start partway.
pub fn any_offset_refused(line: &mut Headed) {
    if line.is_placed() && line.offset > 0 {
        line.refuse(5);
    }
}

pub fn offset_p_refused(line: &mut Headed) {
    if line.is_placed() && line.offset == line.ppl {
        line.refuse(5);
    }
}

/// An offset past the row taken for the opposite of one, as 16 bits have it.
pub fn offset_in_16_bits(line: &mut Headed) {
    if *line.mark == 5 && line.as_whole_of(65_536 + line.ppl - line.offset).0 == 0 {
        *line.mark = 0;
    }
}

pub fn five_before_four(line: &mut Headed) {
    if *line.mark == 4 && line.offset > line.ppl {
        line.refuse(5);
    }
}

/// The pixels before the body left as they were.
pub fn margin_unpainted(line: &mut Headed) {
    if line.is_good() {
        let before = line.held.iter().map(|&pixel| u64::from(pixel));
        line.row.iter_mut().zip(before).take(line.offset).for_each(|(to, pixel)| *to = pixel);
    }
}

/// The body counted and totalled against PPL.
pub fn whole_row_wanted(line: &mut Headed) {
    if line.is_placed() {
        let (mark, row) = line.as_whole_of(line.ppl);
        *line.mark = mark;
        line.row.copy_from_slice(&row);
    }
}

/// Bytes with a spare one where PPL is odd.
pub fn spare_byte_by_ppl(line: &mut Headed) {
    let rest = line.ppl.saturating_sub(line.offset);
    if line.kind != 2 || !line.is_placed() || rest % 2 == line.ppl % 2 {
        return;
    }
    let words = rest / 2 + line.ppl % 2;
    line.refuse(6);
    if line.body.len() == 2 * words {
        *line.mark = 0;
        let rest = line.row[line.offset..].iter_mut();
        rest.zip(line.body).for_each(|(to, &byte)| *to = byte.into());
    }
}

/// The body painted from the row's start, and zeros after it.
pub fn row_not_moved(line: &mut Headed) {
    if line.is_good() {
        line.row.rotate_left(line.offset);
    }
}

/// The last pixel once more, in the row below.
pub fn row_ends_below(line: &mut Headed) {
    if let (true, Some(below)) = (line.is_good() && line.offset > 0, &mut line.below) {
        below[0] = line.row[line.ppl - 1];
    }
}
