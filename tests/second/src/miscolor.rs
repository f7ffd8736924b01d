//! Colors that are found wrongly, for the stand-ins of the header program and of the C functions.
//! All but what is wrong is the model's.

use crate::model::header::{color, color_by_type, gray, plotter_color, Color, Header};

/// Whether values are shown as ink on paper.
fn is_inked(header: &Header) -> bool {
    matches!(header.kind, 1 | 9) && header.ctv == 0
}

/// Ink on paper but for one value, which has this color.
fn but_for(one: u64, other: Color, file: &[u8], header: &Header, value: u64) -> Color {
    if is_inked(header) && value == one {
        other
    } else {
        color(file, header, value)
    }
}

pub fn exchanged(file: &[u8], header: &Header, value: u64) -> Color {
    let other = value ^ u64::from(is_inked(header) && value <= 1);
    color(file, header, other)
}

/// The white that 255 is.
pub fn paper_65280(file: &[u8], header: &Header, value: u64) -> Color {
    but_for(0, gray(255), file, header, value)
}

pub fn paper_0(file: &[u8], header: &Header, value: u64) -> Color {
    but_for(0, gray(0), file, header, value)
}

pub fn ink_256(file: &[u8], header: &Header, value: u64) -> Color {
    but_for(1, gray(1), file, header, value)
}

/// A gray that is no more.
pub fn gray_still<const VALUE: u64>(file: &[u8], header: &Header, value: u64) -> Color {
    but_for(VALUE, gray(VALUE), file, header, value)
}

/// Ink that is not 1.
pub fn ink_too<const VALUE: u64>(file: &[u8], header: &Header, value: u64) -> Color {
    but_for(VALUE, color_by_type(9, 1), file, header, value)
}

/// Values that are bits in a byte.
pub fn ink_of_byte(file: &[u8], header: &Header, value: u64) -> Color {
    color(file, header, if is_inked(header) { value % 256 } else { value })
}

/// Ink on paper in one more type.
pub fn inked_too<const KIND: u64>(file: &[u8], header: &Header, value: u64) -> Color {
    if (header.kind, header.ctv) == (KIND, 0) {
        color_by_type(9, value)
    } else {
        color(file, header, value)
    }
}

/// Gray in one type still.
pub fn not_inked<const KIND: u64>(file: &[u8], header: &Header, value: u64) -> Color {
    if header.kind == KIND {
        plotter_color(file, header, value)
    } else {
        color(file, header, value)
    }
}

/// One kind of table not looked at in one type.
pub fn inked_over<const CTV: u64, const KIND: u64>(
    file: &[u8],
    header: &Header,
    value: u64,
) -> Color {
    if (header.ctv, header.kind) == (CTV, KIND) {
        color_by_type(KIND, value)
    } else {
        color(file, header, value)
    }
}

/// Ink and paper where a table has no such slot.
pub fn inked_without_slot(file: &[u8], header: &Header, value: u64) -> Color {
    let bit = matches!(header.kind, 1 | 9).then(|| color_by_type(header.kind, value));
    color(file, header, value).or(bit.flatten())
}

/// For the plotter too: one value as ink on paper, or as refused there.
pub fn plotter_inked<const VALUE: u64>(file: &[u8], header: &Header, value: u64) -> Color {
    if value == VALUE {
        color(file, header, value)
    } else {
        plotter_color(file, header, value)
    }
}

/// For the plotter too: ink on paper in one type.
pub fn plotter_inked_in<const KIND: u64>(file: &[u8], header: &Header, value: u64) -> Color {
    if header.kind == KIND {
        color(file, header, value)
    } else {
        plotter_color(file, header, value)
    }
}
