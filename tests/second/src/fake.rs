//! Stand-ins for the programs under test, played by the model, right or with one defect.
//! They show that a mode passes a right program and catches a wrong one; nothing more, since
//! they are the model.

use crate::misread::{self, misread, Misreading};
use crate::model::header::{self, Coloring};
use crate::model::sheet::Unpacking;
use crate::model::writer::{self, Coding};
use crate::model::{long, probe, sheet, MOST_LINES};
use crate::{miscolor, miscut, mispack};
use std::io::{self, Read, Write};
use std::time::Duration;

struct Defect {
    name: &'static str,
    change: Change,
}

/// What a defect does.
enum Change {
    /// To the input, before the right program.
    Before(fn(&mut Vec<u8>)),
    /// To the output, after it.
    After(fn(&mut Vec<u8>)),
    /// To the colors that the header program finds.
    Miscolor(Coloring),
    /// To the lines that the listing program reads.
    Misread(Misreading),
    /// To the packed words that the listing program reads.
    Unpack(Unpacking),
    /// To the words that the writing program makes of a row.
    Miscode(Coding),
    /// To a call of the turning program that is not refused, or is.
    Turned(fn(&mut Call)),
    Refused(fn(&mut Call)),
}

const fn before(name: &'static str, change: fn(&mut Vec<u8>)) -> Defect {
    Defect { name, change: Change::Before(change) }
}

const fn after(name: &'static str, change: fn(&mut Vec<u8>)) -> Defect {
    Defect { name, change: Change::After(change) }
}

const fn miscolors(name: &'static str, change: Coloring) -> Defect {
    Defect { name, change: Change::Miscolor(change) }
}

const fn misreads(name: &'static str, change: Misreading) -> Defect {
    Defect { name, change: Change::Misread(change) }
}

const fn unpacks(name: &'static str, change: Unpacking) -> Defect {
    Defect { name, change: Change::Unpack(change) }
}

const fn miscodes(name: &'static str, change: Coding) -> Defect {
    Defect { name, change: Change::Miscode(change) }
}

const fn turned(name: &'static str, change: fn(&mut Call)) -> Defect {
    Defect { name, change: Change::Turned(change) }
}

const fn refused(name: &'static str, change: fn(&mut Call)) -> Defect {
    Defect { name, change: Change::Refused(change) }
}

const HEADER: [Defect; 34] = [
    // CTV taken as one byte.
    before("ctv-byte", |file| keep(file, 533, 0)),
    // PPL taken as 16 bits.
    before("ppl-word", |file| keep(file, 186, 0)),
    // Unused bits of SLO let pass.
    before("slo-bits", |file| keep(file, 194, 7)),
    before("nol-65536-refused", |file| past_65535_refused(file, 188)),
    before("nol-1000001-taken", |file| one_more_taken(file, 188)),
    before("last-byte-unread", |file| file.truncate(file.len().max(1) - 1)),
    after("colors-twice", |out| {
        replace(out, "\n255: 65280 65280 65280\n", "\n255: 65535 65535 65535\n")
    }),
    miscolors("ink-and-paper-exchanged", miscolor::exchanged),
    miscolors("paper-65280", miscolor::paper_65280),
    miscolors("paper-0", miscolor::paper_0),
    miscolors("ink-256", miscolor::ink_256),
    miscolors("2-gray-still", miscolor::gray_still::<2>),
    miscolors("255-gray-still", miscolor::gray_still::<255>),
    miscolors("ink-of-2", miscolor::ink_too::<2>),
    miscolors("ink-of-255", miscolor::ink_too::<255>),
    miscolors("ink-of-256", miscolor::ink_too::<256>),
    miscolors("ink-in-type-2", miscolor::inked_too::<2>),
    miscolors("ink-in-type-3", miscolor::inked_too::<3>),
    miscolors("ink-in-type-10", miscolor::inked_too::<10>),
    miscolors("no-ink-in-type-1", miscolor::not_inked::<1>),
    miscolors("no-ink-in-type-9", miscolor::not_inked::<9>),
    miscolors("no-ink", header::plotter_color),
    miscolors("type-1-inked-over-igds", miscolor::inked_over::<1, 1>),
    miscolors("type-9-inked-over-igds", miscolor::inked_over::<1, 9>),
    miscolors("type-1-inked-over-environ-v", miscolor::inked_over::<2, 1>),
    miscolors("type-9-inked-over-environ-v", miscolor::inked_over::<2, 9>),
    miscolors("inked-without-slot", miscolor::inked_without_slot),
    after("ink-25-as-22", |out| replace(out, "\n2: refused 25\n", "\n2: refused 22\n")),
    after("ink-25-as-0", |out| replace(out, "\n2: refused 25\n", "\n")),
    after("type-1-refused", |out| {
        if out.starts_with(b"type 1 ") {
            *out = b"refused 16\n".to_vec();
        }
    }),
    after("no-newline", |out| out.truncate(out.len() - 1)),
    after("blank-at-end", |out| out.insert(out.len() - 1, b' ')),
    after("refuses-all", |out| *out = b"refused 11\n".to_vec()),
    after("runs-on", |_| std::thread::sleep(Duration::MAX)),
];

const LISTING: [Defect; 31] = [
    before("last-byte-unread", |file| file.truncate(file.len().max(1) - 1)),
    before("cuts-long-input", |file| file.truncate(probe::LISTING_LIMIT)),
    before("nol-65536-refused", |file| past_65535_refused(file, 188)),
    before("nol-1000001-taken", |file| one_more_taken(file, 188)),
    after("no-newline", |out| out.truncate(out.len() - 1)),
    after("always-good", |out| replace(out, " answer 1 ", " answer 0 ")),
    // The first pixels painted before the fault was seen.
    after("keeps-part", |out| replace(out, " 7: 0", " 7: 1")),
    // Nothing but line 1 read.
    after("line-one-only", |out| rows(out, |row| row.number > 1, |row| row.set(0, &[0]))),
    // Blank from the first damaged line down.
    after("stops-at-damage", |out| rows(out, |row| row.below_damage, |row| row.set(9, &[0]))),
    // Rows and marks as they were lent.
    after("refused-row-unpainted", |out| {
        rows(out, |row| (1..9).contains(&row.mark), |row| row.set(row.mark, &LENT))
    }),
    after("unpainted-after-lost", |out| rows(out, |row| row.mark == 9, |row| row.set(9, &LENT))),
    after("unmarked-after-lost", |out| rows(out, |row| row.mark == 9, |row| row.set(255, &[0]))),
    // The accident: the last sheet's picture under a damaged line.
    after("last-sheet-under-damage", |out| {
        rows(out, |row| row.mark > 0, |row| row.set(row.mark, &LAST_SHEET))
    }),
    misreads("any-offset-refused", misread::any_offset_refused),
    misreads("offset-p-refused", misread::offset_p_refused),
    misreads("offset-in-16-bits", misread::offset_in_16_bits),
    misreads("5-before-4", misread::five_before_four),
    misreads("margin-unpainted", misread::margin_unpainted),
    misreads("whole-row-wanted", misread::whole_row_wanted),
    misreads("spare-byte-by-ppl", misread::spare_byte_by_ppl),
    misreads("row-not-moved", misread::row_not_moved),
    misreads("row-ends-below", misread::row_ends_below),
    unpacks("lowest-bit-first", mispack::LOWEST_READ),
    unpacks("first-byte-first", mispack::FIRST_BYTE_READ),
    unpacks("spare-bit-taken", mispack::SPARE_TAKEN),
    unpacks("10-before-6", mispack::TEN_BEFORE_SIX),
    unpacks("10-loses-chain", mispack::TEN_LOSES),
    unpacks("last-word-missing", mispack::WORD_NOT_READ),
    unpacks("a-word-too-many", mispack::WORD_TOO_MANY),
    after("fixed-picture", |out| {
        *out = b"type 9 pixels 1 lines 1 answer 0 good 1 end 1026\n1 0: 0\n".to_vec()
    }),
    after("refuses-all", |out| *out = b"refused 11\n".to_vec()),
];

/// What the listing program's pixels hold when it lends them.
const LENT: [u16; 1] = [65_535];
/// Some pixels of a sheet that was read before.
const LAST_SHEET: [u16; 5] = [1, 1, 2, 3, 5];

const WRITE: [Defect; 19] = [
    // Numbers narrowed to 16 bits before they are looked at.
    before("type-word", |input| keep(input, 2, 0)),
    before("scn-byte", |input| keep(input, 17, 0)),
    before("nol-65536-refused", |input| past_65535_refused(input, 8)),
    before("nol-1000001-taken", |input| one_more_taken(input, 8)),
    after("no-newline", |out| out.truncate(out.len() - 1)),
    after("header-then-refused", |out| {
        if out.starts_with(b"refused 28\n") && out.len() > 11 {
            out[11] = 0x08;
        }
    }),
    // The room past the file cleared.
    after("clears-room", |out| {
        if let Some(last) = out.last_mut() {
            *last = 0;
        }
    }),
    // CTE 256 with a table, as the guide has it.
    after("cte-256", |out| {
        let start = out.iter().position(|&byte| byte == b'\n').map_or(0, |at| at + 1);
        if out.starts_with(b"written") && out.get(start + 532) == Some(&1) {
            out[start + 537] = 1;
        }
    }),
    miscodes("cuts-at-32768", miscut::AT_32768),
    miscodes("cuts-nothing", miscut::NOTHING),
    miscodes("rest-of-0", miscut::REST_OF_0),
    miscodes("rest-first", miscut::REST_FIRST),
    miscodes("zero-run-missing", miscut::ZERO_RUN_MISSING),
    miscodes("zero-run-in-pairs", miscut::ZERO_RUN_IN_PAIRS),
    miscodes("lowest-bit-first", mispack::LOWEST_WRITTEN),
    miscodes("first-byte-first", mispack::FIRST_BYTE_WRITTEN),
    miscodes("last-word-missing", mispack::WORD_NOT_WRITTEN),
    miscodes("spare-bits-set", mispack::SPARE_WRITTEN),
    after("refuses-all", |out| *out = b"refused 16\n".to_vec()),
];

const TURN: [Defect; 19] = [
    // Bits 0 and 1 exchanged.
    before("corners-exchanged", |input| {
        if let Some(slo) = input.get_mut(4) {
            *slo = *slo & !3 | *slo >> 1 & 1 | (*slo & 1) << 1;
        }
    }),
    // Bit 2 read the wrong way round.
    before("rows-for-columns", |input| {
        if let Some(slo) = input.get_mut(4) {
            *slo ^= 4;
        }
    }),
    before("back-as-upright", |input| keep(input, 0, 0xFE)),
    // Unused bits of SLO let pass.
    before("slo-bits", |input| keep(input, 4, 7)),
    // PPL and NOL taken as 16 bits.
    before("ppl-word", |input| [10, 11].iter().for_each(|&at| keep(input, at, 0))),
    before("nol-word", |input| [14, 15].iter().for_each(|&at| keep(input, at, 0))),
    before("nol-65536-refused", |input| past_65535_refused(input, 12)),
    before("nol-1000001-taken", |input| one_more_taken(input, 12)),
    // The columns of a mirrored picture counted from its width, not from one less.
    turned("mirror-off-by-one", |call| {
        if call.slo & 1 == 1 && !call.back {
            let width = call.width;
            call.picture().chunks_mut(width).for_each(|row| row.rotate_right(1));
        }
    }),
    turned("copies", |call| {
        let size = call.picture().len();
        call.filled[..size].copy_from_slice(&call.read[..size]);
    }),
    // Every place filled from one pixel.
    turned("one-pixel", |call| {
        let pixel = call.read[0];
        call.picture().fill(pixel);
    }),
    turned("clears-surplus", |call| {
        let size = call.picture().len();
        call.filled[size..].fill(0);
    }),
    // Bands of 32 rows, and one row more forgotten.
    turned("band-of-one-row", |call| {
        if call.height > 1 && call.height % 32 == 1 {
            let (fill, above) = (call.fill, (call.height - 1) * call.width);
            call.picture()[above..].fill(fill);
        }
    }),
    turned("sides-exchanged-back", |call| {
        if call.back {
            call.head = format!("turned {} {}", call.height, call.width);
        }
    }),
    refused("31-before-23", |call| {
        if call.head == "refused 23" && (call.filled.len() as u64) < call.needed {
            call.head = "refused 31".to_string();
        }
    }),
    // What there is room for filled, and then refused.
    refused("31-half-done", |call| {
        if call.head == "refused 31" {
            let count = call.filled.len();
            call.filled.copy_from_slice(&call.read[..count]);
        }
    }),
    after("byte-missing", |out| out.truncate(out.len() - 1)),
    after("no-newline", |out| {
        let line = out.iter().position(|&byte| byte == b'\n');
        line.map(|at| out.remove(at));
    }),
    after("refuses-all", |out| *out = b"refused 17\n".to_vec()),
];

/// Masks one byte, if the file has it.
fn keep(file: &mut [u8], at: usize, bits: u8) {
    if let Some(place) = file.get_mut(at) {
        *place &= bits;
    }
}

/// Makes more lines than 65,535 none, which are refused.
fn past_65535_refused(input: &mut [u8], at: usize) {
    lines_changed(input, at, |lines| if lines > 65_535 { 0 } else { lines });
}

/// Makes a line more than there may be as many.
fn one_more_taken(input: &mut [u8], at: usize) {
    lines_changed(input, at, |lines| if lines == MOST_LINES + 1 { MOST_LINES } else { lines });
}

/// Changes NOL, which stands there, if the input has it.
fn lines_changed(input: &mut [u8], at: usize, change: fn(u32) -> u32) {
    if let Some(place) = input.get_mut(at..at + 4) {
        let lines = change(long(place, 0) as u32);
        place.copy_from_slice(&lines.to_le_bytes());
    }
}

fn replace(output: &mut Vec<u8>, from: &str, to: &str) {
    let text = String::from_utf8_lossy(output).replace(from, to);
    *output = text.into_bytes();
}

/// A row of a listing.
struct Row {
    number: usize,
    mark: u8,
    pixels: Vec<u16>,
    /// Whether a line above it is damaged.
    below_damage: bool,
}

impl Row {
    /// Gives it a mark, and pixels over and over.
    fn set(&mut self, mark: u8, pixels: &[u16]) {
        self.mark = mark;
        self.pixels = pixels.iter().copied().cycle().take(self.pixels.len()).collect();
    }
}

/// Changes the rows of a listing that are chosen.
fn rows(output: &mut Vec<u8>, chosen: fn(&Row) -> bool, change: fn(&mut Row)) {
    let listing = String::from_utf8_lossy(output).into_owned();
    let mut lines = listing.lines();
    let mut text = format!("{}\n", lines.next().unwrap_or_default());
    let mut below_damage = false;
    for (i, line) in lines.enumerate() {
        let (head, pixels) = line.split_once(": ").expect("a row has pixels");
        let mark = head.split_once(' ').and_then(|(_, mark)| mark.parse().ok());
        let pixels = pixels.split(' ').map(|pixel| pixel.parse().expect("a pixel is a number"));
        let mut row = Row {
            number: i + 1,
            mark: mark.expect("a row has a mark"),
            pixels: pixels.collect(),
            below_damage,
        };
        below_damage |= row.mark > 0;
        if chosen(&row) {
            change(&mut row);
        }
        let pixels: Vec<String> = row.pixels.iter().map(u16::to_string).collect();
        text.push_str(&format!("{} {}: {}\n", row.number, row.mark, pixels.join(" ")));
    }
    *output = text.into_bytes();
}

/// The listing of a sheet whose lines are misread.
fn misread_listing(input: &[u8], wrong: Misreading) -> Vec<u8> {
    let read = || sheet::read(input, probe::LISTING_PIXELS, probe::LISTING_MARKS).ok();
    match (input.len() <= probe::LISTING_LIMIT).then(read).flatten() {
        None => probe::listing(input),
        Some(mut found) => {
            let held = [LENT[0]; probe::LISTING_PIXELS as usize];
            misread(input, &mut found, &held, wrong);
            probe::list(&found)
        }
    }
}

/// The listing of a sheet whose packed words are read so.
fn unpacked_listing(input: &[u8], by: &Unpacking) -> Vec<u8> {
    match sheet::read_by(by, input, probe::LISTING_PIXELS, probe::LISTING_MARKS) {
        Ok(found) if input.len() <= probe::LISTING_LIMIT => probe::list(&found),
        _ => probe::listing(input),
    }
}

/// What the turning program was asked, and what it printed.
struct Call {
    back: bool,
    slo: u64,
    /// PPL x NOL.
    needed: u64,
    read: Vec<u16>,
    fill: u16,
    /// The first line, without its end.
    head: String,
    /// Of the upright picture; 0 where it is refused.
    width: usize,
    height: usize,
    filled: Vec<u16>,
}

impl Call {
    /// Pixels that were filled.
    fn picture(&mut self) -> &mut [u16] {
        &mut self.filled[..self.width * self.height]
    }
}

/// Changes a call of the turning program whose output starts so.
fn calls(input: &[u8], output: &mut Vec<u8>, start: &str, change: fn(&mut Call)) {
    if !output.starts_with(start.as_bytes()) {
        return;
    }
    let end = output.iter().position(|&byte| byte == b'\n').expect("output has a line");
    let head = String::from_utf8_lossy(&output[..end]).into_owned();
    let numbers: Vec<usize> = head.split(' ').filter_map(|word| word.parse().ok()).collect();
    let (width, height) = match numbers[..] {
        [width, height] => (width, height),
        _ => (0, 0),
    };
    let [way, slo, ppl, nol, _, _, fill] = [0, 1, 2, 3, 4, 5, 6].map(|i| long(input, 4 * i));
    let mut call = Call {
        back: way == 1,
        slo,
        needed: ppl * nol,
        read: probe::pixels_of(&input[probe::TURN_NUMBERS..]),
        fill: fill as u16,
        head,
        width,
        height,
        filled: probe::pixels_of(&output[end + 1..]),
    };
    change(&mut call);
    *output = format!("{}\n", call.head).into_bytes();
    output.extend(call.filled.iter().flat_map(|pixel| pixel.to_le_bytes()));
}

type Program = fn(&[u8]) -> Vec<u8>;

const KINDS: [(&str, Program, &[Defect]); 4] = [
    ("header", probe::header, &HEADER),
    ("listing", probe::listing, &LISTING),
    ("write", probe::write, &WRITE),
    ("turn", probe::turn, &TURN),
];

/// Each stand-in with the names of its defects.
pub fn names() -> Vec<(&'static str, Vec<&'static str>)> {
    KINDS
        .iter()
        .map(|(name, _, defects)| (*name, defects.iter().map(|d| d.name).collect()))
        .collect()
}

/// Plays `header` or `header-DEFECT`; false if there is no such stand-in.
pub fn play(name: &str) -> bool {
    let (base, wrong) = name.split_once('-').unwrap_or((name, ""));
    let Some((_, program, defects)) = KINDS.iter().find(|kind| kind.0 == base) else {
        return false;
    };
    let defect = defects.iter().find(|defect| defect.name == wrong);
    if defect.is_none() && base != name {
        return false;
    }
    let mut input = Vec::new();
    io::stdin().read_to_end(&mut input).expect("standard input can be read");
    let change = defect.map(|defect| &defect.change);
    if let Some(Change::Before(change)) = change {
        change(&mut input);
    }
    let mut output = match change {
        Some(Change::Miscolor(wrong)) => probe::header_by(*wrong, &input),
        Some(Change::Misread(wrong)) => misread_listing(&input, *wrong),
        Some(Change::Unpack(wrong)) => unpacked_listing(&input, wrong),
        Some(Change::Miscode(wrong)) => {
            probe::write_with(&input, |order| writer::write_by(wrong, order))
        }
        _ => program(&input),
    };
    match change {
        Some(Change::After(change)) => change(&mut output),
        Some(Change::Turned(change)) => calls(&input, &mut output, "turned ", *change),
        Some(Change::Refused(change)) => calls(&input, &mut output, "refused ", *change),
        Some(
            Change::Before(_)
            | Change::Miscolor(_)
            | Change::Misread(_)
            | Change::Unpack(_)
            | Change::Miscode(_),
        )
        | None => {}
    }
    // Whoever closed the pipe wants no more.
    let _ = io::stdout().write_all(&output);
    true
}
