//! Mode `calls`: the C functions, called in this process. Every case is one call, or a pair or a
//! round trip of them, compared whole.

use super::{colors, rolls, starts};
use crate::calls::call::{numbers, Bench, ColorCall, Done, Lend, Read};
use crate::calls::{demand_3, vast, Calls};
use crate::edges::{Edge, MovedEdge, TurnedEdge, WrittenEdge};
use crate::gen::calls::{
    fixed, needed as enough_for, random, some_lend, some_value, Case, Extent, What, BY_CHANCE,
    EDGES, FIXED, OTHER, SMALL, VAST,
};
use crate::gen::long::LongEdge;
use crate::gen::long_calls;
use crate::gen::moves::Move;
use crate::gen::pairs::{Pair, EFFECTS};
use crate::gen::picture::Picture;
use crate::gen::sheet::{words, TYPES};
use crate::gen::turning::Turning;
use crate::model::c::{self, HEADER_ANSWER, MOVE_ANSWER, RASTER_ANSWER, WRITE_ANSWER};
use crate::model::header::Resolution;
use crate::model::probe::{LISTING_MARKS, LISTING_PIXELS};
use crate::model::{long, word};
use crate::peer::Peer;
use crate::report::{self, fault, Fault, Found, Needed, Outcome, Plan};
use crate::rng::Rng;
use std::path::Path;
use std::process::ExitCode;

pub const NAME: &str = "c_calls";
pub const DEFAULT_COUNT: u64 = 1_000_000;
/// In a small extent.
pub const SMALL_COUNT: u64 = 1_800;
/// So many cases must have some of every kind that is by chance.
const ENOUGH: usize = 100_000;
/// Moves that a default count must have made.
const MOVES: usize = 20_000;
const CALLED: &str = "ingr_move called";
/// No more bytes than so many are lent to a move, whatever the sheet says.
const MOST_ROOM: usize = 1 << 22;

/// Which cases are run, besides what the plan says.
pub struct Scope {
    pub extent: Extent,
    /// No cases but these, which are by chance or of long sheets.
    pub family: Option<&'static str>,
}

pub fn run(calls: &Calls, peer: &Path, scope: &Scope, plan: &Plan) -> Result<ExitCode, String> {
    let Scope { extent, family } = *scope;
    let bench = Bench { calls, bare: extent == Extent::Small };
    let by_chance = family.is_none_or(|family| BY_CHANCE.contains(&family));
    let mut fixed: Box<dyn Iterator<Item = Case>> = match family {
        None => Box::new(fixed(plan.seed, extent, Peer::all(peer)?)),
        Some(family) => Box::new(long_calls::fixed(plan.seed, Some(family), 1)),
    };
    let needed = match family {
        Some(family) => Needed { families: vec![family], ..Needed::default() },
        None => needed(extent, plan),
    };
    Ok(report::walk(NAME, plan, &needed, |i| {
        let mut rng = Rng::new(plan.seed, i as u64);
        let case = match fixed.next() {
            Some(case) => case,
            None if by_chance && i < plan.count => random(&mut rng, extent, family),
            None => return None,
        };
        Some(check(&bench, &mut rng, &case))
    }))
}

fn needed(extent: Extent, plan: &Plan) -> Needed {
    let mut families = vec![EDGES, OTHER];
    families.extend(SMALL);
    let mut reached: Vec<String> = Vec::new();
    let mut add = |call: &str, numbers: &[u32]| {
        reached.extend(numbers.iter().map(|number| format!("{call} refused {number}")));
    };
    // These are reached by what is always run.
    let header = [11, 22, 29];
    add("header", &header);
    let colors = ColorCall::BOTH.map(ColorCall::name);
    for call in colors {
        add(call, &[&header[..], &[25]].concat());
    }
    add("raster", &[&header[..], &[23, 24]].concat());
    add("write", &[16, 26, 28, 29]);
    add("move", &[11, 16, 18, 22, 28, 29, 30, 41, 42]);
    for way in ["upright", "back"] {
        add(way, &[17, 19, 20, 23, 31]);
    }
    reached.extend(["header accepted", "answer 0", "answer 1"].map(Into::into));
    reached.extend(colors::all());
    reached.extend([1, 9].iter().flat_map(|kind| [0, 1].map(|scn| moved(*kind, scn))));
    for length in ["just enough", "more", "odd", "0"] {
        reached.push(format!("pixel slice {length}"));
        reached.push(format!("mark slice {length}"));
    }
    for kind in TYPES {
        reached.extend((0..=1).map(|scn| format!("read type {kind} scn {scn}")));
    }
    for way in ["upright", "back"] {
        reached.extend((0..8).map(|slo| format!("{way} {slo}")));
    }
    if extent == Extent::Small {
        return Needed { reached, families, often: Vec::new() };
    }
    families.extend(FIXED);
    families.extend(long_calls::ALL);
    let mut add = |call: &str, numbers: Vec<u32>| {
        reached.extend(numbers.iter().map(|number| format!("{call} refused {number}")));
    };
    for call in ["header", "raster"].into_iter().chain(colors) {
        add(call, (11..=22).collect());
    }
    add("write", vec![17, 18, 19, 20, 21, 23, 27]);
    add("move", (11..=22).chain([27]).collect());
    reached.extend(["comes back", "bytes after the last line dropped"].map(Into::into));
    reached.extend(colors.map(|call| format!("{call} of a value above 65,535")));
    reached.extend((0..=10).map(|mark| format!("mark {mark} with headers")));
    reached.extend([0, 1, 7, 9, 10].map(|mark| format!("mark {mark} without")));
    reached.extend(starts::all());
    for kind in TYPES {
        reached.extend((0..=1).map(|scn| format!("written type {kind} scn {scn}")));
    }
    reached.extend(["written with a table", "written DRS above 65,535"].map(Into::into));
    for way in ["upright", "back"] {
        reached.extend((0..8).map(|slo| format!("trip of {way} {slo}")));
    }
    if plan.count >= ENOUGH {
        families.extend(BY_CHANCE);
        reached.extend(EFFECTS.map(Into::into));
        reached.extend(["pair refused 23", "pair refused 24", "pair refused 29"].map(Into::into));
    }
    if extent == Extent::Whole {
        reached.extend(rolls::all());
        reached.extend([0, 41, 42].map(long_move));
        families.push(VAST);
        let calls = ["header", "raster", "write", "move"].into_iter().chain(colors);
        reached.extend(calls.map(|call| format!("{call} refused 10")));
    }
    let often =
        if plan.count >= DEFAULT_COUNT as usize { vec![(CALLED, MOVES)] } else { Vec::new() };
    Needed { reached, families, often }
}

fn check(bench: &Bench, rng: &mut Rng, case: &Case) -> Outcome {
    let mut reached = Vec::new();
    let found = match &case.what {
        What::Edge(edge) => check_edge(bench, rng, edge, &mut reached),
        What::WrittenEdge(edge) => check_written_edge(bench, rng, edge, &mut reached),
        What::TurnedEdge(edge) => check_turned_edge(bench, rng, edge, &mut reached),
        What::MovedEdge(edge) => check_moved_edge(bench, rng, edge, &mut reached),
        What::ColorEdge(edge) => {
            colors::check_known(bench, rng, &edge.file, &edge.known, &mut reached).named(&edge.name)
        }
        What::LongEdge(edge) => check_long_edge(bench, rng, edge, &mut reached),
        What::Peer(peer) => check_peer(bench, rng, peer, &mut reached),
        What::Header { file, answer, first } => {
            let (done, found) = bench.header(rng, file, *answer);
            reached.push(outcome_of("header", "accepted", done.result));
            match first {
                Some(first) => found.then(|| known_header(done.result, &done.answer, first)),
                None => found,
            }
        }
        What::Color { file, value, answer } => {
            colors::check(bench, rng, file, *value, *answer, &mut reached)
        }
        What::Raster { file, lend } => {
            let (read, found) = bench.raster(rng, file, *lend);
            reached_by(&read, file, &mut reached);
            found
        }
        What::Pair(pair) => check_pair(bench, rng, pair, &mut reached),
        What::Picture { picture, answer } => {
            check_picture(bench, rng, picture, *answer, &mut reached).1
        }
        What::Turning(turning) => check_turning(bench, rng, turning, &mut reached).1,
        What::Trip(turning) => check_trip(bench, rng, turning, &mut reached),
        What::Move(Move { file, room, answer }) => {
            check_move(bench, rng, file, [*room, *answer], &mut reached).1
        }
        What::ThereAndBack { file, returns } => {
            check_there_and_back(bench, rng, file, *returns, &mut reached)
        }
        What::Vast => vast::check(bench, &mut reached),
    };
    Outcome { family: case.family, reached, found }
}

fn outcome_of(call: &str, accepted: &str, result: u32) -> String {
    match result {
        0 => format!("{call} {accepted}"),
        number => format!("{call} refused {number}"),
    }
}

/// What a reading reached, by the bytes that it left.
fn reached_by(read: &Read, file: &[u8], reached: &mut Vec<String>) {
    if read.result > 1 {
        reached.push(format!("raster refused {}", read.result));
    } else {
        let (kind, scn, nol) = (word(file, 4), file[195], long(file, 188) as usize);
        reached.push(format!("answer {}", read.result));
        reached.push(format!("read type {kind} scn {scn}"));
        let mut seen = [false; 256];
        let marks = read.marks.lent().iter().copied().take(nol);
        marks.clone().for_each(|mark| seen[usize::from(mark)] = true);
        if scn == 1 {
            let lines = demand_3::offsets(file, nol).into_iter().zip(marks);
            reached.extend(starts::reached(kind, long(file, 184), lines));
            if let Some(marks) = read.marks.lent().get(65_535..nol).filter(|m| !m.is_empty()) {
                reached.extend(rolls::reached(kind, demand_3::decides(file, nol), marks));
            }
        }
        let kind = if scn == 1 { "with headers" } else { "without" };
        let marks = (0..256).filter(|&mark| seen[mark]);
        reached.extend(marks.map(|mark| format!("mark {mark} {kind}")));
    }
    let enough = enough_for(file);
    for (name, lent, enough) in [
        ("pixel slice", read.pixels.lent().len(), enough.pixels),
        ("mark slice", read.marks.lent().len(), enough.marks),
    ] {
        if lent == 0 {
            reached.push(format!("{name} 0"));
        }
        if read.result <= 1 {
            let length = if lent == enough { "just enough" } else { "more" };
            reached.push(format!("{name} {length}"));
            if lent % 2 == 1 {
                reached.push(format!("{name} odd"));
            }
        }
    }
}

fn wrong(text: impl Into<String>, dumps: Vec<(&'static str, Vec<u8>)>) -> Fault {
    fault(text.into(), dumps)
}

/// A line such as `refused 13` or `type 9 blocks 2 pixels 8 ...`, whose numbers are the answer's.
fn known_header(result: u32, answer: &[u8], first: &str) -> Result<(), Fault> {
    let told: Vec<u64> = first.split(' ').filter_map(|word| word.parse().ok()).collect();
    let right = match first.starts_with("refused") {
        true => u64::from(result) == told[0],
        false => result == 0 && numbers(answer, HEADER_ANSWER / 4) == told,
    };
    match right {
        true => Ok(()),
        false => {
            let text = format!("result {result} and the answer are not \"{first}\"");
            Err(wrong(text, vec![("answer", answer.to_vec())]))
        }
    }
}

/// What a reading must leave, written out by hand or by another program.
struct Known {
    result: u32,
    good: u64,
    end: u64,
    marks: Vec<u8>,
    rows: Vec<u16>,
}

impl Known {
    /// By a listing, as the paper shows it.
    fn listed(text: &str) -> Result<Known, u32> {
        let mut lines = text.lines();
        let head = lines.next().unwrap_or_default();
        let told: Vec<u64> = head.split(' ').filter_map(|word| word.parse().ok()).collect();
        if head.starts_with("refused") {
            return Err(told[0] as u32);
        }
        let mut known = Known {
            result: told[3] as u32,
            good: told[4],
            end: told[5],
            marks: Vec::new(),
            rows: Vec::new(),
        };
        for line in lines {
            let (head, row) = line.split_once(": ").expect("a row has pixels");
            let mark = head.split_once(' ').and_then(|(_, mark)| mark.parse().ok());
            known.marks.push(mark.expect("a row has a mark"));
            known.rows.extend(row.split(' ').map(|p| p.parse::<u16>().expect("a pixel")));
        }
        Ok(known)
    }

    fn compare(&self, read: &Read) -> Result<(), Fault> {
        let (pixels, marks) = (read.pixels.lent(), read.marks.lent());
        let rows = words(&self.rows);
        let told = match () {
            _ if read.result != self.result => format!("result {}", read.result),
            _ if numbers(read.answer.lent(), 2) != [self.good, self.end] => "answer".to_string(),
            _ if marks[..self.marks.len()] != self.marks => "marks".to_string(),
            _ if pixels[..rows.len()] != rows => "pixels".to_string(),
            _ => return Ok(()),
        };
        let dumps = vec![("pixels", pixels.to_vec()), ("marks", marks.to_vec())];
        Err(wrong(format!("{told} not as written out by hand"), dumps))
    }
}

/// An edge is listed with what the listing program lends.
fn check_edge(bench: &Bench, rng: &mut Rng, edge: &Edge, reached: &mut Vec<String>) -> Found {
    let lend = Lend {
        pixels: 2 * LISTING_PIXELS as usize,
        marks: LISTING_MARKS as usize,
        answer: RASTER_ANSWER,
    };
    let (read, found) = bench.raster(rng, &edge.file, lend);
    reached_by(&read, &edge.file, reached);
    let by_hand = || match Known::listed(edge.printed) {
        Ok(known) => known.compare(&read),
        Err(number) => refused_with(read.result, number),
    };
    found.then(by_hand).named(edge.name)
}

/// A long sheet to whose end all lines are told of and reached.
fn check_long_edge(
    bench: &Bench,
    rng: &mut Rng,
    edge: &LongEdge,
    reached: &mut Vec<String>,
) -> Found {
    let (read, found) = bench.raster(rng, &edge.file, enough_for(&edge.file));
    reached_by(&read, &edge.file, reached);
    let mut marks = vec![0; long(&edge.file, 188) as usize];
    for (lines, mark) in &edge.marks {
        marks[lines.start() - 1..*lines.end()].fill(*mark);
    }
    let known = Known {
        result: u32::from(!edge.marks.is_empty()),
        good: marks.iter().filter(|mark| **mark == 0).count() as u64,
        end: edge.file.len() as u64,
        marks,
        // Not told of.
        rows: Vec::new(),
    };
    found.then(|| known.compare(&read)).named(edge.name)
}

fn refused_with(result: u32, number: u32) -> Result<(), Fault> {
    match result == number {
        true => Ok(()),
        false => Err(wrong(format!("result {result}, {number} written out by hand"), Vec::new())),
    }
}

fn check_peer(bench: &Bench, rng: &mut Rng, peer: &Peer, reached: &mut Vec<String>) -> Found {
    let note = |word| peer.note(word).unwrap_or(-1) as u64;
    let (done, found) = bench.header(rng, &peer.file, HEADER_ANSWER);
    reached.push(outcome_of("header", "accepted", done.result));
    let drs = Resolution::of(peer.note("DRS").unwrap_or(0) as i16);
    let (kind, size) = resolution(drs);
    let blocks = (note("WTF") + 2) / 256;
    let noted = ["SLO", "SCN", "CTV", "CTE"].map(note);
    let [slo, scn, ctv, cte] = noted;
    let fields = [note("DTC"), blocks, note("PPL"), note("NOL"), kind, size, slo, scn, ctv, cte];
    let found = found.then(|| match numbers(&done.answer, 10) == fields {
        true => Ok(()),
        false => Err(wrong("header is not as noted", vec![("answer", done.answer.clone())])),
    });
    let (read, also) = bench.raster(rng, &peer.file, enough_for(&peer.file));
    reached_by(&read, &peer.file, reached);
    let known = Known {
        result: note("answer") as u32,
        good: peer.rows.len() as u64,
        end: note("end"),
        marks: vec![0; peer.rows.len()],
        rows: peer.rows.iter().flatten().map(|&pixel| pixel as u16).collect(),
    };
    let mut found = found.and(also.then(|| known.compare(&read)));
    let colors: Vec<_> = (0..=300).map(|value| (value, peer.colors(value.into()))).collect();
    found = found.and(colors::check_known(bench, rng, &peer.file, &colors, reached));
    if note("DTC") == 9 {
        // Its pixels as noted, in the other type too, and its colors.
        let [back, moved] = trip(bench, rng, &peer.file, reached);
        found = found.and(back.1).and(moved.1);
        let (read, also) = bench.raster(rng, &moved.0, enough_for(&moved.0));
        let known = Known { end: moved.0.len() as u64, ..known };
        found = found.and(also.then(|| known.compare(&read)));
        found = found.and(colors::check_known(bench, rng, &moved.0, &colors, reached));
        found = found.then(|| match back.0 == peer.file {
            true => Ok(()),
            false => Err(wrong("moved and moved back: other bytes", Vec::new())),
        });
    }
    found.named(peer.name)
}

fn resolution(resolution: Resolution) -> (u64, u64) {
    match resolution {
        Resolution::None => (0, 0),
        Resolution::Microns(size) => (1, size),
        Resolution::DotsPerInch(size) => (2, size),
    }
}

/// Demand 3 of the bytes: first what it says of the two calls, then each against the model.
fn check_pair(bench: &Bench, rng: &mut Rng, pair: &Pair, reached: &mut Vec<String>) -> Found {
    let enough = enough_for(&pair.first);
    let lend = Lend { pixels: enough.pixels + rng.below(3), ..enough };
    let (first, found) = bench.raster(rng, &pair.first, lend);
    let lend = some_lend(rng, &pair.second);
    let (second, also) = bench.raster(rng, &pair.second, lend);
    if second.result > 1 {
        reached.push(format!("pair refused {}", second.result));
    } else {
        reached_by(&second, &pair.second, reached);
        reached.extend(pair.effects());
    }
    let told = demand_3::holds(pair, &first, &second, lend);
    found.and(also).after(|| {
        told.map_err(|text| {
            let dumps = vec![
                ("file", pair.first.clone()),
                ("changed", pair.second.clone()),
                ("pixels", first.pixels.lent().to_vec()),
                ("pixels-changed", second.pixels.lent().to_vec()),
                ("marks", first.marks.lent().to_vec()),
                ("marks-changed", second.marks.lent().to_vec()),
            ];
            wrong(format!("demand 3: {text}"), dumps)
        })
    })
}

/// Writes a picture. One that is written is read back, with its header and some colors.
fn check_picture(
    bench: &Bench,
    rng: &mut Rng,
    picture: &Picture,
    answer: usize,
    reached: &mut Vec<String>,
) -> (Done<u8>, Found) {
    let Picture { kind, ppl, nol, slo, scn, drs, ref table, ref pixels, room, .. } = *picture;
    let given = c::Write { kind, ppl, nol, slo, scn, drs, table, pixels };
    let (done, found) = bench.write(rng, &given, room as usize, answer);
    if done.result > 0 {
        reached.push(format!("write refused {}", done.result));
    } else {
        reached.push(format!("written type {kind} scn {scn}"));
        if !table.is_empty() {
            reached.push("written with a table".to_string());
        }
        if drs > 65_535 {
            reached.push("written DRS above 65,535".to_string());
        }
    }
    if done.result > 0 || !found.is_right() {
        return (done, found);
    }
    let file = &done.filled[..long(&done.answer, 0) as usize];
    let (read, also) = bench.raster(rng, file, enough_for(file));
    let known = Known {
        result: 0,
        good: u64::from(nol),
        end: file.len() as u64,
        marks: vec![0; nol as usize],
        rows: pixels[..ppl as usize * nol as usize].to_vec(),
    };
    let found = found.and(also.then(|| known.compare(&read)).named("read back"));
    let (header, also) = bench.header(rng, file, HEADER_ANSWER);
    let (unit, size) = resolution(Resolution::of(drs as u16 as i16));
    let (blocks, ctv) = if table.is_empty() { (2, 0) } else { (3, 1) };
    let [kind, ppl, nol, slo, scn] = [kind, ppl, nol, slo, scn].map(u64::from);
    let fields = [kind, blocks, ppl, nol, unit, size, slo, scn, ctv, 0];
    let found = found.and(also.then(|| match numbers(&header.answer, 10) == fields {
        true => Ok(()),
        false => Err(wrong("read back: other fields", vec![("file", file.to_vec())])),
    }));
    // By the table that was given, or by the type.
    let values = [rng.below(2) as u32, some_value(rng, file)];
    let colors = values.map(|value| (value, picture.colors(value.into())));
    let also = colors::check_known(bench, rng, file, &colors, reached).named("read back");
    let found = found.and(also);
    (done, found)
}

/// What was printed in one line, and the bytes that follow it.
fn printed_parts(printed: &[u8]) -> (Vec<u64>, &[u8], bool) {
    let at = printed.iter().position(|&byte| byte == b'\n').map_or(0, |at| at + 1);
    let head = String::from_utf8_lossy(&printed[..at]);
    let told = head.trim_end().split(' ').filter_map(|word| word.parse().ok()).collect();
    (told, &printed[at..], head.starts_with("refused"))
}

fn check_written_edge(
    bench: &Bench,
    rng: &mut Rng,
    edge: &WrittenEdge,
    reached: &mut Vec<String>,
) -> Found {
    let (done, found) = check_picture(bench, rng, &edge.picture, WRITE_ANSWER, reached);
    let (told, bytes, refused) = printed_parts(&edge.printed);
    let by_hand = || match refused {
        true => refused_with(done.result, told[0] as u32),
        false => {
            let length = told[0] as usize;
            match numbers(&done.answer, 1) == told && done.filled[..length] == bytes[..length] {
                true => Ok(()),
                false => Err(wrong("not the bytes written out by hand", Vec::new())),
            }
        }
    };
    found.then(by_hand).named(edge.name)
}

fn way_of(turning: &Turning) -> &'static str {
    if turning.way == 1 {
        "back"
    } else {
        "upright"
    }
}

fn check_turning(
    bench: &Bench,
    rng: &mut Rng,
    turning: &Turning,
    reached: &mut Vec<String>,
) -> (Done<u16>, Found) {
    let Turning { slo, ppl, nol, ref pixels, room, .. } = *turning;
    let given = c::Turn { back: turning.way == 1, slo, ppl, nol, pixels };
    let (done, found) = bench.turn(rng, &given, room as usize);
    reached.push(outcome_of(way_of(turning), &slo.to_string(), done.result));
    (done, found)
}

fn check_turned_edge(
    bench: &Bench,
    rng: &mut Rng,
    edge: &TurnedEdge,
    reached: &mut Vec<String>,
) -> Found {
    let (done, found) = check_turning(bench, rng, &edge.turning, reached);
    let (told, bytes, refused) = printed_parts(&edge.printed);
    let by_hand = || match refused {
        true => refused_with(done.result, told[0] as u32),
        false => {
            let size = edge.turning.size();
            match words(&done.filled[..size]) == bytes[..2 * size] {
                true => Ok(()),
                false => Err(wrong("not the picture written out by hand", Vec::new())),
            }
        }
    };
    found.then(by_hand).named(&edge.name)
}

/// Turns one way, and what came of it the other way: what went in must come out.
fn check_trip(bench: &Bench, rng: &mut Rng, turning: &Turning, reached: &mut Vec<String>) -> Found {
    let (there, found) = check_turning(bench, rng, turning, reached);
    let other = Turning { way: 1 - turning.way, pixels: there.filled, ..*turning };
    let (back, also) = check_turning(bench, rng, &other, reached);
    reached.push(format!("trip of {} {}", way_of(turning), turning.slo));
    let size = turning.size();
    found.and(also.then(|| match back.filled[..size] == turning.pixels[..size] {
        true => Ok(()),
        false => Err(wrong("round trip: other pixels come back", Vec::new())),
    }))
}

/// What became of a move of more than 65,535 lines with headers.
fn long_move(result: u32) -> String {
    match result {
        0 => "long sheet moved".to_string(),
        number => format!("long move refused {number}"),
    }
}

fn moved(kind: u64, scn: u8) -> String {
    format!("moved from type {kind} scn {scn}")
}

/// Moves a sheet into so many bytes, with so many for the answer. What was moved is the first part of
/// the output.
fn check_move(
    bench: &Bench,
    rng: &mut Rng,
    file: &[u8],
    [room, answer]: [usize; 2],
    reached: &mut Vec<String>,
) -> (Done<u8>, Found) {
    let (mut done, found) = bench.transcode(rng, file, room, answer);
    reached.push(CALLED.to_string());
    reached.push(match done.result {
        0 => moved(word(file, 4), file[195]),
        number => format!("move refused {number}"),
    });
    if file.len() > 195 && long(file, 188) > 65_535 && file[195] == 1 {
        reached.push(long_move(done.result));
    }
    let answered = done.result == 0 && answer >= MOVE_ANSWER;
    done.filled.truncate(if answered { long(&done.answer, 0) as usize } else { 0 });
    (done, found)
}

fn check_moved_edge(
    bench: &Bench,
    rng: &mut Rng,
    edge: &MovedEdge,
    reached: &mut Vec<String>,
) -> Found {
    let (done, found) = check_move(bench, rng, &edge.file, [edge.room, MOVE_ANSWER], reached);
    let by_hand = || match &edge.outcome {
        Err(number) => refused_with(done.result, *number),
        Ok(to) if done.result == 0 && done.filled == *to => Ok(()),
        Ok(_) => Err(wrong("not the sheet written out by hand", Vec::new())),
    };
    found.then(by_hand).named(edge.name)
}

/// More than a sheet that is moved needs: a word for each pixel, and for each line a header and some
/// runs of 0.
fn room_for(file: &[u8]) -> usize {
    let Lend { pixels, marks, .. } = enough_for(file);
    (file.len() + pixels + 16 * marks).min(MOST_ROOM)
}

/// What came back, and what it was moved to before; each is empty where a move is refused.
fn trip(
    bench: &Bench,
    rng: &mut Rng,
    file: &[u8],
    reached: &mut Vec<String>,
) -> [(Vec<u8>, Found); 2] {
    let (there, found) = check_move(bench, rng, file, [room_for(file), MOVE_ANSWER], reached);
    let lent = [room_for(file), MOVE_ANSWER];
    let (back, also) = check_move(bench, rng, &there.filled, lent, reached);
    [(back.filled, also), (there.filled, found)]
}

/// Moves a sheet, and what came of it back. First what holds of the calls by themselves, whatever the
/// model says: a sheet of type 1 or with the writer's bodies comes back as it was, but for what follows
/// its last line; what came back of any other does; and all read alike and show the same colors.
fn check_there_and_back(
    bench: &Bench,
    rng: &mut Rng,
    file: &[u8],
    returns: bool,
    reached: &mut Vec<String>,
) -> Found {
    let [(back, also), (there, found)] = trip(bench, rng, file, reached);
    let mut found = found.and(also);
    if there.is_empty() {
        return match returns {
            true => found.after(|| Err(wrong("there and back: refused", Vec::new()))),
            false => found,
        };
    }
    let lend = enough_for(file);
    let [first, second, third] = [file, &there, &back].map(|file| bench.raster(rng, file, lend).0);
    let end = numbers(first.answer.lent(), 2)[1] as usize;
    let packed = word(file, 4) == 1;
    let mut told = Ok(());
    if (returns || packed) && file.get(..end) != Some(&back[..]) {
        told = Err("other bytes come back");
    } else if !(returns || packed) {
        let [(again, also), (once_more, too)] = trip(bench, rng, &back, reached);
        found = found.and(too).and(also);
        if (&again, &once_more) != (&back, &there) {
            told = Err("what came back comes back otherwise");
        }
    }
    for (read, of) in [(&second, &there), (&third, &back)] {
        let pixels = &first.pixels.lent()[..lend.pixels] == &read.pixels.lent()[..lend.pixels];
        if read.result != 0 || !pixels || numbers(read.answer.lent(), 2)[1] != of.len() as u64 {
            told = told.and(Err("it does not read as it did"));
        }
    }
    let (same, also) = colors::alike(bench, rng, [file, &there, &back], reached);
    found = found.and(also);
    if !same {
        told = told.and(Err("it does not show the colors that it did"));
    }
    reached.push("comes back".to_string());
    if end < file.len() {
        reached.push("bytes after the last line dropped".to_string());
    }
    found.after(|| {
        let dumps = || vec![("file", file.to_vec()), ("moved", there), ("back", back)];
        told.map_err(|text| wrong(format!("there and back: {text}"), dumps()))
    })
}
