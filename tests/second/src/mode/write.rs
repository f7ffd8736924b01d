//! Mode `write`: pictures through the writing program, and what it wrote back through the
//! own reader, the listing program and the header program.

use crate::edges::{self, WrittenEdge};
use crate::gen::picture::Picture;
use crate::gen::pictures::{fixed, random, Input, What, BY_CHANCE, FIXED, REJECTIONS};
use crate::gen::sheet::TYPES;
use crate::gen::some_pause;
use crate::model::header::{self, Resolution};
use crate::model::probe::{self, HEADER_LIMIT, LISTING_LIMIT, LISTING_MARKS, LISTING_PIXELS};
use crate::model::sheet;
use crate::peer::Peer;
use crate::report::{self, fault, Fault, Needed, Outcome, Plan};
use crate::rng::Rng;
use crate::run::Program;
use std::fmt::Write as _;
use std::io;
use std::path::Path;
use std::process::ExitCode;

pub const DEFAULT_COUNT: u64 = 4_000;
const OTHER: &str = "sheet of another program";
const EDGES: &str = "edges by hand";

pub struct Programs {
    pub write: Program,
    pub listing: Program,
    pub header: Program,
}

pub fn run(programs: &Programs, peer: &Path, plan: &Plan) -> Result<ExitCode, String> {
    let peers = Peer::all(peer)?;
    let bilevel = peers.iter().find(|peer| peer.name == "bilevel.rle").ok_or("no bilevel.rle")?;
    let edges = edges::written_edges();
    let fixed = fixed(plan.seed);
    let total = plan.count.max(1 + edges.len() + fixed.len());
    Ok(report::drive("write", plan, total, &needed(plan), |i| {
        let mut rng = Rng::new(plan.seed, i as u64);
        if i == 0 {
            return check_bilevel(programs, bilevel);
        }
        if let Some(edge) = edges.get(i - 1) {
            return check_edge(programs, edge);
        }
        match fixed.get(i - 1 - edges.len()) {
            Some(input) => check(programs, &mut rng, input),
            None => {
                let input = random(&mut rng);
                check(programs, &mut rng, &input)
            }
        }
    }))
}

fn needed(plan: &Plan) -> Needed {
    let mut reached: Vec<String> =
        REJECTIONS.iter().chain(&[27]).map(|n| format!("refused {n}")).collect();
    for kind in TYPES {
        reached.extend((0..=1).map(|scn| format!("written type {kind} scn {scn}")));
    }
    reached.extend(
        ["table", "too long", "short", "listed back", "header read back"].map(String::from),
    );
    let mut families = vec![OTHER, EDGES];
    families.extend(FIXED);
    if plan.count >= DEFAULT_COUNT as usize {
        families.extend(BY_CHANCE);
    }
    Needed { reached, families, ..Needed::default() }
}

fn check(programs: &Programs, rng: &mut Rng, input: &Input) -> io::Result<Outcome> {
    let bytes = match &input.what {
        What::Picture(picture) => picture.input(),
        What::Bytes(bytes) => bytes.clone(),
    };
    let wanted = probe::write(&bytes);
    let pause = some_pause(rng, bytes.len());
    let found = report::compare(&programs.write, &bytes, pause, &wanted)?;
    let mut outcome = Outcome { family: input.family, reached: Vec::new(), found };
    match &input.what {
        What::Picture(picture) => follow(programs, picture, outcome),
        What::Bytes(_) => {
            outcome.reached.push(first_line(&wanted));
            Ok(outcome)
        }
    }
}

/// `too long`, `short`, or what came of the picture.
fn first_line(wanted: &[u8]) -> String {
    let line = wanted.split(|&byte| byte == b'\n').next().unwrap_or_default();
    if line.starts_with(b"written") {
        "written".into()
    } else {
        String::from_utf8_lossy(line).into()
    }
}

/// After a right write: reads the file back in every way there is.
fn follow(programs: &Programs, picture: &Picture, mut outcome: Outcome) -> io::Result<Outcome> {
    let file = match picture.written() {
        Err(number) => {
            outcome.reached.push(format!("refused {number}"));
            return Ok(outcome);
        }
        Ok(file) => file,
    };
    outcome.reached.push(format!("written type {} scn {}", picture.kind, picture.scn));
    if !picture.table.is_empty() {
        outcome.reached.push("table".to_string());
    }
    outcome.found = outcome.found.then(|| read_back(picture, &file));
    let (ppl, nol) = (u64::from(picture.ppl), u64::from(picture.nol));
    let lent = ppl * nol <= LISTING_PIXELS && nol <= LISTING_MARKS;
    if outcome.found.is_right() && lent && file.len() <= LISTING_LIMIT {
        outcome.reached.push("listed back".to_string());
        let listing = listing_of(picture, file.len());
        outcome.found = report::compare(&programs.listing, &file, None, &listing)?;
    }
    if outcome.found.is_right() && file.len() <= HEADER_LIMIT {
        outcome.reached.push("header read back".to_string());
        let fields = header_of(picture);
        outcome.found = report::compare(&programs.header, &file, None, &fields)?;
    }
    Ok(outcome)
}

/// The rows of a picture, without what was lent beyond them.
fn rows(picture: &Picture) -> std::slice::Chunks<'_, u16> {
    let (ppl, nol) = (picture.ppl as usize, picture.nol as usize);
    picture.pixels[..ppl * nol].chunks(ppl)
}

/// The file through the own reader: every pixel, and the fields that were given.
fn read_back(picture: &Picture, file: &[u8]) -> Result<(), Fault> {
    let wrong = |text: &str| {
        let dumps = vec![("input", picture.input()), ("written", file.to_vec())];
        fault(format!("own reader: {text}"), dumps)
    };
    let (ppl, nol) = (u64::from(picture.ppl), u64::from(picture.nol));
    let found = match sheet::read(file, ppl * nol, nol) {
        Err(number) => return Err(wrong(&format!("refused {number}"))),
        Ok(found) => found,
    };
    if found.answer() != 0 || found.end != file.len() {
        return Err(wrong(&format!("answer {} end {}", found.answer(), found.end)));
    }
    for (k, (line, row)) in found.lines.iter().zip(rows(picture)).enumerate() {
        if !line.row.iter().copied().eq(row.iter().map(|&pixel| u64::from(pixel))) {
            return Err(wrong(&format!("line {} has other pixels", k + 1)));
        }
    }
    if probe::header(file) != header_of(picture) && file.len() <= HEADER_LIMIT {
        return Err(wrong("other fields or colors"));
    }
    match header::read(file).map(|h| (h.kind, h.ppl, h.nol, h.slo, h.scn)) {
        Ok(fields) if fields == given(picture) => Ok(()),
        _ => Err(wrong("other fields")),
    }
}

fn given(picture: &Picture) -> (u64, u64, u64, u64, u64) {
    let [kind, ppl, nol, slo, scn] =
        [picture.kind, picture.ppl, picture.nol, picture.slo, picture.scn].map(u64::from);
    (kind, ppl, nol, slo, scn)
}

/// The listing of a written file, made from the picture alone.
fn listing_of(picture: &Picture, length: usize) -> Vec<u8> {
    let nol = picture.nol;
    let mut text = format!(
        "type {} pixels {} lines {nol} answer 0 good {nol} end {length}\n",
        picture.kind, picture.ppl
    );
    for (k, row) in rows(picture).enumerate() {
        let row: Vec<String> = row.iter().map(u16::to_string).collect();
        let _ = writeln!(text, "{} 0: {}", k + 1, row.join(" "));
    }
    text.into_bytes()
}

/// What the header program prints of a written file, made from the picture alone.
fn header_of(picture: &Picture) -> Vec<u8> {
    let (blocks, ctv) = if picture.table.is_empty() { (2, 0) } else { (3, 1) };
    let (kind, size) = match Resolution::of(picture.drs as u16 as i16) {
        Resolution::None => (0, 0),
        Resolution::Microns(size) => (1, size),
        Resolution::DotsPerInch(size) => (2, size),
    };
    let mut text = format!(
        "type {} blocks {blocks} pixels {} lines {} resolution {kind} {size} slo {} scn {} ctv {ctv} cte 0\n",
        picture.kind, picture.ppl, picture.nol, picture.slo, picture.scn
    );
    for value in probe::values() {
        let _ = writeln!(text, "{}", probe::color_line(value, picture.colors(value)[0]));
    }
    text.into_bytes()
}

fn check_edge(programs: &Programs, edge: &WrittenEdge) -> io::Result<Outcome> {
    let input = edge.picture.input();
    let found = report::compare(&programs.write, &input, None, &edge.printed)?.then(|| {
        if probe::write(&input) == edge.printed {
            return Ok(());
        }
        let dumps = vec![("input", input.clone()), ("wanted", edge.printed.clone())];
        Err(fault("own writer says otherwise".to_string(), dumps))
    });
    let outcome = Outcome { family: EDGES, reached: Vec::new(), found: found.named(edge.name) };
    follow(programs, &edge.picture, outcome)
}

/// The other program's sheet without line headers has the bodies that the writer makes of
/// its pixels; only the header's length differs.
fn check_bilevel(programs: &Programs, peer: &Peer) -> io::Result<Outcome> {
    let pixels: Vec<u16> = peer.rows.iter().flatten().map(|&pixel| pixel as u16).collect();
    let (ppl, nol) = (peer.rows[0].len(), peer.rows.len());
    let picture = Picture { drs: 1, slo: 4, ..Picture::plain(9, ppl, nol, 0, pixels) };
    let input = picture.input();
    let bodies = &peer.file[1536..];
    let mut wanted = probe::write(&input);
    let start = wanted.iter().position(|&byte| byte == b'\n').map_or(0, |at| at + 1) + 1024;
    let own = wanted.get(start..start + bodies.len()) == Some(bodies);
    if let Some(place) = wanted.get_mut(start..start + bodies.len()) {
        // What the program prints is compared with the other program's bytes.
        place.copy_from_slice(bodies);
    }
    let found = report::compare(&programs.write, &input, None, &wanted)?.then(|| match own {
        true => Ok(()),
        false => {
            let text = "own writer makes other bodies".to_string();
            Err(fault(text, vec![("input", input.clone())]))
        }
    });
    follow(programs, &picture, Outcome { family: OTHER, reached: Vec::new(), found })
}
