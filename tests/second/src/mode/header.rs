//! Mode `header`: headers and colors through the header program.

use crate::color_edges::{color_edges, ColorEdge};
use crate::gen::headers::{fixed, random, Input, BY_CHANCE, FIXED, REJECTIONS};
use crate::gen::some_pause;
use crate::model::header::{self, Resolution};
use crate::model::probe;
use crate::peer::Peer;
use crate::report::{self, fault, Fault, Needed, Outcome, Plan};
use crate::rng::Rng;
use crate::run::Program;
use std::io;
use std::path::Path;
use std::process::ExitCode;

pub const DEFAULT_COUNT: u64 = 6_000;
const OTHER: &str = "sheets of another program";
const COLORS: &str = "colors by hand";

pub fn run(program: &Program, peer: &Path, plan: &Plan) -> Result<ExitCode, String> {
    let peers = Peer::all(peer)?;
    let edges = color_edges();
    let fixed = fixed(plan.seed);
    let total = plan.count.max(peers.len() + edges.len() + fixed.len());
    Ok(report::drive("header", plan, total, &needed(plan), |i| {
        let mut rng = Rng::new(plan.seed, i as u64);
        if let Some(peer) = peers.get(i) {
            return check_peer(program, peer);
        }
        if let Some(edge) = edges.get(i - peers.len()) {
            return check_colors(program, edge);
        }
        match fixed.get(i - peers.len() - edges.len()) {
            Some(input) => check(program, &mut rng, input),
            None => {
                let input = random(&mut rng);
                check(program, &mut rng, &input)
            }
        }
    }))
}

fn needed(plan: &Plan) -> Needed {
    let mut reached: Vec<String> = REJECTIONS.map(|n| format!("refused {n}")).collect();
    reached.extend(["accepted", "too long"].map(String::from));
    let mut families = vec![OTHER, COLORS];
    families.extend(FIXED);
    if plan.count >= DEFAULT_COUNT as usize {
        families.extend(BY_CHANCE);
    }
    Needed { reached, families, ..Needed::default() }
}

fn check(program: &Program, rng: &mut Rng, input: &Input) -> io::Result<Outcome> {
    let wanted = probe::header(&input.bytes);
    let pause = some_pause(rng, input.bytes.len());
    let mut found = report::compare(program, &input.bytes, pause, &wanted)?;
    if let Some(first) = &input.first {
        found = found.then(|| check_first(&wanted, first, &input.bytes));
    }
    Ok(Outcome { family: input.family, reached: vec![reached(&wanted)], found })
}

/// The hand-written line against the model, so that neither is trusted alone.
fn check_first(wanted: &[u8], first: &str, input: &[u8]) -> Result<(), Fault> {
    let found = String::from_utf8_lossy(wanted);
    match found.lines().next() == Some(first) {
        true => Ok(()),
        false => Err(fault(
            format!("own reader does not say \"{first}\""),
            vec![("input", input.to_vec()), ("wanted", wanted.to_vec())],
        )),
    }
}

/// Colors written out by hand against the model.
fn check_colors(program: &Program, edge: &ColorEdge) -> io::Result<Outcome> {
    let wanted = probe::header(&edge.file);
    let found = report::compare(program, &edge.file, None, &wanted)?.then(|| {
        let text = String::from_utf8_lossy(&wanted);
        let values: Vec<u64> = probe::values().collect();
        let printed = edge.known.iter().filter(|(value, _)| values.contains(&u64::from(*value)));
        for (value, [color, _]) in printed {
            let line = probe::color_line(u64::from(*value), *color);
            if !text.lines().any(|told| told == line) {
                let dumps = vec![("input", edge.file.clone()), ("wanted", wanted.clone())];
                return Err(fault(format!("own reader does not say \"{line}\""), dumps));
            }
        }
        Ok(())
    });
    Ok(Outcome { family: COLORS, reached: vec![reached(&wanted)], found: found.named(&edge.name) })
}

fn reached(wanted: &[u8]) -> String {
    let text = String::from_utf8_lossy(wanted);
    let first = text.lines().next().unwrap_or_default();
    if first.starts_with("type") { "accepted" } else { first }.to_string()
}

fn check_peer(program: &Program, peer: &Peer) -> io::Result<Outcome> {
    let wanted = probe::header(&peer.file);
    let found = report::compare(program, &peer.file, None, &wanted)?.then(|| {
        agrees(peer).map_err(|text| {
            fault(format!("{}: {text}", peer.name), vec![("input", peer.file.clone())])
        })
    });
    Ok(Outcome { family: OTHER, reached: vec![reached(&wanted)], found })
}

/// The own reader against the note that came with the sheet.
fn agrees(peer: &Peer) -> Result<(), String> {
    let h =
        header::read(&peer.file).map_err(|number| format!("own reader refuses with {number}"))?;
    let drs = match h.resolution {
        Resolution::None => 0,
        Resolution::Microns(size) => size as i64,
        Resolution::DotsPerInch(size) => -(size as i64),
    };
    let fields = [
        ("WTF", 256 * h.blocks as i64 - 2),
        ("DTC", h.kind as i64),
        ("PPL", h.ppl as i64),
        ("NOL", h.nol as i64),
        ("DRS", drs),
        ("SLO", h.slo as i64),
        ("SCN", h.scn as i64),
        ("CTV", h.ctv as i64),
        ("CTE", h.cte as i64),
        ("len", peer.file.len() as i64),
    ];
    for (name, found) in fields {
        let noted = peer.note(name);
        if noted != Some(found) {
            return Err(format!("{name} read as {found}, noted as {noted:?}"));
        }
    }
    for value in probe::values() {
        let [noted, _] = peer.colors(value);
        let found = header::color(&peer.file, &h, value);
        if found != noted {
            return Err(format!("color {value} read as {found:?}, not {noted:?}"));
        }
    }
    Ok(())
}
