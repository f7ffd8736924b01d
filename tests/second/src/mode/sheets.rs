//! Mode `sheets`: whole sheets through the listing program.

use super::starts;
use crate::edges::{self, Edge};
use crate::gen::sheets::{fixed, random, Input, BY_CHANCE, FIXED};
use crate::gen::some_pause;
use crate::model::probe::{self, LISTING_LIMIT, LISTING_MARKS, LISTING_PIXELS};
use crate::model::sheet as model;
use crate::model::word;
use crate::peer::Peer;
use crate::report::{self, fault, Found, Needed, Outcome, Plan};
use crate::rng::Rng;
use crate::run::Program;
use std::collections::BTreeSet;
use std::io;
use std::path::Path;
use std::process::ExitCode;

pub const DEFAULT_COUNT: u64 = 8_000;
const OTHER: &str = "sheets of another program";
const EDGES: &str = "edges by hand";

pub fn run(program: &Program, peer: &Path, plan: &Plan) -> Result<ExitCode, String> {
    let peers = Peer::all(peer)?;
    let edges = edges::edges();
    let fixed = fixed(plan.seed);
    let known = peers.len() + edges.len();
    let total = plan.count.max(known + fixed.len());
    Ok(report::drive("sheets", plan, total, &needed(plan), |i| {
        let mut rng = Rng::new(plan.seed, i as u64);
        if let Some(peer) = peers.get(i) {
            return check_peer(program, peer);
        }
        if let Some(edge) = edges.get(i - peers.len()) {
            return check_edge(program, edge);
        }
        match fixed.get(i - known) {
            Some(input) => check(program, &mut rng, input),
            None => {
                let input = random(&mut rng);
                check(program, &mut rng, &input)
            }
        }
    }))
}

fn needed(plan: &Plan) -> Needed {
    let mut reached: Vec<String> = (11..=24).map(|number| format!("refused {number}")).collect();
    reached.extend((0..=10).map(|mark| format!("mark {mark} with headers")));
    reached.extend([0, 1, 7, 9, 10].map(|mark| format!("mark {mark} without")));
    reached.extend(starts::all());
    reached.extend(["answer 0", "answer 1", "too long"].map(String::from));
    let mut families = vec![OTHER, EDGES];
    families.extend(FIXED);
    if plan.count >= DEFAULT_COUNT as usize {
        families.extend(BY_CHANCE);
    }
    Needed { reached, families, ..Needed::default() }
}

/// What the model makes of a sheet: a rejection, or answer, marks, and where lines start.
pub fn reached(file: &[u8]) -> Vec<String> {
    if file.len() > LISTING_LIMIT {
        return vec!["too long".to_string()];
    }
    match model::read(file, LISTING_PIXELS, LISTING_MARKS) {
        Err(number) => vec![format!("refused {number}")],
        Ok(found) => {
            let kind = if found.header.scn == 1 { "with headers" } else { "without" };
            let marks: BTreeSet<u8> = found.lines.iter().map(|line| line.mark).collect();
            let mut all = vec![format!("answer {}", found.answer())];
            all.extend(marks.iter().map(|mark| format!("mark {mark} {kind}")));
            // The offset stands before the body.
            let start = |line: &model::Line| {
                line.body.as_ref().map(|body| (word(file, body.start - 2), line.mark))
            };
            let starts = found.lines.iter().filter_map(start);
            all.extend(starts::reached(found.header.kind, found.header.ppl, starts));
            all
        }
    }
}

fn check(program: &Program, rng: &mut Rng, input: &Input) -> io::Result<Outcome> {
    let wanted = probe::listing(&input.file);
    let pause = some_pause(rng, input.file.len());
    let found = report::compare(program, &input.file, pause, &wanted)?;
    Ok(Outcome { family: input.family, reached: reached(&input.file), found })
}

/// An outcome that was not made by the model, against the program and against the model.
fn check_known(program: &Program, name: &str, file: &[u8], printed: &[u8]) -> io::Result<Found> {
    let found = report::compare(program, file, None, printed)?.then(|| {
        if probe::listing(file) == printed {
            return Ok(());
        }
        let dumps = vec![("input", file.to_vec()), ("wanted", printed.to_vec())];
        Err(fault("own reader says otherwise".to_string(), dumps))
    });
    Ok(found.named(name))
}

fn check_edge(program: &Program, edge: &Edge) -> io::Result<Outcome> {
    let found = check_known(program, edge.name, &edge.file, edge.printed.as_bytes())?;
    Ok(Outcome { family: EDGES, reached: reached(&edge.file), found })
}

/// The listing is made here from the note's pixels, not from the file.
fn check_peer(program: &Program, peer: &Peer) -> io::Result<Outcome> {
    let note = |word| peer.note(word).unwrap_or(-1);
    let mut text = format!(
        "type {} pixels {} lines {} answer {} good {} end {}\n",
        note("DTC"),
        note("PPL"),
        note("NOL"),
        note("answer"),
        peer.rows.len(),
        note("end")
    );
    for (i, row) in peer.rows.iter().enumerate() {
        let row: Vec<String> = row.iter().map(u64::to_string).collect();
        text.push_str(&format!("{} 0: {}\n", i + 1, row.join(" ")));
    }
    let found = check_known(program, peer.name, &peer.file, text.as_bytes())?;
    Ok(Outcome { family: OTHER, reached: reached(&peer.file), found })
}
