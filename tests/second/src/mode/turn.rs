//! Mode `turn`: sheets through the turning program, upright and back.

use crate::edges::{self, TurnedEdge};
use crate::gen::some_pause;
use crate::gen::turning::{Turning, FAULTS};
use crate::gen::turnings::{fixed, random, Input, What, BY_CHANCE, FIXED};
use crate::model::probe;
use crate::model::Rejection;
use crate::report::{self, fault, Fault, Needed, Outcome, Plan};
use crate::rng::Rng;
use crate::run::Program;
use std::io;
use std::process::ExitCode;

pub const DEFAULT_COUNT: u64 = 2_400;
const EDGES: &str = "edges by hand";

pub fn run(program: &Program, plan: &Plan) -> ExitCode {
    let edges = edges::turned_edges();
    let fixed = fixed(plan.seed);
    let total = plan.count.max(edges.len() + fixed.len());
    report::drive("turn", plan, total, &needed(plan), |i| {
        let mut rng = Rng::new(plan.seed, i as u64);
        if let Some(edge) = edges.get(i) {
            return check_edge(program, edge);
        }
        match fixed.get(i - edges.len()) {
            Some(input) => check(program, &mut rng, input),
            None => {
                let input = random(&mut rng);
                check(program, &mut rng, &input)
            }
        }
    })
}

fn needed(plan: &Plan) -> Needed {
    let mut reached: Vec<String> = ["short", "too long"].map(String::from).to_vec();
    for way in [0, 1] {
        reached.extend((0..8).map(|slo| code(way, slo)));
        reached.extend((0..8).map(|slo| format!("trip of {}", code(way, slo))));
        reached.extend(FAULTS.map(|set| faults(way, set)));
    }
    let mut families = vec![EDGES];
    families.extend(FIXED);
    if plan.count >= DEFAULT_COUNT as usize {
        families.extend(BY_CHANCE);
    }
    Needed { reached, families, ..Needed::default() }
}

fn way_of(way: u32) -> &'static str {
    if way == 0 {
        "upright"
    } else {
        "back"
    }
}

fn code(way: u32, slo: u32) -> String {
    format!("{} {slo}", way_of(way))
}

/// A set of faults, of which the first is the number that is told.
fn faults(way: u32, set: &[Rejection]) -> String {
    let numbers: Vec<String> = set.iter().map(u32::to_string).collect();
    format!("{} refused {}", way_of(way), numbers.join("+"))
}

fn reached(turning: &Turning) -> String {
    match turning.faults() {
        set if set.is_empty() => code(turning.way, turning.slo),
        set => faults(turning.way, &set),
    }
}

fn check(program: &Program, rng: &mut Rng, input: &Input) -> io::Result<Outcome> {
    let family = input.family;
    let (bytes, reached) = match &input.what {
        What::Trip(turning) => return check_trip(program, rng, family, turning),
        What::Turning(turning) => (turning.input(), reached(turning)),
        What::Bytes(bytes) => (bytes.clone(), first_word(&probe::turn(bytes))),
    };
    let pause = some_pause(rng, bytes.len());
    let found = report::compare(program, &bytes, pause, &probe::turn(&bytes))?;
    Ok(Outcome { family, reached: vec![reached], found })
}

/// `short`, `too long`, `turned` or `refused`.
fn first_word(wanted: &[u8]) -> String {
    let line = wanted.split(|&byte| byte == b'\n').next().unwrap_or_default();
    let text = String::from_utf8_lossy(line);
    let words = text.split(' ').take_while(|word| word.parse::<u32>().is_err());
    words.collect::<Vec<_>>().join(" ")
}

/// Turns one way, and what the program printed the other way: what went in must come out.
fn check_trip(
    program: &Program,
    rng: &mut Rng,
    family: &'static str,
    turning: &Turning,
) -> io::Result<Outcome> {
    let there = turning.input();
    let run = program.run(&there, some_pause(rng, there.len()))?;
    let mut found = report::judge(program, &there, &probe::turn(&there), &run);
    if found.is_right() {
        let head = run.output.iter().position(|&byte| byte == b'\n').map_or(0, |at| at + 1);
        let (head, pixels) = run.output.split_at(head);
        let pixels = probe::pixels_of(pixels);
        let other = Turning { way: 1 - turning.way, pixels, fill: turning.fill ^ 1, ..*turning };
        // Made from what went in. Width and height are told of the upright picture both ways.
        let mut wanted = head.to_vec();
        let mut filled = turning.pixels[..turning.size()].to_vec();
        filled.resize(other.room as usize, other.fill as u16);
        wanted.extend(filled.iter().flat_map(|pixel| pixel.to_le_bytes()));
        let back = other.input();
        let pause = some_pause(rng, back.len());
        let returned = report::compare(program, &back, pause, &wanted)?;
        found = returned.then(|| agrees(&back, &wanted)).named("round trip");
    }
    let reached = vec![format!("trip of {}", code(turning.way, turning.slo))];
    Ok(Outcome { family, reached, found })
}

/// The model against what was not made by it, so that neither is trusted alone.
fn agrees(input: &[u8], printed: &[u8]) -> Result<(), Fault> {
    if probe::turn(input) == printed {
        return Ok(());
    }
    let dumps = vec![("input", input.to_vec()), ("wanted", printed.to_vec())];
    Err(fault("own turning says otherwise".to_string(), dumps))
}

fn check_edge(program: &Program, edge: &TurnedEdge) -> io::Result<Outcome> {
    let input = edge.turning.input();
    let found = report::compare(program, &input, None, &edge.printed)?
        .then(|| agrees(&input, &edge.printed));
    let reached = vec![reached(&edge.turning)];
    Ok(Outcome { family: EDGES, reached, found: found.named(&edge.name) })
}
