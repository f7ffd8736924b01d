//! Mode `pairs`: demand 3, run. A sheet with line headers is changed inside bodies that its
//! chain reaches, and both sheets are listed.

use super::sheets::reached;
use crate::gen::pairs::{some_pair, Pair, EFFECTS, FAMILIES};
use crate::gen::some_pause;
use crate::model::probe;
use crate::report::{self, fault, Fault, Needed, Outcome, Plan};
use crate::rng::Rng;
use crate::run::Program;
use std::io;
use std::process::ExitCode;

pub const DEFAULT_COUNT: u64 = 500;

pub fn run(program: &Program, plan: &Plan) -> ExitCode {
    report::drive("pairs", plan, plan.count, &needed(), |i| {
        let mut rng = Rng::new(plan.seed, i as u64);
        let pair = some_pair(&mut rng);
        check(program, &mut rng, &pair)
    })
}

/// All pairs are by chance: too few of them do not reach all of this.
fn needed() -> Needed {
    let mut reached: Vec<String> =
        (0..=10).map(|mark| format!("mark {mark} with headers")).collect();
    reached.extend(EFFECTS.map(String::from));
    Needed { reached, families: FAMILIES.to_vec(), ..Needed::default() }
}

fn check(program: &Program, rng: &mut Rng, pair: &Pair) -> io::Result<Outcome> {
    let mut list = |file: &[u8]| {
        let pause = some_pause(rng, file.len());
        let run = program.run(file, pause)?;
        let found = report::judge(program, file, &probe::listing(file), &run);
        io::Result::Ok((run.output, found))
    };
    let (first, found) = list(&pair.first)?;
    let (second, also) = list(&pair.second)?;
    // First what holds of the two listings by themselves, whatever the model says.
    let found = found.and(also).after(|| compare(&[first, second], pair));
    let mut reached = reached(&pair.second);
    reached.extend(pair.effects());
    Ok(Outcome { family: pair.family, reached, found })
}

/// What demand 3 says of two listings: not refused, same end, and the same mark and row for
/// every line whose body is as it was.
fn compare(listings: &[Vec<u8>], pair: &Pair) -> Result<(), Fault> {
    let wrong = |text: String| {
        fault(
            text,
            vec![
                ("input", pair.first.clone()),
                ("changed", pair.second.clone()),
                ("printed", listings[0].clone()),
                ("printed-changed", listings[1].clone()),
            ],
        )
    };
    let texts: Vec<_> = listings.iter().map(|bytes| String::from_utf8_lossy(bytes)).collect();
    let [first, second]: [Vec<&str>; 2] = [0, 1].map(|i| texts[i].lines().collect());
    for lines in [&first, &second] {
        if lines.first().is_none_or(|head| !head.starts_with("type ")) {
            return Err(wrong("a sheet of the pair is refused".to_string()));
        }
        if lines.len() != pair.same.len() + 1 {
            return Err(wrong("a sheet of the pair has not NOL rows".to_string()));
        }
    }
    let end = |head: &str| head.split_once(" end ").map(|(_, end)| end.to_string());
    if end(first[0]) != end(second[0]) {
        return Err(wrong(format!("ends differ: \"{}\" and \"{}\"", first[0], second[0])));
    }
    for (k, same) in pair.same.iter().enumerate() {
        if *same && first[k + 1] != second[k + 1] {
            return Err(wrong(format!("line {} differs, but its body does not", k + 1)));
        }
    }
    Ok(())
}
