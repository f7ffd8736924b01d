//! A second program for Intergraph raster files, written from the papers alone. It makes
//! inputs from a seed, runs the programs under test over them and compares what they print. It
//! calls the C functions under test, too, and compares what they leave in memory.

mod args;
mod calls;
mod color_edges;
mod edges;
mod fake;
mod gen;
mod miscolor;
mod miscut;
mod mismove;
mod misnumber;
mod mispack;
mod misread;
mod mode;
mod model;
mod peer;
mod report;
mod rng;
mod run;
mod tool;

pub use calls::Calls;

use args::Args;
use calls::stand_in;
use gen::calls::Extent;
use std::panic::catch_unwind;
use std::path::Path;
use std::process::ExitCode;

const USAGE: &str = "usage:
  second header --probe PROGRAM [--peer DIR] [FLAGS]
  second sheets --probe PROGRAM [--peer DIR] [FLAGS]
  second pairs --probe PROGRAM [FLAGS]
  second write --probe PROGRAM --listing PROGRAM --header PROGRAM [--peer DIR] [FLAGS]
  second turn --probe PROGRAM [FLAGS]
  second tool --ingr PROGRAM [--peer DIR] [--samples DIR] [FLAGS] [--small]
  second tool-selftest --ingr PROGRAM
  second calls --stand-in NAME [--peer DIR] [FLAGS]
  second selftest
FLAGS: [--count N] [--seed S] [--patience MILLISECONDS] [--first N] [--until-fault]";

const MODES: [&str; 9] =
    ["header", "sheets", "pairs", "write", "turn", "tool", "tool-selftest", "calls", "selftest"];
const FLAGS: [&str; 6] = ["probe", "count", "seed", "patience", "first", "until-fault"];
/// Those of the modes that call functions.
const CALL_FLAGS: [&str; 8] =
    ["peer", "count", "seed", "patience", "first", "until-fault", "small", "family"];

/// Those of the mode that runs the command.
const TOOL_FLAGS: [&str; 9] =
    ["ingr", "peer", "samples", "count", "seed", "patience", "first", "until-fault", "small"];

/// The program `second`, called with these words.
pub fn second(words: &[String]) -> ExitCode {
    // Called by the name of a stand-in, it plays that.
    let called = words.first().and_then(|path| Path::new(path).file_name()?.to_str());
    let wrapped = called.and_then(|name| tool::fake::play(name.strip_prefix("fake-")?));
    if let Some(code) = wrapped {
        return code;
    }
    let played = |name: &str| name.strip_prefix("fake-").is_some_and(fake::play);
    if called.is_some_and(played) || words.get(1).is_some_and(|name| played(name)) {
        return ExitCode::SUCCESS;
    }
    let Some(mode) = words.get(1).filter(|mode| MODES.contains(&mode.as_str())) else {
        eprintln!("{USAGE}");
        return ExitCode::FAILURE;
    };
    told(mode, catch_unwind(|| start(mode, &words[2..])))
}

/// The program `c_calls`, called with these words: tries the functions that it is given.
pub fn c_calls(calls: &Calls, words: &[String]) -> ExitCode {
    let start = || try_calls(calls, &Args::parse(&words[1..], &CALL_FLAGS)?, Extent::Whole);
    told(mode::calls::NAME, catch_unwind(start))
}

fn try_calls(calls: &Calls, args: &Args, extent: Extent) -> Result<ExitCode, String> {
    let (extent, count) = match args.is_set("small") {
        true => (Extent::Small, mode::calls::SMALL_COUNT),
        false => (extent, mode::calls::DEFAULT_COUNT),
    };
    let family = args.get("family").map(|name| {
        let all = [&gen::calls::BY_CHANCE[..], &gen::long_calls::ALL].concat();
        let known = all.iter().find(|family| **family == name).copied();
        known.ok_or(format!("--family: no {name:?}, but {}", all.join(", ")))
    });
    let scope = mode::calls::Scope { extent, family: family.transpose()? };
    let mut plan = args.plan(count)?;
    if !args.is_set("patience") {
        // One case reads more than 2 GB several times.
        plan.patience *= 6;
    }
    mode::calls::run(calls, &args.peer(), &scope, &plan)
}

fn try_tool(args: &Args) -> Result<ExitCode, String> {
    let small = args.is_set("small");
    let count = if small { tool::SMALL_COUNT } else { tool::DEFAULT_COUNT };
    let plan = args.plan(count)?;
    tool::run(args.program("ingr")?, &args.peer(), &args.samples(), &plan, small)
}

/// How a mode ended, which also tells that it could not begin.
fn told(mode: &str, ended: std::thread::Result<Result<ExitCode, String>>) -> ExitCode {
    ended.unwrap_or(Err("panics".to_string())).unwrap_or_else(|text| {
        // Whoever looks at the last line only must see a failure too.
        println!("{mode}: {text}\n{mode}: 0 passed, 1 failed");
        ExitCode::FAILURE
    })
}

fn start(mode: &str, words: &[String]) -> Result<ExitCode, String> {
    let more: &[&str] = match mode {
        "write" => &["listing", "header", "peer"],
        "header" | "sheets" => &["peer"],
        _ => &[],
    };
    if mode == "selftest" {
        Args::parse(words, &[])?;
        return mode::selftest::run().map_err(|error| error.to_string());
    }
    if mode == "tool" {
        return try_tool(&Args::parse(words, &TOOL_FLAGS)?);
    }
    if mode == "tool-selftest" {
        let program = Args::parse(words, &["ingr"])?.program("ingr")?;
        return tool::selftest::run(&program).map_err(|error| error.to_string());
    }
    if mode == "calls" {
        let args = Args::parse(words, &[&CALL_FLAGS[..], &["stand-in"]].concat())?;
        let name = args.get("stand-in").unwrap_or_default();
        let calls = stand_in::table(name).ok_or(format!("--stand-in: no {name:?}"))?;
        return try_calls(&calls, &args, Extent::Middle);
    }
    let args = Args::parse(words, &[&FLAGS, more].concat())?;
    let probe = args.program("probe")?;
    match mode {
        "header" => {
            mode::header::run(&probe, &args.peer(), &args.plan(mode::header::DEFAULT_COUNT)?)
        }
        "sheets" => {
            mode::sheets::run(&probe, &args.peer(), &args.plan(mode::sheets::DEFAULT_COUNT)?)
        }
        "pairs" => Ok(mode::pairs::run(&probe, &args.plan(mode::pairs::DEFAULT_COUNT)?)),
        "turn" => Ok(mode::turn::run(&probe, &args.plan(mode::turn::DEFAULT_COUNT)?)),
        _ => {
            let programs = mode::write::Programs {
                write: probe,
                listing: args.program("listing")?,
                header: args.program("header")?,
            };
            mode::write::run(&programs, &args.peer(), &args.plan(mode::write::DEFAULT_COUNT)?)
        }
    }
}
