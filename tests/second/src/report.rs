//! Runs the cases of a mode and tells what came of them.

use crate::run::{Program, Run};
use std::collections::BTreeMap;
use std::fmt::{Arguments, Write as _};
use std::fs;
use std::io;
use std::ops::Range;
use std::panic::{catch_unwind, AssertUnwindSafe};
use std::path::{Path, PathBuf};
use std::process::ExitCode;
use std::sync::atomic::{AtomicUsize, Ordering};
use std::sync::{Arc, Mutex};
use std::thread;
use std::time::Duration;

const WORKERS: usize = 2;
/// Mismatches that are described in full.
const SHOWN: usize = 5;
/// So many programs that run on end the mode early.
const HUNG: usize = 2;

/// Which cases a mode runs.
pub struct Plan {
    /// Cases by chance are added up to this number.
    pub count: usize,
    pub seed: u64,
    /// No more cases than so many, whatever they leave unreached.
    pub first: usize,
    /// Ends the mode at the first fault.
    pub until_fault: bool,
    /// A case of `walk` that takes longer ends all.
    pub patience: Duration,
}

/// What the cases of a mode must have reached: a generator that no longer gets there would
/// pass for nothing.
#[derive(Default)]
pub struct Needed {
    pub reached: Vec<String>,
    pub families: Vec<&'static str>,
    /// What must have been reached so many times.
    pub often: Vec<(&'static str, usize)>,
}

/// What one case came to.
pub struct Outcome {
    /// The family of cases it belongs to, for the counts.
    pub family: &'static str,
    /// What the case reached, such as a rejection or a mark, for the counts.
    pub reached: Vec<String>,
    pub found: Found,
}

/// What a comparison found. Nothing but a comparison makes one, so no case passes without.
pub struct Found(Option<Fault>);

pub struct Fault {
    pub text: String,
    /// Named bytes for the dump: input, wanted and printed.
    pub dumps: Vec<(&'static str, Vec<u8>)>,
    hung: bool,
}

impl Found {
    pub fn is_right(&self) -> bool {
        self.0.is_none()
    }

    /// Looks further where nothing is wrong so far.
    pub fn then(self, look: impl FnOnce() -> Result<(), Fault>) -> Found {
        Found(self.0.or_else(|| look().err()))
    }

    /// Looks at something else first, unless the program runs on: that says more than this.
    pub fn after(self, look: impl FnOnce() -> Result<(), Fault>) -> Found {
        match self.0 {
            Some(fault) if fault.hung => Found(Some(fault)),
            other => Found(look().err().or(other)),
        }
    }

    /// The first of two that is wrong.
    pub fn and(self, other: Found) -> Found {
        Found(self.0.or(other.0))
    }

    /// Puts the case's name before what is wrong.
    pub fn named(self, name: &str) -> Found {
        Found(self.0.map(|fault| Fault { text: format!("{name}: {}", fault.text), ..fault }))
    }
}

/// Runs a program and compares what it prints with `wanted`, to the byte.
/// The input is kept in the fault, so that it can be run again.
pub fn compare(
    program: &Program,
    input: &[u8],
    pause: Option<usize>,
    wanted: &[u8],
) -> io::Result<Found> {
    let run = program.run(input, pause)?;
    Ok(judge(program, input, wanted, &run))
}

pub fn judge(program: &Program, input: &[u8], wanted: &[u8], run: &Run) -> Found {
    let what = if run.hung {
        "runs on and was stopped".to_string()
    } else if run.status != Some(0) {
        format!("exit status {:?}", run.status)
    } else if run.output != wanted {
        difference(wanted, &run.output)
    } else {
        return Found(None);
    };
    Found(Some(Fault {
        text: format!("{}: {what}", program.name()),
        dumps: vec![
            ("input", input.to_vec()),
            ("wanted", wanted.to_vec()),
            ("printed", run.output.clone()),
        ],
        hung: run.hung,
    }))
}

/// A buffer of a call with its guards: what it should hold after the call, and what it holds.
pub struct Held<'a> {
    pub name: &'static str,
    pub wanted: &'a [u8],
    pub found: &'a [u8],
    /// Where the bytes lie that the call was lent.
    pub lent: Range<usize>,
}

/// Compares a call: its result, wanted first, and all of its buffers, to the byte.
pub fn judge_call(call: &str, given: Arguments, results: [u32; 2], buffers: &[Held]) -> Found {
    let [wanted, result] = results;
    let wrong = buffers.iter().find(|held| held.wanted != held.found);
    let what = match wrong {
        _ if wanted != result => format!("result {result}, {wanted} wanted"),
        Some(held) => place_of_difference(held),
        None => return Found(None),
    };
    let mut dumps: Vec<(&'static str, Vec<u8>)> =
        buffers.iter().map(|held| (held.name, held.found[held.lent.clone()].to_vec())).collect();
    if let Some(held) = wrong {
        dumps.push(("wanted", held.wanted[held.lent.clone()].to_vec()));
    }
    Found(Some(fault(format!("{call}: {what} {given}"), dumps)))
}

/// The first byte that differs, lent or of a guard.
fn place_of_difference(held: &Held) -> String {
    let at = held.wanted.iter().zip(held.found).take_while(|(a, b)| a == b).count();
    let Range { start, end } = held.lent;
    let name = held.name;
    let place = match at {
        _ if at < start => format!("{name}: guard, {} before its start,", start - at),
        _ if at >= end => format!("{name}: guard, {} past its end,", at - end),
        _ => format!("{name}: byte {} of {}", at - start, end - start),
    };
    format!("{place} is {}, {} wanted", held.found[at], held.wanted[at])
}

/// A part of what a command left, such as its status or a file: what it should be, and what it is.
pub struct Part {
    pub name: String,
    pub wanted: Vec<u8>,
    pub found: Vec<u8>,
}

/// Compares what a command left, part by part, to the byte; `input` is what it was given.
pub fn judge_parts(command: &str, hung: bool, input: &[u8], parts: &[Part]) -> Found {
    let wrong = parts.iter().find(|part| part.wanted != part.found);
    let what = match wrong {
        _ if hung => "runs on and was stopped".to_string(),
        Some(part) => format!("{}: {}", part.name, difference(&part.wanted, &part.found)),
        None if parts.is_empty() => "nothing to compare".to_string(),
        None => return Found(None),
    };
    let mut dumps = vec![("input", input.to_vec())];
    if let Some(part) = wrong {
        dumps.extend([("wanted", part.wanted.clone()), ("printed", part.found.clone())]);
    }
    Found(Some(Fault { text: format!("{command}: {what}"), dumps, hung }))
}

/// A case that is wrong before anything was compared.
pub fn failed(fault: Fault) -> Found {
    Found(Some(fault))
}

/// A fault found without a program, or in what several of them printed.
pub fn fault(text: String, dumps: Vec<(&'static str, Vec<u8>)>) -> Fault {
    Fault { text, dumps, hung: false }
}

/// The first place where two outputs differ, with the line it lies in.
fn difference(wanted: &[u8], printed: &[u8]) -> String {
    let at = wanted.iter().zip(printed).take_while(|(a, b)| a == b).count();
    let start = wanted[..at].iter().rposition(|&b| b == b'\n').map_or(0, |i| i + 1);
    let number = wanted[..at].iter().filter(|&&b| b == b'\n').count() + 1;
    format!(
        "{} bytes wanted, {} printed, differ at byte {at} (line {number}): wanted \"{}\", printed \"{}\"",
        wanted.len(),
        printed.len(),
        excerpt(&wanted[start..]),
        excerpt(&printed[start.min(printed.len())..]),
    )
}

fn excerpt(bytes: &[u8]) -> String {
    let line = bytes.split_inclusive(|&b| b == b'\n').next().unwrap_or(&[]);
    let cut = &line[..line.len().min(100)];
    let dots = if cut.len() < line.len() { "..." } else { "" };
    format!("{}{dots}", cut.escape_ascii())
}

/// What came of the cases so far. Single cases are not kept: there may be millions.
#[derive(Default)]
struct Tally {
    families: BTreeMap<&'static str, usize>,
    reached: BTreeMap<String, usize>,
    passed: usize,
    failed: usize,
    /// The first faults, with their families.
    faults: BTreeMap<usize, (&'static str, Fault)>,
    /// Why the mode ends early.
    trouble: Option<String>,
}

impl Tally {
    fn add(&mut self, i: usize, outcome: Outcome) {
        *self.families.entry(outcome.family).or_default() += 1;
        for what in outcome.reached {
            *self.reached.entry(what).or_default() += 1;
        }
        let Some(fault) = outcome.found.0 else {
            self.passed += 1;
            return;
        };
        self.failed += 1;
        self.faults.insert(i, (outcome.family, fault));
        if self.faults.len() > SHOWN {
            self.faults.pop_last();
        }
    }

    /// Prints all, and the counts last.
    fn tell(&self, mode: &str, needed: &Needed) -> ExitCode {
        self.describe(mode);
        let failed = match &self.trouble {
            Some(reason) => {
                println!("{mode}: ended early, {reason}");
                self.failed.max(1)
            }
            None => self.failed + self.unreached(mode, needed),
        };
        println!("{mode}: {} passed, {failed} failed", self.passed);
        ExitCode::from(u8::from(failed > 0))
    }

    /// Describes the first faults.
    fn describe(&self, mode: &str) {
        let dir = std::env::temp_dir().join(format!("second-{mode}-{}", std::process::id()));
        for (i, (family, fault)) in &self.faults {
            println!("case {i} ({family}): {}", fault.text);
            match dump(&dir, *i, fault) {
                Ok(path) => println!("  see {}", path.display()),
                Err(error) => println!("  no dump: {error}"),
            }
        }
    }

    /// Prints what was reached, and counts what should have been and was not.
    fn unreached(&self, mode: &str, needed: &Needed) -> usize {
        for (family, count) in &self.families {
            println!("{mode}: {count:6} {family}");
        }
        let counts: Vec<String> =
            self.reached.iter().map(|(what, n)| format!("{what} {n}")).collect();
        println!("{mode}: reached {}", counts.join(", "));
        let mut missed = Vec::new();
        if self.families.is_empty() {
            missed.push("no case was run".to_string());
        }
        for what in needed.reached.iter().filter(|what| !self.reached.contains_key(*what)) {
            missed.push(format!("no case reached {what}"));
        }
        for &(what, least) in &needed.often {
            let count = self.reached.get(what).copied().unwrap_or(0);
            if count < least {
                missed.push(format!("{what} {count} times, {least} wanted"));
            }
        }
        for family in needed.families.iter().filter(|family| !self.families.contains_key(*family)) {
            missed.push(format!("no case is one of: {family}"));
        }
        for text in &missed {
            println!("{mode}: {text}");
        }
        missed.len()
    }
}

/// Runs cases 0 to `total - 1`, as far as the plan goes, and prints what came of them.
pub fn drive<F>(mode: &str, plan: &Plan, total: usize, needed: &Needed, case: F) -> ExitCode
where
    F: Fn(usize) -> io::Result<Outcome> + Sync,
{
    let total = total.min(plan.first);
    let next = AtomicUsize::new(0);
    let tally: Mutex<Tally> = Mutex::new(Tally::default());
    let hung = AtomicUsize::new(0);
    thread::scope(|scope| {
        for _ in 0..WORKERS {
            scope.spawn(|| loop {
                let i = next.fetch_add(1, Ordering::Relaxed);
                if i >= total || tally.lock().expect("no worker panics").trouble.is_some() {
                    break;
                }
                let done = catch_unwind(AssertUnwindSafe(|| case(i)));
                let mut tally = tally.lock().expect("no worker panics");
                let reason = match done {
                    Err(_) => Some(format!("case {i} panics")),
                    Ok(Err(error)) => Some(format!("a program cannot be run: {error}")),
                    Ok(Ok(outcome)) => {
                        let reason = ends(plan, &outcome, &hung);
                        tally.add(i, outcome);
                        reason
                    }
                };
                if reason.is_some() {
                    tally.trouble = reason;
                }
            });
        }
    });
    tally.into_inner().expect("no worker panics").tell(mode, needed)
}

/// Runs one case after the other, until there are no more or the plan ends, and prints what came
/// of them.
pub fn walk(
    mode: &str,
    plan: &Plan,
    needed: &Needed,
    mut case: impl FnMut(usize) -> Option<Outcome>,
) -> ExitCode {
    let mut tally = Tally::default();
    let now = Arc::new(AtomicUsize::new(0));
    watch(mode, plan.patience, Arc::clone(&now));
    for i in 0..plan.first {
        now.store(i, Ordering::Relaxed);
        match catch_unwind(AssertUnwindSafe(|| case(i))) {
            Err(_) => tally.trouble = Some(format!("case {i} panics")),
            Ok(None) => break,
            Ok(Some(outcome)) => {
                tally.trouble = ends(plan, &outcome, &AtomicUsize::new(0));
                tally.add(i, outcome);
            }
        }
        if tally.trouble.is_some() {
            break;
        }
    }
    tally.tell(mode, needed)
}

/// Ends the program where a case runs on: a call cannot be stopped from outside.
fn watch(mode: &str, patience: Duration, now: Arc<AtomicUsize>) {
    let mode = mode.to_string();
    thread::spawn(move || loop {
        let before = now.load(Ordering::Relaxed);
        thread::sleep(patience);
        if now.load(Ordering::Relaxed) == before {
            println!("case {before}: runs on\n{mode}: {before} passed, 1 failed");
            std::process::exit(1);
        }
    });
}

/// Why a mode ends with this case, if it does.
fn ends(plan: &Plan, outcome: &Outcome, hung: &AtomicUsize) -> Option<String> {
    let fault = outcome.found.0.as_ref()?;
    if plan.until_fault {
        return Some("a fault was looked for".to_string());
    }
    (fault.hung && hung.fetch_add(1, Ordering::Relaxed) + 1 >= HUNG)
        .then(|| "programs run on".to_string())
}

/// Bytes of a part that a hex dump shows: of more, nobody reads it.
const MOST_HEX: usize = 1 << 18;

/// Writes a hex dump to read, and each part raw to run again.
fn dump(dir: &Path, case: usize, fault: &Fault) -> io::Result<PathBuf> {
    fs::create_dir_all(dir)?;
    let mut text = format!("{}\n", fault.text);
    for (name, bytes) in &fault.dumps {
        let shown = &bytes[..bytes.len().min(MOST_HEX)];
        let _ = writeln!(text, "\n{name}, {} bytes", bytes.len());
        text.push_str(&hex(shown));
        if shown.len() < bytes.len() {
            let _ = writeln!(text, "and so on");
        }
        fs::write(dir.join(format!("case-{case}.{name}")), bytes)?;
    }
    let path = dir.join(format!("case-{case}.hex"));
    fs::write(&path, text)?;
    Ok(path)
}

fn hex(bytes: &[u8]) -> String {
    let mut text = String::new();
    let mut zeros = false;
    for (i, row) in bytes.chunks(16).enumerate() {
        // Headers are mostly zeros: such rows are left out.
        if row.iter().all(|&b| b == 0) && row.len() == 16 {
            if !zeros {
                text.push_str("*\n");
            }
            zeros = true;
            continue;
        }
        zeros = false;
        let _ = write!(text, "{:08x} ", i * 16);
        for byte in row {
            let _ = write!(text, " {byte:02x}");
        }
        let plain: String =
            row.iter().map(|&b| if (32..127).contains(&b) { b as char } else { '.' }).collect();
        let _ = writeln!(text, "{:pad$}  |{plain}|", "", pad = 3 * (16 - row.len()));
    }
    text
}
