//! Mode `selftest`: every mode against the stand-ins. A right one must pass, each one with a
//! defect must fail, and so must a mode that is given nothing to compare.

use crate::calls::stand_in;
use crate::fake;
use crate::gen::calls::{PAIRS, THERE_AND_BACK};
use crate::peer;
use std::fs::{self, Permissions};
use std::io;
use std::os::unix::fs::{symlink, PermissionsExt};
use std::path::{Path, PathBuf};
use std::process::{Command, ExitCode};
use std::sync::atomic::{AtomicUsize, Ordering};
use std::thread;

/// Milliseconds that a stand-in is given which runs on.
const SHORT_PATIENCE: &str = "300";

/// Cases that the right functions must pass; all but some two thousand are always run.
const CALLS: &str = "24000";

const RUNS_ON: &str = "runs on and was stopped";

/// A right output from a program that ends wrongly: what its script does last, and how the
/// fault is told.
const WRONG_ENDS: [(&str, &str, &str); 4] = [
    ("ends-with-1", "exit 1", "exit status Some(1)"),
    ("ends-by-signal", "kill -KILL $$", "exit status None"),
    ("runs-on-mute", "exec >&-; exec sleep 60", RUNS_ON),
    ("prints-on", "exec yes", RUNS_ON),
];

/// A mode, called once.
struct Trial {
    mode: &'static str,
    /// What it is tried with.
    with: String,
    words: Vec<String>,
    wanted: Wanted,
}

enum Wanted {
    Passes,
    /// Fails, and tells of output that differs.
    Differs,
    /// Fails, and tells all of this.
    Tells(Vec<String>),
}

/// What a mode found, or what it should have found.
type Found = Result<&'static str, String>;

pub fn run() -> io::Result<ExitCode> {
    let dir = std::env::temp_dir().join(format!("second-selftest-{}", std::process::id()));
    fs::create_dir_all(&dir)?;
    let counts = Bench { dir: dir.clone(), exe: std::env::current_exe()? }.run();
    fs::remove_dir_all(&dir)?;
    let (passed, failed) = counts?;
    println!("selftest: {passed} passed, {failed} failed");
    Ok(ExitCode::from(u8::from(failed > 0)))
}

const MODES: [&str; 5] = ["header", "sheets", "pairs", "write", "turn"];
/// Those that read sheets of the other program.
const WITH_PEERS: [&str; 3] = ["header", "sheets", "write"];

/// What no pair shows: none is longer than the listing program takes, hardly any has a body for as
/// many pixels as an offset that is too far leaves in 16 bits, and all have line headers, and no more
/// lines than are lent marks.
const NOT_IN_PAIRS: [&str; 5] = [
    "cuts-long-input",
    "offset-in-16-bits",
    "10-loses-chain",
    "nol-65536-refused",
    "nol-1000001-taken",
];

/// The modes that try a stand-in.
fn modes_of(program: &str) -> impl Iterator<Item = &'static str> + '_ {
    MODES.into_iter().filter(move |mode| tried_by(mode) == program)
}

/// The stand-in that a mode tries.
fn tried_by(mode: &str) -> &'static str {
    match mode {
        "header" => "header",
        "write" => "write",
        "turn" => "turn",
        _ => "listing",
    }
}

struct Bench {
    dir: PathBuf,
    exe: PathBuf,
}

impl Bench {
    /// Passed and failed trials.
    fn run(&self) -> io::Result<(usize, usize)> {
        let mut trials = self.stand_ins()?;
        let mut failed = 0;
        for mode in MODES {
            let of_mode: Vec<&Trial> = trials.iter().filter(|trial| trial.mode == mode).collect();
            let right = of_mode.iter().any(|trial| matches!(trial.wanted, Wanted::Passes));
            let wrong = of_mode.iter().any(|trial| matches!(trial.wanted, Wanted::Differs));
            if !right || !wrong {
                println!("selftest: no stand-ins, right and wrong, for {mode}");
                failed += 1;
            }
        }
        trials.extend(self.wrong_ends()?);
        trials.extend(self.nothing_to_compare()?);
        trials.extend(self.calls());
        let mut passed = 0;
        for (trial, found) in trials.iter().zip(self.call_all(&trials)) {
            let (mode, with) = (trial.mode, &trial.with);
            match found? {
                Ok(found) => {
                    passed += 1;
                    println!("selftest: {mode} finds {with} {found}");
                }
                Err(text) => {
                    failed += 1;
                    println!("selftest: {mode} with {with}: {text}");
                }
            }
        }
        Ok((passed, failed))
    }

    /// Two modes at a time, as one alone does not keep two cores busy.
    fn call_all(&self, trials: &[Trial]) -> Vec<io::Result<Found>> {
        let next = AtomicUsize::new(0);
        let work = || {
            let mut found = Vec::new();
            loop {
                let i = next.fetch_add(1, Ordering::Relaxed);
                let Some(trial) = trials.get(i) else {
                    return found;
                };
                found.push((i, self.call(trial)));
            }
        };
        let mut found = thread::scope(|scope| {
            let other = scope.spawn(work);
            let mut found = work();
            found.extend(other.join().expect("no call panics"));
            found
        });
        found.sort_by_key(|(i, _)| *i);
        found.into_iter().map(|(_, found)| found).collect()
    }

    /// Every stand-in, right ones and wrong ones.
    fn stand_ins(&self) -> io::Result<Vec<Trial>> {
        let mut trials = Vec::new();
        for (program, defects) in fake::names() {
            let right = format!("fake-{program}");
            symlink(&self.exe, self.dir.join(&right))?;
            trials.extend(modes_of(program).map(|mode| self.right(mode, &right)));
            for defect in defects {
                let wrong = format!("{right}-{defect}");
                symlink(&self.exe, self.dir.join(&wrong))?;
                let modes = modes_of(program)
                    .filter(|mode| *mode != "pairs" || !NOT_IN_PAIRS.contains(&defect));
                trials.extend(modes.map(|mode| {
                    let hangs = defect == "runs-on";
                    let wanted = if hangs { tells(&[RUNS_ON]) } else { Wanted::Differs };
                    self.until_fault(mode, &wrong, wanted)
                }));
            }
        }
        Ok(trials)
    }

    /// A mode that must pass: all its cases but those that are by chance beside others.
    fn right(&self, mode: &'static str, name: &str) -> Trial {
        let words: &[&str] = if mode == "pairs" { &[] } else { &["--count", "1"] };
        self.trial(mode, name, words, Wanted::Passes)
    }

    /// A mode that must find a fault. None but a program that runs on is hurried: others may be
    /// slow.
    fn until_fault(&self, mode: &'static str, name: &str, wanted: Wanted) -> Trial {
        let hurried = matches!(&wanted, Wanted::Tells(told) if told.iter().any(|t| t == RUNS_ON));
        let words = ["--until-fault", "--patience", SHORT_PATIENCE];
        self.trial(mode, name, if hurried { &words } else { &words[..1] }, wanted)
    }

    /// Programs that print what is right, and end as they should not.
    fn wrong_ends(&self) -> io::Result<Vec<Trial>> {
        let mut trials = Vec::new();
        for (name, last, told) in WRONG_ENDS {
            let text = format!("#!/bin/sh\n'{}' fake-header\n{last}\n", self.exe.display());
            fs::write(self.dir.join(name), text)?;
            fs::set_permissions(self.dir.join(name), Permissions::from_mode(0o755))?;
            trials.push(self.until_fault("header", name, tells(&[told])));
        }
        Ok(trials)
    }

    /// Modes that lack something, so that they compare nothing or too little.
    fn nothing_to_compare(&self) -> io::Result<Vec<Trial>> {
        fs::write(self.dir.join("not-executable"), "#!/bin/sh\n")?;
        fs::create_dir(self.dir.join("directory"))?;
        let mut trials = Vec::new();
        for mode in MODES {
            let right = format!("fake-{}", tried_by(mode));
            let mut add = |probe: &str, with: &str, words: &[&str], told: &[&str]| {
                let trial = self.trial(mode, probe, words, tells(told));
                trials.push(Trial { with: with.to_string(), ..trial });
            };
            add("missing", "no program", &[], &["no file"]);
            add("directory", "a directory for a program", &[], &["no file"]);
            add("not-executable", "a program that cannot be run", &[], &["cannot be run"]);
            add(&right, "a count of 0", &["--count", "0"], &["compare nothing"]);
            let told = ["no case was run", "no case reached", "no case is one of"];
            add(&right, "none of its cases", &["--first", "0"], &told);
            add(&right, "two of its cases", &["--first", "2"], &told[1..]);
            if mode == "write" {
                for flag in ["--listing", "--header"] {
                    let words = [flag, &self.path("not-executable")];
                    add(&right, &format!("{flag} that cannot be run"), &words, &["cannot be run"]);
                }
            }
        }
        trials.extend(self.peers_missing()?);
        Ok(trials)
    }

    /// The C functions: right ones, wrong ones, each told of by what it did, and nothing to
    /// compare.
    fn calls(&self) -> Vec<Trial> {
        let trial = |with: &str, name: &str, more: &[&str], wanted| {
            let words = [&["--stand-in", name], more].concat();
            let words = words.iter().map(|word| word.to_string()).collect();
            Trial { mode: "calls", with: with.to_string(), words, wanted }
        };
        let right = stand_in::RIGHT;
        let mut trials = vec![
            trial(right, right, &["--count", CALLS], Wanted::Passes),
            trial("right, small", right, &["--small"], Wanted::Passes),
        ];
        for defect in stand_in::defects().filter(|defect| defect.name != right) {
            let wanted = tells(&["case ", defect.told]);
            let words = ["--until-fault", "--patience", SHORT_PATIENCE];
            let words = if defect.told == "runs on" { &words } else { &words[..1] };
            let family = defect.family.map(|family| ["--family", family]);
            let words = [words, family.as_ref().map_or(&[], |words| &words[..])].concat();
            trials.push(trial(defect.name, defect.name, &words, wanted));
        }
        // Demand 3 by itself, whatever the model says.
        for (name, told) in stand_in::OF_PAIRS {
            let words = ["--family", PAIRS, "--count", "300"];
            trials.push(trial(
                &format!("{name}, in pairs"),
                name,
                &words,
                tells(&["demand 3", told]),
            ));
        }
        trials.push(trial("pairs", right, &["--family", PAIRS, "--count", "300"], Wanted::Passes));
        // The way there and back by itself, too.
        let returns = ["--family", THERE_AND_BACK, "--count", "300"];
        for (name, told) in stand_in::OF_RETURNS {
            let wanted = tells(&[&format!("there and back: {told}")]);
            trials.push(trial(&format!("{name}, there and back"), name, &returns, wanted));
        }
        trials.push(trial("moves there and back", right, &returns, Wanted::Passes));
        let told =
            ["no case was run", "no case reached", "no case is one of", "ingr_move called 0 times"];
        let missing = self.path("missing");
        for (with, more, told) in [
            ("a count of 0", ["--count", "0"], &["compare nothing"][..]),
            ("none of its cases", ["--first", "0"], &told),
            ("two of its cases", ["--first", "2"], &told[1..]),
            ("peer sheets in missing", ["--peer", &missing], &["bilevel.rle"]),
        ] {
            trials.push(trial(with, right, &more, tells(told)));
        }
        trials.push(trial("no table", "no-such-table", &[], tells(&["no-such-table"])));
        trials
    }

    /// Modes that lack sheets of the other program.
    fn peers_missing(&self) -> io::Result<Vec<Trial>> {
        let mut trials = Vec::new();
        let beside = Path::new(concat!(env!("CARGO_MANIFEST_DIR"), "/../peer"));
        for mode in WITH_PEERS {
            let right = format!("fake-{}", tried_by(mode));
            let mut add = |dir: &str, told: &str| {
                let words = ["--peer", &self.path(dir)];
                let trial = self.trial(mode, &right, &words, tells(&[told]));
                trials.push(Trial { with: format!("peer sheets in {dir}"), ..trial });
            };
            add("missing", "bilevel.rle");
            add("directory", "bilevel.rle");
            for left_out in peer::NAMES {
                let dir = format!("without-{left_out}");
                copy_peers(beside, &self.dir.join(&dir), left_out)?;
                add(&dir, left_out);
            }
        }
        Ok(trials)
    }

    fn path(&self, name: &str) -> String {
        self.dir.join(name).display().to_string()
    }

    /// A mode with a program, and right stand-ins where other programs are needed too.
    fn trial(&self, mode: &'static str, probe: &str, more: &[&str], wanted: Wanted) -> Trial {
        let mut words = vec!["--probe".to_string(), self.path(probe)];
        if mode == "write" {
            words.extend(["--listing".to_string(), self.path("fake-listing")]);
            words.extend(["--header".to_string(), self.path("fake-header")]);
        }
        words.extend(more.iter().map(|word| word.to_string()));
        Trial { mode, with: probe.to_string(), words, wanted }
    }

    /// Calls a mode.
    fn call(&self, trial: &Trial) -> io::Result<Found> {
        // Dumps go where they are cleared away.
        let output = Command::new(&self.exe)
            .arg(trial.mode)
            .args(&trial.words)
            .env("TMPDIR", &self.dir)
            .output()?;
        let text = String::from_utf8_lossy(&output.stdout);
        let last = text.lines().last().unwrap_or_default();
        let (passed, failed) = counts(last).unwrap_or((0, 0));
        let status = output.status.code();
        Ok(match &trial.wanted {
            Wanted::Passes if status == Some(0) && passed > 0 && failed == 0 => Ok("right"),
            Wanted::Passes => Err(format!("not found right, but \"{last}\"")),
            _ if status != Some(1) || failed == 0 => {
                Err(format!("not found wrong, but status {status:?} and \"{last}\""))
            }
            Wanted::Differs if !text.lines().any(differs) => {
                Err(format!("no output is told to differ, but \"{last}\""))
            }
            Wanted::Differs => Ok("wrong"),
            Wanted::Tells(all) => match all.iter().find(|told| !text.contains(*told)) {
                Some(told) => Err(format!("does not tell \"{told}\", but \"{last}\"")),
                None => Ok("wrong"),
            },
        })
    }
}

fn tells(all: &[&str]) -> Wanted {
    Wanted::Tells(all.iter().map(|told| told.to_string()).collect())
}

/// The numbers of `MODE: N passed, M failed`.
fn counts(last: &str) -> Option<(usize, usize)> {
    let (_, counts) = last.split_once(": ")?;
    let (passed, failed) = counts.strip_suffix(" failed")?.split_once(" passed, ")?;
    Some((passed.parse().ok()?, failed.parse().ok()?))
}

/// Whether a line describes a case whose program ran and ended well, but printed otherwise.
fn differs(line: &str) -> bool {
    line.starts_with("case ") && !line.contains("exit status") && !line.contains("runs on")
}

/// The other program's sheets but one.
fn copy_peers(from: &Path, to: &Path, left_out: &str) -> io::Result<()> {
    fs::create_dir_all(to)?;
    for name in peer::NAMES.iter().filter(|name| **name != left_out) {
        for file in [name.to_string(), format!("{name}.txt")] {
            fs::copy(from.join(&file), to.join(&file))?;
        }
    }
    Ok(())
}
