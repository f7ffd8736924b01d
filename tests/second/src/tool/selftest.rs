//! Mode `tool-selftest`: mode `tool` against stand-ins that are the program itself with one thing
//! altered. The one with nothing altered must pass the reduced set, and each other one must fail,
//! by what is told of it.

use super::fake::{self, REAL};
use super::NAME;
use crate::run::Program;
use std::fs;
use std::io;
use std::os::unix::fs::symlink;
use std::path::{Path, PathBuf};
use std::process::{Command, ExitCode};

/// Milliseconds that a stand-in is given which runs on.
const SHORT_PATIENCE: &str = "1000";

struct Bench<'a> {
    dir: PathBuf,
    exe: PathBuf,
    real: &'a Path,
}

/// What the mode made of a stand-in, or should have.
type Found = Result<&'static str, String>;

pub fn run(program: &Program) -> io::Result<ExitCode> {
    let dir = std::env::temp_dir().join(format!("second-tool-selftest-{}", std::process::id()));
    fs::create_dir_all(&dir)?;
    let bench = Bench { dir: dir.clone(), exe: std::env::current_exe()?, real: &program.path };
    let counts = bench.run();
    fs::remove_dir_all(&dir)?;
    let (passed, failed) = counts?;
    println!("tool-selftest: {passed} passed, {failed} failed");
    Ok(ExitCode::from(u8::from(failed > 0)))
}

impl Bench<'_> {
    fn run(&self) -> io::Result<(usize, usize)> {
        let mut list = vec![("as it is".to_string(), self.right()?)];
        for defect in &fake::DEFECTS {
            list.push((defect.name.to_string(), self.wrong(defect)?));
        }
        for (with, words, told) in [
            ("no program", ["--ingr", "missing"], "no file"),
            ("a count of 0", ["--count", "0"], "compare nothing"),
            ("none of its cases", ["--first", "0"], "no case was run"),
            ("no samples", ["--samples", "missing"], "missing"),
            ("no sheets of the other program", ["--peer", "missing"], "bilevel.rle"),
        ] {
            let text = self.call("fake-ingr", &words)?;
            list.push((with.to_string(), tells(&text, told)));
        }
        let mut failed = 0;
        for (with, found) in &list {
            match found {
                Ok(found) => println!("tool-selftest: {NAME} finds {with} {found}"),
                Err(text) => {
                    failed += 1;
                    println!("tool-selftest: {NAME} with {with}: {text}");
                }
            }
        }
        Ok((list.len() - failed, failed))
    }

    /// The stand-in that alters nothing.
    fn right(&self) -> io::Result<Found> {
        let text = self.call("fake-ingr", &["--small"])?;
        let last = last_line(&text);
        Ok(match last.ends_with(" passed, 0 failed") && !last.contains(": 0 passed") {
            true => Ok("right"),
            false => Err(format!("not found right, but \"{last}\"")),
        })
    }

    fn wrong(&self, defect: &fake::Defect) -> io::Result<Found> {
        let name = format!("fake-ingr-{}", defect.name);
        let patience = ["--patience", SHORT_PATIENCE];
        let more = if defect.name == "runs-on" { &patience[..] } else { &[] };
        let text = self.call(&name, &[&["--small"], more].concat())?;
        Ok(tells(&text, defect.told))
    }

    /// Calls the mode with a stand-in.
    fn call(&self, name: &str, words: &[&str]) -> io::Result<String> {
        let path = self.dir.join(name);
        if !path.exists() {
            symlink(&self.exe, &path)?;
        }
        let output = Command::new(&self.exe)
            .args([NAME, "--until-fault", "--ingr"])
            .arg(&path)
            .args(words)
            .env(REAL, self.real)
            .env("TMPDIR", &self.dir)
            .current_dir(&self.dir)
            .output()?;
        Ok(String::from_utf8_lossy(&output.stdout).into_owned())
    }
}

/// Whether a mode failed, and told this.
fn tells(text: &str, told: &str) -> Found {
    let last = last_line(text);
    if last.ends_with(" 0 failed") || !last.starts_with("tool: ") {
        return Err(format!("not found wrong, but \"{last}\""));
    }
    match text.contains(told) {
        true => Ok("wrong"),
        false => {
            Err(format!("does not tell \"{told}\", but \"{}\"", text.lines().next().unwrap_or("")))
        }
    }
}

fn last_line(text: &str) -> &str {
    text.lines().last().unwrap_or_default()
}
