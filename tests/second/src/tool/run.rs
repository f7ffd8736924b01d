//! One run of `ingr`, in a directory of its own, and what it left: its status, what it printed, and
//! the files there.

use super::Bench;
use crate::report::{self, Found, Part};
use crate::run::ended;
use std::ffi::{OsStr, OsString};
use std::fs;
use std::io::{self, Read, Write};
use std::os::unix::ffi::{OsStrExt, OsStringExt};
use std::path::PathBuf;
use std::process::{Command, Stdio};
use std::sync::mpsc::{self, Receiver};
use std::thread;
use std::time::{Duration, Instant};

/// More than any command prints here, a small picture too: one that prints so much runs on.
const TOO_MUCH: u64 = 64 << 20;
/// How long what was printed is waited for once a program has ended.
const GRACE: Duration = Duration::from_secs(1);

/// The directory of a case, which goes with it.
pub struct Room<'a> {
    pub bench: &'a Bench,
    pub dir: PathBuf,
}

pub struct Ran {
    words: String,
    pub out: Vec<u8>,
    pub err: Vec<u8>,
    pub status: Option<i32>,
    pub hung: bool,
}

/// A text that a command prints, as far as it is known.
pub enum Text {
    All(Vec<u8>),
    /// Begins and ends so.
    Ends(String, String),
}

/// How a command should end.
pub struct Wanted {
    pub status: i32,
    pub out: Text,
    pub err: Text,
}

impl Text {
    pub fn none() -> Text {
        Text::All(Vec::new())
    }

    pub fn of(text: impl Into<String>) -> Text {
        Text::All(text.into().into_bytes())
    }

    /// Anything that begins so, and is a line.
    pub fn starting(text: impl Into<String>) -> Text {
        Text::Ends(text.into(), "\n".to_string())
    }

    pub fn part(&self, name: &str, found: &[u8]) -> Part {
        let wanted = match self {
            Text::All(bytes) => bytes.clone(),
            Text::Ends(start, end) => {
                let long = found.len() >= start.len() + end.len();
                let right = found.starts_with(start.as_bytes()) && found.ends_with(end.as_bytes());
                match long && right {
                    true => found.to_vec(),
                    false => format!("{start}...{end}").into_bytes(),
                }
            }
        };
        Part { name: name.to_string(), wanted, found: found.to_vec() }
    }
}

impl Wanted {
    /// Silent and good.
    pub fn silent() -> Wanted {
        Wanted { status: 0, out: Text::none(), err: Text::none() }
    }

    /// Nothing but a complaint.
    pub fn complaint(status: i32, err: Text) -> Wanted {
        Wanted { status, out: Text::none(), err }
    }
}

pub fn os(name: &[u8]) -> &OsStr {
    OsStr::from_bytes(name)
}

pub fn words<const N: usize>(list: [&str; N]) -> Vec<OsString> {
    list.map(OsString::from).to_vec()
}

impl Room<'_> {
    pub fn new(bench: &Bench, case: usize) -> io::Result<Room<'_>> {
        let dir = bench.dir.join(format!("case-{case}"));
        fs::create_dir(&dir)?;
        Ok(Room { bench, dir })
    }

    /// Writes a file, and the directories above it.
    pub fn put(&self, name: &[u8], bytes: &[u8]) -> io::Result<()> {
        let path = self.dir.join(os(name));
        if let Some(above) = path.parent() {
            fs::create_dir_all(above)?;
        }
        fs::write(path, bytes)
    }

    /// The bytes of a file; none where it is missing.
    pub fn bytes(&self, name: &str) -> Option<Vec<u8>> {
        fs::read(self.dir.join(name)).ok()
    }

    /// The names in the directory, to see whether any was left that should not be there.
    pub fn names(&self) -> io::Result<Vec<Vec<u8>>> {
        let entries = fs::read_dir(&self.dir)?;
        let names: io::Result<Vec<Vec<u8>>> =
            entries.map(|entry| entry.map(|entry| entry.file_name().into_vec())).collect();
        let mut names = names?;
        names.sort();
        Ok(names)
    }

    pub fn ingr(&self, words: &[OsString], input: Option<&[u8]>) -> io::Result<Ran> {
        self.ingr_within(words, input, self.bench.program.patience)
    }

    pub fn ingr_within(
        &self,
        words: &[OsString],
        input: Option<&[u8]>,
        patience: Duration,
    ) -> io::Result<Ran> {
        let program = &self.bench.program;
        let mut command = Command::new(&program.path);
        command.args(words).current_dir(&self.dir);
        let shown: Vec<String> = words.iter().map(|word| word.to_string_lossy().into()).collect();
        let words = format!("ingr {}", shown.join(" "));
        run(command, input, patience).map(|ran| Ran { words, ..ran })
    }
}

impl Drop for Room<'_> {
    fn drop(&mut self) {
        // What stays goes with the directory above.
        let _ = fs::remove_dir_all(&self.dir);
    }
}

/// Runs a command to its end, with these bytes on standard input.
pub fn run(mut command: Command, input: Option<&[u8]>, patience: Duration) -> io::Result<Ran> {
    let stdin = if input.is_some() { Stdio::piped() } else { Stdio::null() };
    let mut child = command.stdin(stdin).stdout(Stdio::piped()).stderr(Stdio::piped()).spawn()?;
    let deadline = Instant::now() + patience;
    let out = collected(child.stdout.take().expect("standard output is piped"));
    let err = collected(child.stderr.take().expect("standard error is piped"));
    if let Some(mut stdin) = child.stdin.take() {
        let input = input.unwrap_or_default().to_vec();
        // A program that has read enough may stop reading.
        thread::spawn(move || stdin.write_all(&input).is_ok());
    }
    let whole = out.recv_timeout(patience).ok();
    let status = match &whole {
        Some(_) => ended(&mut child, deadline)?,
        None => None,
    };
    if status.is_none() {
        let _ = child.kill();
        child.wait()?;
    }
    Ok(Ran {
        words: String::new(),
        out: whole.or_else(|| out.recv_timeout(GRACE).ok()).unwrap_or_default(),
        err: err.recv_timeout(GRACE).unwrap_or_default(),
        status: status.and_then(|status| status.code()),
        hung: status.is_none(),
    })
}

fn collected(stream: impl Read + Send + 'static) -> Receiver<Vec<u8>> {
    let (send, receive) = mpsc::channel();
    thread::spawn(move || {
        let mut bytes = Vec::new();
        let _ = stream.take(TOO_MUCH).read_to_end(&mut bytes);
        let _ = send.send(bytes);
    });
    receive
}

/// Compares a run with what was wanted of it, and with more that it left.
pub fn judge(ran: &Ran, wanted: &Wanted, more: Vec<Part>, input: &[u8]) -> Found {
    let status = match ran.status {
        Some(status) if status == wanted.status => format!("status {status}"),
        // Why it was another one.
        Some(status) => format!("status {status}: {}", ran.err.escape_ascii()),
        None => "ended by a signal".to_string(),
    };
    let mut parts = vec![
        wanted.err.part("standard error", &ran.err),
        Text::of(format!("status {}", wanted.status)).part("exit status", status.as_bytes()),
        wanted.out.part("standard output", &ran.out),
    ];
    if ran.status != Some(wanted.status) {
        // The first part that is wrong is told of, and this says more than a text.
        parts.swap(0, 1);
    }
    parts.extend(more);
    report::judge_parts(&ran.words, ran.hung, input, &parts)
}

/// The names in a room, which should be these.
pub fn names_part(room: &Room, wanted: &[Vec<u8>]) -> io::Result<Part> {
    let lines = |names: &[Vec<u8>]| names.join(&b'\n');
    let found = room.names()?;
    let mut wanted = wanted.to_vec();
    wanted.sort();
    wanted.dedup();
    Ok(Part { name: "files left".to_string(), wanted: lines(&wanted), found: lines(&found) })
}

/// A file, which should hold these bytes, or not exist.
pub fn file_part(room: &Room, name: &str, wanted: Option<&[u8]>) -> Part {
    let shown = |bytes: Option<&[u8]>| match bytes {
        None => b"no file".to_vec(),
        Some(bytes) => [b"a file: ", bytes].concat(),
    };
    let found = room.bytes(name);
    Part { name: name.to_string(), wanted: shown(wanted), found: shown(found.as_deref()) }
}
