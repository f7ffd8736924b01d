//! One run of a program under test: bytes in on standard input, bytes out on standard output.

use std::borrow::Cow;
use std::io::{self, Read, Write};
use std::path::PathBuf;
use std::process::{Child, ChildStdin, Command, ExitStatus, Stdio};
use std::sync::mpsc;
use std::thread;
use std::time::{Duration, Instant};

/// More output than any probe may print: one that prints so much runs on.
const TOO_MUCH: usize = 4 << 20;
/// What a pipe takes in one piece on any system, so that no thread is needed to feed it.
const SURE_TO_FIT: usize = 4096;
/// How long a stopped program's output is still waited for.
const GRACE: Duration = Duration::from_secs(1);

/// A program under test.
pub struct Program {
    pub path: PathBuf,
    /// One that has not ended after so long runs on.
    pub patience: Duration,
}

pub struct Run {
    pub output: Vec<u8>,
    /// The exit status; none where a signal ended the program.
    pub status: Option<i32>,
    pub hung: bool,
}

impl Program {
    pub fn name(&self) -> Cow<'_, str> {
        self.path.file_name().unwrap_or_default().to_string_lossy()
    }

    /// Runs it on `input`. Where `pause` is given, the input stops there for a moment, so that
    /// the program meets a short read.
    pub fn run(&self, input: &[u8], pause: Option<usize>) -> io::Result<Run> {
        let mut child = Command::new(&self.path)
            .stdin(Stdio::piped())
            .stdout(Stdio::piped())
            .stderr(Stdio::null())
            .spawn()?;
        let stdin = child.stdin.take().expect("standard input is piped");
        let stdout = child.stdout.take().expect("standard output is piped");
        let deadline = Instant::now() + self.patience;
        let (send, receive) = mpsc::channel();
        // No thread is joined: what a program started may hold its pipes after its end.
        thread::spawn(move || {
            let mut output = Vec::new();
            let _ = stdout.take(TOO_MUCH as u64).read_to_end(&mut output);
            let _ = send.send(output);
        });
        if input.len() <= SURE_TO_FIT {
            feed(stdin, input, pause);
        } else {
            let input = input.to_vec();
            thread::spawn(move || feed(stdin, &input, pause));
        }
        let mut output = receive.recv_timeout(self.patience).ok();
        // The end of the output need not be the program's, and some never comes to one.
        let ended = match &output {
            Some(output) if output.len() < TOO_MUCH => ended(&mut child, deadline)?,
            _ => None,
        };
        if ended.is_none() {
            let _ = child.kill();
            child.wait()?;
            output = output.or_else(|| receive.recv_timeout(GRACE).ok());
        }
        Ok(Run {
            output: output.unwrap_or_default(),
            status: ended.and_then(|status| status.code()),
            hung: ended.is_none(),
        })
    }
}

fn feed(mut stdin: ChildStdin, input: &[u8], pause: Option<usize>) {
    let (first, rest) = input.split_at(pause.unwrap_or(0).min(input.len()));
    // A program that has read enough may stop reading; that is no fault.
    let _ = stdin.write_all(first);
    if !first.is_empty() {
        thread::sleep(Duration::from_millis(3));
    }
    let _ = stdin.write_all(rest);
}

/// How a program ended; none if it has not by the deadline.
pub fn ended(child: &mut Child, deadline: Instant) -> io::Result<Option<ExitStatus>> {
    let mut pause = Duration::from_micros(20);
    loop {
        if let Some(status) = child.try_wait()? {
            return Ok(Some(status));
        }
        if Instant::now() >= deadline {
            return Ok(None);
        }
        thread::sleep(pause);
        pause = (2 * pause).min(Duration::from_millis(20));
    }
}
