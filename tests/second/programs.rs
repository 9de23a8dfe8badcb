//! Runs of the Rattle programs, by the script `gohardim` in the repository's root: it knows the kit's
//! loader and emulator.

use crate::count::quoted;
use std::error::Error;
use std::io::{ErrorKind, Read, Write};
use std::path::{Path, PathBuf};
use std::process::{Child, ChildStdin, Command, Stdio};
use std::thread;
use std::time::{Duration, Instant};

/// How long one run may take, with the emulator on a slow machine.
pub const SHORT: Duration = Duration::from_secs(120);
/// How long a first run may take, which proves and builds the program where it is missing.
pub const LONG: Duration = Duration::from_secs(3_600);

/// More bytes than any input has: it is handed over in one piece.
pub const WHOLE: usize = usize::MAX;

const BETWEEN_PIECES: Duration = Duration::from_millis(1);

/// What a run left: all that it printed, what it said on standard error, and the exit status, or in
/// words why it has none.
pub struct Run {
    pub output: Vec<u8>,
    pub errors: String,
    pub status: Result<i32, String>,
}

impl Run {
    /// What it said on standard error, in short.
    pub fn said(&self) -> String {
        format!("it says {}", quoted(self.errors.as_bytes()))
    }

    /// In words how the run ended, unless it ended with this status.
    pub fn trouble(&self, due: i32) -> Option<String> {
        match &self.status {
            Ok(status) if *status == due => None,
            Ok(status) => Some(format!("the status is {status}, due {due}; {}", self.said())),
            Err(why) => Some(format!("the run {why}; {}", self.said())),
        }
    }
}

/// Runs `gohardim` with these words in a folder, and hands it the input in pieces.
pub fn run(folder: &Path, words: &[&str], input: &[u8], piece: usize, limit: Duration) -> Run {
    let started = Command::new(launcher())
        .args(words)
        .current_dir(folder)
        .stdin(Stdio::piped())
        .stdout(Stdio::piped())
        .stderr(Stdio::piped())
        .spawn();
    let mut child = match started {
        Ok(child) => child,
        Err(error) => {
            let status = Err(format!("did not start: {error}"));
            return Run { output: Vec::new(), errors: String::new(), status };
        }
    };
    let stdin = child.stdin.take().unwrap();
    let stdout = child.stdout.take().unwrap();
    let stderr = child.stderr.take().unwrap();
    thread::scope(|scope| {
        scope.spawn(move || hand_over(stdin, input, piece));
        let output = scope.spawn(move || all_of(stdout));
        let errors = scope.spawn(move || all_of(stderr));
        let status = wait(&mut child, limit);
        let errors = String::from_utf8_lossy(&errors.join().unwrap()).into_owned();
        Run { output: output.join().unwrap(), errors, status }
    })
}

/// The words with which a program is started without the script `gohardim`. Where it is missing it is
/// built.
pub fn words_of(program: &str) -> Result<Vec<String>, Box<dyn Error>> {
    let run = run(Path::new("."), &["where", program], &[], WHOLE, LONG);
    if run.status != Ok(0) {
        return Err(format!("gohardim where {program}: {:?}, {}", run.status, run.errors).into());
    }
    Ok(String::from_utf8(run.output)?.lines().map(str::to_string).collect())
}

fn all_of(mut stream: impl Read) -> Vec<u8> {
    let mut all = Vec::new();
    stream.read_to_end(&mut all).expect("a program's output can be read");
    all
}

fn launcher() -> PathBuf {
    std::env::current_dir().expect("the current folder can be read").join("gohardim")
}

/// A program may end before it has read all of its input.
fn hand_over(mut stdin: ChildStdin, input: &[u8], piece: usize) {
    for part in input.chunks(piece) {
        match stdin.write_all(part) {
            Ok(()) => {}
            Err(error) if error.kind() == ErrorKind::BrokenPipe => return,
            Err(error) => panic!("a program's standard input: {error}"),
        }
        if part.len() < input.len() {
            thread::sleep(BETWEEN_PIECES);
        }
    }
}

fn wait(child: &mut Child, limit: Duration) -> Result<i32, String> {
    let began = Instant::now();
    loop {
        match child.try_wait() {
            Ok(Some(status)) => return status.code().ok_or(format!("was ended: {status}")),
            Ok(None) if began.elapsed() > limit => {
                let _ = child.kill();
                let _ = child.wait();
                return Err(format!("took longer than {} seconds", limit.as_secs()));
            }
            Ok(None) => thread::sleep(Duration::from_millis(2)),
            Err(error) => return Err(format!("could not be waited for: {error}")),
        }
    }
}
