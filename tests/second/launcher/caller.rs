//! Calls of `gohardim`, and what they leave.

use crate::count::quoted;
use crate::parts::difference;
use std::error::Error;
use std::io::{BufRead, BufReader, Read, Write};
use std::os::unix::process::CommandExt;
use std::path::PathBuf;
use std::process::{Child, Command, Stdio};
use std::sync::mpsc::{self, Receiver};
use std::thread;
use std::time::{Duration, Instant};

/// What came of a try, or in words why it failed.
pub type Tried<T> = Result<T, Box<dyn Error>>;

/// How long a call may take, and one that proves and builds a program first.
pub const SHORT: Duration = Duration::from_secs(60);
pub const LONG: Duration = Duration::from_secs(3_600);

pub const KILL: i32 = 9;
pub const PIPE: i32 = 13;
pub const TERM: i32 = 15;

/// What can be done with a signal.
const DEFAULT: usize = 0;
const IGNORE: usize = 1;

/// The signals that end a call, by name.
pub const SIGNALS: [(&str, i32); 5] =
    [("HUP", 1), ("INT", 2), ("QUIT", 3), ("KILL", KILL), ("TERM", TERM)];

extern "C" {
    fn close(stream: i32) -> i32;
    fn kill(process: i32, signal: i32) -> i32;
    fn signal(signal: i32, action: usize) -> usize;
}

pub fn must(held: bool, or: impl FnOnce() -> String) -> Tried<()> {
    if held {
        Ok(())
    } else {
        Err(or().into())
    }
}

/// How the script is called: the folder that it stands in, and the current one; the shell, where it
/// is not the script's own; and variables that are exported.
pub struct Caller {
    pub root: PathBuf,
    pub folder: PathBuf,
    pub shell: Option<&'static str>,
    pub variables: Vec<(String, String)>,
}

impl Caller {
    /// A call to be started, with all streams in pipes. A signal that is ignored here is not there.
    pub fn call(&self, words: &[&str]) -> Command {
        let script = self.root.join("gohardim");
        let mut command = match self.shell {
            None => Command::new(script),
            Some(shell) => {
                let mut command = Command::new(shell);
                command.arg(script);
                command
            }
        };
        command.args(words).current_dir(&self.folder);
        command.envs(self.variables.iter().map(|(name, value)| (name, value)));
        command.stdin(Stdio::piped()).stdout(Stdio::piped()).stderr(Stdio::piped());
        unsafe {
            command.pre_exec(|| {
                for (_, number) in SIGNALS {
                    signal(number, DEFAULT);
                }
                Ok(())
            });
        }
        command
    }

    pub fn run(&self, words: &[&str], input: &[u8]) -> Tried<Ended> {
        finish(self.call(words).spawn()?, input, SHORT)
    }

    /// The words with which a program is run.
    pub fn words_of(&self, program: &str, limit: Duration) -> Tried<Vec<String>> {
        let ended = finish(self.call(&["where", program]).spawn()?, b"", limit)?;
        ended.must_be(0)?;
        Ok(String::from_utf8(ended.output)?.lines().map(str::to_string).collect())
    }
}

/// Has a signal ignored when the call is started.
pub fn ignore(command: &mut Command, number: i32) {
    unsafe {
        command.pre_exec(move || {
            signal(number, IGNORE);
            Ok(())
        });
    }
}

/// Has these standard streams closed when the call is started.
pub fn with_closed(command: &mut Command, streams: Vec<i32>) {
    unsafe {
        command.pre_exec(move || {
            for &stream in &streams {
                close(stream);
            }
            Ok(())
        });
    }
}

pub fn send(child: &Child, signal: i32) {
    unsafe { kill(child.id() as i32, signal) };
}

/// What a call left. There is no status where it was ended by a signal.
pub struct Ended {
    pub status: Option<i32>,
    pub output: Vec<u8>,
    pub errors: String,
}

impl Ended {
    pub fn must_be(&self, status: i32) -> Tried<()> {
        must(self.status == Some(status), || {
            let (printed, said) = (quoted(&self.output), quoted(self.errors.as_bytes()));
            format!("status {:?} and not {status}: prints {printed}, says {said}", self.status)
        })
    }

    pub fn must_print(&self, due: &[u8]) -> Tried<()> {
        difference(due, &self.output).map_or(Ok(()), |fault| Err(fault.into()))
    }

    pub fn must_begin(&self, due: &str) -> Tried<()> {
        let begins = self.output.starts_with(due.as_bytes());
        must(begins, || format!("it prints {} and not {due:?}", quoted(&self.output)))
    }

    pub fn must_say(&self, due: &str) -> Tried<()> {
        must(self.errors.contains(due), || format!("it says {:?} without {due:?}", self.errors))
    }

    pub fn must_say_nothing(&self) -> Tried<()> {
        must(self.errors.is_empty(), || format!("it says {:?}", self.errors))
    }
}

/// Hands a call its input, and waits for its end. A stream that is in no pipe counts as empty.
pub fn finish(mut child: Child, input: &[u8], limit: Duration) -> Tried<Ended> {
    let (stdin, input) = (child.stdin.take(), input.to_vec());
    // a program may end before it has read all
    thread::spawn(move || stdin.map(|mut stdin| stdin.write_all(&input)));
    let (output, errors) = (all_of(child.stdout.take()), all_of(child.stderr.take()));
    let status = wait(&mut child, limit)?;
    let came = |stream: Receiver<Vec<u8>>| {
        stream.recv_timeout(SHORT).map_err(|_| "something that it left behind holds its streams")
    };
    let errors = String::from_utf8_lossy(&came(errors)?).into_owned();
    Ok(Ended { status, output: came(output)?, errors })
}

/// Gives all that a stream has, when it is at its end.
fn all_of(stream: Option<impl Read + Send + 'static>) -> Receiver<Vec<u8>> {
    let (give, all) = mpsc::channel();
    thread::spawn(move || {
        let mut bytes = Vec::new();
        if let Some(mut stream) = stream {
            stream.read_to_end(&mut bytes).expect("what is printed can be read");
        }
        give.send(bytes)
    });
    all
}

/// The lines of a stream, each as soon as it comes.
pub struct Lines {
    came: Receiver<String>,
}

impl Lines {
    pub fn of(stream: Option<impl Read + Send + 'static>) -> Lines {
        let (give, came) = mpsc::channel();
        let stream = BufReader::new(stream.expect("a stream is taken once"));
        thread::spawn(move || {
            stream.lines().map_while(Result::ok).try_for_each(|it| give.send(it))
        });
        Lines { came }
    }

    pub fn next(&self) -> Tried<String> {
        Ok(self.came.recv_timeout(SHORT)?)
    }

    /// All that still come.
    pub fn rest(self) -> Vec<String> {
        std::iter::from_fn(|| self.came.recv_timeout(SHORT).ok()).collect()
    }
}

fn wait(child: &mut Child, limit: Duration) -> Tried<Option<i32>> {
    let began = Instant::now();
    loop {
        if let Some(status) = child.try_wait()? {
            return Ok(status.code());
        }
        if began.elapsed() > limit {
            child.kill()?;
            child.wait()?;
            return Err(format!("it took longer than {} seconds", limit.as_secs()).into());
        }
        thread::sleep(Duration::from_millis(1));
    }
}
