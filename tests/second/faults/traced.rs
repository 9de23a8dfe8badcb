//! A run of a program under ptrace, on x86-64: each of its system calls is seen before it is done,
//! and may be done, stopped, failed or cut short; what it answered is kept. Only the thread that
//! started a program may trace it, so a run is followed to its end where it was started.

use crate::faults::calls::Call;
use std::ffi::{c_char, c_int, c_long, c_uint};
use std::fs::{File, OpenOptions};
use std::io::{self, Error, Read, Seek, Write};
use std::os::fd::{FromRawFd, OwnedFd};
use std::os::unix::fs::FileExt;
use std::os::unix::process::{CommandExt, ExitStatusExt};
use std::path::PathBuf;
use std::process::{Command, ExitStatus, Stdio};

/// How many seconds a run may take. It takes some milliseconds.
const LIMIT: c_uint = 20;

/// Whether programs can be traced on this machine: it must be theirs, without an emulator between.
pub const CAN_TRACE: bool = cfg!(all(target_os = "linux", target_arch = "x86_64"));

/// What a program is started with.
#[derive(Clone)]
pub struct Start {
    /// The program and its words.
    pub words: Vec<String>,
    pub folder: PathBuf,
    /// What stands in its standard input.
    pub input: Vec<u8>,
    /// Standard input, output and error.
    pub streams: [Stream; 3],
    pub umask: u32,
}

#[derive(Clone, Copy, PartialEq)]
pub enum Stream {
    /// A file: what is written to it is kept.
    Kept,
    Closed,
    /// A folder, which cannot be read.
    Folder,
    /// A device to which nothing can be written.
    Full,
    /// A pipe whose reader is gone; a write to it is answered by a signal, which ends the program.
    Gone,
    /// The same where the program was started with that signal ignored.
    GoneQuietly,
}

/// What becomes of a system call.
#[derive(Clone, Copy, PartialEq, Debug)]
pub enum Action {
    Do,
    /// It is not done, and the program is killed.
    Kill,
    /// It is done with half of its bytes, and the program is killed.
    HalveAndKill,
    /// It is not done, and answers this error.
    Fail(i64),
    /// It is done, and answers this error.
    DoAndFail(i64),
    /// It is done with so many bytes at the most.
    Shorten(u64),
    /// It is done, and zeros are put in the place of the bytes that it gave.
    DoAndZero,
}

/// Says of each system call, by its place in the run, what becomes of it.
pub type Plan<'a> = &'a mut dyn FnMut(usize, &Call) -> Action;

/// Nothing befalls the run.
pub fn nothing(_: usize, _: &Call) -> Action {
    Action::Do
}

/// This befalls the call at a place, and nothing else.
pub fn only(place: usize, action: Action) -> impl FnMut(usize, &Call) -> Action {
    move |at, _| if at == place { action } else { Action::Do }
}

pub struct Ended {
    pub calls: Vec<Call>,
    pub end: End,
    pub output: Vec<u8>,
    pub errors: String,
}

#[derive(Clone, Copy, PartialEq, Debug)]
pub enum End {
    /// By itself, with this status.
    Status(i32),
    /// By a signal that the plan did not send.
    Signal(i32),
    /// As the plan says.
    Killed,
    /// It took longer than it may.
    TooLong,
}

pub fn run(start: &Start, plan: Plan) -> io::Result<Ended> {
    let [mut input, mut output, mut errors] = [memory_file()?, memory_file()?, memory_file()?];
    input.write_all(&start.input)?;
    input.rewind()?;
    let mut traced = Traced::start(start, [&input, &output, &errors])?;
    let mut calls = Vec::new();
    let end = traced.follow(plan, &mut calls)?;
    let errors = String::from_utf8_lossy(&all_of(&mut errors)?).into_owned();
    Ok(Ended { calls, end, output: all_of(&mut output)?, errors })
}

/// A file without a name.
fn memory_file() -> io::Result<File> {
    let number = checked(unsafe { memfd_create(c"stream".as_ptr(), MFD_CLOEXEC) }.into())?;
    Ok(unsafe { File::from_raw_fd(number as c_int) })
}

fn all_of(file: &mut File) -> io::Result<Vec<u8>> {
    let mut all = Vec::new();
    file.rewind()?;
    file.read_to_end(&mut all)?;
    Ok(all)
}

impl Stream {
    fn opened(self, kept: &File) -> io::Result<Stdio> {
        Ok(match self {
            Stream::Kept => Stdio::from(kept.try_clone()?),
            Stream::Closed => Stdio::null(),
            Stream::Folder => Stdio::from(File::open(".")?),
            Stream::Full => Stdio::from(OpenOptions::new().write(true).open("/dev/full")?),
            Stream::Gone | Stream::GoneQuietly => Stdio::from(pipe_without_reader()?),
        })
    }
}

fn pipe_without_reader() -> io::Result<OwnedFd> {
    let mut ends = [0; 2];
    checked(unsafe { pipe2(ends.as_mut_ptr(), O_CLOEXEC) }.into())?;
    let [_reader, writer] = ends.map(|end| unsafe { OwnedFd::from_raw_fd(end) });
    Ok(writer)
}

// ---- the program that is traced

struct Traced {
    process: c_int,
    /// How it ended, once it has.
    end: Option<End>,
}

impl Traced {
    /// Starts a program, and stops it before its first system call.
    fn start(start: &Start, kept: [&File; 3]) -> io::Result<Traced> {
        let streams = start.streams;
        let umask_due = start.umask;
        let mut command = Command::new(&start.words[0]);
        command
            .args(&start.words[1..])
            .env_clear()
            .current_dir(&start.folder)
            .stdin(streams[0].opened(kept[0])?)
            .stdout(streams[1].opened(kept[1])?)
            .stderr(streams[2].opened(kept[2])?);
        unsafe {
            command.pre_exec(move || {
                for (number, &stream) in streams.iter().enumerate() {
                    if stream == Stream::Closed {
                        close(number as c_int);
                    }
                }
                if streams.contains(&Stream::GoneQuietly) {
                    signal(SIGPIPE, SIG_IGN);
                }
                umask(umask_due);
                alarm(LIMIT);
                checked(ptrace(PTRACE_TRACEME, 0, 0usize, 0usize)).map(|_| ())
            });
        }
        let traced = Traced { process: command.spawn()?.id() as c_int, end: None };
        let status = wait(traced.process)?;
        if status.stopped_signal() != Some(SIGTRAP) {
            return Err(Error::other(format!("it did not stop when it was started: {status}")));
        }
        traced.request(PTRACE_SETOPTIONS, PTRACE_O_TRACESYSGOOD | PTRACE_O_EXITKILL)?;
        Ok(traced)
    }

    /// Follows it to its end.
    fn follow(&mut self, plan: Plan, calls: &mut Vec<Call>) -> io::Result<End> {
        loop {
            if let Some(end) = self.go_on()? {
                return Ok(end);
            }
            let mut registers = self.registers()?;
            let mut call = self.call(&registers)?;
            let action = plan(calls.len(), &call);
            self.enter(action, &mut registers)?;
            let ended = if action == Action::Kill { self.kill()? } else { self.go_on()? };
            if ended.is_none() {
                call.answer = Some(self.leave(action, &call)?);
            }
            calls.push(call);
            if action == Action::HalveAndKill {
                self.kill()?;
            }
            if let Some(end) = self.end {
                return Ok(end);
            }
        }
    }

    fn call(&self, registers: &Registers) -> io::Result<Call> {
        let arguments = ARGUMENTS.map(|place| registers[place]);
        Call::new(registers[NUMBER], arguments, |address| self.text_at(address))
    }

    /// What must be done before the call is.
    fn enter(&self, action: Action, registers: &mut Registers) -> io::Result<()> {
        let length = &mut registers[ARGUMENTS[2]];
        match action {
            Action::Do | Action::DoAndFail(_) | Action::DoAndZero => return Ok(()),
            Action::Kill | Action::Fail(_) => registers[NUMBER] = NO_CALL,
            Action::HalveAndKill => *length /= 2,
            Action::Shorten(most) => *length = most.min(*length),
        }
        self.set_registers(registers)
    }

    /// What must be done after the call was, and what it answers.
    fn leave(&self, action: Action, call: &Call) -> io::Result<i64> {
        let mut registers = self.registers()?;
        match action {
            Action::Fail(error) | Action::DoAndFail(error) => {
                registers[ANSWER] = -error as u64;
                self.set_registers(&registers)?;
            }
            Action::DoAndZero => {
                let zeros = vec![0; (registers[ANSWER] as i64).max(0) as usize];
                self.memory()?.write_all_at(&zeros, call.arguments[0])?;
            }
            _ => {}
        }
        Ok(registers[ANSWER] as i64)
    }

    /// Lets it go on to the beginning or the end of a system call, or to its own end. Signals reach
    /// it.
    fn go_on(&mut self) -> io::Result<Option<End>> {
        let mut signal = 0;
        loop {
            self.request(PTRACE_SYSCALL, signal)?;
            let status = wait(self.process)?;
            match status.stopped_signal() {
                Some(SYSTEM_CALL) => return Ok(None),
                Some(SIGALRM) => {
                    self.kill()?;
                    self.end = Some(End::TooLong);
                }
                Some(other) => {
                    signal = other as usize;
                    continue;
                }
                None => {
                    let signal = || End::Signal(status.signal().unwrap_or(0));
                    self.end = Some(status.code().map_or_else(signal, End::Status));
                }
            }
            return Ok(self.end);
        }
    }

    fn kill(&mut self) -> io::Result<Option<End>> {
        checked(unsafe { kill(self.process, SIGKILL) }.into())?;
        while wait(self.process)?.stopped_signal().is_some() {}
        self.end = Some(End::Killed);
        Ok(self.end)
    }

    fn registers(&self) -> io::Result<Registers> {
        let mut registers = [0; 27];
        self.request(PTRACE_GETREGS, registers.as_mut_ptr() as usize)?;
        Ok(registers)
    }

    fn set_registers(&self, registers: &Registers) -> io::Result<()> {
        self.request(PTRACE_SETREGS, registers.as_ptr() as usize)
    }

    fn request(&self, request: c_uint, data: usize) -> io::Result<()> {
        checked(unsafe { ptrace(request, self.process, 0usize, data) }).map(|_| ())
    }

    fn memory(&self) -> io::Result<File> {
        OpenOptions::new().read(true).write(true).open(format!("/proc/{}/mem", self.process))
    }

    /// The text at an address of its memory, up to a zero.
    fn text_at(&self, address: u64) -> io::Result<String> {
        let mut bytes = [0; 5_000];
        let count = self.memory()?.read_at(&mut bytes, address)?;
        let text = bytes[..count].split(|&byte| byte == 0).next().unwrap_or(&[]);
        Ok(String::from_utf8_lossy(text).into_owned())
    }
}

impl Drop for Traced {
    fn drop(&mut self) {
        if self.end.is_none() {
            let _ = self.kill();
        }
    }
}

fn wait(process: c_int) -> io::Result<ExitStatus> {
    let mut status = 0;
    checked(unsafe { waitpid(process, &mut status, WALL) }.into())?;
    Ok(ExitStatus::from_raw(status))
}

fn checked(answer: c_long) -> io::Result<c_long> {
    if answer == -1 {
        return Err(Error::last_os_error());
    }
    Ok(answer)
}

// ---- what the C library and the system call these things

/// The registers in the order of the system's `user_regs_struct`.
type Registers = [u64; 27];

const NUMBER: usize = 15;
const ANSWER: usize = 10;
const ARGUMENTS: [usize; 6] = [14, 13, 12, 7, 9, 8];
/// The number of no system call: none is done.
const NO_CALL: u64 = u64::MAX;

const PTRACE_TRACEME: c_uint = 0;
const PTRACE_GETREGS: c_uint = 12;
const PTRACE_SETREGS: c_uint = 13;
const PTRACE_SYSCALL: c_uint = 24;
const PTRACE_SETOPTIONS: c_uint = 0x4200;
const PTRACE_O_TRACESYSGOOD: usize = 1;
const PTRACE_O_EXITKILL: usize = 1 << 20;
/// How a stop at a system call is told from a signal.
const SYSTEM_CALL: i32 = SIGTRAP | 0x80;
const WALL: c_int = 0x4000_0000;

const SIGTRAP: i32 = 5;
const SIGKILL: c_int = 9;
const SIGPIPE: c_int = 13;
const SIGALRM: i32 = 14;
const SIG_IGN: usize = 1;
const MFD_CLOEXEC: c_uint = 1;
const O_CLOEXEC: c_int = 0o2_000_000;

extern "C" {
    fn ptrace(request: c_uint, ...) -> c_long;
    fn waitpid(process: c_int, status: *mut c_int, options: c_int) -> c_int;
    fn kill(process: c_int, signal: c_int) -> c_int;
    fn signal(number: c_int, handler: usize) -> usize;
    fn alarm(seconds: c_uint) -> c_uint;
    fn umask(rights: c_uint) -> c_uint;
    fn close(number: c_int) -> c_int;
    fn pipe2(ends: *mut c_int, flags: c_int) -> c_int;
    fn memfd_create(name: *const c_char, flags: c_uint) -> c_int;
}
