//! The system calls of x86-64 by what they do: to which file, and by which name.

use std::io;

/// A system call that a program made.
pub struct Call {
    number: u64,
    pub arguments: [u64; 6],
    /// The names of files among its arguments.
    pub names: Vec<Name>,
    /// What it answered; nothing where the run ended in it.
    pub answer: Option<i64>,
}

/// The name of a file, from the folder on that is open under a number, or from the program's own.
pub struct Name {
    pub at: Option<i64>,
    pub name: String,
}

/// What a call does. Files are given by their numbers.
#[derive(Clone, Copy, PartialEq)]
pub enum Deed {
    Open {
        flags: u64,
    },
    Read(i64),
    Write(i64),
    Close(i64),
    LookAt,
    AskRights,
    TakeRandom,
    SetOwner(i64),
    SetRights(i64),
    Flush(i64),
    Rename,
    Remove,
    /// It is about the program's memory, or its end.
    Own,
    /// It changes nothing.
    Other,
    /// No program here has a use for it.
    Unknown,
}

/// Where a name stands among the arguments: alone, or behind the number of a folder.
#[derive(Clone, Copy)]
enum Place {
    Alone(usize),
    Behind(usize),
}
use Place::{Alone, Behind};

/// For each number the call's name, and the names of files among its arguments.
const CALLS: [(u64, &str, &[Place]); 37] = [
    (0, "read", &[]),
    (1, "write", &[]),
    (2, "open", &[Alone(0)]),
    (3, "close", &[]),
    (4, "stat", &[Alone(0)]),
    (5, "fstat", &[]),
    (6, "lstat", &[Alone(0)]),
    (8, "lseek", &[]),
    (9, "mmap", &[]),
    (10, "mprotect", &[]),
    (11, "munmap", &[]),
    (12, "brk", &[]),
    (13, "rt_sigaction", &[]),
    (14, "rt_sigprocmask", &[]),
    (17, "pread64", &[]),
    (18, "pwrite64", &[]),
    (19, "readv", &[]),
    (20, "writev", &[]),
    (21, "access", &[Alone(0)]),
    (25, "mremap", &[]),
    (28, "madvise", &[]),
    (60, "exit", &[]),
    (74, "fsync", &[]),
    (82, "rename", &[Alone(0), Alone(1)]),
    (87, "unlink", &[Alone(0)]),
    (91, "fchmod", &[]),
    (93, "fchown", &[]),
    (231, "exit_group", &[]),
    (257, "openat", &[Behind(0)]),
    (262, "newfstatat", &[Behind(0)]),
    (263, "unlinkat", &[Behind(0)]),
    (264, "renameat", &[Behind(0), Behind(2)]),
    (269, "faccessat", &[Behind(0)]),
    (316, "renameat2", &[Behind(0), Behind(2)]),
    (318, "getrandom", &[]),
    (332, "statx", &[Behind(0)]),
    (439, "faccessat2", &[Behind(0)]),
];

fn known(number: u64) -> Option<(&'static str, &'static [Place])> {
    let call = CALLS.iter().find(|call| call.0 == number)?;
    Some((call.1, call.2))
}

/// The number that stands for the program's own folder.
const HERE: i32 = -100;

impl Call {
    /// The text at an address of the program's memory is given by `text_at`.
    pub fn new(
        number: u64,
        arguments: [u64; 6],
        text_at: impl Fn(u64) -> io::Result<String>,
    ) -> io::Result<Call> {
        let mut names = Vec::new();
        for &place in known(number).map_or(&[][..], |(_, names)| names) {
            let (at, address) = match place {
                Alone(place) => (HERE, arguments[place]),
                Behind(place) => (arguments[place] as i32, arguments[place + 1]),
            };
            let name = text_at(address)?;
            let at = (at != HERE && !name.starts_with('/')).then_some(at.into());
            names.push(Name { at, name });
        }
        Ok(Call { number, arguments, names, answer: None })
    }

    /// Its name, or its number.
    pub fn name(&self) -> String {
        let number = || format!("system call {}", self.number);
        known(self.number).map_or_else(number, |(name, _)| name.to_string())
    }

    /// Its name, and the names of files.
    pub fn words(&self) -> String {
        let names = self.names.iter().map(|name| format!(" {:?}", name.name));
        self.name() + &names.collect::<String>()
    }

    pub fn deed(&self) -> Deed {
        let file = i64::from(self.arguments[0] as i32);
        match known(self.number).map_or("", |(name, _)| name) {
            "open" => Deed::Open { flags: self.arguments[1] },
            "openat" => Deed::Open { flags: self.arguments[2] },
            "read" | "pread64" | "readv" => Deed::Read(file),
            "write" | "pwrite64" | "writev" => Deed::Write(file),
            "close" => Deed::Close(file),
            "stat" | "lstat" | "newfstatat" | "statx" => Deed::LookAt,
            "access" | "faccessat" | "faccessat2" => Deed::AskRights,
            "getrandom" => Deed::TakeRandom,
            "fchown" => Deed::SetOwner(file),
            "fchmod" => Deed::SetRights(file),
            "fsync" => Deed::Flush(file),
            "rename" | "renameat" | "renameat2" => Deed::Rename,
            "unlink" | "unlinkat" => Deed::Remove,
            "mmap" | "mprotect" | "munmap" | "mremap" | "madvise" | "brk" => Deed::Own,
            "exit" | "exit_group" => Deed::Own,
            "fstat" | "lseek" | "rt_sigaction" | "rt_sigprocmask" => Deed::Other,
            _ => Deed::Unknown,
        }
    }

    /// Whether it is the same call to the same file.
    pub fn is_like(&self, other: &Call) -> bool {
        self.number == other.number && self.deed() == other.deed()
    }
}

// ---- how a file is opened

const ACCESS: u64 = 0o3;
const WRITE: u64 = 0o1;
const CREATE: u64 = 0o100;
const EXCLUSIVE: u64 = 0o200;
const TRUNCATE: u64 = 0o1_000;
const APPEND: u64 = 0o2_000;

/// Whether these flags open a file for nothing but reading.
pub fn only_reads(flags: u64) -> bool {
    flags & (ACCESS | CREATE | TRUNCATE) == 0
}

/// Whether these flags open a file that is there, to write behind its end.
pub fn only_appends(flags: u64) -> bool {
    flags & (ACCESS | CREATE | TRUNCATE | APPEND) == WRITE | APPEND
}

/// Whether these flags make a new file, and fail where there is one.
pub fn makes_new(flags: u64) -> bool {
    flags & (CREATE | EXCLUSIVE) == CREATE | EXCLUSIVE
}
