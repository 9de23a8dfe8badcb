//! A program run alone, not by `gohardim`, in a folder with its input.

use crate::faults::folders::{Entry, Files, Folder};
use crate::runs::ProgramRun;
use std::fs::File;
use std::io;
use std::process::{Command, Output, Stdio};

/// Whether a program, by its words, runs in the emulator.
pub fn is_emulated(program: &[String]) -> bool {
    program[0].ends_with("/qemu-x86_64")
}

/// A program in the emulator, with these words more for the emulator itself.
pub fn with_words(program: &[String], more: &[&str]) -> Vec<String> {
    let (emulator, rest) = program.split_at(1);
    [emulator, &more.iter().map(|word| word.to_string()).collect::<Vec<_>>(), rest].concat()
}

/// Runs these words, and behind them those of the run.
pub fn ran(words: &[String], run: &ProgramRun) -> io::Result<Output> {
    let stream = if run.stream.is_empty() { &run.before[0].1 } else { &run.stream };
    let files = Files::from([("in.sbt".to_string(), Entry::file(0o644, stream.clone()))]);
    let folder = Folder::with(&files)?;
    Command::new(&words[0])
        .args(&words[1..])
        .args(&run.words)
        .current_dir(folder.path(""))
        .env_clear()
        .env("PATH", "/usr/bin:/bin")
        .stdin(Stdio::from(File::open(folder.path("in.sbt"))?))
        .output()
}
