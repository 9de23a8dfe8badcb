//! The messages of the programs, word for word: what the system says of a file, and how OUT stands.

use crate::faults::story::Step::{self, *};

/// An error of the system in words, with what to do.
pub fn words_of(error: i64) -> String {
    let words = match error {
        1 | 13 => "the rights do not allow it: look at the rights of the file and of its folder",
        2 => "there is no such file or folder: look at the name",
        4 | 11 => "it was interrupted",
        5 => "its disk or device has a fault",
        9 => "it is closed",
        12 | 24 => "the system has no memory, or no open files, left for it",
        17 => "the name is taken",
        20 => "a part of the name is a file where a folder must be",
        21 => "it is a folder: give the name of a file",
        22 => "the system does not do this here",
        27 => "files may not become so large here",
        28 => "no room is left on its disk: make room there",
        30 => "its disk can only be read",
        36 => "the name is too long: give a shorter one",
        40 => "the name leads through too many links",
        _ => return format!("the system's error {error}"),
    };
    words.to_string()
}

pub const NO_FILE: i64 = 2;
pub const IS_CLOSED: i64 = 9;
pub const NO_FOLDER: i64 = 20;
pub const IS_FOLDER: i64 = 21;
pub const TOO_LONG: i64 = 36;

/// The message of a fold: what is said of a name, and how OUT stands.
pub fn of_fold(name: &str, words: &str, state: &str) -> String {
    format!("{name}: {words}\nfold: {state}\n")
}

/// The message of a fold whose IN could not be read.
pub fn unread(name: &str, error: i64) -> String {
    of_fold(name, &words_of(error), "IN could not be read; OUT is as it was")
}

/// The message of a fold of which a step before the print fails.
pub fn of_step(step: Step, error: i64, input: &str, output: &str) -> String {
    let (name, state) = match step {
        OpenNull => {
            ("/dev/null", "standard streams that are closed could not be filled; OUT is as it was")
        }
        OpenIn | ReadIn => (input, "IN could not be read; OUT is as it was"),
        LookAtOut => (output, "OUT could not be looked at; OUT is as it was"),
        AskRights => (output, "OUT may not be written; OUT is as it was"),
        OpenFolder => {
            (output, "the folder of OUT could not be opened for reading; OUT is as it was")
        }
        TakeRandom | CreateNew => {
            (output, "a new file could not be made in the folder of OUT; OUT is as it was")
        }
        SetRights | WriteNew | FlushNew | CloseNew => {
            (output, "the new file could not be written to the disk whole; OUT is as it was")
        }
        Rename => (
            output,
            "the new file could not be renamed to OUT, or the system does not say that it was; \
             OUT is the old table or the new one, whole",
        ),
        FlushFolder => (
            output,
            "the folder of OUT could not be flushed to the disk; \
             OUT is the new table, whole, but a power loss could bring the old one back",
        ),
        _ => panic!("nothing is said where {step:?} fails"),
    };
    of_fold(name, &words_of(error), state)
}

/// The message of a fold whose line could not be printed.
pub fn unprinted(is_refused: bool) -> String {
    let state = if is_refused {
        "the table is refused; OUT is as it was"
    } else {
        "it is done all the same; OUT is the new table, whole"
    };
    format!("standard output could not be written\nfold: {state}\n")
}

/// The message of a program that could not read its standard input.
pub fn unread_input(error: i64) -> String {
    format!("standard input could not be read: {}\nthere is no answer\n", words_of(error))
}

/// The message of a program that reads its standard input and could not print its answer.
pub const UNPRINTED: &str =
    "standard output could not be written: the answer there is not whole, and not to be used\n";
