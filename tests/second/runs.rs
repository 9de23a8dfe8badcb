//! Runs of the programs `look`, `show`, `list`, `judge` and `fold`, one for each case, in a folder of its
//! own: what a program is handed, what it must print, and which files it must leave.

use crate::count::Fault;
use crate::fold;
use crate::foldings::{Folding, Rings};
use crate::image::{self, Content};
use crate::messages::{unread, NO_FILE};
use crate::parts::{difference_of_parts, Part};
use crate::programs::{self, Run, WHOLE};
use crate::sheet;
use crate::superbubbles::way;
use crate::table::Table;
use std::fs;
use std::io;
use std::path::Path;
use std::time::Duration;

/// The programs that are run alone, each case in a run of its own.
pub const PROGRAMS: [&str; 5] = ["look", "show", "list", "judge", "fold"];

/// Files by name, in the order of their names. A name that ends with a slash is a folder.
pub type Files = Vec<(String, Vec<u8>)>;

pub struct ProgramRun {
    pub program: &'static str,
    pub words: Vec<String>,
    pub stream: Vec<u8>,
    /// The stream is handed over in pieces of so many bytes.
    pub piece: usize,
    pub due: Due,
    pub before: Files,
    pub after: Files,
}

/// What a run must print, and with which status `gohardim` then ends.
pub enum Due {
    /// An answer or a refusal on standard output; beside a refusal its reason on standard error.
    Text(String),
    /// The one line that begins `usage:` and names the program.
    Usage,
    /// No answer, and these words on standard error.
    Message(String),
}

/// What a run leaves: what it prints and says, its status, and the files in its folder.
pub struct Outcome {
    pub run: Run,
    files: Files,
}

impl Outcome {
    pub fn parts(&self) -> Vec<Part> {
        let status = match &self.run.status {
            Ok(status) => status.to_string(),
            Err(why) => format!("none, it {why}"),
        };
        let mut parts = vec![
            Part::text("standard output", &self.run.output),
            Part::text("standard error", self.run.errors.as_bytes()),
            Part::value("status", status),
        ];
        parts.extend(parts_of_files(&self.files));
        parts
    }
}

/// The names, and then each file.
fn parts_of_files(files: &Files) -> Vec<Part> {
    let names: String = files.iter().map(|(name, _)| format!("{name}\n")).collect();
    let mut parts = vec![Part::text("files", names.as_bytes())];
    parts.extend(files.iter().flat_map(|(name, bytes)| image::parts(name, bytes)));
    parts
}

impl ProgramRun {
    /// A first run of a program, without any input.
    pub fn to_start(program: &'static str) -> ProgramRun {
        let refused = Due::Text("refused 10\n".to_string());
        let (words, due): (&[&str], Due) = match program {
            "batch" => (&[], Due::Text(String::new())),
            "judge" => (&["0", "1"], refused),
            "fold" => (&["0", "none.sbt", "none.sbt"], Due::Message(unread("none.sbt", NO_FILE))),
            _ => (&[], refused),
        };
        ProgramRun::of_stream(program, words, Vec::new(), due)
    }

    /// A program that reads its standard input, and no file.
    pub fn of_stream(
        program: &'static str,
        words: &[&str],
        stream: Vec<u8>,
        due: Due,
    ) -> ProgramRun {
        let words = words.iter().map(|word| word.to_string()).collect();
        let (before, after) = (Vec::new(), Vec::new());
        ProgramRun { program, words, stream, piece: WHOLE, due, before, after }
    }

    pub fn look(stream: Vec<u8>) -> ProgramRun {
        let due = Due::Text(image::look_text(&stream));
        ProgramRun::of_stream("look", &[], stream, due)
    }

    pub fn show(stream: Vec<u8>) -> ProgramRun {
        let due = Due::Text(image::show_text(&stream));
        ProgramRun::of_stream("show", &[], stream, due)
    }

    pub fn list(stream: Vec<u8>) -> ProgramRun {
        let due = Due::Text(image::text(&stream, |content| list_text(&content.table)));
        ProgramRun::of_stream("list", &[], stream, due)
    }

    /// Both words are digits.
    pub fn judge(s: &str, t: &str, stream: Vec<u8>) -> ProgramRun {
        let due = Due::Text(image::text(&stream, |content| judge_text(&content.table, s, t)));
        ProgramRun::of_stream("judge", &[s, t], stream, due)
    }

    /// `fold BUDGET IN OUT` with these files before. A file that an earlier stop left stays.
    pub fn fold(budget: u32, input: &str, output: &str, before: Files) -> ProgramRun {
        ProgramRun::fold_by_word(Rings::Refused, &budget.to_string(), budget, input, output, before)
    }

    /// `fold --rings BUDGET IN OUT` with these files before.
    pub fn fold_rings(budget: u32, input: &str, output: &str, before: Files) -> ProgramRun {
        ProgramRun::fold_by_word(Rings::Taken, &budget.to_string(), budget, input, output, before)
    }

    /// One of the two with a budget that is written in its own way.
    pub fn fold_by_word(
        rings: Rings,
        word: &str,
        budget: u32,
        input: &str,
        output: &str,
        before: Files,
    ) -> ProgramRun {
        let (_, stream) = before.iter().find(|(name, _)| name == input).unwrap();
        let (text, image) = folded_file(rings, stream, budget);
        let mut after = before.clone();
        if let Some(image) = image {
            after.retain(|(name, _)| name != output);
            after.push((output.to_string(), image));
        }
        let words = words_of_fold(rings, word, input, output);
        let due = Due::Text(text);
        ProgramRun { program: "fold", words, stream: vec![], piece: WHOLE, due, before, after }
    }

    /// `fold` with words to which it gives no answer, and which leave the files as they are.
    pub fn fold_refusing(words: &[&str], files: Files, due: Due) -> ProgramRun {
        let run = ProgramRun::of_stream("fold", words, Vec::new(), due);
        ProgramRun { before: files.clone(), after: files, ..run }
    }

    /// The program and its words, as they are typed; long words are cut.
    pub fn command(&self) -> String {
        let quote = |word: &String| match word.len() {
            0 => "''".to_string(),
            1..=60 => word.clone(),
            length => format!("{}..{length} bytes", &word[..20]),
        };
        let words = self.words.iter().map(quote);
        std::iter::once(self.program.to_string()).chain(words).collect::<Vec<_>>().join(" ")
    }

    /// What it must print, where that is a text.
    pub fn text(&self) -> &str {
        match &self.due {
            Due::Text(text) => text,
            Due::Usage | Due::Message(_) => "",
        }
    }

    /// What the program is handed, taken apart.
    pub fn asked(&self) -> Vec<Part> {
        if !self.before.is_empty() {
            return parts_of_files(&self.before);
        }
        let mut asked = image::parts("standard input", &self.stream);
        if self.piece != WHOLE {
            asked.push(Part::value("in pieces of", self.piece));
        }
        asked
    }

    /// Does the run in this folder, which is made for it and taken away again.
    pub fn outcome(&self, folder: &Path, limit: Duration) -> io::Result<Outcome> {
        self.lay_out(folder)?;
        let words: Vec<&str> =
            std::iter::once(self.program).chain(self.words.iter().map(String::as_str)).collect();
        let run = programs::run(folder, &words, &self.stream, self.piece, limit);
        let files = files_in(folder, "");
        fs::remove_dir_all(folder)?;
        Ok(Outcome { run, files: files? })
    }

    /// Makes a folder with the files that are there before the run. What an earlier one left is gone.
    pub fn lay_out(&self, folder: &Path) -> io::Result<()> {
        let _ = fs::remove_dir_all(folder);
        fs::create_dir_all(folder)?;
        for (name, content) in &self.before {
            if name.ends_with('/') {
                fs::create_dir(folder.join(name))?;
            } else {
                fs::write(folder.join(name), content)?;
            }
        }
        Ok(())
    }

    /// The outcome that is expected beside the one that came.
    pub fn expected(&self, came: &Outcome) -> Outcome {
        let mut files = self.after.clone();
        files.sort();
        Outcome { run: self.due.run(self.program, &came.run.output), files }
    }

    pub fn fault(&self, outcome: &io::Result<Outcome>) -> Fault {
        let came = match outcome {
            Ok(came) => came,
            Err(error) => return Some(format!("the folder of its run: {error}")),
        };
        let expected = self.expected(came);
        let fault = difference_of_parts(&expected.parts(), &came.parts())?;
        // why it does not print what it must is often said
        let is_told = expected.run.output == came.run.output || came.run.errors.is_empty();
        Some(if is_told { fault } else { format!("{fault}; {}", came.run.said()) })
    }
}

impl Due {
    /// The run that is expected where this was printed: of a usage line the beginning alone is known.
    fn run(&self, program: &str, printed: &[u8]) -> Run {
        let usage = format!("usage: {program} ").into_bytes();
        let is_usage = printed.starts_with(&usage)
            && printed.iter().filter(|&&byte| byte == b'\n').count() == 1
            && printed.ends_with(b"\n");
        let (output, errors) = match self {
            Due::Text(text) => (text.clone().into_bytes(), reason_beside(text)),
            Due::Usage if is_usage => (printed.to_vec(), String::new()),
            Due::Usage => (usage, String::new()),
            Due::Message(message) => (Vec::new(), message.clone()),
        };
        Run { status: Ok(status_of(&output)), output, errors }
    }
}

/// What stands on standard error beside an answer: a reason beside a refusal, else nothing.
fn reason_beside(text: &str) -> String {
    let number = text.strip_prefix("refused ").and_then(|rest| rest.trim_end().parse().ok());
    number.map_or(String::new(), |number| format!("{}\n", sheet::reason(number)))
}

/// The status with which `gohardim` ends, by the first word that was printed.
pub fn status_of(output: &[u8]) -> i32 {
    let text = String::from_utf8_lossy(output);
    match text.split_whitespace().next() {
        None => 3,
        Some("refused") => 1,
        Some("usage:") => 2,
        Some(_) => 0,
    }
}

/// All files below a folder, with their names from there on.
fn files_in(folder: &Path, prefix: &str) -> io::Result<Files> {
    let mut files = Vec::new();
    for entry in fs::read_dir(folder)? {
        let entry = entry?;
        let name = format!("{prefix}{}", entry.file_name().to_string_lossy());
        if entry.file_type()?.is_dir() {
            let name = format!("{name}/");
            files.extend(files_in(&entry.path(), &name)?);
            files.push((name, Vec::new()));
        } else {
            files.push((name, fs::read(entry.path())?));
        }
    }
    files.sort();
    Ok(files)
}

/// The words behind `fold`.
pub fn words_of_fold(rings: Rings, budget: &str, input: &str, output: &str) -> Vec<String> {
    let first: &[&str] = match rings {
        Rings::Refused => &[],
        Rings::Taken => &["--rings"],
    };
    [first, &[budget, input, output]].concat().into_iter().map(str::to_string).collect()
}

// ---- the texts

fn list_text(table: &Table) -> String {
    let found = (way(table).superbubbles)(table);
    let mut text = format!("superbubbles {}\n", found.len());
    for superbubble in &found {
        text += &format!("{} {}\n", superbubble.entrance, superbubble.exit);
    }
    text
}

fn judge_text(table: &Table, s: &str, t: &str) -> String {
    let vertex = |word: &str| word.parse().ok().filter(|&vertex| vertex < table.counts.len());
    let (Some(s), Some(t)) = (vertex(s), vertex(t)) else {
        return "refused 13\n".to_string();
    };
    match (way(table).judge)(table, s, t) {
        Some(superbubble) => format!("superbubble {}\n", superbubble.all.len()),
        None => "no\n".to_string(),
    }
}

/// What `fold` prints for an image, and the image that it writes, where it does: of the same version,
/// with the lengths as they were.
fn folded_file(rings: Rings, stream: &[u8], budget: u32) -> (String, Option<Vec<u8>>) {
    let refused = |number: u32| (format!("refused {number}\n"), None);
    let content = match image::content_or_number(stream) {
        Ok(content) => content,
        Err(number) => return refused(number),
    };
    let table = &content.table;
    if rings == Rings::Refused && (way(table).has_cycle)(table) {
        return refused(9);
    }
    let folding = Folding { version: content.version(), rings };
    let done = fold::fold(way(table), folding, table, budget);
    let edges = done.table.targets.len();
    let text = format!("folded {} left {} edges {edges}\n", done.folded, done.left);
    let new = Content { table: done.table, lengths: content.lengths };
    (text, Some(new.image()))
}
