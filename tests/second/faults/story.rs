//! The story of a fold, as its system calls tell it: which step each of them is, and the order that
//! the steps must keep so that OUT is whole at any moment and what is printed is true.

use crate::count::Fault;
use crate::faults::calls::{makes_new, only_appends, only_reads, Call, Deed, Name};
use std::collections::BTreeMap;

/// What the name of a new file begins with; 16 hexadecimal digits follow.
pub const NEW: &str = "gohardim-new-";

#[derive(Clone, Copy, PartialEq, Debug)]
pub enum Step {
    /// Before the program's own first step.
    Loader,
    /// In the place of a standard stream that is closed.
    OpenNull,
    CloseNull,
    OpenIn,
    ReadIn,
    CloseIn,
    LookAtOut,
    /// Whether OUT may be written: it is opened so, and nothing is written.
    AskRights,
    CloseOut,
    OpenFolder,
    TakeRandom,
    CreateNew,
    WriteNew,
    SetOwner,
    SetRights,
    FlushNew,
    CloseNew,
    Rename,
    FlushFolder,
    CloseFolder,
    RemoveNew,
    /// To standard output.
    Print,
    /// To standard error.
    Say,
    /// Memory, and the end of the run.
    Own,
    /// It changes nothing.
    Other,
    /// It is to another file, or in a way that a fold must not take.
    Foreign,
}

pub struct Story<'a> {
    calls: &'a [Call],
    pub steps: Vec<Step>,
    /// How many files that the program opened are open before each call.
    open: Vec<usize>,
}

impl<'a> Story<'a> {
    /// The story of `fold BUDGET input output`.
    pub fn new(calls: &'a [Call], input: &str, output: &str) -> Story<'a> {
        let mut book = Book::new(input, output);
        let mut story = Story { calls, steps: Vec::new(), open: Vec::new() };
        for call in calls {
            story.open.push(book.files.len());
            story.steps.push(book.step(call));
        }
        story
    }

    /// What is wrong with the order.
    pub fn fault(&self) -> Fault {
        (0..self.steps.len()).find_map(|place| {
            let fault = self.fault_at(place)?;
            Some(format!("{fault}: call {place}, {}", self.calls[place].words()))
        })
    }

    fn fault_at(&self, place: usize) -> Option<&'static str> {
        let is_of_stream = self.answer(place).is_some_and(|number| (0..3).contains(&number));
        match self.steps[place] {
            Step::Foreign => Some("this is no step of a fold"),
            Step::OpenIn | Step::AskRights | Step::OpenFolder | Step::CreateNew if is_of_stream => {
                Some("a file has the number of a standard stream")
            }
            Step::Print | Step::Say if self.open[place] > 0 => {
                Some("it prints while a file is open")
            }
            Step::WriteNew if !self.is_settled(place) => {
                Some("it writes before the old rights are set")
            }
            Step::Rename if !self.is_stored(place) => {
                Some("it renames what is not written, flushed and closed, in this order")
            }
            Step::Print if self.has(Step::CreateNew) && !self.is_replaced(place) => {
                Some("it prints before OUT is replaced and its folder flushed")
            }
            _ => None,
        }
    }

    /// Whether the new file was written, then flushed, then closed before a place. All is on the disk
    /// once it is flushed, so that the close may answer an error.
    fn is_stored(&self, place: usize) -> bool {
        let written = self.last(Step::WriteNew, place);
        let flushed = self.last(Step::FlushNew, place).filter(|&at| self.is_done(at));
        let closed = self.last(Step::CloseNew, place);
        written.is_some() && written < flushed && flushed < closed
    }

    /// Whether the rights of an old OUT, where they are set at all, are set before a place: after
    /// the owner, whose change can take rights away.
    fn is_settled(&self, place: usize) -> bool {
        let owned = self.last(Step::SetOwner, place);
        let set = self.last(Step::SetRights, place).filter(|&at| self.is_done(at));
        let is_old = self.has(Step::SetOwner) || self.has(Step::SetRights);
        !is_old || owned < set
    }

    /// Whether the new file was renamed, and then the folder flushed, before a place.
    fn is_replaced(&self, place: usize) -> bool {
        let renamed = self.last(Step::Rename, place).filter(|&at| self.is_done(at));
        let flushed = self.last(Step::FlushFolder, place).filter(|&at| self.is_done(at));
        renamed.is_some() && renamed < flushed
    }

    /// Where a step was last before a place.
    fn last(&self, step: Step, place: usize) -> Option<usize> {
        self.steps[..place].iter().rposition(|&other| other == step)
    }

    fn is_done(&self, place: usize) -> bool {
        self.answer(place) == Some(0)
    }

    fn answer(&self, place: usize) -> Option<i64> {
        self.calls[place].answer
    }

    pub fn has(&self, step: Step) -> bool {
        self.steps.contains(&step)
    }
}

// ---- which step a call is

/// What is known while the calls are gone through.
struct Book {
    input: String,
    output: String,
    /// The folder of OUT.
    folder: String,
    /// Whether the program's own first step was seen.
    begun: bool,
    /// The files that the program has opened, by their numbers.
    files: BTreeMap<i64, Held>,
    /// The new files that it has made.
    made: Vec<String>,
}

#[derive(Clone, Copy, PartialEq)]
enum Held {
    Null,
    In,
    Out,
    Folder,
    New,
}

impl Book {
    fn new(input: &str, output: &str) -> Book {
        Book {
            input: tidied(input),
            output: tidied(output),
            folder: split(output).0,
            begun: false,
            files: BTreeMap::new(),
            made: Vec::new(),
        }
    }

    fn step(&mut self, call: &Call) -> Step {
        let names: Vec<String> = call.names.iter().map(|name| self.whole(name)).collect();
        let opens = matches!(call.deed(), Deed::Open { .. });
        self.begun |= opens && (names[0] == "/dev/null" || names[0] == self.input);
        if !self.begun {
            return Step::Loader;
        }
        match call.deed() {
            Deed::Open { flags } => self.opens(&names[0], flags, call.answer),
            Deed::Read(file) => self.if_held(file, Held::In, Step::ReadIn),
            Deed::Write(1) => Step::Print,
            Deed::Write(2) => Step::Say,
            Deed::Write(file) => self.if_held(file, Held::New, Step::WriteNew),
            Deed::Close(file) => self.closes(file),
            Deed::LookAt => self.looks_at(&names[0], Step::LookAtOut),
            Deed::AskRights => self.looks_at(&names[0], Step::AskRights),
            Deed::TakeRandom => Step::TakeRandom,
            Deed::SetOwner(file) => self.if_held(file, Held::New, Step::SetOwner),
            Deed::SetRights(file) => self.if_held(file, Held::New, Step::SetRights),
            Deed::Flush(file) if self.holds(file, Held::Folder) => Step::FlushFolder,
            Deed::Flush(file) => self.if_held(file, Held::New, Step::FlushNew),
            Deed::Rename if self.has_made(&names[0]) && names[1] == self.output => Step::Rename,
            Deed::Remove if self.has_made(&names[0]) => Step::RemoveNew,
            Deed::Own => Step::Own,
            Deed::Other => Step::Other,
            Deed::Rename | Deed::Remove | Deed::Unknown => Step::Foreign,
        }
    }

    fn opens(&mut self, name: &str, flags: u64, answer: Option<i64>) -> Step {
        let Some((step, held)) = self.opened(name, flags) else {
            return Step::Foreign;
        };
        let Some(number) = answer.filter(|&number| number >= 0) else {
            return step;
        };
        let is_stream = held == Held::Null && number < 3;
        if !is_stream {
            self.files.insert(number, held);
        }
        if held == Held::New {
            self.made.push(name.to_string());
        }
        step
    }

    /// What a fold may open, and how.
    fn opened(&self, name: &str, flags: u64) -> Option<(Step, Held)> {
        let (folder, last) = split(name);
        if makes_new(flags) && folder == self.folder && is_new(&last) {
            Some((Step::CreateNew, Held::New))
        } else if only_appends(flags) && name == self.output {
            Some((Step::AskRights, Held::Out))
        } else if !only_reads(flags) {
            None
        } else if name == "/dev/null" {
            Some((Step::OpenNull, Held::Null))
        } else if name == self.input {
            Some((Step::OpenIn, Held::In))
        } else if folder_name(name) == self.folder {
            Some((Step::OpenFolder, Held::Folder))
        } else {
            None
        }
    }

    /// A file is closed whatever the call answers.
    fn closes(&mut self, file: i64) -> Step {
        match self.files.remove(&file) {
            Some(Held::Null) => Step::CloseNull,
            Some(Held::In) => Step::CloseIn,
            Some(Held::Out) => Step::CloseOut,
            Some(Held::Folder) => Step::CloseFolder,
            Some(Held::New) => Step::CloseNew,
            None => Step::Foreign,
        }
    }

    /// What another fold has made is not even looked at.
    fn looks_at(&self, name: &str, step: Step) -> Step {
        if name == self.output {
            step
        } else if is_new(&split(name).1) && !self.has_made(name) {
            Step::Foreign
        } else {
            Step::Other
        }
    }

    fn if_held(&self, file: i64, held: Held, step: Step) -> Step {
        if self.holds(file, held) {
            step
        } else {
            Step::Foreign
        }
    }

    fn holds(&self, file: i64, held: Held) -> bool {
        self.files.get(&file) == Some(&held)
    }

    fn has_made(&self, name: &str) -> bool {
        self.made.iter().any(|made| made == name)
    }

    /// A name from the program's own folder on.
    fn whole(&self, name: &Name) -> String {
        match name.at {
            None => tidied(&name.name),
            Some(number) if self.holds(number, Held::Folder) => {
                tidied(&format!("{}/{}", self.folder, name.name))
            }
            Some(_) => format!("?/{}", name.name),
        }
    }
}

// ---- names

/// A name without the steps from a folder to itself at its front.
fn tidied(name: &str) -> String {
    let mut rest = name;
    while let Some(behind) = rest.strip_prefix("./") {
        rest = behind.trim_start_matches('/');
    }
    rest.to_string()
}

/// The folder in which a name stands, and the name there.
fn split(name: &str) -> (String, String) {
    let name = tidied(name);
    match name.rfind('/') {
        Some(slash) => (folder_name(&name[..=slash]), name[slash + 1..].to_string()),
        None => (folder_name(""), name),
    }
}

/// The name of a folder without slashes at its end.
fn folder_name(name: &str) -> String {
    match name.trim_end_matches('/') {
        "" if name.is_empty() => ".".to_string(),
        "" => "/".to_string(),
        name => name.to_string(),
    }
}

/// Whether a name without a folder is one that a fold gives to a new file.
pub fn is_new(name: &str) -> bool {
    let is_digit = |byte: u8| byte.is_ascii_hexdigit();
    name.strip_prefix(NEW).is_some_and(|rest| rest.len() == 16 && rest.bytes().all(is_digit))
}
