//! What a fold may leave and say: its answer, the files before and after, and the words about OUT.

use crate::faults::checks::{demand, demand_none, Judged};
use crate::faults::folders::{self, Files};
use crate::faults::story::is_new;
use crate::faults::traced::{End, Ended};
use crate::parts::difference;
use std::error::Error;

pub struct Due {
    /// What it prints.
    pub text: String,
    /// The files before.
    pub old: Files,
    /// The files once OUT is replaced; none where the table is refused.
    pub new: Option<Files>,
}

#[derive(Clone, Copy, PartialEq, Debug)]
pub enum State {
    Old,
    New,
}

/// What stands in the folder after a run.
pub struct Found {
    pub state: State,
    /// The new files that were not renamed.
    pub left: Vec<String>,
}

impl Due {
    /// In which state these files are; they must be in one of the two.
    pub fn found(&self, files: Files) -> Result<Found, Box<dyn Error>> {
        let is_left = |name: &String| is_new(name) && !self.old.contains_key(name);
        let (left, files): (Files, Files) = files.into_iter().partition(|(name, _)| is_left(name));
        let left = left.into_keys().collect();
        if files == self.old {
            return Ok(Found { state: State::Old, left });
        }
        let new = self.answered();
        if files == *new {
            return Ok(Found { state: State::New, left });
        }
        let [old, new] = [&self.old, new].map(|due| folders::difference(due, &files));
        Err(format!("neither the old files ({old}) nor the new ones ({new})").into())
    }

    pub fn is_refused(&self) -> bool {
        self.new.is_none()
    }

    /// The files where the answer is printed.
    pub fn answered(&self) -> &Files {
        self.new.as_ref().unwrap_or(&self.old)
    }

    /// The state in which those files are.
    pub fn state_answered(&self) -> State {
        if self.is_refused() {
            State::Old
        } else {
            State::New
        }
    }

    /// A run that ended by itself with the answer, and said nothing but the reason of a refusal.
    pub fn demand_answer(&self, ended: &Ended) -> Judged {
        demand_ended(ended)?;
        demand_none(difference(self.text.as_bytes(), &ended.output))?;
        let lines = ended.errors.lines().count();
        let lines_due = if self.is_refused() { 1 } else { 0 };
        demand(lines == lines_due, || format!("beside its answer it says {:?}", ended.errors))
    }

    /// A run with either the answer or the message that OUT is as it was, and nothing left.
    pub fn demand_either(&self, ended: &Ended, files: Files) -> Judged {
        let found = self.found(files)?;
        found.demand_nothing_left()?;
        if found.state == self.state_answered() {
            return self.demand_answer(ended);
        }
        demand_message(ended, Said::AsItWas)
    }
}

impl Found {
    pub fn demand_nothing_left(&self) -> Judged {
        demand(self.left.is_empty(), || format!("it left {:?}", self.left))
    }
}

pub fn demand_ended(ended: &Ended) -> Judged {
    let by_itself = matches!(ended.end, End::Status(_));
    demand(by_itself, || format!("it did not end by itself: {:?}", ended.end))
}

// ---- messages

/// What a message says of OUT.
#[derive(Clone, Copy, PartialEq, Debug)]
pub enum Said {
    AsItWas,
    TheNewTable,
    OldOrNew,
}

const PHRASES: [(Said, &str); 3] = [
    (Said::AsItWas, "OUT is as it was"),
    (Said::TheNewTable, "OUT is the new table"),
    (Said::OldOrNew, "OUT is the old table or the new one"),
];

/// What is said on standard error; it must be one thing.
pub fn said(ended: &Ended) -> Result<Said, Box<dyn Error>> {
    let errors = &ended.errors;
    let mut said = PHRASES.iter().filter(|(_, phrase)| errors.contains(phrase));
    match (said.next(), said.next()) {
        (Some((said, _)), None) => Ok(*said),
        (None, _) => Err(format!("it does not say what OUT is: {errors:?}").into()),
        _ => Err(format!("it says two things of OUT: {errors:?}").into()),
    }
}

/// A run that ended by itself without an answer, and said this.
pub fn demand_message(ended: &Ended, due: Said) -> Judged {
    demand_ended(ended)?;
    demand_none(difference(b"", &ended.output))?;
    let said = said(ended)?;
    demand(said == due, || format!("{due:?} is due, and it says {:?}", ended.errors))
}
