//! A fold of which one system call fails: what it prints, what it says and what it leaves must be
//! true of each other. And one whose reads and writes are cut short, which nobody may notice.

use crate::count::quoted;
use crate::faults::calls::{Call, Deed};
use crate::faults::checks::{check, demand, demand_none, Check, Judged};
use crate::faults::folders::demand_same;
use crate::faults::outcome::{demand_ended, said, Found, Said, State};
use crate::faults::scene::Rehearsed;
use crate::faults::story::Step::{self, *};
use crate::faults::traced::{Action, Ended};
use crate::messages;
use crate::parts::difference;

const EINTR: i64 = 4;
pub const EIO: i64 = 5;
pub const EACCES: i64 = 13;
pub const ENOSPC: i64 = 28;

/// The errors with which a call fails.
pub const ERRORS: [i64; 3] = [ENOSPC, EIO, EACCES];

// ---- one call fails

#[derive(Clone, Copy)]
struct Failure {
    place: usize,
    step: Step,
    action: Action,
    with: With,
}

/// What there is beside the call that fails.
#[derive(Clone, Copy, PartialEq)]
enum With {
    Nothing,
    /// No file can be removed.
    NoRemoval,
    /// The call before it was cut short.
    Cut,
}

/// Each of the program's own calls with each error, where it is not done, and where it is.
pub fn all<'a>(fold: &'a Rehearsed<'a>) -> Vec<Check<'a>> {
    let mut failures = Vec::new();
    for (place, &step) in fold.steps.iter().enumerate() {
        if [Loader, Own].contains(&step) {
            continue;
        }
        let mut add = |action, with| failures.push(Failure { place, step, action, with });
        for error in ERRORS {
            add(Action::Fail(error), With::Nothing);
            if may_be_done(step) {
                add(Action::DoAndFail(error), With::Nothing);
            }
            if leaves_new(step) {
                add(Action::Fail(error), With::NoRemoval);
            }
            if [WriteNew, Print].contains(&step) || fold.begins_reading(place) {
                add(Action::Fail(error), With::Cut);
            }
        }
        if [WriteNew, Print, Say].contains(&step) {
            add(Action::Shorten(0), With::Nothing);
        }
    }
    failures.into_iter().map(|failure| failure.check(fold)).collect()
}

/// Whether a call that answers an error may have been done nevertheless.
fn may_be_done(step: Step) -> bool {
    let closes = [CloseNull, CloseIn, CloseOut, CloseNew, CloseFolder];
    let others = [WriteNew, FlushNew, Rename, FlushFolder, Print, Say];
    closes.contains(&step) || others.contains(&step)
}

/// Whether there is a new file to be removed where the step fails.
fn leaves_new(step: Step) -> bool {
    [WriteNew, SetOwner, SetRights, FlushNew, CloseNew, Rename].contains(&step)
}

impl Failure {
    fn check<'a>(self, fold: &'a Rehearsed<'a>) -> Check<'a> {
        let with = match self.with {
            With::Nothing => "",
            With::NoRemoval => ", and nothing can be removed",
            With::Cut => ", behind a call that is cut short",
        };
        let title = format!("{}: {:?}{with}", fold.title(self.place), self.action);
        check(title, move || self.demand(fold))
    }

    fn demand(self, fold: &Rehearsed) -> Judged {
        let Rehearsed { scene, due, .. } = fold;
        let folder = scene.laid_out()?;
        let ended = scene.run(&folder, &mut |at, call| self.plan(at, call))?;
        fold.demand_same_calls(&ended, self.place)?;
        demand_ended(&ended)?;
        scene.demand_order(&ended)?;
        let failed = scene.story(&ended).steps.get(self.failing()).copied();
        demand(failed == Some(self.step), || format!("the call that fails is {failed:?}"))?;
        let found = due.found(folder.files()?)?;
        let most = if self.with == With::NoRemoval { 1 } else { 0 };
        demand(found.left.len() <= most, || format!("it left {:?}", found.left))?;
        self.demand_truth(fold, &ended, &found)
    }

    /// The place of the call that fails.
    fn failing(self) -> usize {
        if self.with == With::Cut {
            self.place + 1
        } else {
            self.place
        }
    }

    fn plan(self, at: usize, call: &Call) -> Action {
        if at == self.failing() {
            self.action
        } else if at == self.place {
            Action::Shorten(5)
        } else if self.with == With::NoRemoval && call.deed() == Deed::Remove {
            Action::Fail(EACCES)
        } else {
            Action::Do
        }
    }

    fn demand_truth(self, fold: &Rehearsed, ended: &Ended, found: &Found) -> Judged {
        let (due, state) = (&fold.due, found.state);
        let answered = ended.output == due.text.as_bytes();
        let printed = || format!("OUT is {state:?}, and it prints {}", quoted(&ended.output));
        demand(due.text.as_bytes().starts_with(&ended.output), printed)?;
        if answered && !self.prints_anyway() {
            demand(self.may_be_passed_over() && state == due.state_answered(), printed)?;
            return if self.step == Say { Ok(()) } else { due.demand_answer(ended) };
        }
        demand(ended.output.is_empty() || self.prints_anyway(), printed)?;
        let is_true = match said(ended)? {
            Said::AsItWas => state == State::Old,
            Said::TheNewTable => state == State::New,
            Said::OldOrNew => self.step == Rename,
        };
        demand(is_true, || format!("OUT is {state:?}, and it says {:?}", ended.errors))?;
        demand_none(difference(self.message(fold).as_bytes(), ended.errors.as_bytes()))
    }

    /// What it says.
    fn message(self, fold: &Rehearsed) -> String {
        if self.step == Print {
            return messages::unprinted(fold.due.is_refused());
        }
        let error = match self.action {
            Action::Fail(error) | Action::DoAndFail(error) => error,
            // that a write takes nothing is no error of the system's
            _ => EIO,
        };
        messages::of_step(self.step, error, fold.scene.input, &fold.scene.output)
    }

    /// Whether some of the answer is printed although its print fails.
    fn prints_anyway(self) -> bool {
        let is_done = matches!(self.action, Action::DoAndFail(_)) || self.with == With::Cut;
        self.step == Print && is_done
    }

    /// To what nothing was written, or what was flushed, there is nothing to lose when it is closed;
    /// not everyone may give a file away; an answer is true without its reason; and an open of IN that
    /// was interrupted, or a write that took nothing, may be tried again.
    fn may_be_passed_over(self) -> bool {
        [CloseNull, CloseIn, CloseOut, CloseNew, CloseFolder, SetOwner, Say].contains(&self.step)
            || self.step == OpenIn && matches!(self.action, Action::Fail(EINTR))
            || matches!(self.action, Action::Shorten(_))
    }
}

// ---- each error of the system

/// IN cannot be opened, for each reason that there is.
pub fn reasons<'a>(fold: &'a Rehearsed<'a>) -> Vec<Check<'a>> {
    let place = fold.steps.iter().position(|&step| step == OpenIn);
    let failure = |error| {
        let (action, with) = (Action::Fail(error), With::Nothing);
        Some(Failure { place: place?, step: OpenIn, action, with }.check(fold))
    };
    (1..=LAST_ERROR).filter_map(failure).collect()
}

/// The largest number of an error.
const LAST_ERROR: i64 = 133;

// ---- all reads and writes are cut short

/// They must be gone on with.
pub fn in_pieces<'a>(fold: &'a Rehearsed<'a>) -> Vec<Check<'a>> {
    let title = |most| format!("fold, {}, in pieces of {most}", fold.scene.name);
    [1, 7, 100].map(|most| check(title(most), move || cut(fold, most))).into()
}

fn cut(fold: &Rehearsed, most: u64) -> Judged {
    let Rehearsed { scene, due, .. } = fold;
    let folder = scene.laid_out()?;
    let ended = scene.run(&folder, &mut |at, call| match call.deed() {
        Deed::Read(_) | Deed::Write(_) if fold.has_begun(at) => Action::Shorten(most),
        _ => Action::Do,
    })?;
    due.demand_answer(&ended)?;
    scene.demand_order(&ended)?;
    demand_same(due.answered(), &folder.files()?)
}
