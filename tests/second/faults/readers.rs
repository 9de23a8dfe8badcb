//! `look`, `show`, `list` and `judge` where a read or a write fails or is cut short: no answer is made
//! of what could not be read, and nothing is printed after what could not be written.

use crate::faults::calls::Deed;
use crate::faults::checks::{check, demand, demand_none, Check, Judged};
use crate::faults::failures::ERRORS;
use crate::faults::outcome::demand_ended;
use crate::faults::streams::{SIGPIPE, UNWRITABLE};
use crate::faults::traced::{self, nothing, only, Action, End, Ended, Plan, Start, Stream};
use crate::graphs;
use crate::image;
use crate::messages::{self, IS_CLOSED, IS_FOLDER};
use crate::parts::difference;
use crate::random::Random;
use crate::runs::ProgramRun;
use crate::shapes;
use crate::versions::Version;
use std::error::Error;
use std::io;

/// A large image is read in pieces of so many bytes at the most, so that there are some,
const PIECE: u64 = 20_000;

/// and a long answer printed in such.
const PRINTED_PIECE: u64 = 5_000;

/// A program that reads its standard input, and what it must print.
pub struct Reader<'a> {
    title: String,
    /// The program, by its words.
    program: &'a [String],
    run: ProgramRun,
    /// How many reads and how many writes there are at least, in pieces.
    least: [usize; 2],
}

/// The programs with a large table, to look at and to show the largest image with lengths, and without
/// one.
pub fn all<'a>([look, show, list, judge]: [&'a [String]; 4]) -> Vec<Reader<'a>> {
    let random = &mut Random::of_case(1, 0);
    let largest = graphs::largest(random);
    let largest = graphs::image(random, Version::Two, &largest);
    let chain = image::of_table(&shapes::chain(2_048).counted(1));
    let fan = image::of_table(&shapes::fan(2_048).counted(1));
    let of = |program, run: ProgramRun, least| {
        let title = format!("{} with {} bytes", run.command(), run.stream.len());
        Reader { title, program, run, least }
    };
    vec![
        of(look, ProgramRun::look(largest.clone()), [4, 1]),
        of(show, ProgramRun::show(largest), [4, 10]),
        of(list, ProgramRun::list(chain), [3, 3]),
        of(judge, ProgramRun::judge("0", "1", fan), [4, 1]),
        of(look, ProgramRun::look(Vec::new()), [1, 1]),
        of(show, ProgramRun::show(Vec::new()), [1, 1]),
        of(list, ProgramRun::list(Vec::new()), [1, 1]),
        of(judge, ProgramRun::judge("0", "1", Vec::new()), [1, 1]),
    ]
}

impl Reader<'_> {
    fn start(&self, streams: [Stream; 3]) -> Start {
        Start {
            words: [self.program, &self.run.words].concat(),
            folder: ".".into(),
            input: self.run.stream.clone(),
            streams,
            umask: 0o022,
        }
    }

    /// A run in pieces.
    fn run(&self, streams: [Stream; 3], plan: Plan) -> io::Result<Ended> {
        let start = self.start(streams);
        traced::run(&start, &mut |place, call| match (plan(place, call), call.deed()) {
            (Action::Do, Deed::Read(0)) => Action::Shorten(PIECE),
            (Action::Do, Deed::Write(1)) => Action::Shorten(PRINTED_PIECE),
            (action, _) => action,
        })
    }

    fn due(&self) -> &[u8] {
        self.run.text().as_bytes()
    }

    fn demand_answer(&self, ended: &Ended) -> Judged {
        demand_ended(ended)?;
        demand_none(difference(self.due(), &ended.output))?;
        let is_refused = self.due().starts_with(b"refused");
        demand(is_refused || ended.errors.is_empty(), || format!("it says {:?}", ended.errors))
    }

    /// A run that nothing befalls: the answer is one write; in pieces, the calls must be enough to
    /// try something.
    pub fn unhindered(&self) -> Vec<Check<'_>> {
        let whole = check(format!("{}, and the answer is one write", self.title), move || {
            let ended = traced::run(&self.start(KEPT), &mut nothing)?;
            let writes = many(&ended, Deed::Write(1));
            demand(writes == 1, || format!("so many writes: {writes}"))?;
            self.demand_answer(&ended)
        });
        let in_pieces = check(format!("{}, and nothing fails", self.title), move || {
            let ended = self.run(KEPT, &mut nothing)?;
            let counts = [Deed::Read(0), Deed::Write(1)].map(|deed| many(&ended, deed));
            let enough = counts.iter().zip(self.least).all(|(&count, least)| count >= least);
            demand(enough, || format!("so many reads and writes are too few: {counts:?}"))?;
            self.demand_answer(&ended)
        });
        vec![whole, in_pieces]
    }

    /// Each read and each write fails once.
    pub fn failures(&self) -> Result<Vec<Check<'_>>, Box<dyn Error>> {
        let mut checks = Vec::new();
        let ended = self.run(KEPT, &mut nothing)?;
        demand_ended(&ended)?;
        for (place, call) in ended.calls.iter().enumerate() {
            let deed = call.deed();
            if ![Deed::Read(0), Deed::Write(1), Deed::Write(2)].contains(&deed) {
                continue;
            }
            let title = format!("{}, call {place}, {}", self.title, call.name());
            let ways = ERRORS.map(|error| [Action::Fail(error), Action::DoAndFail(error)]);
            for action in ways.concat() {
                checks.push(check(format!("{title}: {action:?}"), move || {
                    self.failed(place, deed, action)
                }));
            }
        }
        Ok(checks)
    }

    fn failed(&self, place: usize, deed: Deed, action: Action) -> Judged {
        let ended = self.run(KEPT, &mut only(place, action))?;
        demand_ended(&ended)?;
        let is_same = ended.calls.get(place).is_some_and(|call| call.deed() == deed);
        demand(is_same, || "the call is another one than before".to_string())?;
        match (deed, action) {
            (Deed::Read(_), Action::Fail(error) | Action::DoAndFail(error)) => {
                demand_not_read(&ended, error)
            }
            (Deed::Write(1), _) => self.demand_stopped(&ended, place, action),
            // only the reason of a refusal is not said
            _ => demand_none(difference(self.due(), &ended.output)),
        }
    }

    /// What was printed before a place stands there, and nothing is printed after it.
    fn demand_stopped(&self, ended: &Ended, place: usize, action: Action) -> Judged {
        let is_print = |at: &usize| ended.calls[*at].deed() == Deed::Write(1);
        let before = (0..place).filter(is_print).filter_map(|at| ended.calls[at].answer);
        let mut printed = before.sum::<i64>() as usize;
        if let Action::DoAndFail(_) = action {
            printed += ended.calls[place].arguments[2] as usize;
        }
        let due = self.due().get(..printed).ok_or("it prints too much")?;
        demand_none(difference(due, &ended.output))?;
        let more = (place + 1..ended.calls.len()).filter(is_print).count();
        demand(more == 0, || "it prints on".to_string())?;
        demand_not_written(ended)
    }

    /// Every read and every write is cut to so many bytes: they must be gone on with.
    pub fn in_pieces(&self) -> Vec<Check<'_>> {
        let title = |most| format!("{}, in pieces of {most}", self.title);
        [57, 1_000].map(|most| check(title(most), move || self.cut(most))).into()
    }

    fn cut(&self, most: u64) -> Judged {
        let ended = self.run(KEPT, &mut |_, call| match call.deed() {
            Deed::Read(0) | Deed::Write(_) => Action::Shorten(most),
            _ => Action::Do,
        })?;
        self.demand_answer(&ended)
    }

    /// Standard input that gives nothing, and standard output that takes nothing.
    pub fn without_streams(&self) -> Vec<Check<'_>> {
        let mut checks = Vec::new();
        for (stream, name, error) in
            [(Stream::Closed, "closed", IS_CLOSED), (Stream::Folder, "a folder", IS_FOLDER)]
        {
            checks.push(check(format!("{}, standard input is {name}", self.title), move || {
                let streams = [stream, Stream::Kept, Stream::Kept];
                demand_not_read(&self.run(streams, &mut nothing)?, error)
            }));
        }
        for &(stream, name) in UNWRITABLE.iter().chain(&[(Stream::Closed, "closed")]) {
            checks.push(check(format!("{}, standard output is {name}", self.title), move || {
                let streams = [Stream::Kept, stream, Stream::Kept];
                let ended = self.run(streams, &mut nothing)?;
                if stream == Stream::Gone && ended.end == End::Signal(SIGPIPE) {
                    return Ok(());
                }
                demand_not_written(&ended)
            }));
        }
        checks
    }
}

const KEPT: [Stream; 3] = [Stream::Kept; 3];

/// How many calls do this.
fn many(ended: &Ended, deed: Deed) -> usize {
    ended.calls.iter().filter(|call| call.deed() == deed).count()
}

fn demand_not_read(ended: &Ended, error: i64) -> Judged {
    demand_none(difference(b"", &ended.output))?;
    demand_said(ended, &messages::unread_input(error))
}

fn demand_not_written(ended: &Ended) -> Judged {
    demand_said(ended, messages::UNPRINTED)
}

fn demand_said(ended: &Ended, message: &str) -> Judged {
    demand_ended(ended)?;
    demand_none(difference(message.as_bytes(), ended.errors.as_bytes()))
}
