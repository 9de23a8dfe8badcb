//! Folds whose standard streams are closed, full or without a reader.

use crate::faults::calls::{Call, Deed};
use crate::faults::checks::{check, demand_none, Check, Judged};
use crate::faults::failures::{EIO, ENOSPC};
use crate::faults::folders::demand_same;
use crate::faults::outcome::{demand_ended, demand_message, Said};
use crate::faults::scene::Scene;
use crate::faults::traced::{Action, End, Stream};
use crate::parts::difference;

// ---- closed

/// What fails while streams are closed.
#[derive(Clone, Copy, PartialEq, Debug)]
enum Failing {
    Nothing,
    /// To write the new file.
    Write,
    /// To flush it.
    Flush,
    /// To put something in the place of a closed stream.
    Null,
}

impl Failing {
    fn action(self, call: &Call) -> Action {
        match (self, call.deed()) {
            (Failing::Write, Deed::Write(3..)) => Action::Fail(ENOSPC),
            (Failing::Flush, Deed::Flush(_)) => Action::Fail(EIO),
            (Failing::Null, Deed::Open { .. }) if call.names[0].name == "/dev/null" => {
                Action::Fail(EIO)
            }
            _ => Action::Do,
        }
    }
}

/// Each of the eight ways to close some streams.
pub fn closed<'a>(scenes: &[Scene<'a>]) -> Vec<Check<'a>> {
    let mut checks = Vec::new();
    for scene in scenes {
        for closed in 0..8 {
            let is_closed = |number: usize| closed >> number & 1 == 1;
            let stream = |number| if is_closed(number) { Stream::Closed } else { Stream::Kept };
            let streams = [0, 1, 2].map(stream);
            let numbers: Vec<usize> = (0..3).filter(|&number| is_closed(number)).collect();
            for failing in [Failing::Nothing, Failing::Write, Failing::Flush, Failing::Null] {
                let scene = Scene { streams, ..scene.clone() };
                let title = format!("fold, {}, {numbers:?} closed, {failing:?} fails", scene.name);
                checks.push(check(title, move || with_closed(&scene, failing)));
            }
        }
    }
    checks
}

fn with_closed(scene: &Scene, failing: Failing) -> Judged {
    let folder = scene.laid_out()?;
    let due = scene.due(folder.files()?);
    let ended = scene.run(&folder, &mut |_, call| failing.action(call))?;
    demand_ended(&ended)?;
    scene.demand_order(&ended)?;
    let (files, said) = match failing {
        Failing::Nothing => (due.answered(), Said::TheNewTable),
        _ => (&due.old, Said::AsItWas),
    };
    demand_same(files, &folder.files()?)?;
    let [_, prints, says] = scene.streams.map(|stream| stream == Stream::Kept);
    if prints && failing == Failing::Nothing {
        due.demand_answer(&ended)
    } else if says {
        demand_message(&ended, said)
    } else {
        demand_none(difference(b"", &ended.output))
    }
}

// ---- standard output that takes nothing

pub const SIGPIPE: i32 = 13;

pub const UNWRITABLE: [(Stream, &str); 3] = [
    (Stream::Full, "full"),
    (Stream::GoneQuietly, "a pipe without a reader"),
    (Stream::Gone, "a pipe without a reader, whose signal ends the program"),
];

pub fn unwritable<'a>(scenes: &[Scene<'a>]) -> Vec<Check<'a>> {
    let mut checks = Vec::new();
    for scene in scenes {
        for (stream, name) in UNWRITABLE {
            let scene = Scene { streams: [Stream::Kept, stream, Stream::Kept], ..scene.clone() };
            let title = format!("fold, {}, standard output is {name}", scene.name);
            checks.push(check(title, move || unwritten(&scene)));
        }
    }
    checks
}

fn unwritten(scene: &Scene) -> Judged {
    let folder = scene.laid_out()?;
    let due = scene.due(folder.files()?);
    let ended = scene.run_freely(&folder)?;
    scene.demand_order(&ended)?;
    demand_same(due.answered(), &folder.files()?)?;
    if scene.streams[1] == Stream::Gone && ended.end == End::Signal(SIGPIPE) {
        return Ok(());
    }
    demand_message(&ended, if due.is_refused() { Said::AsItWas } else { Said::TheNewTable })
}
