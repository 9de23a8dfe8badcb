//! One case again, by its number: what is asked, the answer that is expected and the one that comes, all
//! of it, and then where they differ first. What the program was handed is left in a folder.

use crate::batch;
use crate::cases::{self, Asked, Case};
use crate::count::Fault;
use crate::in_a_row;
use crate::operations::Operation;
use crate::parts::Part;
use crate::programs::{self, SHORT};
use crate::runs::ProgramRun;
use crate::self_test;
use crate::side_by_side;
use crate::turns::{self, Folds, State, Turns};
use std::fmt::Display;
use std::fs;
use std::io::{self, Write};
use std::path::Path;

/// Where it is left what the program was handed.
const FOLDER: &str = "tests/build/case";

/// The most lines that are printed of a part.
const MOST_LINES: usize = 2_100;

/// Runs a case again. True where nothing differs.
pub fn run(number: usize, seed: u64) -> bool {
    let cases = cases::all(seed);
    let Some(case) = cases.get(number) else {
        eprintln!("there are the cases 0 to {}", cases.len() - 1);
        return false;
    };
    say(case);
    print("asked", &case.parts());
    if let Err(error) = programs::words_of(case.program()) {
        say(error);
        return false;
    }
    let checks = match &case.asked {
        Asked::Batch(operation) => by_batch(&cases, case, operation),
        Asked::Program(run) => by_program(case, run),
        Asked::Turns(turns) => in_turn(turns),
    };
    for (name, fault) in &checks {
        say(format!("{name}: {}", fault.as_deref().unwrap_or("no difference")));
    }
    checks.iter().all(|(_, fault)| fault.is_none())
}

/// Prints a line; whoever reads them may stop before the end.
fn say(line: impl Display) {
    let _ = writeln!(io::stdout(), "{line}");
}

/// What was tried, and what is wrong.
type Checks = Vec<(&'static str, Fault)>;

fn print(what: &str, parts: &[Part]) {
    say(format!("{what}:"));
    for part in parts {
        let lines = part.lines();
        for line in lines.iter().take(MOST_LINES) {
            say(format!("  {line}"));
        }
        if lines.len() > MOST_LINES {
            say(format!("  and {} lines more", lines.len() - MOST_LINES));
        }
    }
}

/// The checks of the second program's own answer.
fn of_answer(case: &Case, answer: &[u8]) -> Checks {
    let by_hand = self_test::by_hand(case, answer).map(|fault| ("written by hand", fault));
    let both_ways = self_test::by_both_ways(case, answer).map(|fault| ("by the quick way", fault));
    let by_walk = self_test::by_walk(case, answer).map(|fault| ("by a walk", fault));
    by_hand.into_iter().chain(both_ways).chain(by_walk).collect()
}

/// Alone, and among the questions among which it stands in a comparison.
fn by_batch(cases: &[Case], case: &Case, operation: &Operation) -> Checks {
    let answer = operation.answer();
    print("expected", &operation.parts(&answer));
    let alone = batch::ask(&[operation]).remove(0);
    match &alone {
        Ok(printed) => print("came", &operation.parts(printed)),
        Err(why) => say(format!("came: {why}")),
    }
    hand_over(&format!("./gohardim batch <{FOLDER}/input"), |folder| {
        fs::write(folder.join("input"), operation.question())
    });
    let at = cases[..case.number].iter().filter_map(Case::operation).count();
    let all: Vec<&Operation> = cases.iter().filter_map(Case::operation).collect();
    let among = batch::ask_again(at, &all);
    let mut checks = of_answer(case, &answer);
    checks.push(("asked alone", batch::fault(operation, &answer, &alone)));
    checks.push(("asked among others", batch::fault(operation, &answer, &among)));
    if let Operation::Load { room, stream } = operation {
        let look = Operation::Look { stream: stream.clone() };
        let printed = batch::ask(&[&look, operation]);
        let [looked, loaded] = [0, 1].map(|at| batch::came(&printed[at]));
        let fault = in_a_row::of_load(stream, *room, looked, loaded);
        checks.push(("behind a look at the same image", fault));
    }
    let before = case.number.checked_sub(1).map(|before| &cases[before]);
    let plain = before.filter(|before| side_by_side::are_pair(before, case));
    if let Some(plain) = plain.and_then(Case::operation) {
        let printed = batch::ask(&[plain, operation]);
        let [due, came] = [0, 1].map(|at| batch::came(&printed[at]));
        checks.push(("beside the fold that refuses cycles", side_by_side::fault(due, came)));
    }
    checks
}

fn by_program(case: &Case, run: &ProgramRun) -> Checks {
    let outcome = run.outcome(&Path::new(FOLDER).join("run"), SHORT);
    if let Ok(came) = &outcome {
        print("expected", &run.expected(came).parts());
        print("came", &came.parts());
    }
    let by_hand = format!("cd {FOLDER}/files && ../../../../gohardim {} <../input", run.command());
    hand_over(&by_hand, |folder| {
        fs::write(folder.join("input"), &run.stream)?;
        run.lay_out(&folder.join("files"))
    });
    let mut checks = of_answer(case, run.text().as_bytes());
    checks.push(("run", run.fault(&outcome)));
    checks
}

/// By `batch`, and by the second program itself.
fn in_turn(turns: &Turns) -> Checks {
    let by = |folds: Folds| turns::turned(&[turns], folds).remove(0);
    let [batch, second] = [by(&batch::fold), by(&self_test::fold)];
    print_state("expected, folded by the sum", &batch.at_once);
    print_state("came, folded in turn", &batch.in_turn);
    vec![("by the second program", second.fault()), ("by batch", batch.fault())]
}

fn print_state(what: &str, state: &State) {
    match state {
        Ok(folded) => print(what, &folded.parts()),
        Err(why) => say(format!("{what}: {why}")),
    }
}

/// Leaves what the program is handed, and says how to hand it over by hand.
fn hand_over(by_hand: &str, leave: impl Fn(&Path) -> io::Result<()>) {
    let folder = Path::new(FOLDER);
    let _ = fs::remove_dir_all(folder);
    match fs::create_dir_all(folder).and_then(|_| leave(folder)) {
        Ok(()) => say(format!("by hand: {by_hand}")),
        Err(error) => say(format!("{FOLDER}: {error}")),
    }
}
