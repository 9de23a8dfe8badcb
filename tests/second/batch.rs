//! Runs of the program `batch`: many questions to one run, and what it printed for each.

use crate::answers;
use crate::count::{quoted, Fault};
use crate::fold::Folded;
use crate::image::Room;
use crate::operations::Operation;
use crate::parallel;
use crate::parts::difference;
use crate::programs::{self, SHORT, WHOLE};
use crate::runs;
use crate::table::Table;
use crate::turns::Question;
use std::path::Path;

const QUESTIONS_TO_A_RUN: usize = 400;

/// What was printed for a question, or in words why nothing was.
pub type Printed = Result<Vec<u8>, String>;

/// Asks all, in runs in which each kind of question stands among the others, so that what one leaves
/// behind would show in the next.
pub fn ask(operations: &[&Operation]) -> Vec<Printed> {
    let runs = runs_for(operations);
    let firsts: Vec<usize> = (0..runs).collect();
    let mut printed =
        parallel::each(&firsts, |&first| ask_one_run(&questions_of(first, operations)).into_iter());
    (0..operations.len()).map(|at| printed[at % runs].next().unwrap()).collect()
}

/// Asks one of them again, among the same others.
pub fn ask_again(at: usize, operations: &[&Operation]) -> Printed {
    let runs = runs_for(operations);
    ask_one_run(&questions_of(at % runs, operations)).swap_remove(at / runs)
}

fn runs_for(operations: &[&Operation]) -> usize {
    operations.len().div_ceil(QUESTIONS_TO_A_RUN)
}

/// The questions of the run with this number.
fn questions_of<'a>(run: usize, operations: &[&'a Operation]) -> Vec<&'a Operation> {
    operations.iter().skip(run).step_by(runs_for(operations)).copied().collect()
}

/// What is wrong with what was printed for a question, by the answer that is expected.
pub fn fault(operation: &Operation, answer: &[u8], printed: &Printed) -> Fault {
    match printed {
        Ok(printed) => operation.difference(answer, printed),
        Err(why) => Some(why.clone()),
    }
}

/// What was printed for a question, or nothing.
pub fn came(printed: &Printed) -> &[u8] {
    printed.as_deref().unwrap_or(&[])
}

/// Folds tables, whatever comes of them.
pub fn fold(questions: &[Question]) -> Vec<Result<Folded, String>> {
    let operation = |&(folding, table, budget): &Question| {
        Operation::fold_exactly(folding, budget, table.clone())
    };
    let operations: Vec<Operation> = questions.iter().map(operation).collect();
    let printed = ask(&operations.iter().collect::<Vec<_>>());
    let folded = |(table, printed): (&Table, Printed)| {
        let printed = printed?;
        let folded = answers::folded_in(&printed, Room::taken_by(table), table.counts.len());
        folded.ok_or_else(|| format!("it is not folded: {}", quoted(&printed)))
    };
    questions.iter().map(|&(_, table, _)| table).zip(printed).map(folded).collect()
}

/// What is left of a run that ended early has no answer; what else a run has to tell is told by its
/// last question.
fn ask_one_run(operations: &[&Operation]) -> Vec<Printed> {
    let input: Vec<u8> = operations.iter().flat_map(|operation| operation.question()).collect();
    let run = programs::run(Path::new("."), &["batch"], &input, WHOLE, SHORT);
    let trouble = run.trouble(runs::status_of(&run.output));
    let trouble = trouble.or_else(|| difference(b"", run.errors.as_bytes()));
    let unanswered = |why: String| match &trouble {
        Some(trouble) => format!("{why}; {trouble}"),
        None => why,
    };
    let mut rest = &run.output[..];
    let answers = operations.iter().map(|operation| take_answer(operation, &mut rest));
    let mut printed: Vec<Printed> = answers.map(|one| one.map_err(unanswered)).collect();
    let last = printed.last_mut().unwrap();
    if last.is_ok() && !rest.is_empty() {
        *last = Err(format!("after its answer it printed {}", quoted(rest)));
    }
    if let (Ok(_), Some(trouble)) = (&last, trouble) {
        *last = Err(trouble);
    }
    printed
}

/// Takes the answer to one question from the front of what was printed.
fn take_answer(operation: &Operation, rest: &mut &[u8]) -> Printed {
    let Some(length) = operation.length_in(rest) else {
        let came = std::mem::take(rest);
        return Err(format!("no answer, the output ends with {}", quoted(came)));
    };
    let (answer, after) = rest.split_at(length);
    *rest = after;
    Ok(answer.to_vec())
}
