//! The second program held to itself and to the rules: its answers to what was written by hand, the
//! definition against the quick way, cycles against a walk, images and what they hold turned into each
//! other, folding in turn against folding by the sum, look and load in a row, both folds of a version on
//! tables without a cycle, and that the cases reach what they must.

use crate::cases::{self, Case};
use crate::count::{Count, Fault};
use crate::coverage;
use crate::fold::{self, Folded};
use crate::image;
use crate::in_a_row;
use crate::operations::Operation;
use crate::parallel;
use crate::parts::difference_of_parts;
use crate::quick;
use crate::side_by_side;
use crate::superbubbles;
use crate::turns::Question;
use crate::walk;

/// Tries all, and prints how many checks there are of each kind. The answers are those to the cases.
pub fn check(cases: &[Case], answers: &[Vec<u8>], count: &mut Count) {
    count.judge_all(coverage::check(cases, answers));
    let with_answers: Vec<(&Case, &Vec<u8>)> = cases.iter().zip(answers).collect();
    let each = |check: fn(&Case, &[u8]) -> Option<Fault>| {
        let check = |&(case, answer): &(_, &Vec<u8>)| Some((case, check(case, answer)?));
        parallel::each(&with_answers, check).into_iter().flatten().collect()
    };
    let answered: Vec<(&Case, &[u8])> =
        with_answers.iter().map(|&(case, answer)| (case, &answer[..])).collect();
    let kinds: [(&str, Vec<(&Case, Fault)>); 7] = [
        ("answers written by hand", each(by_hand)),
        ("answers by the definition and by the quick way", each(by_both_ways)),
        ("cycles, found or not, by either way and by a walk", each(by_walk)),
        ("images and what they hold, there and back", each(there_and_back)),
        ("tables folded in turn and by the sum", cases::in_turn(cases, &fold)),
        ("looks and loads in a row", in_a_row::checks(answered.iter().copied())),
        ("tables without a cycle by both folds of a version", side_by_side::checks(&answered)),
    ];
    for (kind, checks) in kinds {
        println!("self-test: {} {kind}", checks.len());
        let told = |fault| format!("self-test, {kind}: {fault}");
        let checks = checks.into_iter().map(|(case, fault)| (case, fault.map(told)));
        cases::judge(checks.collect(), count);
    }
}

/// What is wrong with an answer, by what was written by hand, where anything was.
pub fn by_hand(case: &Case, answer: &[u8]) -> Option<Fault> {
    let due = case.by_hand.as_ref()?;
    let begin = &answer[..answer.len().min(due.len())];
    Some(difference_of_parts(&case.parts_of(due), &case.parts_of(begin)))
}

/// The same of an answer about superbubbles of a small table: it was found by the definition, and now
/// quickly.
pub fn by_both_ways(case: &Case, answer: &[u8]) -> Option<Fault> {
    let operation = case.operation()?;
    operation.searched().filter(|table| superbubbles::is_small(table))?;
    Some(operation.difference(answer, &operation.answer_by(&quick::WAY)))
}

/// The same of the answer to a fold, by whether a walk over its table closes a cycle.
pub fn by_walk(case: &Case, answer: &[u8]) -> Option<Fault> {
    let (table, is_refused) = case.operation()?.cycle_tested(answer)?;
    let due = walk::over(table).closed.is_some();
    Some((is_refused != due).then(|| format!("refused 9: {is_refused}, by a walk: {due}")))
}

/// What is wrong with an image that is accepted, or with a table that is written: what it holds makes the
/// same image, and its image holds the same.
fn there_and_back(case: &Case, _: &[u8]) -> Option<Fault> {
    let operation = case.operation().filter(|operation| operation.faults().is_empty())?;
    let is_same = match operation {
        Operation::Look { stream } => image::content_in(stream).image() == *stream,
        Operation::Write { content, .. } => image::content_in(&content.image()) == *content,
        _ => return None,
    };
    Some((!is_same).then(|| "another one comes back".to_string()))
}

/// Folds by the second program itself.
pub fn fold(questions: &[Question]) -> Vec<Result<Folded, String>> {
    parallel::each(questions, |(folding, table, budget)| {
        Ok(fold::fold(superbubbles::way(table), *folding, table, *budget))
    })
}
