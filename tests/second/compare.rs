//! The comparison: asks the programs every case, holds what they print to the answers of the second
//! program, and counts. What is left of a run that ended early counts as failed.

use crate::batch;
use crate::cases::{self, Asked, Case};
use crate::count::Count;
use crate::examples;
use crate::faults;
use crate::in_a_row;
use crate::launcher;
use crate::operations::Operation;
use crate::parallel;
use crate::programs::{LONG, SHORT};
use crate::runs::{ProgramRun, PROGRAMS};
use crate::self_test;
use crate::side_by_side;
use std::path::{Path, PathBuf};

/// The folder of a run of a program that is run alone.
fn folder_of(run: &str) -> PathBuf {
    Path::new("tests/build/runs").join(run)
}

/// Compares all and prints the count as the last line. True where nothing failed.
pub fn compare(seed: u64) -> bool {
    let mut count = Count::default();
    faults::check_all(&mut count);
    let cases = cases::all(seed);
    let answers = cases::answers(&cases);
    println!("seed {seed}, {} cases", cases.len());
    self_test::check(&cases, &answers, &mut count);
    count.judge_all(examples::check());
    launcher::check(&mut count);
    ask_batch(&cases, &answers, &mut count);
    run_programs(&cases, &mut count);
    count.print()
}

/// Compares what is run alone, and no more: for wrong versions of the programs.
pub fn programs(seed: u64) -> bool {
    let mut count = Count::default();
    faults::check_all(&mut count);
    run_programs(&cases::all(seed), &mut count);
    count.print()
}

// ---- batch

fn ask_batch(cases: &[Case], answers: &[Vec<u8>], count: &mut Count) {
    if !starts("batch", count) {
        let of_batch = cases.iter().filter(|case| case.program() == "batch");
        return count.leave_out("batch", of_batch.count());
    }
    let asked: Vec<(&Case, &Operation, &Vec<u8>)> = cases
        .iter()
        .zip(answers)
        .filter_map(|(case, answer)| Some((case, case.operation()?, answer)))
        .collect();
    let operations: Vec<&Operation> = asked.iter().map(|&(_, operation, _)| operation).collect();
    let printed = batch::ask(&operations);
    let checks = asked.iter().zip(&printed).map(|(&(case, operation, answer), printed)| {
        (case, batch::fault(operation, answer, printed))
    });
    cases::judge(checks.collect(), count);
    let came = asked.iter().zip(&printed).map(|(&(case, _, _), came)| (case, batch::came(came)));
    let came: Vec<(&Case, &[u8])> = came.collect();
    cases::judge(in_a_row::checks(came.iter().copied()), count);
    cases::judge(side_by_side::checks(&came), count);
    cases::judge(cases::in_turn(cases, &batch::fold), count);
}

// ---- the programs that are run alone

fn run_programs(cases: &[Case], count: &mut Count) {
    for program in PROGRAMS {
        run_program(program, cases, count);
    }
}

fn run_program(program: &'static str, cases: &[Case], count: &mut Count) {
    let runs: Vec<(&Case, &ProgramRun)> = cases
        .iter()
        .filter_map(|case| match &case.asked {
            Asked::Program(run) if run.program == program => Some((case, run)),
            _ => None,
        })
        .collect();
    if !starts(program, count) {
        return count.leave_out(program, runs.len());
    }
    let checks = parallel::each(&runs, |&(case, run)| {
        (case, run.fault(&run.outcome(&folder_of(&case.number.to_string()), SHORT)))
    });
    cases::judge(checks, count);
}

/// The first run of a program, in another folder than the root, with an empty input: where it is
/// missing it is built. True where it ran.
fn starts(program: &'static str, count: &mut Count) -> bool {
    let run = ProgramRun::to_start(program);
    let outcome = run.outcome(&folder_of(program), LONG);
    count.judge(format!("{} with an empty input", run.command()), run.fault(&outcome));
    outcome.is_ok_and(|outcome| outcome.run.status.is_ok())
}
