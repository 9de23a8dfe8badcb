//! What may befall the programs from outside: a fold is stopped at any of its system calls, two run
//! at once, calls fail, standard streams are closed or full, and OUT is a file of any kind.
//! Whatever comes, OUT is whole, old or new, and what is printed is true.
//!
//! - stops.rs, failures.rs, streams.rs, kinds.rs, readers.rs, stack.rs, emulated.rs: what may befall
//!   them
//! - traced.rs, alone.rs, calls.rs, story.rs, scene.rs, outcome.rs, folders.rs, checks.rs: how that is
//!   done, and what is held against it

mod alone;
mod calls;
mod checks;
mod emulated;
mod failures;
mod folders;
mod kinds;
mod outcome;
mod readers;
mod scene;
mod stack;
mod stops;
pub mod story;
mod streams;
mod traced;

use crate::count::Count;
use crate::programs::words_of;
use crate::runs::PROGRAMS;
use checks::{check, demand, judge_all, judge_in_turn, Check, Judged};
use folders::FOLDERS;
use scene::{Rehearsed, Scene};
use std::fs;
use story::Step;
use traced::CAN_TRACE;

/// Tries all. Many programs are started, which is the quicker the less memory this one has.
pub fn check_all(count: &mut Count) {
    let _ = fs::remove_dir_all(FOLDERS);
    let mut tried = vec![of_each(count)];
    if CAN_TRACE {
        tried.extend([of_fold(count), of_readers(count)]);
    } else {
        println!("faults: few, since a program in an emulator cannot be traced");
    }
    for outcome in tried {
        if let Err(error) = outcome {
            count.judge("what may befall the programs", Some(error.to_string()));
        }
    }
    let _ = fs::remove_dir_all(FOLDERS);
}

fn of_fold(count: &mut Count) -> Judged {
    let program = &words_of("fold")?;
    let scenes = [
        Scene::out_is_missing(program),
        Scene::out_is_old(program),
        Scene::in_is_out(program),
        Scene::after_a_stop(program),
        Scene::refused(program),
        Scene::of_rings(program),
    ];
    let [missing, old, same, stopped, refused, rings] = scenes.clone().map(Scene::rehearsed);
    let all = [&missing?, &old?, &same?, &stopped?, &refused?, &rings?];
    let [missing, old, same, _, refused, _] = all;
    let failing = [missing, old, same, refused];

    judge_all("folds that nothing befalls", for_each(&all, unhindered), count);
    judge_all("folds that are killed, and run again", for_each(&all, stops::kills), count);
    judge_all("folds whose new name is taken", for_each(&[old], stops::name_taken), count);
    let mut two = stops::two_at_once(missing, 1);
    two.extend(stops::two_at_once(old, 2));
    two.extend(stops::two_at_once(same, 1));
    judge_all("folds that are stopped while another one runs", two, count);
    judge_all("folds of which a call fails", for_each(&failing, failures::all), count);
    judge_all("reasons why IN cannot be opened", failures::reasons(missing), count);
    let in_pieces = for_each(&failing, failures::in_pieces);
    judge_all("folds whose reads and writes are cut short", in_pieces, count);
    judge_all("folds with closed streams", streams::closed(&scenes[1..3]), count);
    judge_in_turn("folds that cannot print", streams::unwritable(&scenes), count);
    judge_all("kinds of OUT that are left alone", kinds::left_alone(program), count);
    judge_all("names of OUT that are written", kinds::written(program), count);
    judge_all("rights of OUT", kinds::rights(program)?, count);
    Ok(())
}

/// The tests of one kind for each of these folds.
fn for_each<'a>(
    folds: &[&'a Rehearsed<'a>],
    tests: fn(&'a Rehearsed<'a>) -> Vec<Check<'a>>,
) -> Vec<Check<'a>> {
    folds.iter().flat_map(|&fold| tests(fold)).collect()
}

/// The answer, the files and the order of the calls, and that every step is there which is tried.
fn unhindered<'a>(fold: &'a Rehearsed<'a>) -> Vec<Check<'a>> {
    let answer = check(format!("fold, {}", fold.scene.name), move || {
        fold.scene.demand_answer(&fold.scene.laid_out()?)
    });
    let steps = check(format!("fold, {}, its steps", fold.scene.name), move || {
        let missing: Vec<Step> =
            fold.steps_due().into_iter().filter(|&step| !fold.has(step)).collect();
        demand(missing.is_empty(), || format!("there is no {missing:?}"))
    });
    vec![answer, steps]
}

fn of_readers(count: &mut Count) -> Judged {
    let [look, show, list, judge] = ["look", "show", "list", "judge"].map(words_of);
    let programs = [&look?[..], &show?, &list?, &judge?];
    let readers = readers::all(programs);
    let unhindered = readers.iter().flat_map(|reader| reader.unhindered()).collect();
    judge_all("runs of look, show, list and judge that nothing befalls", unhindered, count);
    let mut failures = Vec::new();
    for reader in &readers {
        failures.extend(reader.failures()?);
    }
    judge_all("runs of look, show, list and judge of which a call fails", failures, count);
    let in_pieces = readers.iter().flat_map(|reader| reader.in_pieces()).collect();
    judge_all("runs whose reads and writes are cut short", in_pieces, count);
    let without = readers.iter().flat_map(|reader| reader.without_streams()).collect();
    judge_in_turn("runs that cannot read or print", without, count);
    Ok(())
}

fn of_each(count: &mut Count) -> Judged {
    let [look, show, list, judge, fold] = PROGRAMS.map(words_of);
    let programs = [&look?[..], &show?, &list?, &judge?, &fold?];
    judge_all("runs with little stack", stack::all(programs), count);
    if !CAN_TRACE {
        judge_all("runs whose calls the emulator tells", emulated::all(programs), count);
    }
    Ok(())
}
