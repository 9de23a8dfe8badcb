//! Where no program can be traced, the emulator tells their system calls: an answer is one write, and
//! a fold prints its line once OUT is replaced.

use crate::faults::alone::{ran, with_words};
use crate::faults::checks::{check, demand, demand_none, Check, Judged};
use crate::image;
use crate::parts::difference;
use crate::runs::ProgramRun;
use crate::shapes;
use crate::table::MOST_VERTICES;

/// What the emulator tells of the calls in a run, each as its name and arguments.
fn calls(program: &[String], run: &ProgramRun) -> Result<Vec<String>, Box<dyn std::error::Error>> {
    let done = ran(&with_words(program, &["-strace"]), run)?;
    demand_none(difference(run.text().as_bytes(), &done.stdout))?;
    let told = String::from_utf8_lossy(&done.stderr).into_owned();
    // before each call stands the number of the process
    Ok(told.lines().filter_map(|line| Some(line.split_once(' ')?.1.to_string())).collect())
}

fn places(calls: &[String], beginning: &str) -> Vec<usize> {
    (0..calls.len()).filter(|&place| calls[place].starts_with(beginning)).collect()
}

fn one_write(program: &[String], run: &ProgramRun) -> Judged {
    let calls = calls(program, run)?;
    let prints = places(&calls, "write(1,");
    demand(prints.len() == 1, || format!("so many writes: {}", prints.len()))?;
    let renames = places(&calls, "rename(");
    let is_due = run.program == "fold" && !run.text().starts_with("refused");
    demand(renames.len() == usize::from(is_due), || format!("{} renames", renames.len()))?;
    demand(renames.iter().all(|&rename| rename < prints[0]), || "it prints too early".to_string())
}

/// Each program, by its words, on a large table without lengths and with them, and on one that is refused.
pub fn all<'a>([look, show, list, judge, fold]: [&'a [String]; 5]) -> Vec<Check<'a>> {
    let mut checks = Vec::new();
    let chain = shapes::chain(2_048).counted(1);
    let with_lengths = image::with_lengths(&chain, &[u16::MAX; MOST_VERTICES]);
    for stream in [image::of_table(&chain), with_lengths, b"SBT".to_vec()] {
        let files = vec![("in.sbt".to_string(), stream.clone())];
        let runs = [
            (look, ProgramRun::look(stream.clone())),
            (show, ProgramRun::show(stream.clone())),
            (list, ProgramRun::list(stream.clone())),
            (judge, ProgramRun::judge("0", "1", stream)),
            (fold, ProgramRun::fold(1, "in.sbt", "out.sbt", files.clone())),
            (fold, ProgramRun::fold_rings(1, "in.sbt", "out.sbt", files)),
        ];
        for (program, run) in runs {
            let title = format!("{}, and the answer is one write", run.command());
            checks.push(check(title, move || one_write(program, &run)));
        }
    }
    checks
}
