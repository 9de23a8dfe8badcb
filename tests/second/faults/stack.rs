//! The stack that each program needs, as docs/SHEET.md states it: the programs are run with no more.

use crate::faults::alone::{is_emulated, ran, with_words};
use crate::faults::checks::{check, demand, demand_none, Check};
use crate::image;
use crate::parts::difference;
use crate::runs::ProgramRun;
use crate::shapes;
use crate::sheet;
use crate::table::MOST_VERTICES;
use std::io;
use std::process::Output;

/// The programs' stack in KB.
const LOOK: u32 = 128;
const READERS: u32 = 256;
const FOLD: u32 = 448;

/// With so little a program does not make do: that it fails shows that the limit is felt.
const TOO_LITTLE: u32 = 128;
/// `look` has one array, of 61,458 bytes. The emulator gives no program less than 128 KB.
const TOO_LITTLE_FOR_LOOK: u32 = 48;

fn stated() -> Check<'static> {
    check("docs/SHEET.md states the stack".to_string(), || {
        let words = format!(
            "{LOOK} KB (`look`), {READERS} KB (`show`, `list`, `judge`) and {FOLD} KB (`fold`)"
        );
        demand(sheet::has(&words), || format!("it does not say {words}"))
    })
}

/// Runs a program with so many KB of stack. The emulator takes that by a word of its own: the shell's
/// limit is not that of the program which it runs.
fn limited(program: &[String], run: &ProgramRun, kilobytes: u32) -> io::Result<Output> {
    let bytes = (1_024 * kilobytes).to_string();
    let own: &[&str] = if is_emulated(program) { &["-s", &bytes] } else { &[] };
    let limit = format!("ulimit -s {kilobytes} && exec \"$@\"");
    let shell = ["sh", "-c", &limit, "sh"].map(str::to_string);
    ran(&[&shell[..], &with_words(program, own)].concat(), run)
}

fn enough<'a>(program: &'a [String], run: ProgramRun, kilobytes: u32) -> Check<'a> {
    let title = format!("{} with {kilobytes} KB of stack", run.command());
    check(title, move || {
        let done = limited(program, &run, kilobytes)?;
        demand(done.status.success(), || format!("it ended so: {}", done.status))?;
        demand_none(difference(run.text().as_bytes(), &done.stdout))
    })
}

fn too_little<'a>(program: &'a [String], run: ProgramRun, kilobytes: u32) -> Check<'a> {
    let title = format!("{} with {kilobytes} KB of stack, which is too little", run.command());
    check(title, move || {
        let done = limited(program, &run, kilobytes)?;
        demand(!done.status.success(), || "it runs all the same".to_string())
    })
}

/// Each program, by its words, on its largest tables: the most edges, the longest path, and the most
/// edges with lengths; and a ring of nests.
pub fn all<'a>([look, show, list, judge, fold]: [&'a [String]; 5]) -> Vec<Check<'a>> {
    let judge_run = |stream: &[u8]| ProgramRun::judge("0", "2041", stream.to_vec());
    let files = |stream: &[u8]| vec![("in.sbt".to_string(), stream.to_vec())];
    let fold_run =
        |budget, stream: &[u8]| ProgramRun::fold(budget, "in.sbt", "out.sbt", files(stream));
    let rings_run =
        |budget, stream: &[u8]| ProgramRun::fold_rings(budget, "in.sbt", "out.sbt", files(stream));
    let [ladder, chain] = [shapes::ladder(), shapes::chain(2_048)].map(|shape| shape.counted(1));
    let with_lengths = image::with_lengths(&ladder, &[u16::MAX; MOST_VERTICES]);
    let mut checks = vec![stated()];
    let ring = image::of_table(&shapes::nests_in_a_ring(20, 34).counted(1));
    checks.push(enough(fold, rings_run(u32::MAX, &ring), FOLD));
    for stream in [image::of_table(&ladder), image::of_table(&chain), with_lengths] {
        checks.push(enough(look, ProgramRun::look(stream.clone()), LOOK));
        checks.push(enough(show, ProgramRun::show(stream.clone()), READERS));
        checks.push(enough(list, ProgramRun::list(stream.clone()), READERS));
        checks.push(enough(judge, judge_run(&stream), READERS));
        for budget in [0, u32::MAX] {
            checks.push(enough(fold, fold_run(budget, &stream), FOLD));
            checks.push(enough(fold, rings_run(budget, &stream), FOLD));
        }
        if !is_emulated(look) {
            let run = ProgramRun::look(stream.clone());
            checks.push(too_little(look, run, TOO_LITTLE_FOR_LOOK));
        }
        checks.push(too_little(show, ProgramRun::show(stream.clone()), TOO_LITTLE));
        checks.push(too_little(list, ProgramRun::list(stream.clone()), TOO_LITTLE));
        checks.push(too_little(judge, judge_run(&stream), TOO_LITTLE));
        checks.push(too_little(fold, fold_run(0, &stream), TOO_LITTLE));
    }
    checks
}
