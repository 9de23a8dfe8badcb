//! The second program: the rules (docs/RULES.md) once more, in another language and without a line of
//! the crates, to compare the Rattle programs with. It is run in the repository's root; `.ci/run`
//! builds and runs it.
//!
//! - table.rs, versions.rs, image.rs: the rules and the numbers
//! - superbubbles.rs, definition.rs, quick.rs: superbubbles and kept paths in two ways
//! - foldings.rs, fold.rs, sharing.rs, choosing.rs, skipping.rs: the folds, how they share dropped reads,
//!   and wrong rules by which they could choose a path or a candidate
//! - walk.rs: one more way to find a cycle, and what it meets
//! - graphs.rs, shapes.rs, damages.rs: tables and images, good and bad
//! - limits.rs, worked.rs: cases with answers written by hand
//! - cases.rs, superbubble_cases.rs, fold_cases.rs, sharing_cases.rs, weakest_cases.rs, ring_cases.rs,
//!   program_cases.rs: all that is asked
//! - operations.rs, answers.rs, runs.rs: how it is asked, and the answers that are due
//! - turns.rs, in_a_row.rs, side_by_side.rs: answers that are held to each other
//! - parts.rs: questions and answers taken apart, and where two answers differ first
//! - programs.rs, batch.rs, parallel.rs: the runs of the programs
//! - sheet.rs, messages.rs: the words that the programs say
//! - launcher.rs, launcher/: the script `gohardim`
//! - faults.rs, faults/: what may befall the programs, system call by system call
//! - compare.rs, self_test.rs, coverage.rs, sharing_coverage.rs, choosing_coverage.rs, ring_coverage.rs,
//!   examples.rs, count.rs: the comparison, and the checks that need no program
//! - again.rs: one case again, by its number

mod again;
mod answers;
mod batch;
mod cases;
mod choosing;
mod choosing_coverage;
mod compare;
mod count;
mod coverage;
mod damages;
mod definition;
mod examples;
mod faults;
mod fold;
mod fold_cases;
mod foldings;
mod graphs;
mod image;
mod in_a_row;
mod launcher;
mod limits;
mod messages;
mod operations;
mod parallel;
mod parts;
mod program_cases;
mod programs;
mod quick;
mod random;
mod ring_cases;
mod ring_coverage;
mod runs;
mod self_test;
mod shapes;
mod sharing;
mod sharing_cases;
mod sharing_coverage;
mod sheet;
mod side_by_side;
mod skipping;
mod superbubble_cases;
mod superbubbles;
mod table;
mod turns;
mod versions;
mod walk;
mod weakest_cases;
mod worked;

use count::Count;
use std::path::Path;
use std::process::ExitCode;

const USAGE: &str = "usage:
  second compare [SEED]        compare the programs on every case; the last line is the count
  second programs [SEED]       the part of it that needs no batch
  second self-test [SEED]      try the second program alone, as `compare` does as well
  second case NUMBER [SEED]    run one case again, of any operation or program: what is asked, the
                               answer that is expected, the one that comes, and where they differ
  second examples FOLDER       write the twelve graphs A to L, the shared arm and the table that is
                               folded by the weakest as images
NUMBER is that of a case in the line of its failure. SEED is a number; 1 where there is none.";

fn main() -> ExitCode {
    let words: Vec<String> = std::env::args().skip(1).collect();
    let words: Vec<&str> = words.iter().map(String::as_str).collect();
    let done = match &words[..] {
        ["compare", seed @ ..] => with_seed(seed, compare::compare),
        ["programs", seed @ ..] => with_seed(seed, compare::programs),
        ["self-test", seed @ ..] => with_seed(seed, self_test),
        ["case", number, seed @ ..] => number
            .parse()
            .map_or_else(|_| usage(), |number| with_seed(seed, |seed| again::run(number, seed))),
        ["examples", folder] => write_examples(folder),
        _ => usage(),
    };
    if done {
        ExitCode::SUCCESS
    } else {
        ExitCode::FAILURE
    }
}

/// Does it with the seed that these words say, or with 1 where there are none.
fn with_seed(words: &[&str], done: impl FnOnce(u64) -> bool) -> bool {
    let seed = match words {
        [] => Some(1),
        [seed] => seed.parse().ok(),
        _ => None,
    };
    seed.map_or_else(usage, done)
}

fn usage() -> bool {
    eprintln!("{USAGE}");
    false
}

fn self_test(seed: u64) -> bool {
    let mut count = Count::default();
    let cases = cases::all(seed);
    self_test::check(&cases, &cases::answers(&cases), &mut count);
    count.print()
}

fn write_examples(folder: &str) -> bool {
    let written = examples::write(Path::new(folder));
    if let Err(error) = &written {
        eprintln!("{folder}: {error}");
    }
    written.is_ok()
}
