//! The examples: the twelve graphs A to L of the rules and the worked folds of a shared arm, of a ring and
//! by the weakest as images, one file each. The last is of version 2, the others of version 1.

use crate::count::Fault;
use crate::foldings::Rings;
use crate::graphs::{Graph, LENGTHS_OF_WEAKEST, RING, SHARED, TWELVE, WEAKEST};
use crate::image;
use crate::runs::ProgramRun;
use crate::sheet;
use std::fs;
use std::io;
use std::path::Path;

/// The name of each file, and the image that it has.
fn all() -> Vec<(String, Vec<u8>)> {
    let of_one = TWELVE.iter().chain([&SHARED, &RING]);
    let mut all: Vec<(&str, Vec<u8>)> =
        of_one.map(|graph| (graph.name, image::of_table(&graph.table()))).collect();
    all.push((WEAKEST.name, image::with_lengths(&WEAKEST.table(), &LENGTHS_OF_WEAKEST)));
    all.into_iter().map(|(name, image)| (format!("{name}.sbt"), image)).collect()
}

pub fn write(folder: &Path) -> io::Result<()> {
    all().into_iter().try_for_each(|(name, image)| fs::write(folder.join(name), image))
}

/// Holds the folder `examples` to what `write` would write, and the sheet to the example that it shows:
/// for each file the name of the check, and what is wrong.
pub fn check() -> Vec<(String, Fault)> {
    let folder = Path::new("examples");
    let mut checks = Vec::new();
    let all = all();
    for (name, due) in &all {
        let path = folder.join(name);
        let fault = match fs::read(&path) {
            Ok(image) if image == *due => None,
            Ok(_) => Some("not the image that the second program makes".to_string()),
            Err(error) => Some(error.to_string()),
        };
        checks.push((path.display().to_string(), fault));
    }
    let files = fs::read_dir(folder).map_or(0, |entries| entries.count());
    let fault = (files != all.len()).then(|| format!("it has {files} files"));
    checks.push(("examples has these files and no other".to_string(), fault));
    for (graph, rings, budget) in [(&SHARED, Rings::Refused, 1), (&RING, Rings::Taken, u32::MAX)] {
        let lines = on_the_sheet(graph, rings, budget);
        let fault =
            (!sheet::has(&lines)).then(|| format!("it does not have these lines:\n{lines}"));
        checks.push((format!("the sheet shows the fold of {}", graph.name), fault));
    }
    checks
}

/// A fold as the sheet shows it: the commands, and what is printed.
fn on_the_sheet(graph: &Graph, rings: Rings, budget: u32) -> String {
    let (input, output) = (format!("examples/{}.sbt", graph.name), "folded.sbt");
    let before = vec![(input.clone(), image::of_table(&graph.table()))];
    let word = budget.to_string();
    let fold = ProgramRun::fold_by_word(rings, &word, budget, &input, output, before);
    let (_, folded) = fold.after.iter().find(|(name, _)| name == output).unwrap();
    let lines = [
        format!("./gohardim {}\n", fold.command()),
        fold.text().to_string(),
        format!("./gohardim show < {output}\n"),
        image::show_text(folded),
    ]
    .concat();
    lines.lines().map(|line| format!("    {line}\n")).collect()
}
