//! The processes that run, as /proc has them.

use super::caller::{must, Tried, SHORT};
use std::collections::BTreeMap;
use std::fs;
use std::thread;
use std::time::{Duration, Instant};

struct Process {
    parent: u32,
    start: String,
    words: Vec<String>,
}

/// A process is known by its number and the time of its start.
pub type Identity = (u32, String);

/// The processes by number. One that has ended and was not yet waited for is none.
fn processes() -> BTreeMap<u32, Process> {
    let mut all = BTreeMap::new();
    for entry in fs::read_dir("/proc").expect("/proc can be read").flatten() {
        let Ok(number) = entry.file_name().to_string_lossy().parse() else {
            continue;
        };
        let read = |name: &str| {
            let content = fs::read(entry.path().join(name)).unwrap_or_default();
            String::from_utf8_lossy(&content).into_owned()
        };
        // behind the name, which is in brackets: the state, the parent, and the start as the 20th
        let stat = read("stat");
        let behind: Vec<&str> = stat.rsplit(") ").next().unwrap_or("").split(' ').collect();
        let (Some(state), Some(start)) = (behind.first(), behind.get(19)) else {
            continue;
        };
        if !["Z", "X"].contains(state) {
            let parent = behind[1].parse().expect("a parent is a number");
            let words = read("cmdline").split_terminator('\0').map(str::to_string).collect();
            all.insert(number, Process { parent, start: start.to_string(), words });
        }
    }
    all
}

/// A process and all that stem from it.
fn family(head: u32) -> BTreeMap<u32, Process> {
    let mut all = processes();
    let mut members = BTreeMap::new();
    let mut next = vec![head];
    while let Some(number) = next.pop() {
        if let Some(process) = all.remove(&number) {
            members.insert(number, process);
            next.extend(all.iter().filter(|(_, child)| child.parent == number).map(|(&it, _)| it));
        }
    }
    members
}

/// Waits until a process with these words runs in the family, with or without an interpreter before
/// them. Gives all that run in it then.
pub fn family_with(head: u32, words: &[String]) -> Tried<Vec<Identity>> {
    let mut found = BTreeMap::new();
    until(&format!("{words:?} runs"), || {
        found = family(head);
        found.values().any(|it| it.words == words || it.words.get(1..) == Some(words))
    })?;
    Ok(found.into_iter().map(|(number, process)| (number, process.start)).collect())
}

/// All of these end.
pub fn must_end(family: &[Identity]) -> Tried<()> {
    until("all processes have ended", || {
        let all = processes();
        !family.iter().any(|(number, start)| all.get(number).is_some_and(|it| it.start == *start))
    })
}

/// Waits until something is so.
pub fn until(what: &str, mut is_so: impl FnMut() -> bool) -> Tried<()> {
    let began = Instant::now();
    while !is_so() {
        must(began.elapsed() < SHORT, || format!("it took too long until {what}"))?;
        thread::sleep(Duration::from_millis(1));
    }
    Ok(())
}
