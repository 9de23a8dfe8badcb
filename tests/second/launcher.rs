//! The script `gohardim`: its statuses, what it hands on, how it is ended, and how it builds. First
//! with the programs of the repository, and then with stand-ins.
//!
//! - caller.rs, processes.rs: calls of it, and what runs meanwhile
//! - stand_ins.rs: what can't be tried with programs that are proved

mod caller;
mod processes;
mod stand_ins;

use crate::count::Count;
use caller::{finish, must, send, with_closed, Caller, Tried, KILL, LONG, SHORT, SIGNALS, TERM};
use processes::{family_with, must_end};
use std::fs::{self, File};
use std::os::unix::fs::symlink;
use std::path::Path;
use std::process::{Command, Stdio};

/// Where it is tried.
const FOLDER: &str = "tests/build/launcher";

/// Shells by which it can be called, beside its own.
const SHELLS: [&str; 2] = ["bash", "dash"];

pub fn check(count: &mut Count) {
    let root = std::env::current_dir().expect("the current folder can be read");
    let folder = root.join(FOLDER);
    let _ = fs::remove_dir_all(&folder);
    if let Err(error) = fs::create_dir_all(&folder) {
        return count.judge(FOLDER, Some(error.to_string()));
    }
    let kills = can(&["setpriv", "--pdeathsig", "KILL", "true"]);
    if !kills {
        println!("left out: a KILL, which without setpriv --pdeathsig leaves a program running");
    }
    let mut launcher = Launcher { count, kills };
    launcher.programs(&Caller { root, folder: folder.clone(), shell: None, variables: Vec::new() });
    launcher.streams(&folder.join("stand in"));
    launcher.builds(&folder.join("stand in"));
    // rt asks of every source in the repository that a crate has it, so the stand-ins don't stay
    let removed = fs::remove_dir_all(&folder);
    launcher.judge("nothing is left of this", removed.map_err(Into::into));
}

fn can(words: &[&str]) -> bool {
    Command::new(words[0]).args(&words[1..]).output().is_ok_and(|tried| tried.status.success())
}

struct Launcher<'a> {
    count: &'a mut Count,
    /// Whether a KILL of the script ends what it runs.
    kills: bool,
}

impl Launcher<'_> {
    fn judge(&mut self, title: impl AsRef<str>, tried: Tried<()>) {
        let title = format!("gohardim: {}", title.as_ref());
        self.count.judge(&title, tried.err().map(|error| error.to_string()));
    }

    // ---- with the programs of the repository

    fn programs(&mut self, caller: &Caller) {
        let names = names_of_programs(&caller.root);
        for name in &names {
            self.judge(format!("where {name}"), where_is(caller, name));
        }
        self.statuses(caller);
        self.judge("all that batch prints", hands_on_batch(caller));
        self.help(caller, &names);
        for program in ["look", "show"] {
            self.program(caller, program);
        }
        self.judge("a full disk", full_disk(caller));
    }

    /// With a program whose answer to J begins `table 7 8`.
    fn program(&mut self, caller: &Caller, program: &str) {
        self.judge(format!("{program}, the words of where run alone"), runs_alone(caller, program));
        let title = format!("{program}, variables of the caller, and a link");
        self.judge(title, with_variables(caller, program));
        for (name, signal) in SIGNALS {
            if signal != KILL || self.kills {
                self.judge(format!("{name} ends it and {program}"), ends(caller, program, signal));
            }
        }
        for streams in [&[][..], &[0], &[1], &[2], &[0, 1], &[0, 2], &[1, 2], &[0, 1, 2]] {
            let title = format!("{program}, closed streams {streams:?}");
            self.judge(title, closed_streams(caller, program, streams));
        }
    }

    fn statuses(&mut self, caller: &Caller) {
        let example = |name| fs::read(format!("examples/{name}.sbt")).unwrap_or_default();
        for name in ["J", "E", "weakest"] {
            let _ = fs::write(caller.folder.join(name), example(name));
        }
        let (j, of_two, none) = (&example("J")[..], &example("weakest")[..], &[][..]);
        for (line, input, status, begin) in [
            ("look", j, 0, "table 7 8\n"),
            ("show", j, 0, "table 7 8\n"),
            ("list", j, 0, "superbubbles 2\n"),
            ("judge 0 6", j, 0, "superbubble 7\n"),
            ("judge 6 0", j, 0, "no\n"),
            ("fold 1 J out", none, 0, "folded 1 left 0 edges 2\n"),
            ("look", of_two, 0, "table 5 6 lengths\n"),
            ("show", of_two, 0, "table 5 6 lengths\n0 0 100 1 4\n"),
            ("list", of_two, 0, "superbubbles 1\n"),
            ("judge 0 4", of_two, 0, "superbubble 5\n"),
            ("fold 1 weakest out", none, 0, "folded 1 left 0 edges 3\n"),
            ("look", none, 1, "refused 10\n"),
            ("show", none, 1, "refused 10\n"),
            ("list", none, 1, "refused 10\n"),
            ("judge 0 6", none, 1, "refused 10\n"),
            ("judge 0 7", j, 1, "refused 13\n"),
            ("fold 1 E out", none, 1, "refused 9\n"),
            ("look J", j, 2, "usage: look "),
            ("show J", j, 2, "usage: show "),
            ("list J", j, 2, "usage: list "),
            ("judge 0", j, 2, "usage: judge "),
            ("judge 0 x", j, 2, "usage: judge "),
            ("fold 1 J", none, 2, "usage: fold "),
            ("fold x J out", none, 2, "usage: fold "),
            ("fold 1 none out", none, 3, ""),
            ("fold 1 J none/out", none, 3, ""),
            ("batch", none, 3, ""),
        ] {
            let tried = gives(caller, line, input, status, begin);
            self.judge(format!("{line}, with {} bytes of input", input.len()), tried);
        }
    }

    fn help(&mut self, caller: &Caller, names: &[String]) {
        let usages: Vec<(&str, String)> =
            names.iter().filter_map(|name| Some((&name[..], usage_in(caller, name)?))).collect();
        for words in [&[][..], &["help"], &["--help"], &["-h"]] {
            self.judge(format!("{words:?} says what there is"), lists(caller, words, &usages));
        }
        for (name, usage) in &usages {
            self.judge(format!("{name} --help"), helps(caller, name, usage));
        }
        self.judge("batch --help", is_not_for_users(caller));
        let all = names.len() == usages.len() + 1;
        self.judge("only batch has no usage", must(all, || format!("these have: {usages:?}")));
        for words in [
            &["nothing"][..],
            &["../crates/show"],
            &[""],
            &["--nothing"],
            &["table"],
            &["where"],
            &["where", "nothing"],
            &["where", "show", "more"],
        ] {
            self.judge(format!("{words:?} is refused"), refuses(caller, words));
        }
    }

    // ---- with stand-ins

    fn streams(&mut self, folder: &Path) {
        self.judge("each line at once", stand_ins::at_once(folder));
        self.judge("a message alone", stand_ins::message_alone(folder));
        self.judge("words, and no variables", stand_ins::words_alone(folder));
        if fs::metadata("/proc/thread-self/children").is_ok() {
            self.judge("TERM while nobody reads", stand_ins::reader_waits(folder));
        } else {
            println!("left out: TERM while nobody reads, where /proc does not name children");
        }
        self.judge("by an emulator", stand_ins::by_emulator(folder));
        let others = SHELLS.into_iter().filter(|shell| can(&[shell, "-c", "true"])).map(Some);
        for shell in std::iter::once(None).chain(others) {
            let by = shell.map_or(String::new(), |shell| format!(", by {shell}"));
            self.judge(format!("first words{by}"), stand_ins::first_words(folder, shell));
            self.judge(format!("a reader is gone{by}"), stand_ins::reader_gone(folder, shell));
            self.judge(format!("an ended program{by}"), stand_ins::ended_program(folder, shell));
            if let Some(shell) = shell {
                self.judge(format!("signals{by}"), stand_ins::ends_by(folder, shell, self.kills));
            }
        }
    }

    fn builds(&mut self, folder: &Path) {
        self.judge("a first run", stand_ins::first_run(folder));
        self.judge("a build crate by crate", stand_ins::crate_by_crate(folder));
        self.judge("a build that fails", stand_ins::failing(folder));
        self.judge("a program with a status of its own", stand_ins::own_status(folder));
        self.judge("what rt makes of other crates", stand_ins::other_crates(folder));
        self.judge("another kit", stand_ins::other_kit(folder));
        self.judge("no note of the kit", stand_ins::no_note(folder));
        self.judge("no kit, and no right to write", stand_ins::no_build(folder));
        self.judge("without flock, setpriv and setsid", stand_ins::without_tools(folder));
        if can(&["flock", "--version"]) {
            self.judge("two builds at once", stand_ins::two_at_once(folder));
            self.judge("a build that outlives its script", stand_ins::outliving(folder));
        } else {
            println!("left out: builds at once, which without flock are not guarded");
        }
        if can(&["setsid", "true"]) {
            for (name, signal) in [("TERM", TERM), ("KILL", KILL)] {
                if signal != KILL || self.kills {
                    let tried = stand_ins::ended_build(folder, signal);
                    self.judge(format!("{name} ends a build"), tried);
                }
            }
        } else {
            println!("left out: the end of a build, of which without setsid rt alone is ended");
        }
    }
}

fn names_of_programs(root: &Path) -> Vec<String> {
    let crates = fs::read_dir(root.join("crates")).expect("crates/ can be read").flatten();
    let programs = crates.filter(|it| it.path().join("src/main.rt").is_file());
    let mut names: Vec<String> =
        programs.map(|program| program.file_name().to_string_lossy().into_owned()).collect();
    names.sort();
    names
}

/// Where a program is missing it is built here.
fn where_is(caller: &Caller, name: &str) -> Tried<()> {
    let words = caller.words_of(name, LONG)?;
    let program = caller.root.join("crates").join(name).join("out").join(name);
    let program = program.display().to_string();
    must(words.last() == Some(&program), || format!("it prints {words:?}"))?;
    caller.run(&["where", name], b"")?.must_say_nothing()
}

fn runs_alone(caller: &Caller, program: &str) -> Tried<()> {
    let words = caller.words_of(program, SHORT)?;
    let mut alone = Command::new(&words[0]);
    alone.args(&words[1..]).stdin(Stdio::piped()).stdout(Stdio::piped());
    let input = fs::read("examples/J.sbt")?;
    let ended = finish(alone.spawn()?, &input, SHORT)?;
    ended.must_be(0)?;
    ended.must_print(&caller.run(&[program], &input)?.output)
}

/// Beside an answer nothing is said, and without one there is a message; `batch` has nothing to say
/// where it was asked nothing.
fn gives(caller: &Caller, line: &str, input: &[u8], status: i32, begin: &str) -> Tried<()> {
    let words: Vec<&str> = line.split(' ').collect();
    let ended = caller.run(&words, input)?;
    ended.must_be(status)?;
    ended.must_begin(begin)?;
    match status {
        0 => ended.must_say_nothing(),
        3 if line != "batch" => must(!ended.errors.is_empty(), || "it says nothing".to_string()),
        _ => Ok(()),
    }
}

fn hands_on_batch(caller: &Caller) -> Tried<()> {
    let ended = caller.run(&["batch"], &fs::read("crates/batch/stdin")?)?;
    ended.must_be(0)?;
    ended.must_print(&fs::read("crates/batch/stdout")?)?;
    ended.must_say_nothing()
}

/// The words behind `usage: ` in a program's source.
fn usage_in(caller: &Caller, name: &str) -> Option<String> {
    let main = caller.root.join("crates").join(name).join("src/main.rt");
    let source = fs::read_to_string(main).ok()?;
    let line = source.split_once("\"usage: ")?.1.split_once('"')?.0;
    Some(line.trim_end_matches("\\n").to_string())
}

fn lists(caller: &Caller, words: &[&str], usages: &[(&str, String)]) -> Tried<()> {
    let ended = caller.run(words, b"")?;
    ended.must_be(0)?;
    ended.must_say_nothing()?;
    let text = String::from_utf8(ended.output)?;
    for (name, usage) in usages {
        let is_listed = text.lines().any(|line| line == format!("gohardim {usage}"));
        must(is_listed, || format!("{name} is missing in {text:?}"))?;
    }
    must(!text.contains("batch"), || "batch is listed".to_string())
}

/// The line is what the program itself prints when it is called with too many words.
fn helps(caller: &Caller, name: &str, usage: &str) -> Tried<()> {
    let help = caller.run(&[name, "--help"], b"")?;
    help.must_be(0)?;
    help.must_print(format!("gohardim {usage}\n").as_bytes())?;
    help.must_say_nothing()?;
    let own = caller.run(&[name, "1", "2", "3", "4", "5", "6", "7", "8", "9"], b"")?;
    own.must_be(2)?;
    own.must_print(format!("usage: {usage}\n").as_bytes())
}

fn is_not_for_users(caller: &Caller) -> Tried<()> {
    let ended = caller.run(&["batch", "--help"], b"")?;
    ended.must_be(0)?;
    ended.must_begin("gohardim batch: not for users")?;
    ended.must_say_nothing()
}

fn refuses(caller: &Caller, words: &[&str]) -> Tried<()> {
    let ended = caller.run(words, b"")?;
    ended.must_be(2)?;
    ended.must_begin("usage: ")?;
    ended.must_say("gohardim: ")
}

/// Variables that shells and tools look at, and those that the script has itself.
fn with_variables(caller: &Caller, program: &str) -> Tried<()> {
    let link = caller.folder.join(format!("a link to {program}"));
    symlink(caller.root.join("gohardim"), &link)?;
    let mut command = Command::new(&link);
    command.arg(program).current_dir("/");
    command.stdin(Stdio::piped()).stdout(Stdio::piped()).stderr(Stdio::piped());
    for (names, value) in [
        ("CDPATH TMPDIR ENV LD_LIBRARY_PATH QEMU_LD_PREFIX", "/nowhere"),
        ("SHELLOPTS", "errexit:noglob"),
        ("POSIXLY_CORRECT QEMU_STRACE QEMU_CPU IFS", "-v"),
        ("asked built crate due ended first folder home kit last line lock loader name note", "1"),
        ("emulator opened pipe program relay root running said seen status tools", "1"),
    ] {
        command.envs(names.split(' ').map(|name| (name, value)));
    }
    let input = fs::read("examples/J.sbt")?;
    let ended = finish(command.spawn()?, &input, SHORT)?;
    ended.must_be(0)?;
    ended.must_print(&caller.run(&[program], &input)?.output)?;
    ended.must_say_nothing()
}

/// A signal to the script, while its program waits for input, ends the two and all between them.
fn ends(caller: &Caller, program: &str, signal: i32) -> Tried<()> {
    let words = caller.words_of(program, SHORT)?;
    let mut child = caller.call(&[program]).spawn()?;
    let input = child.stdin.take();
    let family = family_with(child.id(), &words);
    send(&child, signal);
    let ended = finish(child, b"", SHORT)?;
    must_end(&family?)?;
    drop(input);
    match signal {
        KILL => must(ended.status.is_none(), || format!("status {:?}", ended.status))?,
        _ => ended.must_be(3)?,
    }
    ended.must_print(b"")?;
    ended.must_say_nothing()
}

/// What can't be read or written is said, where it can be.
fn closed_streams(caller: &Caller, program: &str, streams: &[i32]) -> Tried<()> {
    let mut command = caller.call(&[program]);
    command.stdin(File::open("examples/J.sbt")?);
    with_closed(&mut command, streams.to_vec());
    let ended = finish(command.spawn()?, b"", SHORT)?;
    let due = match streams {
        [] | [2] => return ended.must_be(0).and(ended.must_begin("table 7 8\n")),
        [0, ..] => "standard input could not be read",
        _ => "could not be written (Bad file descriptor); the answer began: table 7 8\n",
    };
    ended.must_be(3)?;
    ended.must_print(b"")?;
    ended.must_say(if streams.contains(&2) { "" } else { due })
}

/// After a fold one knows that it was done, though its line could not be written.
fn full_disk(caller: &Caller) -> Tried<()> {
    let on_full_disk = |words: &[&str]| {
        let full = File::options().write(true).open("/dev/full")?;
        finish(caller.call(words).stdout(full).spawn()?, b"", SHORT)
    };
    let fold = on_full_disk(&["fold", "1", "J", "full"])?;
    fold.must_be(3)?;
    fold.must_say("standard output could not be written (No space left on device)")?;
    fold.must_say("the answer began: folded 1 left 0 edges 2\n")?;
    must(caller.folder.join("full").is_file(), || "there is no new table".to_string())?;
    let help = on_full_disk(&["help"])?;
    help.must_be(3)?;
    help.must_say("standard output could not be written")
}
