//! `gohardim` with stand-ins: a folder as the repository's, with a script for its only program,
//! `it`, and with a kit that proves nothing.

use super::caller::{
    finish, ignore, must, send, Caller, Ended, Lines, Tried, KILL, PIPE, SHORT, SIGNALS, TERM,
};
use super::processes::{family_with, must_end, until};
use std::env;
use std::fs;
use std::os::unix::fs::{symlink, PermissionsExt};
use std::path::{Path, PathBuf};
use std::thread;
use std::time::Duration;

const KIT: &str = "stand-in-kit logic 0123456789abcdef";

/// Where the kit has the loader.
const TOOLS: &str = "kit/toolchain/lib";

/// The loader's words are --library-path, a folder, and the program.
const LOADER: &str = "shift 2\n. \"$1\"\n";

/// Where rt is called, it is the crate's folder; its own lines go on from the root.
const BEGIN: &str = "it=${PWD##*/}
cd ../.. || exit 2
";

/// What is left of a build behind its own lines: the program, as rt leaves it when it runs it.
const BUILD: &str = "echo \"$*\" >>out/calls
mkdir -p \"crates/$it/out\"
cp \"crates/$it/program\" \"crates/$it/out/$it\"
echo \"rt: running out/$it; to give it other input, run that file yourself\" >&2
";

pub struct StandIn {
    pub caller: Caller,
}

impl StandIn {
    /// A folder where nothing is built yet. `rt` is what the kit's rt does before it leaves the
    /// program.
    pub fn new(folder: &Path, program: &str, rt: &str) -> Tried<StandIn> {
        let root = folder.to_path_buf();
        let _ = fs::remove_dir_all(&root);
        for part in ["crates/it/src", "kit/bin", TOOLS] {
            fs::create_dir_all(root.join(part))?;
        }
        fs::copy("gohardim", root.join("gohardim"))?;
        fs::write(root.join("kit.txt"), format!("{KIT}\n"))?;
        fs::write(root.join("crates.txt"), "it:\n")?;
        fs::write(root.join("crates/it/src/main.rt"), "b\"usage: it: a stand-in\\n\"\n")?;
        let logic = KIT.rsplit(' ').next().unwrap();
        let program = format!("# rattle logic={logic}\n{program}\n");
        fs::write(root.join("crates/it/program"), program)?;
        fs::write(root.join("kit/KIT-ID"), format!("{KIT}\n"))?;
        write_script(&root.join("kit/bin/rt"), &format!("{BEGIN}{rt}\n{BUILD}"))?;
        write_script(&root.join(TOOLS).join("ld-linux-x86-64.so.2"), LOADER)?;
        let variables = vec![("RATTLE_HOME".to_string(), root.join("kit").display().to_string())];
        let caller = Caller { folder: root.clone(), root, shell: None, variables };
        Ok(StandIn { caller })
    }

    /// A folder where the program is built, as rt does it.
    pub fn built(folder: &Path, program: &str) -> Tried<StandIn> {
        let stand_in = StandIn::new(folder, program, "")?;
        let root = &stand_in.caller.root;
        fs::create_dir_all(root.join("crates/it/out"))?;
        fs::copy(root.join("crates/it/program"), root.join("crates/it/out/it"))?;
        Ok(stand_in)
    }

    fn path(&self, name: &str) -> PathBuf {
        self.caller.root.join(name)
    }

    /// Runs `it`.
    fn run(&self, input: &[u8]) -> Tried<Ended> {
        self.caller.run(&["it"], input)
    }

    /// How often rt was called.
    fn calls(&self) -> usize {
        fs::read_to_string(self.path("out/calls")).map_or(0, |calls| calls.lines().count())
    }

    fn must_have_called(&self, due: usize) -> Tried<()> {
        must(self.calls() == due, || format!("rt was called {} times and not {due}", self.calls()))
    }
}

fn write_script(path: &Path, text: &str) -> Tried<()> {
    fs::write(path, format!("#!/bin/sh\n{text}"))?;
    fs::set_permissions(path, fs::Permissions::from_mode(0o755))?;
    Ok(())
}

// ---- what is handed on

/// The status goes by the first word alone; and every byte is handed on, with or without an end of
/// the last line.
pub fn first_words(folder: &Path, shell: Option<&'static str>) -> Tried<()> {
    let mut cat = StandIn::built(folder, "cat")?;
    cat.caller.shell = shell;
    let mixed: Vec<u8> = (0..300_001).map(|place: u32| (place / 256 + place) as u8).collect();
    for (bytes, status) in [
        (&b"refused 7\nmore\n"[..], 1),
        (b"refused", 1),
        (b"refusedly\n", 0),
        (b"usage: it\n", 2),
        (b"usage:", 2),
        (b"usage\n", 0),
        (b"answer refused usage:\n", 0),
        (b"", 3),
        (b"\n", 3),
        (b"x", 0),
        (b"\0", 0),
        (&mixed, 0),
    ] {
        let ended = cat.run(bytes)?;
        ended.must_be(status)?;
        ended.must_print(bytes)?;
        ended.must_say_nothing()?;
    }
    Ok(())
}

/// The first line comes while the program waits.
pub fn at_once(folder: &Path) -> Tried<()> {
    let it = StandIn::built(folder, "echo one\nread -r line\necho \"$line\"")?;
    let mut child = it.caller.call(&["it"]).spawn()?;
    let lines = Lines::of(child.stdout.take());
    let first = lines.next()?;
    must(first == "one", || format!("it prints {first:?}"))?;
    finish(child, b"two\n", SHORT)?.must_be(0)?;
    let rest = lines.rest();
    must(rest == ["two"], || format!("it goes on with {rest:?}"))
}

/// A reader that goes away ends all, without a word. Where SIGPIPE is ignored, the program ends by
/// itself.
pub fn reader_gone(folder: &Path, shell: Option<&'static str>) -> Tried<()> {
    for (program, is_ignored) in [("while :; do echo line; done", false), ("echo line", true)] {
        let mut it = StandIn::built(folder, &format!("read -r line\n{program}"))?;
        it.caller.shell = shell;
        let mut command = it.caller.call(&["it"]);
        if is_ignored {
            ignore(&mut command, PIPE);
        }
        let mut child = command.spawn()?;
        drop(child.stdout.take());
        let ended = finish(child, b"\n", SHORT)?;
        ended.must_be(3)?;
        ended.must_say_nothing()?;
    }
    Ok(())
}

/// A reader that does not read holds nothing up when the script is ended.
pub fn reader_waits(folder: &Path) -> Tried<()> {
    let it = StandIn::built(folder, "while :; do echo line; done")?;
    let words = it.caller.words_of("it", SHORT)?;
    let mut child = it.caller.call(&["it"]).spawn()?;
    let output = child.stdout.take();
    let family = family_with(child.id(), &words);
    // all pipes are full by then
    thread::sleep(Duration::from_millis(300));
    send(&child, TERM);
    let ended = finish(child, b"", SHORT)?;
    must_end(&family?)?;
    drop(output);
    ended.must_be(3)?;
    ended.must_say_nothing()
}

/// An emulator, where the kit has one, stands before the loader.
pub fn by_emulator(folder: &Path) -> Tried<()> {
    let it = StandIn::built(folder, "cat")?;
    let bin = it.path("kit/toolchain/bin");
    fs::create_dir_all(&bin)?;
    write_script(&bin.join("qemu-x86_64"), "exec \"$@\"")?;
    let words = it.caller.words_of("it", SHORT)?;
    must(words.len() == 5 && words[0].ends_with("/qemu-x86_64"), || format!("{words:?}"))?;
    let ended = it.run(b"answer")?;
    ended.must_be(0)?;
    ended.must_print(b"answer")
}

/// A program that is ended behind its first word has given no answer.
pub fn ended_program(folder: &Path, shell: Option<&'static str>) -> Tried<()> {
    let mut it = StandIn::built(folder, "echo table\nkill -s KILL $$")?;
    it.caller.shell = shell;
    let ended = it.run(b"")?;
    ended.must_be(3)?;
    ended.must_print(b"table\n")?;
    must(ended.errors == "gohardim: it was ended by signal 9\n", || ended.errors)
}

/// Standard error is the program's own.
pub fn message_alone(folder: &Path) -> Tried<()> {
    let ended = StandIn::built(folder, "echo message >&2")?.run(b"")?;
    ended.must_be(3)?;
    ended.must_print(b"")?;
    must(ended.errors == "message\n", || ended.errors)
}

/// A program gets its words, and nothing of the environment.
pub fn words_alone(folder: &Path) -> Tried<()> {
    let mut it = StandIn::built(folder, "shift\nprintf '%s.' \"$#\" \"$@\" \"${VARIABLE-none}\"")?;
    it.caller.variables.push(("VARIABLE".to_string(), "1".to_string()));
    let ended = it.caller.run(&["it", "", "a  b", "*", "--help"], b"")?;
    ended.must_be(0)?;
    ended.must_print(b"4..a  b.*.--help.none.")
}

/// A signal ends all that runs, with another shell than the script's own.
pub fn ends_by(folder: &Path, shell: &'static str, kills: bool) -> Tried<()> {
    let mut it = StandIn::built(folder, "read -r line")?;
    it.caller.shell = Some(shell);
    for (_, signal) in SIGNALS {
        if signal != KILL || kills {
            super::ends(&it.caller, "it", signal)?;
        }
    }
    Ok(())
}

// ---- builds

/// Help builds nothing. A first run builds, and says so; it takes nothing of the program's input. A
/// second run builds and says nothing.
pub fn first_run(folder: &Path) -> Tried<()> {
    let rt = format!("cat >taken\n{}\necho 'rt: more'", proved("it"));
    let it = StandIn::new(folder, "cat", &rt)?;
    it.caller.run(&["it", "--help"], b"")?.must_print(b"gohardim it: a stand-in\n")?;
    it.must_have_called(0)?;
    let ended = it.run(b"input")?;
    ended.must_be(0)?;
    ended.must_print(b"input")?;
    let due =
        "gohardim: proving and building it, which can take some minutes\ngohardim: it proved\n";
    must(ended.errors == due, || format!("it says {:?}", ended.errors))?;
    must(fs::read(it.path("taken"))?.is_empty(), || "the build has read the input".to_string())?;
    let again = it.run(b"input")?;
    again.must_be(0)?;
    again.must_say_nothing()?;
    it.must_have_called(1)?;
    fs::write(it.path("crates/it/new"), "")?;
    it.run(b"")?.must_say("proving and building it")?;
    it.must_have_called(2)
}

/// What rt says of a crate that it has proved.
fn proved(name: &str) -> String {
    format!("echo 'crate {name}: modules loaded=1 checked=2'; echo 'logic=proved functions=1'")
}

/// rt stops until there is a file, but not for ever.
const STOP: &str = "n=0
until [ -e go ] || [ $n -gt 3000 ]; do n=$((n + 1)) && sleep 0.02; done
";

/// A crate is named when it is proved, and not at the end.
pub fn crate_by_crate(folder: &Path) -> Tried<()> {
    let more = "echo 'library two: modules loaded=3 checked=0'";
    let rt = format!("{}\n{STOP}{more}\n{}", proved("one"), proved("three"));
    let it = StandIn::new(folder, "echo answer", &rt)?;
    let mut child = it.caller.call(&["it"]).spawn()?;
    let lines = Lines::of(child.stderr.take());
    while lines.next()? != "gohardim: one proved" {}
    fs::write(it.path("go"), "")?;
    finish(child, b"", SHORT)?.must_be(0)?;
    let rest = lines.rest();
    must(rest == ["gohardim: three proved"], || format!("it goes on with {rest:?}"))
}

/// All that rt says is there to read where it fails.
pub fn failing(folder: &Path) -> Tried<()> {
    let rt = format!("{}\necho 'a fault' >&2\nexit 1", proved("one"));
    let it = StandIn::new(folder, "echo answer", &rt)?;
    let ended = it.run(b"")?;
    ended.must_be(3)?;
    ended.must_print(b"")?;
    ended.must_say("\nlogic=proved functions=1\na fault\ngohardim: it was not built")?;
    must(!it.path("out/kit/it").exists(), || "there is a note".to_string())
}

/// rt ends with the status of the program that it runs: a program that ends with one is built all the
/// same.
pub fn own_status(folder: &Path) -> Tried<()> {
    let it = StandIn::new(folder, "echo answer", "trap 'exit 1' EXIT")?;
    let ended = it.run(b"")?;
    ended.must_be(0)?;
    ended.must_print(b"answer\n")?;
    it.run(b"")?.must_say_nothing()?;
    it.must_have_called(1)
}

/// What rt makes in the folders out/, with a crate's first one, is no reason to build anew; a source
/// that is taken away is one.
pub fn other_crates(folder: &Path) -> Tried<()> {
    let it = StandIn::new(folder, "echo answer", "")?;
    fs::create_dir_all(it.path("crates/other/src"))?;
    fs::write(it.path("crates/other/src/more.rt"), "")?;
    it.run(b"")?.must_be(0)?;
    fs::create_dir(it.path("crates/other/out"))?;
    for name in ["crates/other/out/other", "crates/it/out/more"] {
        fs::write(it.path(name), "")?;
    }
    it.run(b"")?.must_say_nothing()?;
    it.must_have_called(1)?;
    fs::remove_file(it.path("crates/other/src/more.rt"))?;
    it.run(b"")?.must_say("proving and building it")?;
    it.must_have_called(2)
}

/// Of two builds one waits, and then there is nothing left to do.
pub fn two_at_once(folder: &Path) -> Tried<()> {
    at_once_with(&StandIn::new(folder, "echo answer", &apart())?, false)
}

/// A build that outlives its script, since nothing on the machine ends it, is waited for.
pub fn outliving(folder: &Path) -> Tried<()> {
    let mut it = StandIn::new(folder, "echo answer", &apart())?;
    it.caller.variables.push(path_without(folder, &["setpriv", "setsid"])?);
    at_once_with(&it, true)
}

/// An rt that notices another beside it.
fn apart() -> String {
    format!("mkdir out/busy || echo clash >>out/calls\n{STOP}rmdir out/busy")
}

fn at_once_with(it: &StandIn, is_killed: bool) -> Tried<()> {
    let first = it.caller.call(&["it"]).spawn()?;
    until("rt runs", || it.path("out/busy").exists())?;
    if is_killed {
        send(&first, KILL);
    }
    let mut second = it.caller.call(&["it"]).spawn()?;
    let lines = Lines::of(second.stderr.take());
    let said = lines.next()?;
    must(said.contains("waiting until that is done"), || format!("it says {said:?}"))?;
    fs::write(it.path("go"), "")?;
    let first = finish(first, b"", SHORT)?;
    must(first.status == (!is_killed).then_some(0), || format!("status {:?}", first.status))?;
    let second = finish(second, b"", SHORT)?;
    second.must_be(0)?;
    second.must_print(b"answer\n")?;
    let rest = lines.rest();
    must(rest.is_empty(), || format!("it goes on with {rest:?}"))?;
    it.must_have_called(1)
}

/// Ending the script ends rt and what rt has started.
pub fn ended_build(folder: &Path, signal: i32) -> Tried<()> {
    let it = StandIn::new(folder, "echo answer", "sleep 100 &\nwait")?;
    let child = it.caller.call(&["it"]).spawn()?;
    let family = family_with(child.id(), &["sleep".to_string(), "100".to_string()]);
    send(&child, signal);
    let ended = finish(child, b"", SHORT)?;
    must_end(&family?)?;
    ended.must_print(b"")?;
    if signal == KILL {
        return must(ended.status.is_none(), || format!("status {:?}", ended.status));
    }
    ended.must_be(3)
}

/// Another kit than the one that it was proved with, or that built the program, is named.
pub fn other_kit(folder: &Path) -> Tried<()> {
    let it = StandIn::new(folder, "echo answer", "")?;
    it.run(b"")?.must_be(0)?;
    let other = "other-kit logic 00";
    fs::write(it.path("kit/KIT-ID"), format!("{other}\n"))?;
    let ended = it.run(b"")?;
    ended.must_be(0)?;
    ended.must_say(&format!("it was built with the kit '{KIT}', and the kit here is '{other}'"))?;
    ended.must_say(&format!("proved with the kit '{KIT}', and the kit here is '{other}'"))?;
    it.must_have_called(2)?;
    it.run(b"")?.must_say_nothing()?;
    it.must_have_called(2)
}

/// What rt built without the script has no note of its kit, but names its logic.
pub fn no_note(folder: &Path) -> Tried<()> {
    let it = StandIn::built(folder, "echo answer")?;
    it.run(b"")?.must_say_nothing()?;
    it.must_have_called(0)?;
    fs::write(it.path("kit/KIT-ID"), "other-kit logic 00\n")?;
    it.run(b"")?.must_say("it was built with another kit")?;
    it.must_have_called(1)
}

/// No kit, and no right to write where a program is built.
pub fn no_build(folder: &Path) -> Tried<()> {
    let mut it = StandIn::new(folder, "echo answer", "")?;
    fs::write(it.path("out"), "a file")?;
    let ended = it.run(b"")?;
    ended.must_be(3)?;
    ended.must_print(b"")?;
    ended.must_say("can't write to")?;
    it.caller.variables = vec![("RATTLE_HOME".to_string(), "/nowhere".to_string())];
    let ended = it.run(b"")?;
    ended.must_be(3)?;
    ended.must_print(b"")?;
    ended.must_say("found no Rattle kit")
}

/// Without the tools that not every machine has it works as well, but for a KILL.
pub fn without_tools(folder: &Path) -> Tried<()> {
    let mut it = StandIn::new(folder, "read -r line\necho answer", "")?;
    it.caller.variables.push(path_without(folder, &["flock", "setpriv", "setsid"])?);
    let ended = it.run(b"")?;
    ended.must_be(0)?;
    ended.must_print(b"answer\n")?;
    ended.must_say("flock is missing here")?;
    it.run(b"")?.must_say_nothing()?;
    super::ends(&it.caller, "it", TERM)
}

/// A PATH on which these are missing. Of two tools with one name it has the first.
fn path_without(folder: &Path, missing: &[&str]) -> Tried<(String, String)> {
    let tools = folder.join("tools");
    fs::create_dir_all(&tools)?;
    for place in env::var("PATH")?.split(':') {
        for tool in fs::read_dir(place).into_iter().flatten().flatten() {
            if !missing.iter().any(|name| tool.file_name() == *name) {
                let _ = symlink(tool.path(), tools.join(tool.file_name()));
            }
        }
    }
    Ok(("PATH".to_string(), tools.display().to_string()))
}
