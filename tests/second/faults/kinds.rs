//! Folds to an OUT of every kind and by names of every kind, and the rights of the file that is
//! written.

use crate::faults::checks::{check, Check, Judged};
use crate::faults::folders::{demand_same, Entry, Files, Folder};
use crate::faults::outcome::{demand_message, Said};
use crate::faults::scene::{of_letter, Scene};
use std::ffi::{c_char, c_int, c_uint, c_ulong, CString};
use std::fs::{self, OpenOptions, Permissions};
use std::io::{self, Error};
use std::os::unix::ffi::OsStringExt;
use std::os::unix::fs::{symlink, PermissionsExt};
use std::os::unix::net::UnixListener;

/// What is put in the folder before.
type Make = fn(&Folder) -> io::Result<()>;

const NOTHING: Make = |_| Ok(());

// ---- what is left alone

/// What is said of OUT, its name, and how it is made.
const LEFT_ALONE: [(&str, &str, Make); 17] = [
    ("is a link to a file", "out", |folder| {
        make_file(folder)?;
        symlink("file", folder.path("out"))
    }),
    ("is a link to IN", "out", |folder| symlink("in.sbt", folder.path("out"))),
    ("is a link that leads nowhere", "out", |folder| symlink("none", folder.path("out"))),
    ("is a link to a folder", "out", |folder| symlink(".", folder.path("out"))),
    ("is a folder", "folder", make_folder),
    ("is a folder, with a slash", "folder/", make_folder),
    ("is its own folder", ".", NOTHING),
    ("is a named pipe", "out", make_pipe),
    ("is a socket", "out", |folder| UnixListener::bind(folder.path("out")).map(|_| ())),
    ("is a device", "out", make_device),
    ("may not be written", "file", |folder| {
        make_file(folder)?;
        take_rights(folder, "file")
    }),
    ("is in a folder that may not be written", "folder/out", |folder| {
        make_folder(folder)?;
        take_rights(folder, "folder")
    }),
    ("is in a folder that is not there", "none/out", NOTHING),
    ("is in a file", "in.sbt/out", NOTHING),
    ("is a free name with a slash", "out/", NOTHING),
    ("is a file's name with a slash", "in.sbt/", NOTHING),
    ("has an empty name", "", NOTHING),
];

/// Each gets a message, and everything is as it was.
pub fn left_alone(program: &[String]) -> Vec<Check<'_>> {
    let mut cases = Vec::new();
    for (what, output, make) in LEFT_ALONE {
        match Folder::with(&Files::new()).and_then(|folder| make(&folder)) {
            Ok(()) => cases.push((what.to_string(), output.to_string(), make)),
            Err(error) => println!("faults: it is not tried that OUT {what}: {error}"),
        }
    }
    for length in [256, 4_000] {
        cases.push((format!("has a name of {length} bytes"), "n".repeat(length), NOTHING));
    }
    for length in [4_096, 4_097, 70_000] {
        cases.push((format!("has a path of {length} bytes"), path(length), NOTHING));
    }
    let of = |(what, output, make): (String, String, Make)| {
        check(format!("fold, OUT {what}"), move || demand_left_alone(program, &output, make))
    };
    cases.into_iter().map(of).collect()
}

fn demand_left_alone(program: &[String], output: &str, make: Make) -> Judged {
    let scene = Scene::new(program, "", output);
    let folder = scene.laid_out()?;
    make(&folder)?;
    let before = folder.files()?;
    let ended = scene.run_freely(&folder)?;
    demand_same(&before, &folder.files()?)?;
    scene.demand_order(&ended)?;
    demand_message(&ended, Said::AsItWas)
}

/// A path of so many bytes to the file `out`.
fn path(length: usize) -> String {
    let to_itself = "./".repeat((length - 3) / 2);
    let slash = if length % 2 == 0 { "/" } else { "" };
    format!("{to_itself}{slash}out")
}

fn make_file(folder: &Folder) -> io::Result<()> {
    fs::write(folder.path("file"), [1, 2, 3])
}

fn make_folder(folder: &Folder) -> io::Result<()> {
    fs::create_dir(folder.path("folder"))
}

fn make_pipe(folder: &Folder) -> io::Result<()> {
    let name = CString::new(folder.path("out").into_os_string().into_vec())?;
    done(unsafe { mkfifo(name.as_ptr(), 0o644) })
}

/// A device that takes all and gives nothing, with a name of its own.
fn make_device(folder: &Folder) -> io::Result<()> {
    let name = CString::new(folder.path("out").into_os_string().into_vec())?;
    done(unsafe { mknod(name.as_ptr(), CHARACTER_DEVICE | 0o666, NULL_DEVICE) })
}

/// Takes the right to write away, where that has an effect.
fn take_rights(folder: &Folder, name: &str) -> io::Result<()> {
    if may_write_all()? {
        return Err(Error::other("who runs this may write all"));
    }
    fs::set_permissions(folder.path(name), Permissions::from_mode(0o555))
}

/// Whether rights do not bind the one who runs this.
fn may_write_all() -> io::Result<bool> {
    let folder = Folder::with(&Files::from([("file".to_string(), Entry::file(0o444, vec![]))]))?;
    Ok(OpenOptions::new().write(true).open(folder.path("file")).is_ok())
}

fn done(answer: c_int) -> io::Result<()> {
    if answer == 0 {
        return Ok(());
    }
    Err(Error::last_os_error())
}

const CHARACTER_DEVICE: c_uint = 0o020_000;
const NULL_DEVICE: c_ulong = 0x103;

extern "C" {
    fn mkfifo(name: *const c_char, mode: c_uint) -> c_int;
    fn mknod(name: *const c_char, mode: c_uint, device: c_ulong) -> c_int;
}

// ---- what is written

/// What is said of OUT, its name, the file to which that leads, and what is there before.
const WRITTEN: [(&str, &str, &str, Make); 9] = [
    ("is in its own folder", "./out", "out", NOTHING),
    ("is in another folder", "folder/out", "folder/out", make_folder),
    ("has two slashes", "folder//out", "folder/out", make_folder),
    ("leads into a folder and back", "folder/../out", "out", make_folder),
    ("is in a folder behind a link", "link/out", "folder/out", |folder| {
        make_folder(folder)?;
        symlink("folder", folder.path("link"))
    }),
    ("begins with a point", ".out", ".out", NOTHING),
    ("begins with a dash", "-out", "-out", NOTHING),
    ("has a blank and a line's end", "o u\nt", "o u\nt", NOTHING),
    ("is another name of the file IN", "out", "out", |folder| {
        fs::hard_link(folder.path("in.sbt"), folder.path("out"))
    }),
];

/// Each gets the answer, and the file is the new table.
pub fn written(program: &[String]) -> Vec<Check<'_>> {
    let mut cases = Vec::new();
    for (what, output, file, make) in WRITTEN {
        cases.push((what, output.to_string(), file.to_string(), make));
    }
    let longest = "n".repeat(255);
    cases.push(("has a name of 255 bytes", longest.clone(), longest, NOTHING));
    let of = |(what, output, file, make): (&str, String, String, Make)| {
        check(format!("fold, OUT {what}"), move || demand_written(program, &output, &file, make))
    };
    let mut checks: Vec<Check> = cases.into_iter().map(of).collect();
    checks.push(check("fold, OUT has a path from the root on".to_string(), move || {
        from_root(program)
    }));
    checks.push(check("fold, OUT has a path of 4,095 bytes".to_string(), move || {
        longest_path(program)
    }));
    checks
}

fn demand_written(program: &[String], output: &str, file: &str, make: Make) -> Judged {
    let scene = Scene::new(program, "", output);
    let folder = scene.laid_out()?;
    make(&folder)?;
    demand_leads_to(&scene, &folder, file)
}

/// The name OUT leads to this file, which is the new table after a fold.
fn demand_leads_to(scene: &Scene, folder: &Folder, file: &str) -> Judged {
    let due = Scene { output: file.to_string(), ..scene.clone() }.due(folder.files()?);
    let ended = scene.run_freely(folder)?;
    due.demand_answer(&ended)?;
    scene.demand_order(&ended)?;
    demand_same(due.answered(), &folder.files()?)
}

fn from_root(program: &[String]) -> Judged {
    let mut scene = Scene::new(program, "", "");
    let folder = scene.laid_out()?;
    let path = fs::canonicalize(folder.path(""))?.join("out");
    scene.output = path.into_os_string().into_string().map_err(|_| "the path is no text")?;
    demand_leads_to(&scene, &folder, "out")
}

/// The name of the new file may be too long then.
fn longest_path(program: &[String]) -> Judged {
    let scene = Scene::new(program, "", &path(4_095));
    let folder = scene.laid_out()?;
    let due = Scene { output: "out".to_string(), ..scene.clone() }.due(folder.files()?);
    let ended = scene.run_freely(&folder)?;
    scene.demand_order(&ended)?;
    due.demand_either(&ended, folder.files()?)
}

// ---- rights

/// Rights that let their owner write, and some that do so where rights do not bind.
const RIGHTS: [u32; 6] = [0o600, 0o640, 0o644, 0o664, 0o666, 0o755];
const NOT_WRITABLE: [u32; 2] = [0o444, 0o000];

/// An old OUT keeps its rights and its owner, and a new one has those of any new file.
pub fn rights(program: &[String]) -> io::Result<Vec<Check<'_>>> {
    let mut rights = RIGHTS.to_vec();
    if may_write_all()? {
        rights.extend(NOT_WRITABLE);
    }
    let mut files: Vec<(String, Option<Entry>)> = vec![("a new OUT".to_string(), None)];
    for rights in rights {
        let out = Entry::file(rights, of_letter("J").content);
        files.push((format!("OUT has the rights {rights:03o}"), Some(out)));
    }
    let owner = Some((12_345, 23_456));
    let given = Entry { owner, ..Entry::file(0o640, of_letter("J").content) };
    match Folder::with(&Files::from([("out".to_string(), given.clone())])) {
        Ok(_) => files.push(("OUT is another user's".to_string(), Some(given))),
        Err(error) => println!("faults: it is not tried that OUT is another user's: {error}"),
    }
    let mut checks = Vec::new();
    for umask in [0o022, 0o077, 0o002, 0o000] {
        for (what, out) in &files {
            let mut scene = Scene { umask, ..Scene::out_is_missing(program) };
            if let Some(out) = out {
                scene = scene.and("out.sbt", out.clone());
            }
            checks.push(check(format!("fold, umask {umask:03o}, {what}"), move || {
                scene.demand_answer(&scene.laid_out()?)
            }));
        }
    }
    Ok(checks)
}
