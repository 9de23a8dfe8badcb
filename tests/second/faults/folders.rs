//! A folder for one test: the files that are put there, and all that stands there afterwards.

use crate::count::quoted;
use crate::faults::checks::{demand, Judged};
use std::collections::{BTreeMap, BTreeSet};
use std::fs::{self, Permissions};
use std::io;
use std::os::unix::fs::{chown, MetadataExt, PermissionsExt};
use std::path::{Path, PathBuf};
use std::sync::atomic::{AtomicUsize, Ordering};

/// Where the folders are made.
pub const FOLDERS: &str = "tests/build/faults";

/// What stands in a folder, by name.
pub type Files = BTreeMap<String, Entry>;

#[derive(Clone, PartialEq)]
pub struct Entry {
    /// Its kind and its rights.
    pub mode: u32,
    /// Its owner and its group; none where it does not matter who makes it.
    pub owner: Option<(u32, u32)>,
    /// What is in a file; of a link, where it leads; of a device, its number.
    pub content: Vec<u8>,
}

const PLAIN: u32 = 0o100_000;
const DIRECTORY: u32 = 0o040_000;
const KIND: u32 = 0o170_000;
const RIGHTS: u32 = 0o7_777;

impl Entry {
    /// A plain file.
    pub fn file(rights: u32, content: Vec<u8>) -> Entry {
        Entry { mode: PLAIN | rights, owner: None, content }
    }

    fn at(path: &Path) -> io::Result<Entry> {
        let data = fs::symlink_metadata(path)?;
        let content = if data.is_file() {
            fs::read(path)?
        } else if data.is_symlink() {
            fs::read_link(path)?.into_os_string().into_encoded_bytes()
        } else {
            data.rdev().to_le_bytes().to_vec()
        };
        Ok(Entry { mode: data.mode(), owner: Some((data.uid(), data.gid())), content })
    }

    fn words(&self) -> String {
        format!("{:o} of {:?} {}", self.mode, self.owner, quoted(&self.content))
    }
}

/// It is taken away in the end.
pub struct Folder(PathBuf);

static MADE: AtomicUsize = AtomicUsize::new(0);

impl Folder {
    /// A folder with these plain files.
    pub fn with(files: &Files) -> io::Result<Folder> {
        let number = MADE.fetch_add(1, Ordering::Relaxed);
        let folder = Folder(Path::new(FOLDERS).join(number.to_string()));
        fs::create_dir_all(&folder.0)?;
        for (name, entry) in files {
            let path = folder.path(name);
            fs::write(&path, &entry.content)?;
            if let Some((owner, group)) = entry.owner {
                chown(&path, Some(owner), Some(group))?;
            }
            fs::set_permissions(&path, Permissions::from_mode(entry.mode & RIGHTS))?;
        }
        Ok(folder)
    }

    /// The path of a file in it.
    pub fn path(&self, name: &str) -> PathBuf {
        self.0.join(name)
    }

    /// All that stands in it now.
    pub fn files(&self) -> io::Result<Files> {
        let mut files = Files::new();
        let mut folders = vec![String::new()];
        while let Some(folder) = folders.pop() {
            for found in fs::read_dir(self.path(&folder))? {
                let name = format!("{folder}{}", found?.file_name().to_string_lossy());
                let entry = Entry::at(&self.path(&name))?;
                if entry.mode & KIND == DIRECTORY {
                    folders.push(format!("{name}/"));
                }
                files.insert(name, entry);
            }
        }
        Ok(files)
    }
}

impl Drop for Folder {
    fn drop(&mut self) {
        let _ = fs::remove_dir_all(&self.0);
    }
}

pub fn demand_same(due: &Files, files: &Files) -> Judged {
    demand(due == files, || difference(due, files))
}

/// In words where the files differ from those that are due.
pub fn difference(due: &Files, files: &Files) -> String {
    let words = |entry: Option<&Entry>| entry.map_or("missing".to_string(), Entry::words);
    let names: BTreeSet<&String> = due.keys().chain(files.keys()).collect();
    let differ = names.into_iter().filter(|&name| due.get(name) != files.get(name));
    let each = differ
        .map(|name| format!("{name} is {}, due {}", words(files.get(name)), words(due.get(name))));
    each.collect::<Vec<_>>().join("; ")
}
