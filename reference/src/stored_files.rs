//! Files that are kept in the repository and made anew from here: held against what is made, and written.

use crate::command::{unable, write, Failure};
use std::collections::BTreeSet;
use std::ffi::OsString;
use std::path::{Path, PathBuf};

/// A file's name within its folder, and what it must hold.
pub struct MadeFile {
    pub name: String,
    pub content: Vec<u8>,
}

impl MadeFile {
    pub fn new(name: &str, content: Vec<u8>) -> MadeFile {
        MadeFile {
            name: name.to_string(),
            content,
        }
    }

    /// Whether the stored file is another one, and a line that says so.
    fn held_against(&self, path: &Path) -> Result<(bool, String), Failure> {
        let stored = match std::fs::read(path) {
            Ok(stored) => Some(stored),
            Err(error) if error.kind() == std::io::ErrorKind::NotFound => None,
            Err(error) => return Err(unusable(path, error)),
        };
        let (differs, verdict) = match stored {
            None => (true, "is missing"),
            Some(stored) if stored != self.content => (true, "differs"),
            Some(_) => (false, "is the same"),
        };
        Ok((differs, format!("{}: {verdict}\n", path.display())))
    }
}

fn unusable(path: &Path, error: std::io::Error) -> Failure {
    unable(format!("{}: {error}", path.display()))
}

/// Says of each file whether the stored one is the same, and writes those that are not unless `check` is set.
/// Answers how many are not the same.
pub fn renew(folder: &Path, files: &[MadeFile], check: bool) -> Result<usize, Failure> {
    let mut different = 0;
    for file in files {
        let path = folder.join(&file.name);
        let (differs, line) = file.held_against(&path)?;
        write(&line)?;
        different += usize::from(differs);
        if differs && !check {
            std::fs::write(&path, &file.content).map_err(|error| unusable(&path, error))?;
        }
    }
    Ok(different)
}

/// Names what a folder has beside these files. Answers how many there are.
pub fn others(folder: &Path, files: &[MadeFile]) -> Result<usize, Failure> {
    let made: BTreeSet<PathBuf> = files.iter().map(|file| folder.join(&file.name)).collect();
    let mut found = BTreeSet::new();
    for entry in std::fs::read_dir(folder).map_err(|error| unusable(folder, error))? {
        found.insert(entry.map_err(|error| unusable(folder, error))?.path());
    }
    let others: Vec<&PathBuf> = found.difference(&made).collect();
    for other in &others {
        write(&format!("{}: is none of these files\n", other.display()))?;
    }
    Ok(others.len())
}

/// The arguments `[--check] FOLDER`: whether only to check, and the folder.
pub fn check_and_folder(usage: &str) -> Result<(bool, PathBuf), Failure> {
    let arguments: Vec<OsString> = std::env::args_os().skip(1).collect();
    match &arguments[..] {
        [check, folder] if check == "--check" => Ok((true, PathBuf::from(folder))),
        [folder] if folder != "--check" => Ok((false, PathBuf::from(folder))),
        _ => Err(unable(usage)),
    }
}
