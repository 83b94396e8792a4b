//! The state file: a director from one start of the program to the next. It is used once and whole, or not at all.

use super::layout::{self, MOST_BYTES};
use super::snapshot::Snapshot;
use crate::system;
use std::fs::{self, File, OpenOptions};
use std::io::{self, ErrorKind, Read, Write};
use std::os::unix::fs::{MetadataExt, OpenOptionsExt};
use std::path::{Path, PathBuf};

/// Nobody else may read whom the service talks with.
const OWNER_ONLY: u32 = 0o600;

/// Whether a state could be saved there later; an error says why not.
pub fn check(path: &Path) -> Result<(), String> {
    let aside = beside(path, ".new");
    make(&aside)
        .and_then(|_| fs::remove_file(&aside))
        .map_err(|error| complaint(path, "could not be saved", &error))
}

/// Saves a director, so that the file is there whole or as it was before.
pub fn save(path: &Path, snapshot: &Snapshot) -> Result<(), String> {
    let aside = beside(path, ".new");
    let saved = || {
        let mut file = make(&aside)?;
        file.write_all(&layout::bytes_of(snapshot))?;
        file.sync_all()?;
        fs::rename(&aside, path)?;
        sync_folder(path)
    };
    saved().map_err(|error| complaint(path, "can't be saved", &error))
}

/// What the file holds: None where there is none; an error says why it can't be used.
pub fn load(path: &Path) -> Option<Result<Snapshot, String>> {
    match bytes_of(path) {
        Err(error) if error.kind() == ErrorKind::NotFound => None,
        Err(error) => Some(Err(format!("it can't be read: {error}"))),
        Ok(bytes) => Some(layout::read(&bytes)),
    }
}

/// Removes a file that was used: a second time it would not be true.
pub fn remove(path: &Path) -> Result<(), String> {
    let removed = || fs::remove_file(path).and_then(|()| sync_folder(path));
    removed().map_err(|error| complaint(path, "can't be removed", &error))
}

/// Puts a file aside that can't be used, and tells where it is.
pub fn put_aside(path: &Path) -> Result<PathBuf, String> {
    let bad = beside(path, ".bad");
    let moved = || fs::rename(path, &bad).and_then(|()| sync_folder(path));
    moved().map(|()| bad.clone()).map_err(|error| complaint(path, "can't be put aside", &error))
}

fn complaint(path: &Path, what: &str, error: &io::Error) -> String {
    format!("the state file {} {what}: {error}", path.display())
}

fn beside(path: &Path, ending: &str) -> PathBuf {
    let mut beside = path.as_os_str().to_owned();
    beside.push(ending);
    beside.into()
}

/// A new file in the place of one that an earlier process may have left.
fn make(path: &Path) -> io::Result<File> {
    match fs::remove_file(path) {
        Err(error) if error.kind() != ErrorKind::NotFound => return Err(error),
        _ => {}
    }
    OpenOptions::new().write(true).create_new(true).mode(OWNER_ONLY).open(path)
}

fn bytes_of(path: &Path) -> io::Result<Vec<u8>> {
    let found = fs::metadata(path)?;
    // another's file tells what another wants, and a pipe would never end
    if !found.is_file() || ![0, system::own_user()].contains(&found.uid()) {
        return Err(io::Error::other("it is not a file of this program's user"));
    }
    let mut bytes = Vec::new();
    File::open(path)?.take(MOST_BYTES as u64 + 1).read_to_end(&mut bytes)?;
    Ok(bytes)
}

/// A name in a folder lasts when the folder is written too.
fn sync_folder(path: &Path) -> io::Result<()> {
    let folder = path.parent().filter(|folder| !folder.as_os_str().is_empty());
    File::open(folder.unwrap_or(Path::new(".")))?.sync_all()
}
