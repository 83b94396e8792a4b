//! The state file: written whole, used once, put aside where it can't be used.

use crate::damage::damaged;
use crate::support::*;
use live::handover::{file, layout};
use random::Rng;
use std::fs::{self, Permissions};
use std::os::unix::fs::{symlink, PermissionsExt};
use std::path::Path;

/// The names in a folder.
fn names(folder: &Folder) -> Vec<String> {
    let mut names: Vec<_> = fs::read_dir(&folder.0)
        .unwrap()
        .map(|entry| entry.unwrap().file_name().into_string().unwrap())
        .collect();
    names.sort();
    names
}

/// Why what is there can't be used.
fn complaint(path: &Path) -> String {
    file::load(path).expect("nothing is there").expect_err("it can be used")
}

#[test]
fn saved_loaded_and_removed() {
    let (folder, snapshot) = (Folder::new("saved"), small_snapshot());
    let path = folder.file("state");
    assert_eq!(file::load(&path), None);
    // in the place of what is there, of any mode
    fs::write(&path, "old").unwrap();
    fs::set_permissions(&path, Permissions::from_mode(0o666)).unwrap();
    for _ in 0..2 {
        file::save(&path, &snapshot).unwrap();
        assert_eq!(fs::metadata(&path).unwrap().permissions().mode() & 0o777, 0o600);
        assert_eq!(fs::read(&path).unwrap(), layout::bytes_of(&snapshot));
        assert_eq!(file::load(&path), Some(Ok(snapshot.clone())));
        assert_eq!(names(&folder), ["state"]);
    }
    file::remove(&path).unwrap();
    assert_eq!((file::load(&path), names(&folder).len()), (None, 0));
    let complaint = file::remove(&path).unwrap_err();
    assert!(complaint.ends_with("state can't be removed: No such file or directory (os error 2)"));
}

#[test]
fn put_aside_in_the_place_of_an_earlier_one() {
    let folder = Folder::new("aside");
    let (path, bad) = (folder.file("state"), folder.file("state.bad"));
    for text in ["first", "second"] {
        fs::write(&path, text).unwrap();
        assert_eq!(complaint(&path), "it is no director's state");
        assert_eq!(file::put_aside(&path), Ok(bad.clone()));
        assert_eq!((fs::read_to_string(&bad).unwrap().as_str(), file::load(&path)), (text, None));
    }
    assert_eq!(names(&folder), ["state.bad"]);
}

/// A process that was killed while it wrote has left a part of a file: it is never read, and is no obstacle.
#[test]
fn a_part_left_behind_does_not_matter() {
    let (folder, snapshot) = (Folder::new("part"), small_snapshot());
    let (path, part) = (folder.file("state"), folder.file("state.new"));
    fs::write(&part, &layout::bytes_of(&snapshot)[..100]).unwrap();
    fs::set_permissions(&part, Permissions::from_mode(0o644)).unwrap();
    assert_eq!(file::load(&path), None);
    assert_eq!(file::check(&path), Ok(()));
    assert_eq!(names(&folder).len(), 0);
    // nor is a name that leads to another's file, which stays as it is
    fs::write(folder.file("other"), "precious").unwrap();
    symlink(folder.file("other"), &part).unwrap();
    file::save(&path, &snapshot).unwrap();
    assert_eq!(file::load(&path), Some(Ok(snapshot)));
    assert_eq!(fs::read_to_string(folder.file("other")).unwrap(), "precious");
    assert_eq!(names(&folder), ["other", "state"]);
}

/// That a state could be saved is known before one is there; the one that is there is left alone.
#[test]
fn a_check_says_why_nothing_could_be_saved() {
    let (folder, snapshot) = (Folder::new("check"), small_snapshot());
    let path = folder.file("state");
    file::save(&path, &snapshot).unwrap();
    assert_eq!(file::check(&path), Ok(()));
    assert_eq!(file::load(&path), Some(Ok(snapshot.clone())));
    fs::create_dir(folder.file("state.new")).unwrap();
    let missing = folder.file("missing/state");
    for (path, reason) in [(&path, "Is a directory"), (&missing, "No such file or directory")] {
        let place = format!("the state file {}", path.display());
        let complaint = file::check(path).unwrap_err();
        assert!(
            complaint.starts_with(&format!("{place} could not be saved: {reason} ")),
            "{complaint}"
        );
        let complaint = file::save(path, &snapshot).unwrap_err();
        assert!(
            complaint.starts_with(&format!("{place} can't be saved: {reason} ")),
            "{complaint}"
        );
    }
    assert_eq!(file::load(&path), Some(Ok(snapshot)));
}

/// A folder, a pipe that nobody writes to and a device that never ends: none is read, and each can be put aside.
#[test]
fn what_is_no_file_is_not_read() {
    let folder = Folder::new("kinds");
    let path = folder.file("state");
    let (_reader, writer) = std::io::pipe().unwrap();
    let pipe = format!("/proc/self/fd/{}", std::os::fd::AsRawFd::as_raw_fd(&writer));
    let kinds: [&dyn Fn(); 3] =
        [&|| symlink(&pipe, &path).unwrap(), &|| symlink("/dev/zero", &path).unwrap(), &|| {
            fs::create_dir(&path).unwrap()
        }];
    for make in kinds {
        make();
        assert_eq!(complaint(&path), "it can't be read: it is not a file of this program's user");
        assert_eq!(file::put_aside(&path), Ok(folder.file("state.bad")));
        assert_eq!(file::load(&path), None);
        fs::remove_file(folder.file("state.bad"))
            .or_else(|_| fs::remove_dir(folder.file("state.bad")))
            .unwrap();
    }
    // a name that leads nowhere is no file
    symlink(folder.file("nowhere"), &path).unwrap();
    assert_eq!(file::load(&path), None);
}

/// A file far larger than any director's is not read to its end.
#[test]
fn a_file_without_an_end_is_not_read_to_it() {
    let folder = Folder::new("large");
    let path = folder.file("state");
    fs::write(&path, layout::bytes_of(&small_snapshot())).unwrap();
    fs::OpenOptions::new().write(true).open(&path).unwrap().set_len(1 << 40).unwrap();
    assert!(complaint(&path).starts_with("it is cut or damaged: "));
}

/// Through the file as through the bytes: whatever becomes of it, it is used whole or not at all.
#[test]
fn damaged_files_are_refused() {
    let (folder, mut random) = (Folder::new("damaged"), Rng::new(17));
    let (path, bytes) = (folder.file("state"), layout::bytes_of(&small_snapshot()));
    for _ in 0..200 {
        fs::write(&path, damaged(&mut random, &bytes)).unwrap();
        complaint(&path);
    }
}
