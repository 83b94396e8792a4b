//! A directory for a daemon, and the commands that are run there.

use crate::own_path::own_path;
use programs::SETPRIV;
use std::fs;
use std::os::unix::fs::PermissionsExt;
use std::path::{Path, PathBuf};
use std::process::{Command, Stdio};

/// A directory that other users may look into, removed in the end.
pub struct Place(pub PathBuf);

impl Place {
    pub fn new(name: &str) -> Place {
        let path = own_path(name);
        fs::create_dir(&path).unwrap();
        fs::set_permissions(&path, fs::Permissions::from_mode(0o755)).unwrap();
        Place(path)
    }

    pub fn file(&self, name: &str) -> String {
        self.0.join(name).to_str().unwrap().to_string()
    }
}

impl Drop for Place {
    fn drop(&mut self) {
        let _ = fs::remove_dir_all(&self.0);
    }
}

/// The daemon's command for a configuration in that place; the device and the socket are of the place too.
pub fn command(place: &Place, config: &str, device: &str, flags: &[&str]) -> Command {
    let path = place.file("nidhaaguf.conf");
    fs::write(&path, config).unwrap();
    let mut command = Command::new(env!("CARGO_BIN_EXE_nidhaagufd"));
    command.args(["--config", &path, "--device", device, "--socket", &place.file("sock")]);
    command.args(flags).stdin(Stdio::null()).stdout(Stdio::piped()).stderr(Stdio::piped());
    command
}

/// The operator's command.
pub fn control() -> Command {
    Command::new(env!("CARGO_BIN_EXE_nidhaagufctl"))
}

/// The same command by a user without any rights. Where the build is, others may not look: so the program is copied.
pub fn as_nobody(command: &Command, place: &Place) -> Command {
    let program = Path::new(command.get_program());
    let copy = place.file(program.file_name().unwrap().to_str().unwrap());
    // one that runs can't be written
    if !Path::new(&copy).exists() {
        fs::copy(program, &copy).unwrap();
    }
    let mut as_nobody = SETPRIV.command();
    as_nobody.args(["--reuid=nobody", "--clear-groups", &copy]).args(command.get_args());
    as_nobody.stdin(Stdio::null()).stdout(Stdio::piped()).stderr(Stdio::piped());
    as_nobody
}
