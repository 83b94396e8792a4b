//! For build scripts: finds the archives that `./archives` writes, and links them.

#![forbid(unsafe_code)]
#![warn(missing_docs)]

use std::env;
use std::ffi::OsString;
use std::path::{Path, PathBuf};

/// The libraries as `./archives` and the linker know them.
const LIBRARIES: [&str; 3] = ["nidhaaguf", "nidhaaguf_serve", "sums"];

/// Links the package at hand, a folder of `host/`, with these libraries; where one is missing, says so and ends the build.
pub fn link(libraries: &[&str]) {
    println!("cargo:rerun-if-env-changed=NIDHAAGUF_LIB");
    let package = PathBuf::from(env::var_os("CARGO_MANIFEST_DIR").unwrap_or_default());
    let directory = directory(env::var_os("NIDHAAGUF_LIB"), &package);
    for library in libraries {
        if let Err(complaint) = link_one(library, &directory) {
            // plain words, and no panic message around them
            eprintln!("\n{complaint}\n");
            std::process::exit(1);
        }
    }
}

fn archive(library: &str) -> String {
    format!("lib{library}.a")
}

/// What NIDHAAGUF_LIB gives (a directory with the archives, or one of them), or where `./archives` writes them.
fn directory(given: Option<OsString>, package: &Path) -> PathBuf {
    let path = match given {
        Some(given) => PathBuf::from(given),
        None => package.join("../../target/staticlib"),
    };
    let is_archive = LIBRARIES.iter().any(|library| path.ends_with(archive(library)));
    match path.parent() {
        Some(parent) if is_archive && !path.is_dir() => parent.to_path_buf(),
        _ => path,
    }
}

fn link_one(library: &str, directory: &Path) -> Result<(), String> {
    let path = directory.join(archive(library));
    println!("cargo:rerun-if-changed={}", path.display());
    let found = path.canonicalize().map_err(|_| {
        format!(
            "The library {} is missing: there is no file {}.\n\
             Run `./archives {library}` at the top of the repository, which writes it to target/staticlib,\n\
             or set NIDHAAGUF_LIB to the directory that has it.",
            archive(library),
            path.display()
        )
    })?;
    let directory = found.parent().unwrap_or(directory);
    println!("cargo:rustc-link-search=native={}", directory.display());
    println!("cargo:rustc-link-lib=static={library}");
    Ok(())
}

#[cfg(test)]
mod tests {
    use super::{directory, link_one};
    use std::path::Path;

    fn directory_given(given: &str) -> String {
        directory(Some(given.into()), Path::new("host/package")).display().to_string()
    }

    #[test]
    fn without_a_given_one_it_is_where_the_command_writes() {
        let written = directory(None, Path::new("host/package"));
        assert_eq!(written, Path::new("host/package/../../target/staticlib"));
    }

    #[test]
    fn an_archive_stands_for_its_directory_and_any_other_path_for_itself() {
        assert_eq!(directory_given("elsewhere"), "elsewhere");
        for archive in ["libnidhaaguf.a", "libnidhaaguf_serve.a", "libsums.a"] {
            assert_eq!(directory_given(&format!("elsewhere/{archive}")), "elsewhere");
        }
        for other in ["elsewhere/libother.a", "elsewhere/old_libsums.a", "elsewhere/sums"] {
            assert_eq!(directory_given(other), other);
        }
    }

    #[test]
    fn a_missing_archive_is_named_with_the_command_that_writes_it() {
        let complaint = link_one("nidhaaguf_serve", Path::new("nowhere")).unwrap_err();
        for part in ["nowhere/libnidhaaguf_serve.a", "`./archives nidhaaguf_serve`"] {
            assert!(complaint.contains(part), "{complaint}");
        }
    }
}
