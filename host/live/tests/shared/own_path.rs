//! Paths that no other test uses.

use std::path::PathBuf;
use std::sync::atomic::{AtomicUsize, Ordering};

/// A path in the directory for temporary files, of this run's own, and of this call's own where another test gives the same name.
pub fn own_path(name: &str) -> PathBuf {
    static MADE: AtomicUsize = AtomicUsize::new(0);
    let (process, number) = (std::process::id(), MADE.fetch_add(1, Ordering::Relaxed));
    std::env::temp_dir().join(format!("nidhaaguf-{process}-{number}-{name}"))
}
