//! JSON as another program reads it.

use programs::JQ;
use std::fs;
use std::path::PathBuf;
use std::sync::atomic::{AtomicU32, Ordering};

/// A number for each file, since tests run at the same time.
static FILES: AtomicU32 = AtomicU32::new(0);

/// What `jq` makes of a JSON text by a filter, strings without quotation marks. The text must be one line, and JSON.
pub fn jq(text: &str, filter: &str) -> String {
    assert_eq!(text.matches('\n').count(), 1, "{text:?}");
    let number = FILES.fetch_add(1, Ordering::Relaxed);
    let name = format!("jq-{}-{number}.json", std::process::id());
    let path = PathBuf::from(env!("CARGO_TARGET_TMPDIR")).join(name);
    fs::write(&path, text).unwrap();
    let output = JQ.run(&["-rc", filter, path.to_str().unwrap()]);
    fs::remove_file(&path).unwrap();
    let log = String::from_utf8_lossy(&output.stderr);
    assert!(output.status.success(), "{filter}: {log}");
    String::from_utf8(output.stdout).unwrap().trim_end().to_string()
}
