//! One process hands its director to the next: over the control socket while both run, or by a file from one start to the
//! next. A director is plain numbers that pass from call to call; so it goes on in the next process as in the next call.

pub mod file;
pub mod give;
pub mod layout;
mod possible;
pub mod request;
pub mod snapshot;
pub mod take;
mod timed;

use std::time::Duration;

/// So long one process waits for the other; no packet is served meanwhile.
pub const PATIENCE: Duration = Duration::from_secs(5);

/// What the next process says once all is ready there: from then on it serves, and the other one no more.
const SERVING: &str = "serving";
/// What the next process says before the reason why it does not serve.
const REFUSED: &str = "refused: ";
/// What stands before the number of a director's bytes, which follow.
const STATE: &str = "state ";
