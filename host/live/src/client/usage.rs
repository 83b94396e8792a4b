//! The help of the operator's command.

use crate::config::DEFAULT_SOCKET;
use crate::control::commands::help::{self, Entry, COMMANDS};
use crate::routes;

const EXIT_STATUS: &str = "\
Exit status: 0 done; 1 the director refused, and says why; 2 wrong usage, or no director answers, or another one than the one that
was waited for; 3 the time of a wait is up.
";

/// Drains a server, and waits.
pub const DRAIN: Entry = Entry {
    form: "drain N [--wait [SECONDS]]",
    summary:
        "set the weight of server N to 0: it keeps its connections and gets no new ones; and wait",
    details: "\
With --wait it waits, as `wait` does, until the server has no connections.
",
};

/// Waits.
pub const WAIT: Entry = Entry {
    form: "wait N [SECONDS]",
    summary: "wait until server N, which gets no new connections, has none left",
    details: "\
On a terminal there is one line, which is written anew; otherwise a line each time that the number of connections, or of the
finished ones, has changed. It exits with 0 at zero, with 3 when so many SECONDS are over, with 2 when the director has gone or
another one answers: only the director that it began with can tell that all is over. A process that takes over is the same
director. It exits with 1 where there is no such server, or it is in service: then a count of zero would not last.
",
};

/// Makes routes.
pub const ROUTES: Entry = Entry {
    form: routes::FORM,
    summary:
        "make or remove the host's routes to the service of a configuration, or print the commands",
    details: routes::FLAGS,
};

/// All commands: the director's, of which one does more here, and those that are done here.
pub fn entries() -> Vec<Entry> {
    let mut entries = COMMANDS.to_vec();
    if let Some(place) = entries.iter().position(|entry| entry.name() == DRAIN.name()) {
        entries.splice(place..=place, [DRAIN, WAIT]);
    }
    // before the help
    entries.insert(entries.len() - 1, ROUTES);
    entries
}

/// The help.
pub fn all() -> String {
    let commands = help::text(&entries());
    format!(
        "\
nidhaagufctl: says something to a running nidhaagufd and prints its answer

usage: nidhaagufctl [--socket PATH] COMMAND

  --socket PATH     the director's control socket; {DEFAULT_SOCKET} unless told
  --help            this text; after a command's name, what there is to say of that command
  --version

N is a server's number, or its ADDRESS:PORT. With --json an answer is one line of JSON.

{commands}
{EXIT_STATUS}"
    )
}

/// The help of one command.
pub fn of(entry: &Entry) -> String {
    let Entry { form, summary, details } = entry;
    let between = if details.is_empty() { "" } else { "\n" };
    format!(
        "usage: nidhaagufctl [--socket PATH] {form}\n\n{summary}\n{between}{details}\n{EXIT_STATUS}"
    )
}
