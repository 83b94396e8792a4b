//! What the commands are, for people.

/// Forms up to this width stand beside what they do.
const MOST_WIDTH: usize = 30;

/// A command, as it is told.
#[derive(Clone, Copy, Debug, PartialEq, Eq)]
pub struct Entry {
    /// How it is said; the first word is its name.
    pub form: &'static str,
    /// What it does, in a line.
    pub summary: &'static str,
    /// What else there is to say, or nothing.
    pub details: &'static str,
}

/// The commands of the director.
pub const COMMANDS: [Entry; 15] = [
    Entry {
        form: "status [--json]",
        summary: "the servers with their weights, connections and state",
        details: "\
A finished connection is one that both ends have closed: it counts for two minutes more. Open are all others; open and finished
add up to the connections. The states are `in service`, `draining` (weight 0, with connections), `may be unplugged` (weight 0,
without), and `down`, alone or before the others.
",
    },
    Entry {
        form: "count N [--json]",
        summary: "how many connections server N has",
        details: "",
    },
    Entry {
        form: "connections [N] [--json]",
        summary: "each connection, of all servers or of server N",
        details: "\
Sorted by server, and by age. All times are in seconds: age since its opening (- where that isn't known), idle since its last
packet, left until it is removed if no packet comes. The states are `opening` (nothing but SYNs has come from the client), `open`,
`client finished`, `server finished` and `finished`.
",
    },
    Entry {
        form: "weight N W",
        summary: "set the weight of server N to W, 0 to 65535",
        details: "",
    },
    Entry {
        form: "weights N=W ..",
        summary: "set the weights of several servers, all or none",
        details: "As `weights 0=1 1=3 10.3.0.5:6432=0`. Where one word is wrong, or a server is named twice, nothing is set.\n",
    },
    Entry {
        form: "drain N",
        summary: "set the weight of server N to 0: it keeps its connections and gets no new ones",
        details: "",
    },
    Entry {
        form: "down N",
        summary: "say that server N is down: it gets no new connections, whatever its weight",
        details: "\
For a health check. The weight stays as it is, and may be set meanwhile; it holds again after `up`. So a check never puts a drained
server back, and nobody who sets weights puts one back that is down.
",
    },
    Entry {
        form: "up N",
        summary: "say that server N is no longer down: its weight holds again",
        details: "",
    },
    Entry {
        form: "disconnect ADDRESS:PORT",
        summary: "end the connection of that client",
        details: "",
    },
    Entry {
        form: "flush N",
        summary: "end all connections of server N",
        details: "Without `drain` before it, the clients that connect again may get the same server.\n",
    },
    Entry {
        form: "left N",
        summary: "what is left of server N, in a line for programs",
        details: "\
Names and values: the director (another one has another), server, address, service (in, or out where it gets no new connections),
connections, finished, last (seconds until the last finished one is removed), idle (seconds of the longest silence of another).
",
    },
    Entry {
        form: "watch",
        summary: "the status again each time it changed",
        details: "",
    },
    Entry {
        form: "metrics",
        summary: "all counts, in the text form of Prometheus",
        details: "",
    },
    Entry {
        form: "reload",
        summary: "read the configuration anew and set the weights that have changed in it",
        details: "",
    },
    Entry { form: "help", summary: "this text", details: "" },
];

impl Entry {
    /// The command's name.
    pub fn name(&self) -> &'static str {
        self.form.split(' ').next().unwrap_or_default()
    }

    /// What to say where it was said otherwise.
    pub fn expected(&self, got: &str) -> String {
        format!("expected `{}`, got {got:?}", self.form)
    }
}

/// The command of that name.
pub fn entry<'a>(entries: &'a [Entry], name: &str) -> Option<&'a Entry> {
    entries.iter().find(|entry| entry.name() == name)
}

/// What to say where there is no command of that name.
pub fn unknown(entries: &[Entry], name: &str) -> String {
    let names: Vec<&str> = entries.iter().map(Entry::name).collect();
    let (last, others) = names.split_last().unwrap_or((&"", &[]));
    format!("expected a command: {} or {last}, got {name:?}", others.join(", "))
}

/// The commands, a line each, or two where the form is long.
pub fn text(entries: &[Entry]) -> String {
    let widths = entries.iter().map(|entry| entry.form.len()).filter(|width| *width <= MOST_WIDTH);
    let width = widths.max().unwrap_or(0);
    let line = |Entry { form, summary, .. }: &Entry| match form.len() > width {
        true => format!("{form}\n{:width$}  {summary}\n", ""),
        false => format!("{form:width$}  {summary}\n"),
    };
    entries.iter().map(line).collect()
}
