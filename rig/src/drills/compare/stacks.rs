//! What `perf script` says of a program's samples, and how many fall to what.

/// What a program's time is spent on.
#[derive(Clone, Copy, Debug, PartialEq, Eq)]
pub enum Spent {
    /// The system call that reads a packet, up to the device.
    Read,
    /// The system call that writes a packet, up to the device.
    Write,
    /// The kernel's network beyond the device. It works in the time of whoever sends: a written packet is routed on, taken by the
    /// receiver's TCP, and the receiver is woken before the write returns.
    Network,
    /// Waiting for a packet, and giving way to another program.
    Switching,
    /// Any other system call, and interrupts.
    OtherCalls,
    /// The proved library.
    Library,
    /// The C library: copies of memory, and the system calls' entries.
    CLibrary,
    /// The program around the library.
    Program,
}

impl Spent {
    /// All, in the order in which they are told.
    pub const ALL: [Spent; 8] = [
        Spent::Read,
        Spent::Write,
        Spent::Network,
        Spent::Switching,
        Spent::OtherCalls,
        Spent::Library,
        Spent::CLibrary,
        Spent::Program,
    ];

    /// What it is called in the table.
    pub fn name(self) -> &'static str {
        match self {
            Spent::Read => "read",
            Spent::Write => "write",
            Spent::Network => "network beyond",
            Spent::Switching => "switching",
            Spent::OtherCalls => "other calls",
            Spent::Library => "library",
            Spent::CLibrary => "C library",
            Spent::Program => "program",
        }
    }

    /// What a sample fell to, by its stack, the innermost function first.
    fn of(stack: &[Frame]) -> Spent {
        let passes = |names: &[&str]| stack.iter().any(|frame| names.contains(&frame.symbol));
        let in_kernel = stack.first().is_some_and(Frame::is_kernel);
        let caller = stack.iter().find(|frame| !frame.is_kernel());
        match caller {
            _ if passes(&NETWORK) => Spent::Network,
            _ if passes(&SWITCHING) => Spent::Switching,
            Some(caller) if in_kernel => caller.system_call(),
            None => Spent::OtherCalls,
            Some(caller) if caller.is_c_library() => Spent::CLibrary,
            Some(caller) if caller.is_library() => Spent::Library,
            Some(_) => Spent::Program,
        }
    }
}

/// The kernel's functions through which a packet goes on: the device's own call of the network, and the interrupt for waiting ones.
const NETWORK: [&str; 3] = ["netif_receive_skb", "__netif_receive_skb_one_core", "net_rx_action"];
/// The kernel's functions by which another program gets the processor.
const SWITCHING: [&str; 2] = ["schedule", "__schedule"];

/// A function on the stack, and the file that it is in.
struct Frame<'a> {
    symbol: &'a str,
    file: &'a str,
}

impl Frame<'_> {
    /// A line `ADDRESS SYMBOL (FILE)`.
    fn read(line: &str) -> Option<Frame<'_>> {
        let (_, rest) = line.trim().split_once(' ')?;
        let (symbol, file) = rest.rsplit_once(" (")?;
        Some(Frame { symbol, file: file.strip_suffix(')')? })
    }

    /// The kernel and its modules have names in square brackets.
    fn is_kernel(&self) -> bool {
        self.file.starts_with('[')
    }

    /// The system call that it has made; the program's own functions make none, and are interrupted.
    fn system_call(&self) -> Spent {
        match self.symbol {
            symbol if self.is_c_library() && symbol.ends_with("read") => Spent::Read,
            symbol if self.is_c_library() && symbol.ends_with("write") => Spent::Write,
            _ => Spent::OtherCalls,
        }
    }

    fn is_c_library(&self) -> bool {
        self.file.contains("/libc.so")
    }

    /// The library's functions have plain names, and those of Rust are mangled.
    fn is_library(&self) -> bool {
        let is_mangled = self.symbol.starts_with("_ZN") || self.symbol.starts_with("_R");
        !is_mangled && (self.symbol.contains("::") || self.symbol.starts_with("nidhaaguf_"))
    }
}

/// How many samples there are, and which part of them fell to each.
pub fn shares(text: &str) -> (usize, [f64; Spent::ALL.len()]) {
    let stacks = text.split("\n\n").map(|sample| sample.lines().filter_map(Frame::read));
    let stacks = stacks.map(|frames| frames.collect::<Vec<Frame>>());
    let spent: Vec<Spent> =
        stacks.filter(|stack| !stack.is_empty()).map(|stack| Spent::of(&stack)).collect();
    let part = |one: Spent| {
        spent.iter().filter(|spent| **spent == one).count() as f64 / spent.len().max(1) as f64
    };
    (spent.len(), Spent::ALL.map(part))
}

#[cfg(test)]
mod tests {
    use super::*;

    const KERNEL: &str = "ffffffff816b8c66 ksys_read ([kernel.kallsyms])\n";

    #[track_caller]
    fn check(sample: &str, want: Spent) {
        let (samples, parts) = shares(&format!("\n{sample}\n\n"));
        let place = Spent::ALL.iter().position(|spent| *spent == want).unwrap();
        assert_eq!((samples, parts[place]), (1, 1.0), "{sample}");
    }

    #[test]
    fn a_system_call_is_told_by_who_made_it() {
        let made_by = |user: &str| format!("{KERNEL}\tf82ad {user}\n\t0 [unknown] ([unknown])");
        check(&made_by("read (/usr/lib/libc.so.6)"), Spent::Read);
        check(&made_by("__GI___libc_write (/usr/lib/libc.so.6)"), Spent::Write);
        check(&made_by("__poll (/usr/lib/libc.so.6)"), Spent::OtherCalls);
        check(&made_by("table::find (/usr/bin/nidhaagufd)"), Spent::OtherCalls);
        check(KERNEL, Spent::OtherCalls);
    }

    #[test]
    fn what_the_kernel_does_beyond_the_device_is_told_apart() {
        let through = |kernel: &str| {
            format!(
                "ff tcp_v4_rcv ([kernel.kallsyms])\nff {kernel} ([tun])\n\t1 write (/libc.so.6)"
            )
        };
        check(&through("netif_receive_skb"), Spent::Network);
        check(&through("schedule"), Spent::Switching);
        check(&through("tun_get_user"), Spent::Write);
    }

    #[test]
    fn a_function_is_told_by_its_name() {
        check("1 nidhaaguf_serve (/x/nidhaagufd)", Spent::Library);
        check("1 director::judge::is_sound (/x/nidhaagufd)", Spent::Library);
        check("1 _ZN9nidhaaguf3ffi7inbound17h0E (/x/nidhaagufd)", Spent::Program);
        check("1 [unknown] (/x/nidhaagufd)", Spent::Program);
        check(
            "1 __memmove_avx (/usr/lib/libc.so.6)\n2 table::find (/x/nidhaagufd)",
            Spent::CLibrary,
        );
    }

    #[test]
    fn samples_are_parted_by_empty_lines() {
        let text = format!("\n{KERNEL}\n\n1 table::find (/x/nidhaagufd)\n\n\n1 a::b (/x/y)\n\n");
        let (samples, parts) = shares(&text);
        assert_eq!((samples, parts[4], parts[5]), (3, 1.0 / 3.0, 2.0 / 3.0));
        assert_eq!(shares("").0, 0);
    }
}
