//! The claim about the whole list, sentence by sentence, after each call.

use super::reading::{self, Reading, Way};
use super::{shows_accepted_clock, Book, Call, Settings};
use crate::data::{Answer, Change};
use crate::refusal::{self, BEFORE_CLOCK};

type Verdict = Result<(), String>;

/// Feeds the book one call and its answer, and checks every sentence of "The book".
/// `packet_after` is the packet as it left (not read for other calls), `counts` the servers'
/// counts after the call, by server number.
pub fn check(
    book: &mut Book,
    call: Call,
    answer: Answer,
    packet_after: &[u8],
    counts: &[u32],
) -> Verdict {
    match call {
        Call::SetUp { service, servers } => match answer {
            Answer::Done => book.set_up(service, servers),
            Answer::Refused(_) => {}
            _ => return wrong_kind(answer),
        },
        Call::SetWeight { .. } => match answer {
            Answer::Done | Answer::Refused(_) => {}
            _ => return wrong_kind(answer),
        },
        Call::Count { number } => check_count(book, number, answer)?,
        Call::Tick { clock } => check_tick(book, clock, answer)?,
        Call::Inbound { packet, clock } => {
            check_packet(book, Way::Inbound, packet, clock, answer, packet_after)?
        }
        Call::Outbound { packet, clock } => {
            check_packet(book, Way::Outbound, packet, clock, answer, packet_after)?
        }
    }
    check_counts(book, counts)?;
    check_clients(book)
}

fn wrong_kind(answer: Answer) -> Verdict {
    Err(format!("this call can't be answered {answer:?}"))
}

fn ensure(holds: bool, complaint: impl FnOnce() -> String) -> Verdict {
    match holds {
        true => Ok(()),
        false => Err(complaint()),
    }
}

/// "After each call of the list a server's count is the number of entries naming it."
/// Before the first accepted setup there is no list yet.
fn check_counts(book: &Book, counts: &[u32]) -> Verdict {
    let Some(settings) = book.settings else {
        return Ok(());
    };
    let servers = settings.service.servers as usize;
    ensure(counts.len() >= servers, || format!("{} counts for {servers} servers", counts.len()))?;
    for (server, &count) in counts.iter().enumerate() {
        let entries = book.count_of(server as u32);
        ensure(count == entries, || {
            format!("count of server {server} is {count}, the book has {entries} entries")
        })?;
    }
    Ok(())
}

/// "no client has two entries"
fn check_clients(book: &Book) -> Verdict {
    let mut clients: Vec<_> = book.entries.iter().map(|entry| entry.client).collect();
    clients.sort_unstable();
    match clients.windows(2).find(|pair| pair[0] == pair[1]) {
        Some(pair) => Err(format!("client {:?} has two entries", pair[0])),
        None => Ok(()),
    }
}

/// "An accepted count call answers that number."
fn check_count(book: &Book, number: u32, answer: Answer) -> Verdict {
    match answer {
        Answer::Refused(_) => Ok(()),
        Answer::Number(_) if book.settings.is_none() => Ok(()),
        Answer::Number(told) => {
            let entries = book.count_of(number);
            ensure(told == entries, || format!("count told {told}, the book has {entries}"))
        }
        _ => wrong_kind(answer),
    }
}

/// "an accepted tick [answers] the number of entries it struck"
fn check_tick(book: &mut Book, clock: u32, answer: Answer) -> Verdict {
    if book.settings.is_none() {
        return Ok(());
    }
    check_11(book, clock, answer)?;
    match answer {
        Answer::Refused(_) => Ok(()),
        Answer::Number(told) => {
            let struck = book.accept_clock(clock);
            ensure(told == struck, || format!("tick told {told}, the book struck {struck}"))
        }
        _ => wrong_kind(answer),
    }
}

/// "Where the order comes to [it], 11 falls exactly where the table puts it."
/// 15 comes before it in the order, and only its answer can show it.
fn check_11(book: &Book, clock: u32, answer: Answer) -> Verdict {
    let due = clock < book.clock;
    let given = answer == Answer::Refused(refusal::CLOCK);
    ensure(given == due || answer == Answer::Refused(refusal::UNSOUND), || {
        format!("clock {clock} after {}: answered {answer:?}", book.clock)
    })
}

fn check_packet(
    book: &mut Book,
    way: Way,
    packet: &[u8],
    clock: u32,
    answer: Answer,
    after: &[u8],
) -> Verdict {
    let Some(settings) = book.settings else {
        return Ok(());
    };
    if matches!(answer, Answer::Done | Answer::Number(_)) {
        return wrong_kind(answer);
    }
    let Some(reading) = reading::read(packet, &settings, way) else {
        // one of 6, 20 and 7 to 10 falls: the order doesn't come to 11 and beyond
        let early = matches!(answer, Answer::Refused(number) if BEFORE_CLOCK.contains(&number));
        return ensure(early, || format!("one of 6, 20 and 7 to 10 was due: answered {answer:?}"));
    };
    check_11(book, clock, answer)?;
    if matches!(answer, Answer::Refused(refusal::CLOCK | refusal::UNSOUND)) {
        return Ok(());
    }
    check_12(book, &settings, &reading, way, clock, answer)?;
    if shows_accepted_clock(answer) {
        book.accept_clock(clock);
    }
    if let Answer::Passed(server, change) = answer {
        check_passed(book, &reading, way, server, change)?;
        check_journey(&settings, &reading, way, server, after)?;
        book.enter(&reading, way, server, change);
    }
    Ok(())
}

/// 12: "no connection the packet belongs to, and it opens none", read with the entries that are
/// left once the idle ones are struck.
fn check_12(
    book: &Book,
    settings: &Settings,
    reading: &Reading,
    way: Way,
    clock: u32,
    answer: Answer,
) -> Verdict {
    let sender = settings.number_of(reading.source);
    let due = match book.live_entry(reading.client(way), clock) {
        // "An outbound packet belongs to it only if the source is its server; otherwise 12."
        Some(entry) => way == Way::Outbound && sender != Some(entry.server),
        None => !reading.could_open(way),
    };
    let given = answer == Answer::Refused(refusal::NO_CONNECTION);
    ensure(given == due, || format!("12 is due: {due}, answered {answer:?}"))
}

fn check_passed(book: &Book, reading: &Reading, way: Way, server: u32, change: Change) -> Verdict {
    // "answered 'ended' exactly when it is TCP with RST set"
    let ended = change == Change::Ended;
    ensure(ended == (reading.tcp && reading.rst), || {
        format!("RST is {}, answered {change:?}", reading.rst)
    })?;
    if change == Change::Opened {
        return Ok(());
    }
    // "finds its client's entry once the idle ones are struck, and its answer names the entry's
    // server"
    let client = reading.client(way);
    match book.entries.iter().find(|entry| entry.client == client) {
        None => Err(format!("{change:?}, but client {client:?} has no entry")),
        Some(entry) => ensure(entry.server == server, || {
            format!("answer names server {server}, the entry {}", entry.server)
        }),
    }
}

/// "Accepted inbound packets leave with their client as source and, as destination, the answered
/// server's address and port from setup; outbound ones came from there and leave for their client."
fn check_journey(
    settings: &Settings,
    reading: &Reading,
    way: Way,
    server: u32,
    after: &[u8],
) -> Verdict {
    let (source, destination) = reading::ends(after).ok_or("the packet that left can't be read")?;
    let server_end = settings.server(server).ok_or("the answer names no server")?;
    let client = reading.client(way);
    let right = match way {
        Way::Inbound => source == client && destination == server_end,
        Way::Outbound => reading.source == server_end && destination == client,
    };
    ensure(right, || format!("{way:?} packet left from {source:?} for {destination:?}"))
}
