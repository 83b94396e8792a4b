//! The log: its lines, and what becomes of those that nobody takes.

use crate::support::await_end;
use live::log::line::{self, Form, MOST_BYTES};
use live::log::output::Output;
use live::log::{Level, Log};
use live::system::Waited;
use std::fs::{File, OpenOptions};
use std::io::{self, PipeReader, PipeWriter, Read};
use std::os::fd::{AsRawFd, OwnedFd};
use std::os::unix::fs::OpenOptionsExt;
use std::time::{Duration, SystemTime};

/// The time so many seconds after 1970 began.
fn time(seconds: u64) -> SystemTime {
    SystemTime::UNIX_EPOCH + Duration::from_secs(seconds)
}

fn piped_log() -> (Log, PipeReader) {
    let (reader, writer) = io::pipe().unwrap();
    (log_at(writer), reader)
}

fn log_at(writer: PipeWriter) -> Log {
    Log::new(Output::new(File::from(OwnedFd::from(writer))), Form::Journal)
}

/// A log whose reader has gone.
fn log_without_reader() -> Log {
    let (reader, writer) = io::pipe().unwrap();
    drop(reader);
    await_end(Waited::new(&writer, false, false));
    log_at(writer)
}

#[test]
fn a_line_has_its_form() {
    let now = time(1_794_837_726);
    for (form, level, line) in [
        (Form::Journal, Level::Error, "<3>nidhaagufd: text\n"),
        (Form::Journal, Level::Warning, "<4>nidhaagufd: text\n"),
        (Form::Journal, Level::Notice, "<5>nidhaagufd: text\n"),
        (Form::Journal, Level::Info, "<6>nidhaagufd: text\n"),
        (Form::Plain, Level::Error, "nidhaagufd: text\n"),
        (Form::Timed, Level::Notice, "2026-11-16T14:02:06Z notice nidhaagufd: text\n"),
        (Form::Timed, Level::Warning, "2026-11-16T14:02:06Z warning nidhaagufd: text\n"),
    ] {
        assert_eq!(line::written(form, level, "text", now), line);
    }
}

#[test]
fn an_event_is_one_line_without_control_characters() {
    let text = "a\nb\u{1b}[2J\u{7f}\u{85}ä";
    let line = line::written(Form::Plain, Level::Info, text, time(0));
    assert_eq!(line, "nidhaagufd: a\\nb\\u{1b}[2J\\u{7f}\\u{85}ä\n");
}

#[test]
fn a_line_has_its_length() {
    for letter in ["x", "ä", "\n"] {
        let line = line::written(Form::Journal, Level::Info, &letter.repeat(9_999), time(0));
        assert!((MOST_BYTES - 1..=MOST_BYTES).contains(&line.len()) && line.ends_with('\n'));
    }
}

#[test]
fn times_at_the_ends_of_years_and_months() {
    for (seconds, words) in [
        (0, "1970-01-01T00:00:00Z"),
        (951_782_399, "2000-02-28T23:59:59Z"),
        (951_782_400, "2000-02-29T00:00:00Z"),
        (951_868_800, "2000-03-01T00:00:00Z"),
        (978_307_199, "2000-12-31T23:59:59Z"),
        (1_709_210_096, "2024-02-29T12:34:56Z"),
        (4_107_542_399, "2100-02-28T23:59:59Z"),
        (4_107_542_400, "2100-03-01T00:00:00Z"),
    ] {
        assert_eq!(line::time(time(seconds)), words);
    }
    assert_eq!(line::time(time(0) - Duration::from_secs(1)), "1970-01-01T00:00:00Z");
}

/// All days of 500 years, by the months' lengths.
#[test]
fn dates_follow_each_other() {
    let mut days = 0;
    for year in 1970..2470 {
        let leap = year % 4 == 0 && year % 100 != 0 || year % 400 == 0;
        let months = [31, if leap { 29 } else { 28 }, 31, 30, 31, 30, 31, 31, 30, 31, 30, 31];
        let of_month =
            |(month, length): (usize, u64)| (1..=length).map(move |day| (month + 1, day));
        for (month, day) in months.into_iter().enumerate().flat_map(of_month) {
            let expected = format!("{year}-{month:02}-{day:02}T00:00:00Z");
            assert_eq!(line::time(time(86_400 * days)), expected);
            days += 1;
        }
    }
}

/// A pipe that nobody reads takes what it has room for; then lines are lost, and that is told as soon as there is room.
#[test]
fn lines_that_nobody_reads_are_lost_and_told() {
    let (mut log, mut reader) = piped_log();
    let long = "x".repeat(1_000);
    (0..1_000).for_each(|_| log.notice(&long));
    let position = log.position().clone();
    assert!(position.lines > 0 && position.lost > 0, "{position:?}");
    assert_eq!(position.lines + position.lost, 1_000);
    // the first read makes room
    let mut read = vec![0; 1 << 20];
    let length = reader.read(&mut read).unwrap();
    assert_eq!(read[..length].iter().filter(|&&byte| byte == b'\n').count() as u64, position.lines);
    log.info("more");
    assert_eq!((log.position().lines, log.position().lost), (position.lines + 2, 0));
    drop(log);
    let mut rest = String::new();
    reader.read_to_string(&mut rest).unwrap();
    let lost = format!("<4>nidhaagufd: {} lines of the log were lost\n", position.lost);
    assert_eq!(rest, format!("{lost}<6>nidhaagufd: more\n"));
}

/// What was taken in part, as by a disk that is full, is a line of its own.
#[test]
fn a_line_that_was_cut_is_ended() {
    let (mut reader, writer) = io::pipe().unwrap();
    // a pipe that takes a part of what it has no room for, in place of waiting
    let path = format!("/proc/self/fd/{}", writer.as_raw_fd());
    let file = OpenOptions::new().write(true).custom_flags(0o4000).open(path).unwrap();
    let mut output = Output::new(file);
    assert!(!output.put(&"x".repeat(1 << 20)));
    let mut read = vec![0; 1 << 20];
    let length = reader.read(&mut read).unwrap();
    assert!(read[..length].iter().all(|&byte| byte == b'x'));
    assert!(output.put("first\n") && output.put("second\n"));
    drop((output, writer));
    let mut rest = String::new();
    reader.read_to_string(&mut rest).unwrap();
    assert_eq!(rest.trim_start_matches('x'), "\nfirst\nsecond\n");
}

#[test]
fn a_log_that_fails_is_counted() {
    let full = OpenOptions::new().write(true).open("/dev/full").unwrap();
    for log in [&mut Log::new(Output::new(full), Form::Plain), &mut log_without_reader()] {
        (0..3).for_each(|_| log.error("text"));
        assert_eq!((log.position().lines, log.position().lost), (0, 3));
    }
}

/// Lines of before count on in the log that goes on, and what was lost is told by that.
#[test]
fn a_log_goes_on_from_a_position() {
    let mut lost = log_without_reader();
    lost.info("lost");
    let (mut log, mut reader) = piped_log();
    log.info("first");
    log.go_on(lost.position().clone());
    log.info("second");
    assert_eq!((log.position().lines, log.position().lost), (3, 0));
    drop(log);
    let mut text = String::new();
    reader.read_to_string(&mut text).unwrap();
    let lines: Vec<_> = text.lines().map(|line| line.split_once(": ").unwrap().1).collect();
    assert_eq!(lines, ["first", "1 lines of the log were lost", "second"]);
}
