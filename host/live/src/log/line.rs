//! A line of the log, as it is written.

use crate::log::Level;
use std::time::{Duration, SystemTime};

/// The longest line with its end. A pipe that tells that it can be written has room for so many bytes, and keeps them
/// together.
pub const MOST_BYTES: usize = 4_096;

const DAY: u64 = 86_400;

/// What stands before a line's text.
#[derive(Clone, Copy, Debug, PartialEq, Eq)]
pub enum Form {
    /// The level as journald reads it; it adds the time itself.
    Journal,
    /// Nothing, for people.
    Plain,
    /// The time and the level's name, for files.
    Timed,
}

/// The line of an event at that time. It is one line, whatever the text has in it.
pub fn written(form: Form, level: Level, text: &str, now: SystemTime) -> String {
    let before = match form {
        Form::Journal => format!("<{}>", level as u8),
        Form::Plain => String::new(),
        Form::Timed => format!("{} {} ", time(now), level.name()),
    };
    let mut line = format!("{before}nidhaagufd: {}", escaped(text));
    line.truncate(line.floor_char_boundary(MOST_BYTES - 1));
    line.push('\n');
    line
}

fn escaped(text: &str) -> String {
    let escape = |letter: char| match letter.is_control() {
        true => letter.escape_default().to_string(),
        false => letter.to_string(),
    };
    text.chars().map(escape).collect()
}

/// Date and time of UTC, as 2026-11-16T14:02:06Z.
pub fn time(now: SystemTime) -> String {
    // before 1970 there is no log
    let since = now.duration_since(SystemTime::UNIX_EPOCH).unwrap_or(Duration::ZERO).as_secs();
    let (year, month, day) = date(since / DAY);
    let second = since % DAY;
    let (hour, minute, second) = (second / 3_600, second / 60 % 60, second % 60);
    format!("{year:04}-{month:02}-{day:02}T{hour:02}:{minute:02}:{second:02}Z")
}

/// The date so many days after 1970-01-01. Years are counted from March on, so that a leap day is the last of its year,
/// and in spans of 400 years, which all have the same days.
fn date(days: u64) -> (u64, u64, u64) {
    // from 1 March of the year 0
    let days = days + 719_468;
    let (span, day) = (days / 146_097, days % 146_097);
    let year = (day - day / 1_460 + day / 36_524 - day / 146_096) / 365;
    let day = day - (365 * year + year / 4 - year / 100);
    // months from March on: 153 days in five of them
    let month = (5 * day + 2) / 153;
    let day = day - (153 * month + 2) / 5 + 1;
    let (later, month) = if month < 10 { (0, month + 3) } else { (1, month - 9) };
    (400 * span + year + later, month, day)
}
