//! JSON, written in one line.

use std::fmt::{self, Write};

/// A value.
#[derive(Clone, Debug, PartialEq, Eq)]
pub enum Json {
    /// What isn't known.
    Null,
    /// True or false.
    Truth(bool),
    /// A number.
    Number(u64),
    /// A string.
    Text(String),
    /// Values in their order.
    Array(Vec<Json>),
    /// Values by name.
    Object(Vec<(&'static str, Json)>),
}

impl Json {
    /// The string of what can be displayed.
    pub fn text(value: impl fmt::Display) -> Json {
        Json::Text(value.to_string())
    }

    /// A number that is known, or null.
    pub fn known(value: Option<u32>) -> Json {
        value.map_or(Json::Null, Json::from)
    }
}

impl<T: Into<u64>> From<T> for Json {
    fn from(number: T) -> Json {
        Json::Number(number.into())
    }
}

impl fmt::Display for Json {
    fn fmt(&self, out: &mut fmt::Formatter<'_>) -> fmt::Result {
        match self {
            Json::Null => out.write_str("null"),
            Json::Truth(value) => write!(out, "{value}"),
            Json::Number(number) => write!(out, "{number}"),
            Json::Text(text) => write_text(out, text),
            Json::Array(values) => {
                write_all(out, ['[', ']'], values, |out, value| write!(out, "{value}"))
            }
            Json::Object(fields) => write_all(out, ['{', '}'], fields, |out, (name, value)| {
                write_text(out, name)?;
                write!(out, ":{value}")
            }),
        }
    }
}

/// Elements with commas between them, in a pair of brackets.
fn write_all<T>(
    out: &mut fmt::Formatter<'_>,
    [open, close]: [char; 2],
    elements: &[T],
    write: impl Fn(&mut fmt::Formatter<'_>, &T) -> fmt::Result,
) -> fmt::Result {
    out.write_char(open)?;
    for (place, element) in elements.iter().enumerate() {
        if place > 0 {
            out.write_char(',')?;
        }
        write(out, element)?;
    }
    out.write_char(close)
}

/// RFC 8259, section 7: a quotation mark, a backslash and all below U+0020 must be escaped.
fn write_text(out: &mut fmt::Formatter<'_>, text: &str) -> fmt::Result {
    out.write_char('"')?;
    for letter in text.chars() {
        match letter {
            '"' | '\\' => write!(out, "\\{letter}")?,
            '\0'..'\x20' => write!(out, "\\u{:04x}", u32::from(letter))?,
            _ => out.write_char(letter)?,
        }
    }
    out.write_char('"')
}
