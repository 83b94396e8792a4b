//! The name of a director, by which it is told from another at the same socket.

use std::fs::File;
use std::io::Read;

/// A number that no other director has, in 16 hexadecimal digits.
#[derive(Clone, Debug, PartialEq, Eq)]
pub struct Id {
    number: u64,
    digits: String,
}

impl Id {
    /// One that was never given before.
    pub fn new() -> Id {
        let mut bytes = [0; 8];
        let read = File::open("/dev/urandom").and_then(|mut file| file.read_exact(&mut bytes));
        read.expect("Linux has this device");
        Id::of_number(u64::from_be_bytes(bytes))
    }

    /// The one of that number.
    pub fn of_number(number: u64) -> Id {
        Id { number, digits: format!("{number:016x}") }
    }

    /// Its number.
    pub fn number(&self) -> u64 {
        self.number
    }

    /// Its digits.
    pub fn as_str(&self) -> &str {
        &self.digits
    }
}

impl Default for Id {
    fn default() -> Id {
        Id::new()
    }
}
