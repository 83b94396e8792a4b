//! A value with the place where it was given: a line of the configuration, or a flag.

/// A value and where it was given, for messages: "nidhaaguf.conf line 3" or "--slots".
#[derive(Clone, Debug, PartialEq, Eq)]
pub struct Given<T> {
    /// The value.
    pub value: T,
    /// Where it was given.
    pub place: String,
}

impl<T> Given<T> {
    /// A value given at a place.
    pub fn new(value: T, place: &str) -> Given<T> {
        Given { value, place: place.to_string() }
    }
}
