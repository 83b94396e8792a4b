//! The library's sum beside the second implementation's.

mod compare;
mod drawn;
mod edges;
mod headers;
mod long;
mod short;
