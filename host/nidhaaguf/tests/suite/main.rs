//! The safe wrapper.

mod bursts;
mod director;
mod header;
mod resumes;
mod serves;
mod signals;
mod support;
mod traces;
