//! Holds the documents against the sources and against one another.
//! A fault is told as `file:line: what is wrong`.

mod citations;
mod editing;
mod links;
mod names;
mod quotations;
mod repository;
mod scope;
mod tables;
