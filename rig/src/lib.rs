//! The rig: drills with the live director before real PostgreSQL servers, in network namespaces of their own.
//!
//! Each part uses those before it: the laboratory, its links, the load, the books of what the counts must be, the drills.

pub mod lab;
pub mod links;
pub mod load;
pub mod timeline;

pub mod books;

pub mod drills;
