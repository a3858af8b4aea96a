//! The entries in one form, of the library and of the plain implementation, for comparing answers and times.

pub mod archive;
pub mod entries;
