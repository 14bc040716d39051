//! The words of a command line: the table of what they are, and what is made from it.

pub mod args;
pub mod complete;
pub mod geometry;
pub mod help;
pub mod manual;
pub mod near;
pub mod table;
pub mod values;
pub mod words;
