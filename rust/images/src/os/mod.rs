//! What the system is asked for: calls that std lacks, drives, folders, threads, time and signals.

pub mod drives;
pub(crate) mod files;
pub mod folder;
pub mod pace;
pub(crate) mod parallel;
pub mod stop;
pub mod sys;
