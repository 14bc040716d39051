//! Results for people and programs: text, JSON, progress, pictures of plans.

pub mod cell_sets;
pub mod json;
pub mod picture;
pub mod plan_text;
pub mod progress;
pub mod say;
pub mod svg;
pub mod watcher;
