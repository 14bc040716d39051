//! What the groups share: how they run, lent memory, random numbers, and the model's core.

pub mod answer;
pub mod arrays;
mod group;
mod lent;
pub mod model;
pub mod numbers;
mod part;
pub mod plans;
mod random;
pub mod runner;
mod seen;
mod shape;
pub mod small_stack;
pub mod stripes;

pub use group::Group;
pub use lent::Lent;
pub use random::Random;
pub use runner::Setting;
pub use seen::Seen;
pub use shape::Shape;
