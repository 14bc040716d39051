//! Plans for the judge: accepted ones and damaged ones.

mod accepted;
mod damaged;
mod loss;

pub use accepted::{accepted_order, ready};
pub use damaged::damaged;
pub use loss::{Choice, Loss};
