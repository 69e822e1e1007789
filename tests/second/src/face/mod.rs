//! The C face: what its calls answer, from document 01 and include/coyametzi.h, and what is asked of them.

mod answers;
#[cfg(test)]
mod bench;
mod call;
mod cases;
mod changes;
mod compare;
mod good;
mod made;
mod others;
mod rows;
mod shown;
mod tally;
mod timing;

pub use cases::make;
pub use compare::compare;
pub use timing::time;
