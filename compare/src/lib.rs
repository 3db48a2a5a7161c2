//! Snow load arrangements of EN 1991-1-3:2003, a second and independent calculation.
//!
//! It shares no code with the proved library and exists to be compared with it.

pub mod arrangement;
pub mod board;
pub mod calls;
pub mod canonical;
pub mod forces;
pub mod ground;
pub mod listing;
pub mod loads;
pub mod moved;
pub mod reading;
pub mod sheet;
pub mod steps;
pub mod store;
pub mod turned;

#[cfg(test)]
mod corpus;
#[cfg(test)]
mod figures;
#[cfg(test)]
mod sheets;
