//! The scenes that a script is made of. Each sets up a hart (and an image where it needs one) and lets events happen.

pub mod bad;
pub mod depths;
pub mod edges;
pub mod flips;
pub mod guest;
pub mod interrupts;
pub mod journeys;
pub mod long;
pub mod numbers;
pub mod refusals;
pub mod registers;
pub mod traps;
pub mod walks;
pub mod words;
pub mod world;
