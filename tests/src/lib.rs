//! Seeded test scripts for the wall dimmer, and the tools to play and compare them.

mod belief;
mod errands;
pub mod generate;
mod images;
mod levels;
mod packets;
mod paddles;
mod play;
pub mod programs;
pub mod random;
pub mod readings;
mod text;
pub mod trace;
mod visits;

/// The gate plays the scripts of so many seeds, from seed 0 on.
pub const GATE_SCRIPTS: u64 = 5000;
