//! A wall dimmer's logic, written in place and without proofs. `script`
//! drives one switch from a text file.

#![forbid(unsafe_code)]

mod answer;
mod commands;
mod dimmer;
mod gestures;
mod lamp;
mod packet;
mod paddle;
mod registers;
pub mod script;
mod switch;

pub use answer::{Answer, Colour, Mode};
pub use switch::Switch;
