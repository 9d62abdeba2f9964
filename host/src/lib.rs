//! One hub's step, the reading and writing of its messages and commands, and the playing of a command, from the text of documents 01 and 02
//! alone (see docs/RULES.md).
//! No input or output, no clock, no state of its own: the same bytes in give the same bytes out. Nothing but `place` allocates.

#![forbid(unsafe_code)]
#![warn(missing_docs)]

pub mod binary32;
pub mod command;
pub mod kinds;
pub mod message;
pub mod place;
pub mod play;
pub mod state;
pub mod step;

pub use kinds::{Answer, Entry, Group, Hub, LIMIT, Outcome, Place, Term};
