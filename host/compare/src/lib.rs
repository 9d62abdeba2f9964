//! The proved library, beside the independent program and beside MultiPaxos.
//!
//! - `binding` calls the library, alone or together with the independent program.
//! - `generator` makes what it is called with: random states and messages, damaged ones, and whole homes.
//! - `checker` keeps MultiPaxos beside a home and objects to what that machine cannot do.
//! - `broken` has hubs that break a rule, so that one sees the checker object.
//! - `scenario` plays a home by a script.

pub mod binding;
pub mod broken;
pub mod checker;
pub mod generator;
pub mod scenario;
