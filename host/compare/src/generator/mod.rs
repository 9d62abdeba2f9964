//! What the hubs are called with, all of it from a seed: states, messages, damage to both, majorities, and homes with a network.

pub mod aimed;
pub mod damage;
pub mod home;
pub mod majority;
pub mod messages;
pub mod network;
pub mod reached;
pub mod rng;
pub mod states;
