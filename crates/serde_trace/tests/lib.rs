//! Tests of `serde_trace`. The expected values were worked out by hand. They are run and not
//! proved.
#![tactic(auto)]

mod attributes;
mod by_hand;
mod long;
mod messages;
mod refused;
mod steps;
pub(crate) mod words;
