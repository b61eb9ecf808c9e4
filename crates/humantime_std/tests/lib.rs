//! Tests of what no contract can say. They are run and not proved.
#![tactic(auto)]

mod clocks;
mod lines;
mod located;
