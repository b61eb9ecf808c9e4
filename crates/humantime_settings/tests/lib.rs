//! Tests of `humantime_settings`. The expected values were worked out by hand. They are run and not
//! proved.
#![tactic(auto)]

mod attributes;
mod config_parts;
mod cut;
mod documents;
mod drawn;
mod first_errors;
mod printed;
mod rare;
mod refused;
pub(crate) mod support;
mod types;
mod values;
