//! Command lines with their values, in seconds, or with the error up to the usage.
#![tactic(auto)]

use clap::{Command, Error, arg};
use humantime_clap::{optional_value_of, value_of};
use humantime_std::located::{parse_duration, parse_rfc3339, parse_rfc3339_weak};
use std::alloc::Global;
use std::test::Fail;

fn values_of(alloc: Global, wait: &str, words: &[&str]) -> Result<String, Error> {
    let wait = arg!(in alloc; --wait <DURATION>).default_value(wait);
    let (since, until) = (
        arg!(in alloc; --since <TIME>),
        arg!(in alloc; --until <TIME>),
    );
    let command = &mut Command::new(alloc, "app")
        .arg(wait)?
        .arg(since)?
        .arg(until)?;
    let matches = &command.try_get_matches_from_mut(words)?;
    let wait = value_of(alloc, command, matches, "wait", parse_duration)?.as_secs();
    let since = optional_value_of(alloc, command, matches, "since", parse_rfc3339)?;
    let until = value_of(alloc, command, matches, "until", parse_rfc3339_weak)?.unix_seconds();
    Ok(format!(in alloc;
        "{wait} {:?} {until}",
        since.map(|time| time.unix_seconds())
    )?)
}

#[test]
fn a_command_line_has_values_or_an_error(rt: HostRuntime) -> Result<(), Fail> {
    for (wait, words, wanted) in &[
        (
            "30s",
            ["app", "--until", "1970-01-01 00:00:01"].as_slice(),
            "30 None 1",
        ),
        (
            "x",
            &["app", "--wait=1h", "--until=1970-01-01 00:00:02"],
            "3600 None 2",
        ),
        (
            "30",
            &["app"],
            "error: --wait: time unit needed, for example 30sec or 30ms\n  30\n    ^",
        ),
        (
            "0",
            &["app", "--wait", "1h é"],
            "error: --wait: expected number at 3\n  1h é\n     ^",
        ),
        (
            "0",
            &["app", "--since", "x"],
            "error: --since: timestamp format is invalid\n  x\n  ^",
        ),
        (
            "0",
            &["app", "--until=x"],
            "error: --until: timestamp format is invalid\n  x\n  ^",
        ),
        (
            "0",
            &["app"],
            "error: the following required arguments were not provided:\n  --until",
        ),
    ] {
        let said = values_of(rt.alloc(), wait, words).or_else(|error| error.to_string(rt.alloc()))?;
        assert_eq!(rt; said.as_str().split("\n\nUsage: app").next(), Some(*wanted));
    }
    Ok(())
}
