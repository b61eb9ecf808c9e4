//! Jobs and arguments that are right and wrong, with all that is written.
#![tactic(auto)]

use example_schedule::run;
use std::alloc::{AllocError, Global};
use std::io;
use std::test::Fail;

const NOW: &str = "2018-02-16T09:00:00Z";

const DELAYS: &str = "after failure 1: again in 1m\
        \nafter failure 2: again in 3m\
        \nafter failure 3: again in 5m\
        \nafter failure 4: again in 5m\
        \nafter failure 5: again in 5m\n";

fn words_of(alloc: Global, words: &[&str]) -> Result<Vec<String>, AllocError> {
    words
        .iter()
        .map(|word| String::from_str(alloc, word))
        .try_collect(alloc)
}

#[test]
fn wrong_words_and_a_file_that_is_not_read_are_errors(rt: HostRuntime) -> Result<(), Fail> {
    for (words, status, message) in &[
        ([].as_slice(), 2, "usage: schedule FILE NOW RETRY\n"),
        (
            ["jobs.txt", NOW].as_slice(),
            2,
            "usage: schedule FILE NOW RETRY\n",
        ),
        (
            ["jobs.txt", NOW, "1min..5min x3", NOW].as_slice(),
            2,
            "usage: schedule FILE NOW RETRY\n",
        ),
        (
            ["jobs.txt", NOW, "1min..5min x3"].as_slice(),
            1,
            "jobs.txt: entity not found\n",
        ),
    ] {
        let (mut out, mut err) = (Vec::new(rt.alloc()), Vec::new(rt.alloc()));
        let file = Err(io::ErrorKind::NotFound.into());
        assert_eq!(rt;
            run(&words_of(rt.alloc(), words)?, file, &mut out, &mut err)?,
            *status
        );
        assert_eq!(rt; String::from_utf8(err)?.as_str(), *message);
        assert!(rt; out.is_empty());
    }
    Ok(())
}

#[test]
fn runs_and_errors_are_written(rt: HostRuntime) -> Result<(), Fail> {
    for (text, now, retry, status, runs, errors) in &[
        ("", NOW, "1min..5min x3", 0, "", ""),
        (
            "a 2018-02-14T00:28:07Z 1day\n\tb\t2018-02-16T09:00:00Z 0s",
            NOW,
            "1min..5min x3",
            0,
            "a: 2018-02-17T00:28:07Z, in 15h 28m 7s\nb: 2018-02-16T09:00:00Z, in 0s\n",
            "",
        ),
        (
            "a 2018-02-14T00:28:07Z 0\nb 2018-02-30T12:00:00Z 1week\nc 2018-02-16T09:00:00Z 8000y",
            NOW,
            "1min..5min x3",
            2,
            "a: no next run\nc: after the year 9999, in 8000years\n",
            "line 2: numeric component is out of range\n  2018-02-30T12:00:00Z\n          ^^\n",
        ),
        (
            "a 2018-02-14T00:28:07Z  5",
            NOW,
            "1min..5min x3",
            2,
            "",
            "line 1: time unit needed, for example 5sec or 5ms\n  5\n   ^\n",
        ),
        (
            "\n",
            NOW,
            "1min..5min x3",
            2,
            "",
            "line 1: timestamp format is invalid\n  \n  ^\n",
        ),
        (
            "a yesterday 5",
            NOW,
            "1min..5min x3",
            2,
            "",
            "line 1: timestamp format is invalid\n  yesterday\n  ^\n",
        ),
        (
            "",
            "yesterday",
            "1min",
            2,
            "",
            "schedule: timestamp format is invalid\n  yesterday\n  ^\n",
        ),
        (
            "a 2018-02-14T00:28:07Z 1day",
            "yesterday",
            "1min..5min x3",
            2,
            "",
            "schedule: timestamp format is invalid\n  yesterday\n  ^\n",
        ),
        (
            "",
            NOW,
            "1min..5 min, x3",
            2,
            "",
            "schedule: invalid character at 5\n  5 min,\n       ^\n",
        ),
        (
            "",
            NOW,
            "1min..5min x-3",
            2,
            "",
            "schedule: not in the format FIRST..MOST xN\n  1min..5min x-3\n",
        ),
    ] {
        let (mut out, mut err) = (Vec::new(rt.alloc()), Vec::new(rt.alloc()));
        let (words, file) = (
            words_of(rt.alloc(), &["jobs.txt", now, retry])?,
            String::from_str(rt.alloc(), text)?,
        );
        assert_eq!(rt; run(&words, Ok(file), &mut out, &mut err)?, *status);
        let delays = if errors.starts_with("schedule: ") {
            ""
        } else {
            DELAYS
        };
        assert_eq!(rt;
            String::from_utf8(out)?.as_str().strip_suffix(delays),
            Some(*runs)
        );
        assert_eq!(rt; String::from_utf8(err)?.as_str(), *errors);
    }
    Ok(())
}

#[test]
fn no_delay_is_longer_than_the_longest(rt: HostRuntime) -> Result<(), Fail> {
    for (retry, first, then) in &[
        ("10min..5min x3", "5m", "5m"),
        ("1min..5min x1", "1m", "1m"),
        ("1min..5min x0", "1m", "0s"),
        ("1min..5min x18446744073709551615", "1m", "5m"),
    ] {
        let mut wanted = format!(in rt.alloc(); "after failure 1: again in {first}\n")?;
        for failures in 2..=5 {
            writeln!(wanted, "after failure {failures}: again in {then}")?;
        }
        let (mut out, mut err) = (Vec::new(rt.alloc()), Vec::new(rt.alloc()));
        let words = words_of(rt.alloc(), &["jobs.txt", NOW, retry])?;
        assert_eq!(rt;
            run(&words, Ok(String::new(rt.alloc())), &mut out, &mut err)?,
            0
        );
        assert_eq!(rt; String::from_utf8(out)?.as_str(), wanted.as_str());
    }
    Ok(())
}
