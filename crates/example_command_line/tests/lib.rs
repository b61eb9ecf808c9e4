//! Command lines that are wrong, the defaults, and help.
#![tactic(auto)]

use clap::Error;
use example_command_line::{Options, options_of, run};
use humantime::{Duration, StdDuration};
use std::alloc::{AllocError, Global};
use std::test::Fail;

/// Returns the program's name and these words.
fn line_of(alloc: Global, words: &[&str]) -> Result<Vec<String>, AllocError> {
    ["example_command_line"]
        .iter()
        .chain(words)
        .map(|word| String::from_str(alloc, word))
        .try_collect(alloc)
}

/// Returns the options of these words after the program's name.
fn parsed(alloc: Global, words: &[&str]) -> Result<Result<Options, Error>, AllocError> {
    Ok(options_of(alloc, &line_of(alloc, words)?))
}

#[test]
fn each_stream_is_written(rt: HostRuntime) -> Result<(), Fail> {
    let usage =
        "\n\nUsage: example_command_line [OPTIONS]\n\nFor more information, try '--help'.\n";
    for (words, status, options, error) in &[
        (
            ["--timeout", "1.5min"].as_slice(),
            0,
            "timeout 1m 30s, window 1year\n",
            "",
        ),
        (
            ["--window=0", "--since", "2018-02-14 00:28:07.5"].as_slice(),
            0,
            "timeout 30s, window 0s\nsince 2018-02-14T00:28:07.500000000Z\n",
            "",
        ),
        (
            ["--timeout", "1h 2x", "--since", "x"].as_slice(),
            2,
            "",
            "error: --timeout: unknown time unit \"x\", supported units: ns, us/µs, ms, sec, min, hours, days, weeks, months, years (and few variations)\
                \n  1h 2x\
                \n      ^",
        ),
        (
            ["--since", "2018-02-14\n"].as_slice(),
            2,
            "",
            "error: --since: line 1: timestamp format is invalid\n  2018-02-14\n            ^",
        ),
    ] {
        let (mut out, mut err) = (Vec::new(rt.alloc()), Vec::new(rt.alloc()));
        assert_eq!(rt;
            run(rt.alloc(), &line_of(rt.alloc(), words)?, &mut out, &mut err)?,
            *status
        );
        assert_eq!(rt; String::from_utf8(out)?.as_str(), *options);
        let written = String::from_utf8(err)?;
        assert_eq!(rt;
            written
                .as_str()
                .strip_suffix(if *status == 0 { "" } else { usage }),
            Some(*error)
        );
    }
    let (mut out, mut err) = (Vec::new(rt.alloc()), Vec::new(rt.alloc()));
    assert_eq!(rt;
        run(
            rt.alloc(),
            &line_of(rt.alloc(), &["--help"])?,
            &mut out,
            &mut err
        )?,
        0
    );
    assert!(rt;
        String::from_utf8(out)?
            .as_str()
            .contains("--since <TIMESTAMP>")
            && err.is_empty()
    );
    Ok(())
}

#[test]
fn a_wrong_value_is_marked(rt: HostRuntime) -> Result<(), Fail> {
    for (words, message) in &[
        (
            ["--window", "-1s"],
            "error: --window: expected number at 0\n  -1s\n  ^\n",
        ),
        (
            ["--timeout", "-1s"],
            "error: --timeout: expected number at 0\n  -1s\n  ^\n",
        ),
        (
            ["--timeout", "5µs x"],
            "error: --timeout: expected number at 5\n  5µs x\n      ^\n",
        ),
        (
            ["--timeout", ""],
            "error: --timeout: value was empty\n  \n  ^\n",
        ),
        (
            ["--timeout", "1h 2parsecs"],
            "error: --timeout: unknown time unit \"parsecs\", supported units: ns, us/µs, ms, sec, min, hours, days, weeks, months, years (and few variations)\
                \n  1h 2parsecs\
                \n      ^^^^^^^\n",
        ),
        (
            ["--since", "yesterday"],
            "error: --since: timestamp format is invalid\n  yesterday\n  ^\n",
        ),
        (
            ["--since", "2018-02-30T00:00:00Z"],
            "error: --since: numeric component is out of range\
                \n  2018-02-30T00:00:00Z\
                \n          ^^\n",
        ),
        (
            ["--since", "2018-02-14 00:28:07+02:00"],
            "error: --since: timestamp format is invalid\
                \n  2018-02-14 00:28:07+02:00\
                \n                     ^^^^^^\n",
        ),
        (
            ["--until", "1h"],
            "error: unexpected argument '--until' found\n",
        ),
    ] {
        let error = parsed(rt.alloc(), words)?.err().ok_or("options")?;
        let text = error.to_string(rt.alloc())?;
        assert!(rt; text.starts_with(message), "{text}");
        assert!(rt;
            text.contains("Usage: example_command_line [OPTIONS]"),
            "{text}"
        );
        assert_eq!(rt; error.exit_code(), 2);
    }
    Ok(())
}

#[test]
fn defaults_are_shown(rt: HostRuntime) -> Result<(), Fail> {
    let options = Options {
        timeout: Duration::new(StdDuration::from_secs(30)),
        window: Duration::new(StdDuration::from_secs(31_557_600)),
        since: None,
    };
    assert_eq!(rt; parsed(rt.alloc(), &[])?.ok(), Some(options));
    let help = parsed(rt.alloc(), &["--help"])?.err().ok_or("options")?;
    assert_eq!(rt; help.exit_code(), 0);
    let text = help.to_string(rt.alloc())?;
    assert!(rt;
        text.contains("[default: 30s]") && text.contains("[default: 1year]"),
        "{text}"
    );
    Ok(())
}
