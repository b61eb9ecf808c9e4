//! The messages of errors of the parsers, and their lines with carets: of an empty string, and of
//! long lines.

use humantime_std::Escaped;
use humantime_std::located::{parse_duration, parse_rfc3339_weak};
use std::test::Fail;

/// Ranges of characters, among them each that is written as an escape.
const CHARACTERS: [(u32, u32); 3] = [(0, 0xff), (0x600, 0x6ff), (0x2000, 0x20ff)];

/// Each character in each part of a duration.
#[test]
fn no_message_has_a_character_that_is_escaped(rt: HostRuntime) -> Result<(), Fail> {
    let alloc = rt.alloc();
    for (first, last) in CHARACTERS {
        for code in first..=last {
            let c = char::from_u32(code).ok_or("no character")?;
            for text in [
                format!(in alloc; "{c}")?,
                format!(in alloc; "5{c}")?,
                format!(in alloc; "5{c}x")?,
                format!(in alloc; "5.{c}s")?,
                format!(in alloc; "5x{c}")?,
                format!(in alloc; "5x{c}x")?,
                format!(in alloc; "5s {c}")?,
                format!(in alloc; "5s 5{c}x ")?,
            ] {
                if let Err(error) = parse_duration(&text) {
                    let message = error.to_string(alloc)?;
                    assert_eq!(rt; Escaped(&message).to_string(alloc)?, message, "{code:x}");
                }
            }
        }
    }
    Ok(())
}

#[test]
fn an_empty_string_has_a_line(rt: HostRuntime) -> Result<(), Fail> {
    let error = parse_duration(" \n\t\n").expect_err(&rt, "it is empty");
    assert_eq!(rt;
        format!(in rt.alloc(); "{error:#}")?.as_str(),
        "value was empty"
    );
    let report = error.report(" \n\t\n").to_string(rt.alloc())?;
    assert_eq!(rt; report.as_str(), "line 1: value was empty\n   \n  ^");
    Ok(())
}

#[test]
fn a_unit_after_a_megabyte_is_shown(rt: HostRuntime) -> Result<(), Fail> {
    let tabs = "\t"
        .repeat(rt.alloc(), 1 << 10)?
        .repeat(rt.alloc(), 1 << 10)?;
    let text = format!(in rt.alloc(); "1h\n2{tabs}x\n3h")?;
    let error = parse_duration(&text).expect_err(&rt, "no such unit");
    let report = error.report(&text).to_string(rt.alloc())?;
    // Nine tabs have 72 of the 74 columns after the dots.
    let kept = "\t".repeat(rt.alloc(), 9)?;
    let lines = format!(in rt.alloc(); "\n  ...{kept}x\n     {kept}^")?;
    assert!(rt; report.starts_with("line 2: unknown time unit \"x\""));
    assert!(rt; report.ends_with(lines.as_str()));
    Ok(())
}

#[test]
fn a_megabyte_after_a_timestamp_is_cut(rt: HostRuntime) -> Result<(), Fail> {
    let alloc = rt.alloc();
    let long = "x".repeat(alloc, 1 << 10)?.repeat(alloc, 1 << 10)?;
    let text = format!(in alloc; "2018-02-14 00:28:07{long}")?;
    let error = parse_rfc3339_weak(&text).expect_err(&rt, "it is no timestamp");
    let report = error.report(&text).to_string(alloc)?;
    let lines = report
        .strip_prefix("timestamp format is invalid\n")
        .ok_or("another message")?;
    let shown = "x".repeat(alloc, 56)?;
    let carets = "^".repeat(alloc, 56)?;
    let blanks = " ".repeat(alloc, 21)?;
    let wanted = format!(in alloc; "  2018-02-14 00:28:07{shown}...\n{blanks}{carets}")?;
    assert_eq!(rt; lines, wanted.as_str());
    Ok(())
}
