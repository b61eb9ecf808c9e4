//! Where texts are wrong: what the rules of the places mean for whole texts, and that a long text
//! has its place.

use humantime::{DurationError, StdDuration, TimestampError};
use humantime_std::located::{parse_duration, parse_rfc3339, parse_rfc3339_weak};
use humantime_std::{Located, StdDurationExt};
use std::test::Fail;

type Place = Option<(TimestampError, usize, usize)>;

const FORMAT: TimestampError = TimestampError::InvalidFormat;

fn place(error: Option<Located<TimestampError>>) -> Place {
    error.map(|error| (error.error, error.start, error.end))
}

/// Texts with their places in the weak format and in the strict one.
#[test]
fn a_timestamp_has_its_place(rt: HostRuntime) {
    let format = |start: usize, end: usize| -> Place { Some((FORMAT, start, end)) };
    let digit = |start: usize, end: usize| -> Place {
        Some((TimestampError::InvalidDigit, start, end))
    };
    let range = |start: usize, end: usize| -> Place {
        Some((TimestampError::OutOfRange, start, end))
    };
    for (text, weak, strict) in [
        ("", format(0, 0), format(0, 0)),
        ("2", format(1, 1), format(1, 1)),
        ("é", format(0, 2), format(0, 2)),
        ("2018-02-14", format(10, 10), format(10, 10)),
        ("yesterday", format(0, 1), format(0, 1)),
        ("2018-2-14 00:28:07Z", format(6, 7), format(6, 7)),
        ("2018-02-14_00:28:07", format(10, 11), format(10, 11)),
        ("２018-02-14 00:28:07", format(0, 3), format(0, 3)),
        ("201x-02-14 00:28:07", digit(3, 4), format(3, 4)),
        ("201x/02-14 00:28:07", format(3, 4), format(3, 4)),
        ("1969-12-31 00:00:00", range(0, 4), format(10, 11)),
        ("2018-13-14 24:28:07", range(5, 7), format(10, 11)),
        ("2018-02-30 24:61:00junk", range(8, 10), format(10, 11)),
        ("2018-02-00 00:28:07", range(8, 10), format(10, 11)),
        ("2018-00-14 00:28:07", range(5, 7), format(10, 11)),
        ("2018-02-14T00:28:07Z+00:00", format(20, 26), format(20, 26)),
        ("2018-02-14T24:00:00Z", range(11, 13), range(11, 13)),
        ("2018-02-14T23:60:61Z", range(14, 16), range(14, 16)),
        ("2018-02-14T23:59:61Z", range(17, 19), range(17, 19)),
        ("2018-02-14T00:28:07+02:00", format(19, 25), format(19, 25)),
        ("2018-02-14 00:28:07Zabc", format(20, 23), format(10, 11)),
        ("2018-02-14T00:28:07.5+02:00", digit(21, 27), format(21, 27)),
        ("2018-02-14T00:28:07.12a45Z", digit(22, 26), digit(22, 26)),
        ("2018-02-14T00:28:07.5+00:00Z", digit(27, 28), digit(27, 28)),
        ("2018-02-14T00:28:07.5", None, format(21, 21)),
        ("2018-02-14T00:28:07 UTC", format(19, 23), format(19, 23)),
    ] {
        assert_eq!(rt; place(parse_rfc3339_weak(text).err()), weak, "{text}");
        assert_eq!(rt; place(parse_rfc3339(text).err()), strict, "{text}");
    }
}

#[test]
fn an_overflow_has_its_span(rt: HostRuntime) {
    for (text, start, end) in [
        ("18446744073709551615m", 0, 21),
        ("1s 0.0001h 3s", 3, 10),
        ("584542046090y 584542046090y", 14, 27),
        ("584542046090y 1h 584542046090y 1h x", 17, 30),
        ("1ns18446744073709551615ns 5s", 3, 25),
        ("\u{2003}1s\u{2003}0.5ns\u{2003}x", 8, 13),
        ("1s 99999999999999999999s", 3, 24),
        ("1s 0.12345678901234567891h", 3, 26),
        ("18446744073709551616~ 1s", 0, 24),
        ("18446744073709551615s 1s 99999999999999999999s", 22, 24),
    ] {
        let error = parse_duration(text).expect_err(&rt, "it overflows");
        assert_eq!(rt;
            error,
            Located {
                error: DurationError::NumberOverflow,
                start,
                end
            },
            "{text}"
        );
    }
}

#[test]
fn long_texts_have_their_places(rt: HostRuntime) -> Result<(), Fail> {
    let (hours, digits) = (
        "1 h ".repeat(rt.alloc(), 1 << 14)?,
        "0123456789abcdef".repeat(rt.alloc(), 1 << 16)?,
    );
    let text = format!(in rt.alloc(); "{hours}18446744073709551615s 5s")?;
    let error = parse_duration(&text).expect_err(&rt, "it overflows");
    assert_eq!(rt;
        (error.error, error.start, error.end),
        (DurationError::NumberOverflow, 1 << 16, (1 << 16) + 21)
    );
    let text = format!(in rt.alloc(); "2018-02-14T00:28:07.{digits}")?;
    let error = parse_rfc3339(&text).expect_err(&rt, "there is no zone");
    assert_eq!(rt; (error.start, error.end), (30, 20 + (1 << 20)));
    let error = parse_duration(&text).expect_err(&rt, "there is no unit");
    assert_eq!(rt;
        (error.error, error.start, error.end),
        (DurationError::InvalidCharacter(4), 4, 5)
    );
    Ok(())
}

#[test]
fn a_quotient_is_truncated(rt: HostRuntime) {
    let third = StdDuration::from_secs(20).checked_div(3);
    assert_eq!(rt; third, Some(StdDuration::new(6, 666_666_666)));
}
