//! The calls of both sides, and their results in one form.

#![allow(dead_code)] // Each of the two programs uses some of them.

use humantime::*;
use std::fmt::{Display, Write};
use std::panic::{AssertUnwindSafe, catch_unwind};
use std::time::{Duration, SystemTime, UNIX_EPOCH};

/// The result of a call of the library, as `exports.rt.txt` defines it.
#[derive(Default)]
#[repr(C)]
pub struct Answer<'a> {
    kind: u32,
    nanos: u32,
    secs: i64,
    start: usize,
    end: usize,
    value: u64,
    unit: &'a [u8],
}

fn duration_of(answer: &Answer) -> Result<Duration, DurationError> {
    let Answer { nanos, start, end, value, .. } = *answer;
    match answer.kind {
        0 if nanos < 1_000_000_000 => Ok(Duration::new(value, nanos)),
        1 => Err(DurationError::InvalidCharacter(start)),
        2 => Err(DurationError::NumberExpected(start)),
        3 => Err(DurationError::UnknownUnit {
            start,
            end,
            unit: String::from_utf8_lossy(answer.unit).into(),
            value,
        }),
        4 => Err(DurationError::NumberOverflow),
        5 => Err(DurationError::Empty),
        _ => panic!("no result of a parser of durations"),
    }
}

fn moment_of(answer: &Answer) -> Result<SystemTime, TimestampError> {
    match answer.kind {
        0 if answer.nanos < 1_000_000_000 => Ok(moment(answer.secs, answer.nanos)),
        1 => Err(TimestampError::OutOfRange),
        2 => Err(TimestampError::InvalidDigit),
        3 => Err(TimestampError::InvalidFormat),
        _ => panic!("no result of a parser of timestamps"),
    }
}

// A text is passed as a reference to its pointer and length.
#[allow(improper_ctypes)]
unsafe extern "C" {
    pub safe fn library_read_duration<'a>(text: &&'a str, place: &mut Answer<'a>);
    pub safe fn library_read_strict<'a>(text: &&'a str, place: &mut Answer<'a>);
    pub safe fn library_read_weak<'a>(text: &&'a str, place: &mut Answer<'a>);
    pub safe fn library_call_duration<'a>(text: &&'a str, place: &mut Answer<'a>);
    pub safe fn library_call_strict<'a>(text: &&'a str, place: &mut Answer<'a>);
    pub safe fn library_call_weak<'a>(text: &&'a str, place: &mut Answer<'a>);
    safe fn library_message(parser: u32, text: &&str, place: &mut [u8; 256]) -> usize;
    pub safe fn library_print_duration(secs: u64, nanos: u32, place: &mut [u8; 64]) -> usize;
    pub safe fn library_print_moment(
        printer: u32,
        secs: i64,
        nanos: u32,
        place: &mut [u8; 30],
    ) -> usize;
    pub safe fn library_display_duration(secs: u64, nanos: u32, place: &mut [u8; 256]) -> usize;
    pub safe fn library_display_nanos(secs: i64, nanos: u32, place: &mut [u8; 256]) -> usize;
    pub safe fn library_run(
        command: &&str,
        text: &&str,
        out: &mut [u8; 128],
        err: &mut [u8; 128],
    ) -> u8;
}

/// Returns the text that a call leaves at the front of its buffer; the call returns its length.
pub fn text_of<const N: usize>(call: impl FnOnce(&mut [u8; N]) -> usize) -> String {
    let mut place = [0; N];
    let length = call(&mut place);
    String::from_utf8_lossy(&place[..length]).into_owned()
}

/// Returns the result of the call, or the message of its panic.
fn caught<T>(call: impl FnOnce() -> T) -> Result<T, String> {
    catch_unwind(AssertUnwindSafe(call)).map_err(|panic| match panic.downcast::<String>() {
        Ok(message) => *message,
        Err(panic) => panic.downcast_ref::<&str>().copied().unwrap_or_default().to_string(),
    })
}

/// A parser of both sides, and its number in `exports.rt.txt`.
pub struct Parser<T, E> {
    pub name: &'static str,
    number: u32,
    by_crate: fn(&str) -> Result<T, E>,
    by_library: for<'a> extern "C" fn(&&'a str, &mut Answer<'a>),
    result_of: fn(&Answer) -> Result<T, E>,
}

/// The crate's result, or the message of its panic.
pub type Caught<T, E> = Result<Result<T, E>, String>;

pub const DURATION: Parser<Duration, DurationError> = Parser {
    name: "duration",
    number: 0,
    by_crate: parse_duration,
    by_library: library_read_duration,
    result_of: duration_of,
};
pub const STRICT: Parser<SystemTime, TimestampError> = Parser {
    name: "timestamp, strict",
    number: 1,
    by_crate: parse_rfc3339,
    by_library: library_read_strict,
    result_of: moment_of,
};
pub const WEAK: Parser<SystemTime, TimestampError> = Parser {
    name: "timestamp, weak",
    number: 2,
    by_crate: parse_rfc3339_weak,
    by_library: library_read_weak,
    result_of: moment_of,
};

impl<T, E> Parser<T, E> {
    pub fn by_crate(&self, text: &str) -> Caught<T, E> {
        caught(|| (self.by_crate)(text))
    }

    pub fn by_library(&self, text: &str) -> Result<T, E> {
        let mut place = Answer::default();
        (self.by_library)(&text, &mut place);
        (self.result_of)(&place)
    }

    /// Returns the message of the library's error, or an empty one if it has more than 256 bytes.
    pub fn message_by_library(&self, text: &str) -> String {
        text_of(|place| library_message(self.number, &text, place))
    }
}

/// The printers of moments: the number of each in `exports.rt.txt`, its name, and the crate's
/// function.
pub const PRINTERS: [(u32, &str, fn(SystemTime) -> Rfc3339Timestamp); 5] = [
    (0, "format_rfc3339", format_rfc3339),
    (1, "format_rfc3339_seconds", format_rfc3339_seconds),
    (2, "format_rfc3339_millis", format_rfc3339_millis),
    (3, "format_rfc3339_micros", format_rfc3339_micros),
    (4, "format_rfc3339_nanos", format_rfc3339_nanos),
];

/// Returns the crate's text, an empty one if it returns an error, or the message of its panic.
pub fn printed<F: Display>(format: impl FnOnce() -> F) -> Result<String, String> {
    caught(|| {
        let mut text = String::new();
        write!(text, "{}", format()).map_or(String::new(), |()| text)
    })
}

pub fn moment(secs: i64, nanos: u32) -> SystemTime {
    let whole = Duration::from_secs(secs.unsigned_abs());
    let start = if secs < 0 { UNIX_EPOCH - whole } else { UNIX_EPOCH + whole };
    start + Duration::from_nanos(nanos.into())
}
