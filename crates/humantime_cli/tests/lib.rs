//! Tests of the program that no row can express: writers that accept one byte at a time, writers
//! that fail, and flushes. They are run and not proved.
#![tactic(auto)]

pub(crate) mod support;

use crate::support::{Limited, ROOM};
use crate::{run, run_args};
use std::io::{self, ErrorKind};
use std::process::Abort;
use std::test::Fail;

/// Asserts that a run with these arguments returns this status, that one of the writers receives
/// the line byte by byte, and that none is flushed.
fn assert_byte_by_byte(rt: &impl Abort, words: &[&str], status: u8, line: &str) {
    let (mut out, mut err) = (Limited::new(1, ROOM, None), Limited::new(1, ROOM, None));
    assert_eq!(rt; run(words, &mut out, &mut err), status, "after {words:?}");
    let (told, other) = if status == 0 {
        (&out, &err)
    } else {
        (&err, &out)
    };
    assert_eq!(rt;
        (
            told.taken(),
            told.writes,
            other.writes,
            told.flushes + other.flushes
        ),
        (line.as_bytes(), line.len(), 0, 0),
        "after {words:?}"
    );
}

#[test]
fn lines_are_written_byte_by_byte(rt: HostRuntime) {
    assert_byte_by_byte(&rt, &["duration", "2h 37min"], 0, "2h 37m\n");
    assert_byte_by_byte(&rt, &["duration", ""], 1, "value was empty\n");
}

/// Asserts that a run returns status 3 if the writer of its output fails: the writer has received
/// `taken`, it is not called again, and the other writer is never called. Neither is flushed.
fn assert_cut(
    rt: &impl Abort,
    words: &[&str],
    to_out: bool,
    taken: &[u8],
    step: usize,
    failure: Option<ErrorKind>,
) {
    let (mut failing, mut other) = (Limited::new(step, taken.len(), failure), Limited::open());
    let status = if to_out {
        run(words, &mut failing, &mut other)
    } else {
        run(words, &mut other, &mut failing)
    };
    let found = (
        status,
        failing.taken(),
        failing.writes,
        other.writes,
        failing.flushes + other.flushes,
    );
    assert_eq!(rt;
        found,
        (3, taken, taken.len().div_ceil(step) + 1, 0, 0),
        "after {words:?}"
    );
}

/// Asserts that nothing is written after a failure, however many bytes of the line were accepted
/// before it.
fn assert_nothing_follows(rt: &impl Abort, words: &[&str], to_out: bool, line: &str) {
    for failure in [
        Some(ErrorKind::Other),
        Some(ErrorKind::Interrupted),
        Some(ErrorKind::WouldBlock),
        Some(ErrorKind::TimedOut),
        None,
    ] {
        for step in [1, 4, ROOM] {
            for limit in 0..line.len() {
                assert_cut(rt, words, to_out, &line.as_bytes()[..limit], step, failure);
            }
        }
    }
}

#[test]
fn nothing_follows_a_failed_write_to_out(rt: HostRuntime) {
    assert_nothing_follows(&rt, &["duration", "2h 37min"], true, "2h 37m\n");
}

#[test]
fn nothing_follows_a_failed_write_to_err(rt: HostRuntime) {
    assert_nothing_follows(&rt, &["duration", ""], false, "value was empty\n");
    assert_nothing_follows(
        &rt,
        &[],
        false,
        "usage: humantime duration|strict|weak TEXT\n",
    );
}

/// Runs the program with the arguments `duration` and `2h 37min`, and asserts that standard output
/// is flushed once, after the whole line.
fn flushed(rt: &(impl Abort + AllocGlobal), can_flush: bool) -> io::Result<u8> {
    let alloc = rt.alloc();
    let (mut out, mut err) = (Limited::open(), Limited::open());
    out.can_flush = can_flush;
    let args = vec![in alloc;
        String::from_str(alloc, "duration")?,
        String::from_str(alloc, "2h 37min")?,
    ]?;
    let ended = run_args(alloc, &args, &mut out, &mut err);
    let found = (out.taken(), out.flushed, out.flushes, err.writes);
    assert_eq!(rt; found, (b"2h 37m\n".as_slice(), 7, 1, 0));
    ended
}

#[test]
fn standard_output_is_flushed_after_the_line(rt: HostRuntime) -> Result<(), Fail> {
    assert_eq!(rt; flushed(&rt, true)?, 0);
    Ok(())
}

#[test]
fn a_flush_that_fails_is_an_error(rt: HostRuntime) -> Result<(), Fail> {
    let error = flushed(&rt, false)
        .err()
        .ok_or("the flush failed, and the result is no error")?;
    assert_eq!(rt; error.kind(), ErrorKind::Other);
    Ok(())
}
