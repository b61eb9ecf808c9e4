//! No call allocates: the rows hold, the program answers and `Debug` succeeds where allocations
//! fail. These tests are run and not proved.
#![tactic(auto)]

mod memory;
pub(crate) mod support;

use crate::support::{assert_nothing_allocated, refuse_memory};
use humantime::{
    Date, Duration, StdDuration, Timestamp, UNIX_EPOCH, canonical, format_duration, format_rfc3339,
    parse_duration, spans,
};
use humantime_cli::run;
use humantime_rows::{Row, TABLE, is_written, split_line};
use std::io::{self, Cursor, Write};
use std::process::Abort;
use std::str;

/// Asserts that `holds` returns `true` for each row of the calls that begin so, and allocates
/// nothing.
fn assert_rows(rt: &(impl Abort + AllocGlobal), begin: &str, holds: fn(Row<'_>) -> bool) {
    let mut room = String::with_capacity(rt.alloc(), TABLE.len()).expect(rt, "no memory");
    let mut asked = 0_u32;
    refuse_memory(rt, 1);
    for line in TABLE.lines() {
        let (calls, arguments, wanted) = split_line(line);
        for call in calls.split('|').filter(|call| call.starts_with(begin)) {
            for argument in arguments.split(", ") {
                let row = Row::new(call, argument, wanted, &mut room).expect(
                    rt,
                    "the room is too small",
                );
                assert!(rt; holds(row), "{call} {argument}");
                asked += 1;
            }
        }
    }
    assert!(rt; asked > 400, "there are {asked} rows");
    assert_nothing_allocated(rt);
}

#[test]
fn rows_hold_where_memory_is_refused(rt: HostRuntime) {
    assert_rows(&rt, "", |row| row.holds());
}

/// Returns the line that was written, without its end, or `None` if it has none.
fn line_of(written: &Cursor<[u8; 512]>) -> Option<&str> {
    let end = written.position() as usize;
    let bytes = written.get_ref().as_slice().get(..end)?;
    str::from_utf8(bytes).ok()?.strip_suffix('\n')
}

/// Returns whether the program prints the canonical text of a row's text, or the message of its
/// error, into arrays.
fn is_answered(row: Row<'_>) -> bool {
    let text = row.text();
    let (mut out, mut err) = (Cursor::new([0; 512]), Cursor::new([0; 512]));
    let status = run(&["duration", text], &mut out, &mut err);
    match (canonical(text, &mut [0; 64]), parse_duration(text)) {
        (Ok(printed), Ok(_)) => status == 0
            && line_of(&out) == Some(printed)
            && err.position() == 0,
        (Err(error), Err(_)) => {
            let message = line_of(&err).unwrap_or_default();
            status == 1 && out.position() == 0 && is_written(error, message, u32::MAX)
        }
        _ => false,
    }
}

#[test]
fn the_program_answers_where_memory_is_refused(rt: HostRuntime) {
    assert_rows(&rt, "duration", is_answered);
}

/// `Debug` has no text that is promised. Rows are written by that of the errors; here are the other
/// types.
#[test]
fn debug_succeeds_where_memory_is_refused(rt: HostRuntime) {
    refuse_memory(&rt, 0);
    let most = StdDuration::MAX;
    let durations = (
        most,
        Duration::new(most),
        format_duration(most),
        spans("1.5h").next(),
        spans("1h").next(),
    );
    let later = UNIX_EPOCH
        .checked_add(StdDuration::from_secs(5))
        .unwrap_or(UNIX_EPOCH);
    let moments = (
        later,
        Timestamp::from(later),
        format_rfc3339(later),
        UNIX_EPOCH.duration_since(later),
    );
    let date = Date {
        year: 2000,
        month: 2,
        day: 29,
    };
    assert!(rt; write!(io::sink(), "{durations:?} {moments:?} {date:?}").is_ok());
    assert_nothing_allocated(&rt);
}
