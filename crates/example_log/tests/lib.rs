//! Arguments that are wrong, a line that is longer than a piece, and a log or an output that fails.
#![tactic(auto)]

use example_log::run;
use std::alloc::{AllocError, Global};
use std::io::{self, BufReader, Cursor, Read};
use std::test::Fail;

const FROM: &str = "2018-02-14 00:28:07";

const TO: &str = "2018-02-14 00:28:08";

fn line_of(alloc: Global, words: &[&str]) -> Result<Vec<String>, AllocError> {
    words
        .iter()
        .map(|word| String::from_str(alloc, word))
        .try_collect(alloc)
}

#[test]
fn each_stream_is_written(rt: HostRuntime) -> Result<(), Fail> {
    for (words, status, message) in &[
        ([FROM, TO].as_slice(), 0, ""),
        ([FROM].as_slice(), 2, "usage: example_log FROM TO\n"),
        ([FROM, TO, TO].as_slice(), 2, "usage: example_log FROM TO\n"),
        (
            ["yesterday", "today"].as_slice(),
            2,
            "example_log: FROM: timestamp format is invalid\n  yesterday\n  ^\n",
        ),
        (
            ["yesterday", TO].as_slice(),
            2,
            "example_log: FROM: timestamp format is invalid\n  yesterday\n  ^\n",
        ),
        (
            [FROM, "2018-02-30 00:00:00"].as_slice(),
            2,
            "example_log: TO: numeric component is out of range\
                \n  2018-02-30 00:00:00\
                \n          ^^\n",
        ),
    ] {
        let (mut log, mut out, mut err) = (
            FROM.as_bytes(),
            Vec::new(rt.alloc()),
            Vec::new(rt.alloc()),
        );
        assert_eq!(rt;
            run(
                rt.alloc(),
                &line_of(rt.alloc(), words)?,
                &mut log,
                &mut out,
                &mut err
            )?,
            *status
        );
        assert_eq!(rt;
            String::from_utf8(out)?.as_str(),
            if *status == 0 { FROM } else { "" }
        );
        assert_eq!(rt; String::from_utf8(err)?.as_str(), *message);
    }
    Ok(())
}

/// Each piece of the long line but the first begins with the text of a timestamp, as 36 and 65536
/// differ by a multiple of 20.
#[test]
fn a_long_line_comes_whole(rt: HostRuntime) -> Result<(), Fail> {
    let mut kept = format!(in rt.alloc(); "{FROM} sixteen letters ")?;
    assert_eq!(rt; kept.len(), 36);
    for _ in 0..10_000 {
        kept.push_str("1970-01-01 00:00:00 ")?;
    }
    kept.push_str("\nwith it\n")?;
    let log = format!(in rt.alloc(); "1970-01-01 00:00:00\nout\n{kept}{TO} late, no line feed")?;
    let (words, mut out, mut err) = (
        line_of(rt.alloc(), &[FROM, TO])?,
        Vec::new(rt.alloc()),
        Vec::new(rt.alloc()),
    );
    assert_eq!(rt;
        run(rt.alloc(), &words, &mut log.as_bytes(), &mut out, &mut err)?,
        0
    );
    assert!(rt; out.as_slice() == kept.as_bytes() && err.is_empty());
    Ok(())
}

/// Bytes that are not UTF-8 are kept after a timestamp, and end none: line 2 goes with line 1.
#[test]
fn a_line_need_not_be_utf_8(rt: HostRuntime) -> Result<(), Fail> {
    let kept = b"2018-02-14 00:28:07 caf\xe9\n1970-01-01 00:00:00\xff with it\n".as_slice();
    let (words, mut log) = (line_of(rt.alloc(), &[FROM, TO])?, Vec::new(rt.alloc()));
    log.extend_from_slice(kept)?;
    log.extend_from_slice(b"1970-01-01 00:00:00 out\xff\n".as_slice())?;
    let (mut out, mut err) = (Vec::new(rt.alloc()), Vec::new(rt.alloc()));
    assert_eq!(rt;
        run(rt.alloc(), &words, &mut log.as_slice(), &mut out, &mut err)?,
        0
    );
    assert!(rt; out.as_slice() == kept && err.is_empty());
    Ok(())
}

#[test]
fn a_line_that_fills_a_piece_ends_there(rt: HostRuntime) -> Result<(), Fail> {
    let mut kept = format!(in rt.alloc(); "{FROM} ")?;
    for _ in kept.len()..65_535 {
        kept.push('-')?;
    }
    let log = format!(in rt.alloc(); "{kept}\n{TO} late\n")?;
    let (mut out, mut err) = (Vec::new(rt.alloc()), Vec::new(rt.alloc()));
    let words = line_of(rt.alloc(), &[FROM, TO])?;
    assert_eq!(rt;
        run(rt.alloc(), &words, &mut log.as_bytes(), &mut out, &mut err)?,
        0
    );
    assert_eq!(rt;
        String::from_utf8(out)?.as_str().strip_prefix(kept.as_str()),
        Some("\n")
    );
    Ok(())
}

#[test]
fn a_timestamp_ends_at_whitespace(rt: HostRuntime) -> Result<(), Fail> {
    let words = line_of(rt.alloc(), &[FROM, TO])?;
    for end in [" ", "\t", "\r", "\u{c}", ""] {
        let kept = format!(in rt.alloc(); "{FROM}{end}\nwith it\n")?;
        let log = format!(in rt.alloc(); "{kept}{TO}{end}\nlate\n{kept}")?;
        let (mut out, mut err) = (Vec::new(rt.alloc()), Vec::new(rt.alloc()));
        run(rt.alloc(), &words, &mut log.as_bytes(), &mut out, &mut err)?;
        let wanted = format!(in rt.alloc(); "{kept}{kept}")?;
        assert_eq!(rt; String::from_utf8(out)?.as_str(), wanted.as_str());
    }
    Ok(())
}

/// A reader that fails.
#[derive(Drop)]
struct Broken;

impl Read for Broken {
    fn read(&mut self, _buf: &mut [u8]) -> io::Result<usize> {
        Err(io::Error::from(io::ErrorKind::ConnectionReset))
    }
}

#[test]
fn a_failure_is_an_error_after_the_lines_before_it(rt: HostRuntime) -> Result<(), Fail> {
    let (log, words) = (
        "2018-02-14 00:28:07.5 kept\nwith",
        line_of(rt.alloc(), &[FROM, TO])?,
    );
    let mut broken = BufReader::new(rt.alloc(), log.as_bytes().chain(Broken))?;
    let (mut out, mut err) = (Vec::new(rt.alloc()), Vec::new(rt.alloc()));
    let failure = run(rt.alloc(), &words, &mut broken, &mut out, &mut err).err();
    assert_eq!(rt;
        failure.map(|error| error.kind()),
        Some(io::ErrorKind::ConnectionReset)
    );
    assert!(rt; out.as_slice() == b"2018-02-14 00:28:07.5 kept\n".as_slice());
    let failure = run(
        rt.alloc(),
        &words,
        &mut log.as_bytes(),
        &mut Cursor::new([0; 9]),
        &mut err,
    )
    .err();
    assert_eq!(rt;
        failure.map(|error| error.kind()),
        Some(io::ErrorKind::WriteZero)
    );
    Ok(())
}
