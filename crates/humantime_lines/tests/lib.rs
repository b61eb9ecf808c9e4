//! Lines with carets: no character of a string from outside reaches the terminal as a command, and
//! a long line is cut around what is wrong. The tests are run and not proved.
#![tactic(auto)]

use humantime_lines::{Escaped, MarkedLine, Report};
use std::alloc::Global;
use std::test::Fail;

/// The first and the last character of each range of those that are escapes, but for a line feed.
const HIDDEN: [(u32, u32); 8] = [
    (0x00, 0x08),
    (0x0b, 0x1f),
    (0x7f, 0x9f),
    (0x61c, 0x61c),
    (0x200e, 0x200f),
    (0x2028, 0x2029),
    (0x202a, 0x202e),
    (0x2066, 0x2069),
];

/// The characters beside them, and a tab, are written as they are.
const SHOWN: &str = "\t ~\u{a0}\u{61b}\u{61d}\u{200d}\u{2010}\u{2027}\u{202f}\u{2065}\u{206a}";

/// Returns the lines below the message of a range of a string.
fn lines_of(alloc: Global, text: &str, start: usize, end: usize) -> Result<String, Fail> {
    let report = Report::new("wrong", text, start..end).to_string(alloc)?;
    let lines = report.strip_prefix("wrong\n").ok_or("another message")?;
    Ok(String::from_str(alloc, lines)?)
}

#[test]
fn each_hidden_character_is_an_escape(rt: HostRuntime) -> Result<(), Fail> {
    let alloc = rt.alloc();
    for (first, last) in HIDDEN {
        for code in first..=last {
            let c = char::from_u32(code).ok_or("no character")?;
            let (len, escape) = (c.len_utf8(), format!(in alloc; "\\u{{{code:x}}}")?);
            let columns = " ".repeat(alloc, escape.len())?;
            let carets = "^".repeat(alloc, escape.len())?;
            for (text, start, end, lines) in [
                (
                    format!(in alloc; "{c}")?,
                    0,
                    len,
                    format!(in alloc; "  {escape}\n  {carets}")?,
                ),
                (
                    format!(in alloc; "{c}")?,
                    len,
                    len,
                    format!(in alloc; "  {escape}\n  {columns}^")?,
                ),
                (
                    format!(in alloc; "\t中{c}\tx~")?,
                    len + 6,
                    len + 7,
                    format!(in alloc; "  \t中{escape}\tx~\n  \t  {columns}\t ^")?,
                ),
                (
                    format!(in alloc; "\t~{c}中x")?,
                    1,
                    len + 5,
                    format!(in alloc; "  \t~{escape}中x\n  \t^{carets}^^")?,
                ),
                (
                    format!(in alloc; "中~{c}\t{c}")?,
                    3,
                    4,
                    format!(in alloc; "  中~{escape}\t{escape}\n    ^")?,
                ),
            ] {
                assert_eq!(rt; lines_of(alloc, &text, start, end)?, lines, "{code:x}");
            }
        }
    }
    for c in SHOWN.chars() {
        let text = format!(in alloc; "{c}")?;
        assert_eq!(rt; Escaped(&text).to_string(alloc)?, text);
    }
    Ok(())
}

#[test]
fn a_line_feed_ends_the_line(rt: HostRuntime) -> Result<(), Fail> {
    let alloc = rt.alloc();
    for (text, start, end, report) in &[
        ("a\n中~", 5, 6, "line 2: wrong\n  中~\n    ^"),
        ("a\r\n中~\r\n", 6, 7, "line 2: wrong\n  中~\n    ^"),
        // Of the bytes that are wrong, those of the first line are marked.
        ("~~\r\n~~", 1, 5, "line 1: wrong\n  ~~\n   ^"),
        ("~\n", 2, 2, "line 2: wrong\n  \n  ^"),
        // Only a carriage return before a line feed ends a line with it.
        ("~\r", 0, 1, "wrong\n  ~\\u{d}\n  ^"),
        (
            "\r~\r\r\n",
            1,
            2,
            "line 1: wrong\n  \\u{d}~\\u{d}\n       ^",
        ),
    ] {
        let lines = Report::new("wrong", text, *start..*end).to_string(alloc)?;
        assert_eq!(rt; lines.as_str(), *report);
    }
    let line = MarkedLine {
        before: "a\n",
        part: "\n",
        after: "\n",
    };
    assert_eq!(rt;
        line.to_string(alloc)?.as_str(),
        "a\\u{a}\\u{a}\\u{a}\n      ^^^^^"
    );
    Ok(())
}

/// The lines below the message of any range, also of one that no parser returns.
#[test]
fn any_range_is_shown(rt: HostRuntime) -> Result<(), Fail> {
    for (text, start, end, lines) in &[
        ("", 0, 0, "  \n  ^"),
        ("ab", 1, 99, "  ab\n   ^"),
        ("ab", 2, 1, "  ab\n    ^"),
        ("ab", 7, 9, "  ab\n    ^"),
        ("é", 1, 2, "  é\n   ^"),
        ("aé", 0, 2, "  aé\n  ^"),
        ("a\t\tb中文", 4, 10, "  a\t\tb中文\n   \t\t ^^^^"),
        ("\u{301}", 0, 2, "  \u{301}\n  ^"),
        ("\u{1b}\0\r", 1, 2, "  \\u{1b}\\u{0}\\u{d}\n        ^^^^^"),
    ] {
        assert_eq!(rt;
            lines_of(rt.alloc(), text, *start, *end)?.as_str(),
            *lines,
            "{text}"
        );
    }
    Ok(())
}

/// Lines of columns before, in and after the part that is wrong, and how many of each are shown: at
/// most 78. Of a wider line the part before the error has what the rest leaves, at least 39
/// columns, and the rest has the others. Dots take three of them.
#[test]
fn a_wide_line_is_cut(rt: HostRuntime) -> Result<(), Fail> {
    let alloc = rt.alloc();
    for (columns, shown) in [
        ([77, 0, 0], [77, 0, 0]),
        ([78, 0, 0], [74, 0, 0]),
        ([77, 1, 0], [77, 1, 0]),
        ([77, 0, 1], [77, 0, 1]),
        ([78, 1, 0], [74, 1, 0]),
        ([100, 1, 0], [74, 1, 0]),
        ([0, 78, 0], [0, 78, 0]),
        ([0, 79, 0], [0, 75, 0]),
        ([0, 10, 69], [0, 10, 65]),
        ([1, 1, 200], [1, 1, 73]),
        ([39, 20, 19], [39, 20, 19]),
        ([39, 40, 0], [39, 36, 0]),
        ([40, 39, 0], [36, 39, 0]),
        ([40, 40, 0], [36, 36, 0]),
        ([100, 5, 100], [36, 5, 31]),
        ([100, 37, 1], [37, 37, 1]),
    ] {
        let [front, wrong, back] = columns;
        let [kept, marked, left] = shown;
        let line = |front: usize, wrong: usize, back: usize| -> Result<String, Fail> {
            let (front, wrong) = ("-".repeat(alloc, front)?, "é".repeat(alloc, wrong)?);
            Ok(format!(in alloc; "{front}{wrong}{}", "µ".repeat(alloc, back)?)?)
        };
        let start = if kept < front { "..." } else { "" };
        let end = if marked + left < wrong + back {
            "..."
        } else {
            ""
        };
        let blanks = " ".repeat(alloc, 2 + start.len() + kept)?;
        let carets = "^".repeat(alloc, marked.max(1))?;
        let seen = line(kept, marked, left)?;
        let lines = format!(in alloc; "  {start}{seen}{end}\n{blanks}{carets}")?;
        let text = line(front, wrong, back)?;
        assert_eq!(rt;
            lines_of(alloc, &text, front, front + 2 * wrong)?,
            lines,
            "{text}"
        );
    }
    Ok(())
}

#[test]
fn a_megabyte_is_cut(rt: HostRuntime) -> Result<(), Fail> {
    let alloc = rt.alloc();
    for (unit, before, kept) in [
        ("-", 36, 36),
        ("\t", 4, 4),
        ("中", 18, 18),
        ("\u{301}", 36, 36),
        ("\u{1b}", 4, 4),
        ("-中", 12, 12),
    ] {
        // A megabyte of long pieces takes less time than one of short ones.
        let piece = unit.repeat(alloc, 1 << 10)?;
        let long = piece.repeat(alloc, (1 << 10) / unit.len() + 1)?;
        let text = format!(in alloc; "{long}~{long}")?;
        let shown = lines_of(alloc, &text, long.len(), long.len() + 1)?;
        let front = Escaped(&unit.repeat(alloc, before)?).to_string(alloc)?;
        let back = Escaped(&unit.repeat(alloc, kept)?).to_string(alloc)?;
        let (line, carets) = shown.split_once('\n').ok_or("one line")?;
        let (start, end) = line.split_once('~').ok_or("no character that is wrong")?;
        assert!(rt;
            start.starts_with("  ...") && start.ends_with(front.as_str()),
            "{line}"
        );
        assert!(rt; end.ends_with("...") && carets.ends_with('^'), "{line}");
        assert!(rt;
            back.starts_with(end.strip_suffix("...").ok_or("no dots")?),
            "{line}"
        );
        assert!(rt;
            line.chars().count() <= 80 && carets.chars().count() <= 80,
            "{line}"
        );
    }
    Ok(())
}
