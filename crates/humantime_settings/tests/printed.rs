//! What is printed of errors in documents that contain characters which control a terminal.

use crate::support::{Random, Wait, reads};
use humantime_settings::SettingsError;
use humantime_std::Located;
use std::process::Abort;
use std::test::Fail;

/// The first and the last character of each range of those that are escapes.
const HIDDEN: [(u32, u32); 7] = [
    (0x00, 0x08),
    (0x0a, 0x1f),
    (0x7f, 0x9f),
    (0x61c, 0x61c),
    (0x200e, 0x200f),
    (0x2028, 0x202e),
    (0x2066, 0x2069),
];

fn is_escaped(c: char) -> bool {
    let is_in = |range: &(u32, u32)| range.0 <= c as u32 && c as u32 <= range.1;
    !matches!(c, ' '..='~') && HIDDEN.iter().any(is_in)
}

/// Returns a string with its escapes.
fn escaped(rt: &impl AllocGlobal, text: &str) -> Result<String, Fail> {
    let mut escaped = String::new(rt.alloc());
    for c in text.chars() {
        match is_escaped(c) {
            true => escaped.push_str(&format!(in rt.alloc(); "\\u{{{:x}}}", c as u32)?)?,
            false => escaped.push(c)?,
        }
    }
    Ok(escaped)
}

/// Returns the columns of a character other than a tab, of those that are drawn.
fn width(c: char) -> usize {
    match c {
        '中' | '😀' => 2,
        '\u{301}' | '\u{feff}' => 0,
        _ => 1,
    }
}

/// Returns the column after a line whose tabs lead to the next multiple of eight.
fn column_after(line: &str) -> usize {
    line.chars().fold(0, |column, c| match c {
        '\t' => column - column % 8 + 8,
        _ => column + width(c),
    })
}

/// Asserts that the last two lines of a text, each after an indent, are the line of a range and
/// carets under what is shown of it: no character but tabs and the line feed controls a terminal,
/// neither line is wider than 80 columns, and the first character that is wrong is shown.
fn assert_shows(
    rt: &(impl Abort + AllocGlobal),
    printed: &str,
    indent: &str,
    (text, start, end): (&str, usize, usize),
) -> Result<(), Fail> {
    let (rest, carets) = printed.rsplit_once('\n').ok_or("no caret line")?;
    let (_, line) = rest.rsplit_once('\n').ok_or("no line")?;
    assert!(rt;
        !line.chars().chain(carets.chars()).any(is_escaped),
        "{printed:?}"
    );
    assert!(rt;
        column_after(line) <= 80 && column_after(carets) <= 80,
        "{printed:?}"
    );
    let before = text[..start].rsplit('\n').next().unwrap_or("");
    let after = text[start..].lines().next().unwrap_or("");
    let (part, rest) = after.split_at((end - start).min(after.len()));
    let first = part.chars().next().map_or(0, |c| c.len_utf8());
    let (before, first) = (escaped(rt, before)?, escaped(rt, &part[..first])?);
    let (part, rest) = (escaped(rt, part)?, escaped(rt, rest)?);
    let after = format!(in rt.alloc(); "{part}{rest}")?;
    let blanks = carets.trim_end_matches('^');
    let is_blank = blanks.chars().all(|c| c == ' ' || c == '\t');
    assert!(rt; is_blank && blanks.starts_with(indent), "{printed:?}");
    for (at, _) in line.char_indices().chain([(line.len(), ' ')]) {
        let (front, back) = line.split_at(at);
        let front = front.strip_prefix(indent).unwrap_or("no indent");
        let is_front = front == before.as_str()
            || front
                .strip_prefix("...")
                .is_some_and(|kept| before.ends_with(kept));
        if !is_front {
            continue;
        }
        let kept = match back.strip_suffix("...") {
            Some(kept) if back != after.as_str() => kept,
            _ => back,
        };
        let is_back = back == after.as_str() || kept != back && after.starts_with(kept);
        if !is_back {
            continue;
        }
        let marked = if kept.len() < part.len() {
            kept
        } else {
            part.as_str()
        };
        let columns = marked.chars().map(width).sum::<usize>().max(1);
        let is_under = column_after(&line[..at]) == column_after(blanks)
            && carets.len() == blanks.len() + columns;
        if is_under && kept.starts_with(first.as_str()) {
            return Ok(());
        }
    }
    panic!(rt; "{printed:?} of {text:?}, {start}..{end}")
}

/// Asserts that what is printed of an error ends with the line and the carets of what is wrong in
/// the document, and returns it.
fn assert_shown(
    rt: &(impl Abort + AllocGlobal),
    error: &SettingsError,
    document: &str,
) -> Result<String, Fail> {
    let SettingsError::At { offset, part, .. } = error else {
        panic!(rt; "{error:?}");
    };
    let shown = error.to_string(rt.alloc())?;
    assert_shows(rt, &shown, "", (document, *offset, offset + part.len()))?;
    Ok(shown)
}

/// The characters of which drawn strings are made, the others more often than those that are
/// hidden.
const OTHERS: [char; 14] = [
    '5', ' ', 's', '~', '\t', '-', 'x', '中', 'é', '\u{301}', '😀', '\u{feff}', '\'', '"',
];

fn drawn_text(rt: &impl AllocGlobal, random: &mut Random) -> Result<String, Fail> {
    let mut text = String::new(rt.alloc());
    for _ in 0..[3, 10, 40, 120, 300][random.below(5)] {
        let (first, last) = HIDDEN[random.below(HIDDEN.len())];
        let hidden = first + random.below((last - first + 1) as usize) as u32;
        let c = match random.below(4) {
            0 => char::from_u32(hidden).ok_or("no character")?,
            _ => OTHERS[random.below(OTHERS.len())],
        };
        text.push(c)?;
    }
    Ok(text)
}

#[test]
fn drawn_strings_are_shown(rt: HostRuntime) -> Result<(), Fail> {
    let mut random = Random::new(0);
    for _ in 0..2000 {
        let text = drawn_text(&rt, &mut random)?;
        let (first, second) = (random.below(text.len() + 1), random.below(text.len() + 1));
        let start = text.floor_char_boundary(first.min(second));
        let end = text.floor_char_boundary(first.max(second));
        let report = Located {
            error: "wrong",
            start,
            end,
        }
        .report(&text)
        .to_string(rt.alloc())?;
        assert_shows(&rt, &report, "  ", (&text, start, end))?;
        for read in reads!(Wait) {
            let Some(error) = read(rt.alloc(), &text) else {
                continue
            };
            let shown = assert_shown(&rt, &error, &text)?;
            let (message, _) = shown.split_once('\n').ok_or("one line")?;
            assert!(rt; !message.chars().any(is_escaped), "{shown:?}");
        }
    }
    Ok(())
}

/// Each character that is hidden before, in and after a wrong string, and alone, in both formats.
#[test]
fn each_hidden_character_is_an_escape(rt: HostRuntime) -> Result<(), Fail> {
    let alloc = rt.alloc();
    for (first, last) in HIDDEN {
        for code in first..=last {
            let c = char::from_u32(code).ok_or("no character")?;
            let escape = format!(in alloc; "\\u{{{code:x}}}")?;
            for document in [
                format!(in alloc; "{c}")?,
                format!(in alloc; "['1\t中{c}s']")?,
                format!(in alloc; "{{\"中\t{c}\": \"1~\"}}")?,
                format!(in alloc; "wait = '5~' # 中\t{c}")?,
            ] {
                for read in reads!(Wait) {
                    let error = read(alloc, &document).ok_or("read")?;
                    let shown = assert_shown(&rt, &error, &document)?;
                    // A line feed ends the line, and a carriage return before none does not.
                    assert!(rt; code == 10 || shown.contains(escape.as_str()), "{shown:?}");
                }
            }
        }
    }
    Ok(())
}
