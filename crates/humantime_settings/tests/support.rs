//! Documents with their errors.

use humantime::StdDuration;
use humantime_settings::{AsText, SettingsError};
use std::alloc::Global;
use std::process::Abort;
use std::test::Fail;

pub(crate) type Wait = AsText<StdDuration>;

/// Reads a document, and returns its error.
pub(crate) type Read = fn(Global, &str) -> Option<SettingsError>;

/// Returns the functions that read a document as a type, in TOML and in JSON.
macro_rules! reads {
    ($type:ty) => {{
        let toml: crate::support::Read =
            |alloc, text| humantime_settings::from_toml::<$type>(alloc, text).err();
        let json: crate::support::Read =
            |alloc, text| humantime_settings::from_json::<$type>(alloc, text).err();
        [toml, json]
    }};
}

pub(crate) use reads;

/// How the message of an unknown unit ends.
pub(crate) const UNITS: (&str, &str) = (
    "UNITS",
    "supported units: ns, us/µs, ms, sec, min, hours, days, weeks, months, years (and few \
    variations)",
);

/// A message, and documents with this error. It begins at `^`, and ends at a second one, if its end
/// is known.
pub(crate) type Row<'a> = (&'a str, &'a [&'a str]);

/// Returns a text with what names in it stand for, and each `«text*count»` as this text repeated,
/// with the number of each for `#`.
pub(crate) fn filled(
    rt: &impl AllocGlobal,
    text: &str,
    names: &[(&str, &str)],
) -> Result<String, Fail> {
    let (alloc, mut named) = (rt.alloc(), String::from_str(rt.alloc(), text)?);
    for (name, meaning) in names {
        named = named.replace(alloc, *name, *meaning)?;
    }
    let mut filled = String::new(alloc);
    for part in named.split('»') {
        let (before, repeated) = part.split_once('«').unwrap_or((part, "*0"));
        let (repeated, count) = repeated.split_once('*').ok_or("no count")?;
        filled.push_str(before)?;
        for number in 0..count.parse::<u32>()? {
            filled.push_str(&repeated.replace(alloc, "#", &format!(in alloc; "{number}")?)?)?;
        }
    }
    Ok(filled)
}

/// Returns the second function for a document that begins with a brace, and else the first.
pub(crate) fn reader([toml, json]: [Read; 2], document: &str) -> Read {
    if document.trim_start_matches(['^', '\n']).starts_with('{') {
        json
    } else {
        toml
    }
}

/// Asserts that a document is read.
pub(crate) fn assert_read(rt: &(impl Abort + AllocGlobal), read: Read, document: &str) {
    let error = read(rt.alloc(), document);
    assert!(rt; error.is_none(), "{error:?} {document}");
}

/// Asserts that each document has its error, and names all that have another one.
pub(crate) fn assert_errors(
    rt: &(impl Abort + AllocGlobal),
    reads: [Read; 2],
    names: &[(&str, &str)],
    rows: &[Row<'_>],
) -> Result<(), Fail> {
    let mut wrong = String::new(rt.alloc());
    for (message, documents) in rows {
        let message = filled(rt, message, names)?;
        for document in *documents {
            let document = filled(rt, document, names)?;
            let read = reader(reads, &document);
            wrong.push_str(&difference(rt, read, &document, Some(&message))?)?;
        }
    }
    assert!(rt; wrong.is_empty(), "{wrong}");
    Ok(())
}

/// Asserts the same of a table of lines. A line with a `^` is a document, in which `¶` ends a line,
/// below its message.
pub(crate) fn assert_table(
    rt: &(impl Abort + AllocGlobal),
    reads: [Read; 2],
    names: &[(&str, &str)],
    table: &str,
) -> Result<(), Fail> {
    let (alloc, mut wrong) = (rt.alloc(), String::new(rt.alloc()));
    let (mut message, mut is_asked) = (String::new(alloc), true);
    for line in table.trim().lines().map(str::trim) {
        if line.contains('^') {
            let document = filled(rt, line, names)?.replace(alloc, '¶', "\n")?;
            let read = reader(reads, &document);
            wrong.push_str(&difference(rt, read, &document, Some(&message))?)?;
            is_asked = true;
        } else if !line.starts_with("//") {
            assert!(rt; is_asked, "no document has this error: {message}");
            (message, is_asked) = (filled(rt, line, names)?, false);
        }
    }
    assert!(rt; is_asked, "no document has this error: {message}");
    assert!(rt; wrong.is_empty(), "{wrong}");
    Ok(())
}

/// Returns how the error of a document differs from the one that is marked in it and, if it is
/// known, its message: a line each of what is found and what is wanted, or nothing.
pub(crate) fn difference(
    rt: &impl AllocGlobal,
    read: Read,
    document: &str,
    message: Option<&str>,
) -> Result<String, Fail> {
    let alloc = rt.alloc();
    let (front, rest) = document.split_once('^').ok_or("no mark")?;
    let (marked, back) = rest.split_once('^').unwrap_or(("", rest));
    let text = format!(in alloc; "{front}{marked}{back}")?;
    let error = read(alloc, &text);
    // A mark ends with its line.
    let part = marked.lines().next().unwrap_or("");
    let last_line = front.rsplit('\n').next().unwrap_or("");
    let column = last_line.chars().filter(|c| *c != '\u{feff}').count() + 1;
    let (line, start) = (front.matches('\n').count() + 1, front.len());
    let found = match &error {
        Some(
            SettingsError::At {
                offset,
                line,
                part,
                message,
                ..
            },
        ) => {
            let place = (
                *offset,
                part.as_str(),
                *line,
                error.as_ref().and_then(SettingsError::column),
            );
            format!(in alloc; "{place:?} {message}")?
        }
        other => format!(in alloc; "{other:?}")?,
    };
    let message = match (message, &error) {
        (None, Some(error)) => error.message(),
        (message, _) => message.unwrap_or("an error"),
    };
    let wanted = format!(in alloc; "{:?} {message}", (start, part, line, Some(column)))?;
    if found == wanted {
        return Ok(String::new(alloc));
    }
    Ok(format!(in alloc; "\n{document}\n  is:     {found}\n  wanted: {wanted}\n")?)
}

/// A generator of numbers.
#[derive(Drop)]
pub(crate) struct Random {
    state: u64,
}

impl Random {
    /// Creates a generator, whose numbers depend on a seed below 2^32 + 2^31.
    pub(crate) fn new(seed: u64) -> Random {
        Random {
            state: (seed + 1) * 0x9E37_79B9,
        }
    }

    /// Returns the next number, which is below another one.
    pub(crate) fn below(&mut self, end: usize) -> usize {
        self.state ^= self.state << 13;
        self.state ^= self.state >> 7;
        self.state ^= self.state << 17;
        ((self.state >> 8) % end as u64) as usize
    }
}
