//! The differences that are listed: the row of docs/DIFFERENCES.md of each, what explains it, and
//! the counts of cases.

use crate::answers::{Caught, DURATION};
use humantime::DurationError::{self, *};
use humantime::TimestampError;
use std::collections::BTreeMap;
use std::time::{Duration, SystemTime};

type Read = Result<Duration, DurationError>;

/// A row of docs/DIFFERENCES.md, by the text at its start or of a cell.
pub type Row = &'static str;

const PAGE: &str = include_str!("../../docs/DIFFERENCES.md");

macro_rules! rows {
    ($($row:ident: $start:literal,)*) => {
        $(pub const $row: Row = $start;)*
        const ROWS: &[Row] = &[$($start,)*];
    };
}

rows! {
    MICRO_SIGN_PRINTED: "prints `us`, and `µs` with the feature `mu`",
    PANIC_BEFORE_1970: "`Display` of a time before 1970 panics",
    ZEROS_OF_FRACTION: "trailing zeros of a fraction count towards its limits",
    GREEK_LETTER: "the Greek letter U+03BC is an invalid character",
    CARRY_TOO_LARGE: "at `u64::MAX` whole seconds, nanoseconds reach exactly 10^9",
    NO_DIGIT_AFTER_SPACE: "whitespace at the start, or more than one whitespace character",
    BAD_AFTER_POINT: "an invalid character directly after a point",
    SPACE_AFTER_POINT: "whitespace after a point without digits, and then a letter or the end",
    TAIL_AFTER_PLUS: "after the fraction of a timestamp, a `+` and five bytes other than `00:00`",
    BYTES_AFTER_ZONE: "one to five bytes after a `Z` that follows the seconds",
}

/// Returns the row that lists the difference of these results of a parser of timestamps.
pub fn moment(
    text: &str,
    by_crate: &Caught<SystemTime, TimestampError>,
    by_library: &Result<SystemTime, TimestampError>,
) -> Option<Row> {
    let end = text.as_bytes().get(19..)?;
    match (by_crate, by_library) {
        (Ok(Ok(_)), Err(TimestampError::InvalidDigit)) if is_fraction_with_odd_tail(end) => {
            Some(TAIL_AFTER_PLUS)
        }
        (Ok(Ok(_)), Err(TimestampError::InvalidFormat))
            if (2..=6).contains(&end.len()) && end[0] == b'Z' =>
        {
            Some(BYTES_AFTER_ZONE)
        }
        _ => None,
    }
}

/// Returns whether the text is a point, digits, a `+` and five bytes other than `00:00`.
fn is_fraction_with_odd_tail(end: &[u8]) -> bool {
    let Some(([b'.', digits @ ..], [b'+', tail @ ..])) = end.split_last_chunk::<6>() else {
        return false;
    };
    digits.iter().all(u8::is_ascii_digit) && tail != b"00:00"
}

/// Returns the rows that explain the library's result for a duration, or `None` if the difference
/// is not listed.
///
/// The crate itself determines what is right. It parses the text without what the rows name: with
/// the micro sign in place of the Greek letter, and without trailing zeros of fractions. If its
/// result is an accident, it is corrected.
pub fn duration(text: &str, by_library: &Read) -> Option<Vec<Row>> {
    for (letters, zeros) in [(false, false), (true, false), (false, true), (true, true)] {
        let (plain, places) = plain(text, letters, zeros);
        let (answer, accident) = put_right(&plain, DURATION.by_crate(&plain))?;
        if placed(answer, text, &places) == *by_library {
            let named = [letters.then_some(GREEK_LETTER), zeros.then_some(ZEROS_OF_FRACTION)];
            return Some(named.into_iter().flatten().chain(accident).collect());
        }
    }
    None
}

/// Returns the text without what these rows name, and the original offsets of its bytes and of its
/// end.
fn plain(text: &str, letters: bool, zeros: bool) -> (String, Vec<usize>) {
    let dropped = if zeros { zeros_of_fractions(text) } else { Vec::new() };
    let (mut plain, mut places) = (String::new(), Vec::new());
    for (at, letter) in text.char_indices().filter(|(at, _)| !dropped.contains(at)) {
        plain.push(if letters && letter == 'μ' { 'µ' } else { letter });
        places.extend(at..at + letter.len_utf8());
    }
    places.push(text.len());
    (plain, places)
}

/// Returns the result with the offsets and the unit in the original text.
fn placed(answer: Read, text: &str, places: &[usize]) -> Read {
    answer.map_err(|error| match error {
        InvalidCharacter(at) => InvalidCharacter(places[at]),
        NumberExpected(at) => NumberExpected(places[at]),
        UnknownUnit { start, end, value, .. } => {
            let last = if end > start { places[end - 1] + 1 } else { places[end] };
            UnknownUnit {
                start: places[start],
                end: last,
                unit: text[places[start]..last].to_string(),
                value,
            }
        }
        other => other,
    })
}

fn is_letter(letter: char) -> bool {
    letter.is_ascii_alphabetic() || letter == 'µ' || letter == 'μ'
}

fn goes_on(letter: char) -> bool {
    letter.is_ascii_digit() || letter.is_whitespace()
}

/// Returns whether a number of the text ends before this point: there are digits and whitespace
/// back to the start or to a letter.
fn follows_number(text: &str, point: usize) -> bool {
    let before = text[..point].trim_end_matches(goes_on);
    let number = &text[before.len()..point];
    number.contains(|letter: char| letter.is_ascii_digit())
        && before.chars().next_back().is_none_or(is_letter)
}

/// Returns the offsets of the zeros that do not count: trailing zeros of a fraction, with its point
/// if no digit is left.
fn zeros_of_fractions(text: &str) -> Vec<usize> {
    let mut found = Vec::new();
    for (point, _) in text.match_indices('.').filter(|(point, _)| follows_number(text, *point)) {
        let rest = text[point + 1..].trim_start_matches(goes_on);
        let fraction = &text[point + 1..text.len() - rest.len()];
        let digits = fraction.char_indices().filter(|(_, letter)| letter.is_ascii_digit());
        let zeros = digits.rev().take_while(|(_, letter)| *letter == '0');
        let mut zeros: Vec<usize> = zeros.map(|(at, _)| point + 1 + at).collect();
        let is_left = fraction.contains(|letter| matches!(letter, '1'..='9'));
        if !is_left && !zeros.is_empty() {
            // If another point follows, one zero stays, so that the first one still has digits.
            if rest.starts_with('.') {
                zeros.remove(0);
            } else {
                zeros.push(point);
            }
        }
        found.extend(zeros);
    }
    found
}

/// Returns the crate's result, corrected if it is an accident, and the row that says so; or `None`
/// after another panic.
fn put_right(text: &str, answer: Caught<Duration, DurationError>) -> Option<(Read, Option<Row>)> {
    let (error, row) = match answer {
        Err(message) if message == "overflow in Duration::new" => (NumberOverflow, CARRY_TOO_LARGE),
        Err(_) => return None,
        Ok(Err(NumberExpected(at))) if text[at..].starts_with(char::is_whitespace) => {
            (NumberExpected(text.len() - text[at..].trim_start().len()), NO_DIGIT_AFTER_SPACE)
        }
        Ok(Err(InvalidCharacter(at))) if is_point_before_bad_character(text, at) => {
            (InvalidCharacter(at + 1), BAD_AFTER_POINT)
        }
        Ok(Err(InvalidCharacter(at))) if point_before_space(text, at) != at => {
            (InvalidCharacter(point_before_space(text, at)), SPACE_AFTER_POINT)
        }
        Ok(other) => return Some((other, None)),
    };
    Some((Err(error), Some(row)))
}

/// Returns whether the point of a number is at this offset, followed by a character that is not a
/// digit, whitespace or a letter.
fn is_point_before_bad_character(text: &str, at: usize) -> bool {
    let next = text[at..].chars().nth(1);
    text[at..].starts_with('.')
        && follows_number(text, at)
        && next.is_some_and(|letter| !goes_on(letter) && !is_letter(letter))
}

/// Returns the offset of the point of a number that is followed by only whitespace up to this
/// letter or to the end; or this offset.
fn point_before_space(text: &str, at: usize) -> usize {
    let before = text[..at].trim_end();
    let ends = text[at..].chars().next().is_none_or(is_letter);
    let is_after_space = before.ends_with('.')
        && before.len() < at
        && ends
        && follows_number(text, before.len() - 1);
    if is_after_space { before.len() - 1 } else { at }
}

/// The counts of cases and of differences.
#[derive(Default)]
pub struct Counts {
    parts: Vec<(String, u64)>,
    listed: BTreeMap<Vec<Row>, (u64, String)>,
    unlisted: u64,
}

impl Counts {
    /// Begins a part: the cases from here on are counted under its name.
    pub fn begin(&mut self, name: impl Into<String>) {
        self.parts.push((name.into(), 0));
    }

    pub fn case(&mut self) {
        self.parts.last_mut().expect("a part was begun").1 += 1;
    }

    /// Counts a difference under its rows, and keeps the first one as an example. Without a row, it
    /// is not listed: the first twenty of those are printed.
    pub fn differs(&mut self, rows: Vec<Row>, tell: impl FnOnce() -> String) {
        if !rows.is_empty() {
            self.listed.entry(rows).or_insert_with(|| (0, tell())).0 += 1;
            return;
        }
        self.unlisted += 1;
        if self.unlisted <= 20 {
            println!("not listed: {}", tell());
        }
    }

    /// Prints all counts and the rows that are wrong. Returns whether there are none, and each
    /// difference is listed.
    pub fn tell(&self) -> bool {
        println!("\n| compared | cases |\n|---|---|");
        self.parts.iter().for_each(|(name, cases)| println!("| {name} | {cases} |"));
        println!("\n| a row of docs/DIFFERENCES.md | cases | the first one |\n|---|---|---|");
        for (rows, (cases, example)) in &self.listed {
            println!("| {} | {cases} | {example} |", rows.join(", and "));
        }
        let is_written = |row: &Row| {
            PAGE.contains(&format!("\n| {row}")) || PAGE.contains(&format!("| {row} |"))
        };
        let missing: Vec<&Row> = ROWS.iter().filter(|row| !is_written(row)).collect();
        let never: Vec<&Row> =
            ROWS.iter().filter(|row| !self.listed.contains_key(&vec![**row])).collect();
        println!(
            "\nrows that are not on the page: {missing:?}; that no difference has alone: {never:?}"
        );
        let cases: u64 = self.parts.iter().map(|(_, cases)| cases).sum();
        let listed: u64 = self.listed.values().map(|(cases, _)| cases).sum();
        println!("diff: {cases} cases: {listed} listed differences, {} not listed", self.unlisted);
        missing.is_empty() && never.is_empty() && self.unlisted == 0
    }
}
