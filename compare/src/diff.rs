//! Compares the results of the library with those of the crate, call by call. They have to be the
//! same, except for the differences that are listed.

mod answers;
mod explained;
mod texts;

use answers::*;
use explained::{Counts, MICRO_SIGN_PRINTED, PANIC_BEFORE_1970, Row};
use std::fmt::{Debug, Display};
use std::path::Path;
use std::process::ExitCode;
use std::time::Duration;
use texts::*;

const DAY: u64 = 86_400;

/// The first second after 1970 that has no printed text.
const END: i64 = 253_402_300_800;

/// Parses a text on both sides. The rows are those that explain a difference.
fn read<T, E>(
    counts: &mut Counts,
    parser: &Parser<T, E>,
    text: &str,
    rows_of: impl FnOnce(&Caught<T, E>, &Result<T, E>) -> Vec<Row>,
) where
    T: PartialEq + Debug,
    E: PartialEq + Debug + Display,
{
    counts.case();
    let (by_crate, by_library) = (parser.by_crate(text), parser.by_library(text));
    if by_crate.as_ref() != Ok(&by_library) {
        let rows = rows_of(&by_crate, &by_library);
        counts.differs(rows, || {
            format!("{} {text:?}: the crate {by_crate:?}, the library {by_library:?}", parser.name)
        });
    } else if let Err(error) = by_library {
        let messages = (error.to_string(), parser.message_by_library(text));
        if messages.0 != messages.1 && messages.0.len() <= 256 {
            counts.differs(Vec::new(), || {
                format!("messages of {} {text:?}: {messages:?}", parser.name)
            });
        }
    }
}

fn read_duration(counts: &mut Counts, text: &str) {
    read(counts, &DURATION, text, |_, by_library| {
        explained::duration(text, by_library).unwrap_or_default()
    });
}

/// Parses a timestamp with both parsers on both sides.
fn read_moment(counts: &mut Counts, text: &str) {
    for parser in [STRICT, WEAK] {
        read(counts, &parser, text, |by_crate, by_library| {
            explained::moment(text, by_crate, by_library).into_iter().collect()
        });
    }
}

/// Prints a duration on both sides, and parses the library's text.
fn print_duration(counts: &mut Counts, secs: u64, nanos: u32) {
    let by_crate = printed(|| humantime::format_duration(Duration::new(secs, nanos)));
    let by_library = text_of(|place| library_print_duration(secs, nanos, place));
    let with_micro_sign = by_crate.as_ref().map(|text| text.replace("us", "µs"));
    let row = (with_micro_sign.as_ref() == Ok(&by_library)).then_some(MICRO_SIGN_PRINTED);
    print(counts, row, &by_crate, &by_library, || format!("duration of {secs} s and {nanos} ns"));
    read_duration(counts, &by_library);
}

/// Prints a moment with the five printers on both sides, and parses each text of the library.
fn print_moment(counts: &mut Counts, secs: i64, nanos: u32) {
    for (printer, name, format) in PRINTERS {
        let by_crate = printed(|| format(moment(secs, nanos)));
        let by_library = text_of(|place| library_print_moment(printer, secs, nanos, place));
        let is_listed = secs < 0 && by_crate.is_err() && by_library.is_empty();
        let row = is_listed.then_some(PANIC_BEFORE_1970);
        print(counts, row, &by_crate, &by_library, || format!("{name} of {secs} s and {nanos} ns"));
        if !by_library.is_empty() {
            read_moment(counts, &by_library);
        }
    }
}

/// Compares two printed texts, whose difference this row lists, if there is one.
fn print(
    counts: &mut Counts,
    row: Option<Row>,
    by_crate: &Result<String, String>,
    by_library: &String,
    value: impl FnOnce() -> String,
) {
    counts.case();
    if by_crate.as_ref() != Ok(by_library) {
        let rows = row.into_iter().collect();
        counts.differs(rows, || {
            format!("{}: the crate {by_crate:?}, the library {by_library:?}", value())
        });
    }
}

/// Compares the parsing of each duration that a function passes on, as one part.
fn durations(counts: &mut Counts, part: &str, texts: impl FnOnce(&mut dyn FnMut(&str))) {
    counts.begin(format!("durations parsed: {part}"));
    texts(&mut |text| read_duration(counts, text));
}

/// Compares the parsing of each timestamp that a function passes on, as one part.
fn timestamps(counts: &mut Counts, part: &str, texts: impl FnOnce(&mut dyn FnMut(&str))) {
    counts.begin(format!("timestamps parsed: {part}"));
    texts(&mut |text| read_moment(counts, text));
}

fn durations_parsed(counts: &mut Counts) {
    let letters: Vec<char> = ('a'..='z').chain('A'..='Z').chain(['µ', 'μ']).collect();
    durations(counts, "all texts of up to 5 of 18 characters", |to| all_texts("", &HOSTILE, 5, to));
    durations(counts, "all texts of up to 7 of 10 characters", |to| all_texts("", &FEWER, 7, to));
    durations(counts, "each word of up to 3 of 54 letters", |to| all_texts("1", &letters, 3, to));
    durations(counts, "each word with a letter removed, inserted or replaced", |to| {
        words().for_each(|(word, _)| variants(word, &letters, &mut |word| to(&format!("1{word}"))));
    });
    durations(
        counts,
        "each character of the first plane after a number, and between two digits",
        |to| {
            for character in '\0'..='\u{ffff}' {
                to(&format!("1{character}s"));
                to(&format!("1 {character} 2s"));
            }
        },
    );
    let mut random = Random(1);
    durations(
        counts,
        "each word at its limit, with fractions, alone and after another span",
        words_at_their_limits,
    );
    durations(counts, "random spans around each limit, and with an error", |to| {
        (0..12_000_000).for_each(|_| to(&random_duration(&mut random)));
    });
    durations(counts, "sums around the greatest duration", |to| {
        (0..3_000_000).for_each(|_| to(&random_sum_at_limit(&mut random)))
    });
}

fn durations_printed(counts: &mut Counts) {
    let nanos = [0, 1, 999, 1_000, 1_001, 999_999, 1_000_000, 1_000_001, 999_999_999];
    counts.begin("durations printed: around multiples of each unit; their texts parsed");
    for size in
        [1, 60, 3_600, DAY, 604_800, 2_630_016, 31_557_600, 31_557_600_000_000, u64::MAX / 31]
    {
        for (times, near) in (0..2_000u64).flat_map(|times| [0, 1, 2].map(|near| (times, near))) {
            let secs = size.saturating_mul(times).saturating_add(near).saturating_sub(1);
            print_duration(counts, secs, nanos[(times % 9) as usize]);
        }
    }
    counts.begin("durations printed: each second of a day and slightly more; their texts parsed");
    (0..DAY + 100).for_each(|second| print_duration(counts, second, 0));
    counts.begin("durations printed: random ones of any length; their texts parsed");
    let mut random = Random(2);
    for _ in 0..4_000_000 {
        let part = if random.percent(50) { random.of(&nanos) } else { random.nanos() };
        print_duration(counts, random.of_any_size(), part);
    }
}

fn timestamps_parsed(counts: &mut Counts) {
    timestamps(counts, "each month, day and year, in and out of bounds", |to| {
        for year in (0..10_000).filter(|year| {
            *year < 2 || (1960..2110).contains(year) || year % 100 < 5 || *year > 9_990
        }) {
            for (month, day) in (0..14).flat_map(|month| (0..33).map(move |day| (month, day))) {
                to(&format!("{year:04}-{month:02}-{day:02}T00:00:00Z"));
            }
        }
    });
    timestamps(counts, "each hour, minute and second of two digits", |to| {
        for number in 0..1_000_000 {
            let (hour, minute, second) = (number / 10_000, number / 100 % 100, number % 100);
            to(&format!("2016-12-31T{hour:02}:{minute:02}:{second:02}Z"));
        }
    });
    timestamps(
        counts,
        "all endings of up to 6 of 11 characters, and of up to 5 after a fraction",
        |to| {
            let ends = ['Z', '+', '0', '1', ':', '.', '-', 'z', ' ', '9', 'é'];
            all_texts("1970-01-01T00:00:00", &ends, 6, to);
            for front in
                ["1970-01-01T00:00:00.", "1970-01-01T00:00:00.5", "9999-12-31 23:59:60.999999999"]
            {
                all_texts(front, &ends, 5, to);
                all_texts(&format!("{front}+"), &ends, 3, &mut |text| to(&format!("{text}:00")));
            }
        },
    );
    timestamps(
        counts,
        "one character replaced by each of 256, two by each two of 14",
        spoiled_timestamps,
    );
    let mut random = Random(3);
    timestamps(counts, "random parts, fractions and endings, and with an error", |to| {
        (0..4_000_000).for_each(|_| to(&random_stamp(&mut random)));
    });
}

fn timestamps_printed(counts: &mut Counts) {
    let mut random = Random(4);
    counts.begin("timestamps printed: each day by each of five printers; their texts parsed");
    for day in 0..END / DAY as i64 {
        let nanos = if random.percent(50) { 0 } else { random.nanos() };
        print_moment(counts, day * DAY as i64 + random.below(DAY) as i64, nanos);
    }
    counts
        .begin("timestamps printed: each second of a day, and random moments; their texts parsed");
    (0..DAY as i64).for_each(|second| print_moment(counts, 1_330_473_600 + second, 0));
    (0..500_000)
        .for_each(|_| print_moment(counts, random.below(END as u64) as i64, random.nanos()));
    counts.begin("timestamps printed: around and outside 1970 to 9999");
    for near in 0..2_000 {
        for nanos in [0, 1, 999_999_999] {
            print_moment(counts, END - 1_000 + near, nanos);
            print_moment(counts, near - 1_000, nanos);
            print_moment(counts, END << random.below(20), nanos);
            print_moment(counts, -(random.below(1 << 40) as i64), nanos);
        }
    }
    counts.begin("timestamps printed: 0 to 999 nanoseconds, microseconds and milliseconds, and 10,000 over the second");
    let few = (0..1_000).flat_map(|part| [part, part * 1_000, part * 1_000_000]);
    few.chain((0..10_000).map(|part| part * 99_991))
        .for_each(|nanos| print_moment(counts, 1_330_473_600, nanos));
}

fn main() -> ExitCode {
    let folder = std::env::args().nth(1).expect("the crate's folder");
    std::panic::set_hook(Box::new(|_| {}));
    let (mut counts, found) = (Counts::default(), texts_of_crate(Path::new(&folder)));
    durations(
        &mut counts,
        "the texts of the crate's sources and tests, and those near them",
        |to| {
            found.iter().for_each(|text| variants(text, &HOSTILE, to));
        },
    );
    timestamps(&mut counts, "the same texts, and those near them", |to| {
        found.iter().for_each(|text| variants(text, &STAMP, to))
    });
    durations_parsed(&mut counts);
    durations_printed(&mut counts);
    timestamps_parsed(&mut counts);
    timestamps_printed(&mut counts);
    ExitCode::from(u8::from(!counts.tell()))
}
