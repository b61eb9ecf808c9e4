//! Times the crate and the library in one process.
//!
//! Each row is one call of each side, which is not inlined and leaves its result in memory of the
//! caller. The sides are called in turn, in batches, and the side that goes first changes with each
//! round.

mod answers;
mod texts;

use answers::*;
use humantime::*;
use std::arch::{asm, global_asm};
use std::fmt::{self, Debug, Display, Write};
use std::hint::black_box;
use std::time::{Duration, Instant};
use texts::Random;

// Moves the code after it by this number of bytes, so that several builds differ in their layout.
// The linker keeps it, because `main` names it.
global_asm!(
    ".globl bench_padding",
    "bench_padding:",
    concat!(".space ", env!("BENCH_PADDING"), ", 0x90")
);

unsafe extern "C" {
    fn bench_padding();
}

/// Parses a text by a function of the crate. Drops the previous result, and writes the new one in
/// place, without a copy.
#[inline(never)]
fn crate_read<T>(parse: impl Fn(&str) -> T, text: &&str, place: &mut T) {
    unsafe {
        std::ptr::drop_in_place(place);
        std::ptr::write(place, parse(text));
    }
}

/// Calls a parser of the crate by a function of its own.
#[inline(never)]
fn called<T>(parse: impl Fn(&str) -> T, text: &str) -> T {
    parse(text)
}

/// Prints a value by a function of the crate.
#[inline(never)]
fn crate_print<T, F: Display>(format: impl Fn(T) -> F, value: T, place: &mut String) {
    place.clear();
    let _ = write!(place, "{}", format(value));
}

/// What a program that uses the crate does for a command and its text: it parses the text, and
/// prints the result as a line.
#[inline(never)]
fn crate_run(command: &str, text: &str, place: &mut String) {
    place.clear();
    let _ = match command {
        "duration" => write_line(place, parse_duration(text), format_duration),
        "strict" => write_line(place, parse_rfc3339(text), format_rfc3339),
        "weak" => write_line(place, parse_rfc3339_weak(text), format_rfc3339),
        _ => Ok(()),
    };
}

#[inline(always)]
fn write_line<T, F: Display>(
    place: &mut String,
    result: Result<T, impl Display>,
    format: impl Fn(T) -> F,
) -> fmt::Result {
    match result {
        Ok(value) => writeln!(place, "{}", format(value)),
        Err(error) => writeln!(place, "{error}"),
    }
}

/// Returns the same reference, about which the compiler knows nothing. `black_box` would pass it
/// through memory, which costs a call as much as fifteen instructions.
#[inline(always)]
fn hidden<T>(reference: &T) -> &T {
    let mut pointer: *const T = reference;
    unsafe {
        asm!("/* {0} */", inout(reg) pointer, options(nostack, preserves_flags));
        &*pointer
    }
}

/// Returns the nanoseconds of a number of calls, whose results the compiler has to write.
#[inline(always)]
fn batch<T>(calls: usize, place: &mut T, mut call: impl FnMut(&mut T)) -> f64 {
    let start = Instant::now();
    for _ in 0..calls {
        call(place);
        hidden(place);
    }
    start.elapsed().as_nanos() as f64
}

/// Times a row: a call of the crate and a call of the library, each with the memory where it leaves
/// its result. Prints the kind and the name of the row, the smallest time of each side and the
/// median of the ratios, separated by tabs.
fn race<C, L>(
    (kind, name): (&str, &str),
    (mut crate_place, mut by_crate): (C, impl FnMut(&mut C)),
    (mut place, mut by_library): (L, impl FnMut(&mut L)),
) {
    if !name.contains(&std::env::var("BENCH_ONLY").unwrap_or_default()) {
        return;
    }
    let mut of_crate = |calls| batch(calls, &mut crate_place, &mut by_crate);
    let mut of_library = |calls| batch(calls, &mut place, &mut by_library);
    let once = of_crate(20).max(of_library(20)) / 20.0;
    let calls = ((30_000.0 / once) as usize).clamp(1, 1_000);
    // A call that takes milliseconds is made in fewer rounds.
    let wanted: usize = env!("BENCH_ROUNDS").parse().expect("a number of rounds");
    let rounds = wanted.min((500_000_000.0 / once) as usize / calls).max(50);
    let times = Vec::from_iter((0..rounds).map(|round| {
        let early = (round % 2 == 1).then(|| of_library(calls));
        let taken = of_crate(calls);
        [taken, early.unwrap_or_else(|| of_library(calls))]
    }));
    let [least_of_crate, least_of_library] = [0, 1]
        .map(|side| times.iter().map(|pair| pair[side]).fold(f64::MAX, f64::min) / calls as f64);
    let mut ratios =
        Vec::from_iter(times.iter().map(|[of_crate, of_library]| of_library / of_crate));
    ratios.sort_by(f64::total_cmp);
    println!(
        "{kind}\t{name}\t{least_of_crate:.2}\t{least_of_library:.2}\t{:.4}",
        ratios[rounds / 2]
    );
}

/// Returns a copy of the text that begins as many bytes after a multiple of 64 as the code of this
/// build does: a read across two cache lines takes longer, and no row should depend on the position
/// of its literal.
fn placed(text: &str) -> &'static str {
    let offset = env!("BENCH_PADDING").parse::<usize>().expect("a number of bytes") % 64;
    let bytes = vec![0; text.len() + 128].leak();
    let start = bytes.as_ptr().align_offset(64) + offset;
    let place = &mut bytes[start..start + text.len()];
    place.copy_from_slice(text.as_bytes());
    std::str::from_utf8(place).expect("a text")
}

/// Times a parser on a text, which both sides have to read or reject alike.
fn race_reading<T: PartialEq + Debug, E: PartialEq + Debug, R>(
    (parser, how): (&Parser<T, E>, &str),
    text: &str,
    parse: impl Fn(&str) -> R,
    by_library: impl Fn(&&'static str, &mut Answer<'static>),
) {
    let (answer, text) = (parser.by_library(text), placed(text));
    let shown = if text.len() > 100 {
        format!("{:?}.. of {} bytes", &text[..9], text.len())
    } else {
        format!("{text:?}")
    };
    assert_eq!(parser.by_crate(text).as_ref(), Ok(&answer), "{shown}");
    let noun = parser.name.split(',').next().expect("a word");
    let verb = if answer.is_ok() { "parse" } else { "reject" };
    let kind = if text.len() > 100 {
        "parse or reject a long string".into()
    } else {
        format!("{verb} a {noun}{how}")
    };
    race(
        (&kind, &format!("{verb} {shown}, {}{how}", parser.name)),
        (parse("0"), |place| crate_read(&parse, hidden(&text), place)),
        (Answer::default(), |place| by_library(hidden(&text), place)),
    );
}

/// Times a parser on a thousand random texts, one after the other.
fn race_random<T: PartialEq + Debug, E: PartialEq + Debug, R>(
    parser: &Parser<T, E>,
    text: impl Fn(&mut Random) -> String,
    parse: impl Fn(&str) -> R,
    by_library: impl Fn(&&'static str, &mut Answer<'static>),
) {
    let mut random = Random(1);
    let texts = Vec::from_iter((0..1_000).map(|_| &*text(&mut random).leak()));
    texts.iter().for_each(|text| assert_eq!(parser.by_crate(text), Ok(parser.by_library(text))));
    let (mut of_crate, mut of_library) = (texts.iter().cycle(), texts.iter().cycle());
    let noun = parser.name.split(',').next().expect("a word");
    race(
        (&format!("parse a {noun}"), &format!("parse random texts, {}", parser.name)),
        (parse("0"), |place| crate_read(&parse, of_crate.next().expect("a text"), place)),
        (Answer::default(), |place| by_library(of_library.next().expect("a text"), place)),
    );
}

/// Returns the text of a duration below 2^34 seconds, short ones as often as long ones, and half of
/// them of whole seconds.
fn random_duration(random: &mut Random) -> String {
    let most = 1 << (1 + random.below(34));
    let nanos = if random.percent(50) { random.nanos() } else { 0 };
    format_duration(Duration::new(random.below(most), nanos)).to_string()
}

/// Returns the text of a moment of 1970 to 9999 with 0, 3, 6 or 9 fraction digits.
fn random_moment(random: &mut Random) -> String {
    // The first printer is the one that chooses the number of digits.
    let (_, _, format) = random.of(&PRINTERS[1..]);
    format(moment(random.below(253_402_300_800) as i64, random.nanos())).to_string()
}

/// Times the parsers, also called by functions that are not inlined: `read` and `call` are the
/// exports of the two.
macro_rules! race_parser {
    ($parser:ident, $texts:expr, $random:ident, $parse:ident, $read:ident, $call:ident) => {
        for text in $texts {
            race_reading((&$parser, ""), text, $parse, |text, place| $read(text, place));
            race_reading(
                (&$parser, ", not inlined"),
                text,
                |text| called($parse, text),
                |text, place| $call(text, place),
            );
        }
        race_random(&$parser, $random, $parse, |text, place| $read(text, place));
    };
}

fn texts_parsed() {
    let greatest = format_duration(Duration::MAX).to_string();
    let durations = [
        "2h 37min", "1.234s 1.345ms 1.678us 1ns", "15days 2min 2s", &greatest, "12\u{3000}s 163µs",
        "163µs", "0", "100000000000000000us 1foo", "1foo~", "10nights", "12 34", "1h x",
        "20000000000000000000s",
    ];
    let timestamps = [
        "2018-02-14T00:28:07Z", "2018-02-14T00:28:07.133Z", "2018-02-14T00:28:07.123456789Z",
        "2018-02-14T00:28:07+00:00", "2018-02-14t00:28:07Z", "2018-02-1xT00:28:07Z",
        "2018-02-30T00:28:07Z", "2018-02-14T00:28:07.13x3Z",
    ];
    race_parser!(
        DURATION, durations, random_duration, parse_duration, library_read_duration,
        library_call_duration
    );
    race_parser!(
        STRICT, timestamps, random_moment, parse_rfc3339, library_read_strict, library_call_strict
    );
    race_parser!(
        WEAK, timestamps, random_moment, parse_rfc3339_weak, library_read_weak, library_call_weak
    );
    let size = 1_048_575;
    let spans = "1h ".repeat(size / 3);
    let long = [
        " ".repeat(size),
        "0".repeat(size),
        format!("1{}", "s".repeat(size)),
        format!("{spans}~"),
        spans,
    ];
    for text in long {
        race_reading((&DURATION, ""), &text, parse_duration, |text, place| {
            library_read_duration(text, place)
        });
    }
    let fraction = format!("2018-02-14T00:28:07.{}Z", "1".repeat(size));
    race_reading((&STRICT, ""), &fraction, parse_rfc3339, |text, place| {
        library_read_strict(text, place)
    });
    race_reading((&WEAK, ""), &fraction, parse_rfc3339_weak, |text, place| {
        library_read_weak(text, place)
    });
}

/// Times both sides writing a text, which has to be the same: the crate to a `String`, the library
/// to a buffer. The crate prints `us` without its feature `mu`.
fn race_writing<const N: usize>(
    row: (&str, &str),
    mut by_crate: impl FnMut(&mut String),
    mut by_library: impl FnMut(&mut [u8; N]) -> usize,
) {
    let mut crate_place = String::with_capacity(256);
    by_crate(&mut crate_place);
    assert_eq!(text_of(&mut by_library).replace('µ', "u"), crate_place, "{row:?}");
    let by_library = |(length, place): &mut (usize, [u8; N])| *length = by_library(place);
    race(row, (crate_place, by_crate), ((0, [0; N]), by_library));
}

fn durations_printed() {
    for (secs, nanos) in
        [(9_420, 0), (1_296_122, 0), (63_115_320, 12_000), (u64::MAX, 999_999_999), (0, 0)]
    {
        let (name, duration) =
            (format!("print {secs} s and {nanos} ns"), Duration::new(secs, nanos));
        let by_crate =
            |place: &mut String| crate_print(format_duration, black_box(duration), place);
        race_writing(("print a duration", &name), by_crate, |place| {
            library_print_duration(black_box(secs), black_box(nanos), place)
        });
        let row = ("print a duration by `Display`", &*(name + " by `Display`"));
        race_writing(row, by_crate, |place| {
            library_display_duration(black_box(secs), black_box(nanos), place)
        });
    }
}

fn timestamps_printed() {
    let (secs, nanos) = (1_518_563_287, 123_456_789);
    let time = moment(secs, nanos);
    let in_seconds =
        |place: &mut String| crate_print(format_rfc3339_seconds, black_box(time), place);
    let in_nanos = |place: &mut String| crate_print(format_rfc3339_nanos, black_box(time), place);
    let row = ("print a timestamp", "print a timestamp in seconds");
    race_writing(row, in_seconds, |place| {
        library_print_moment(1, black_box(secs), black_box(nanos), place)
    });
    let row = ("print a timestamp", "print a timestamp in nanoseconds");
    race_writing(row, in_nanos, |place| {
        library_print_moment(4, black_box(secs), black_box(nanos), place)
    });
    let row = ("print a timestamp by `Display`", "print a timestamp in nanoseconds by `Display`");
    race_writing(row, in_nanos, |place| {
        library_display_nanos(black_box(secs), black_box(nanos), place)
    });
}

/// Times the program on a command and its text. An error message is written to the other output.
fn race_run(command: &'static str, text: &'static str) {
    let by_crate = |place: &mut String| crate_run(black_box(command), black_box(text), place);
    let by_library = |[out, err]: &mut [[u8; 128]; 2]| {
        _ = library_run(hidden(&command), hidden(&text), out, err)
    };
    let (mut crate_place, mut place) = (String::with_capacity(256), [[0; 128]; 2]);
    by_crate(&mut crate_place);
    by_library(&mut place);
    let told = String::from_utf8_lossy(place.as_flattened()).replace('\0', "");
    assert_eq!(told.replace('µ', "u"), crate_place.replace('µ', "u"), "{command} {text}");
    race(
        ("the program's `run`", &format!("`{command}` of `{text}`")),
        (crate_place, by_crate),
        (place, by_library),
    );
}

fn main() {
    black_box(bench_padding as *const ());
    texts_parsed();
    durations_printed();
    timestamps_printed();
    race_run("duration", "2h 37min");
    race_run("duration", "1foo~");
    race_run("strict", "2018-02-14T00:28:07Z");
    race_run("weak", "2018-02-14T00:28:07.123456789Z");
}
