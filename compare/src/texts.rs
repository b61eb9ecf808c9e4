//! The texts that both sides parse.

#![allow(dead_code)] // `bench` only draws numbers.

use std::collections::BTreeSet;
use std::path::Path;
use std::sync::LazyLock;

/// Characters that end a duration's text, continue it or make it invalid.
pub const HOSTILE: [char; 18] = [
    '0', '1', '9', '.', ' ', '\u{3000}', 's', 'h', 'n', 'u', 'M', 'µ', 'μ', '~', '-', '\0', 'é',
    '\u{200b}',
];

/// Fewer of these, for longer texts.
pub const FEWER: [char; 10] = ['0', '1', '.', ' ', 's', 'n', 'm', 'μ', '~', 'h'];

/// Characters that end a timestamp's text, continue it or make it invalid.
pub const STAMP: [char; 14] =
    ['0', '1', '6', '9', 'Z', 'z', 'T', '+', '-', ':', '.', ' ', 'é', '\u{ff11}'];

/// A generator of pseudorandom numbers, the same in each run.
pub struct Random(pub u64);

impl Random {
    fn number(&mut self) -> u64 {
        self.0 = self.0.wrapping_add(0x9e37_79b9_7f4a_7c15);
        let mixed = (self.0 ^ (self.0 >> 30)).wrapping_mul(0xbf58_476d_1ce4_e5b9);
        let mixed = (mixed ^ (mixed >> 27)).wrapping_mul(0x94d0_49bb_1331_11eb);
        mixed ^ (mixed >> 31)
    }

    pub fn below(&mut self, end: u64) -> u64 {
        self.number() % end
    }

    /// Returns `true` in this percentage of calls.
    pub fn percent(&mut self, times: u64) -> bool {
        self.below(100) < times
    }

    /// Returns nanoseconds below a second.
    pub fn nanos(&mut self) -> u32 {
        self.below(1_000_000_000) as u32
    }

    /// Returns whitespace in this percentage of calls, and otherwise an empty text.
    fn space(&mut self, times: u64) -> &'static str {
        if self.percent(times) { self.of(&SPACES) } else { "" }
    }

    pub fn of<T: Copy>(&mut self, list: &[T]) -> T {
        list[self.below(list.len() as u64) as usize]
    }

    /// Returns a number with a random number of bits.
    pub fn of_any_size(&mut self) -> u64 {
        let bits = self.below(65);
        if bits == 0 { 0 } else { self.number() >> (64 - bits) }
    }
}

/// Passes the text, followed by up to this number of these characters, to a function.
pub fn all_texts(text: &str, alphabet: &[char], most: usize, to: &mut dyn FnMut(&str)) {
    to(text);
    for letter in alphabet.iter().filter(|_| most > 0) {
        all_texts(&format!("{text}{letter}"), alphabet, most - 1, to);
    }
}

/// Passes the prefixes of the text, and the text with one character removed, replaced, or inserted
/// before it or at the end.
pub fn variants(text: &str, alphabet: &[char], to: &mut dyn FnMut(&str)) {
    to(text);
    alphabet.iter().for_each(|other| to(&format!("{text}{other}")));
    for (at, letter) in text.char_indices() {
        let (front, rest) = (&text[..at], &text[at + letter.len_utf8()..]);
        to(front);
        to(&format!("{front}{rest}"));
        for other in alphabet {
            to(&format!("{front}{other}{rest}"));
            to(&format!("{front}{other}{letter}{rest}"));
        }
    }
}

/// Returns the text with one random character replaced, inserted or removed.
fn spoiled(text: &str, alphabet: &[char], random: &mut Random) -> String {
    let mut letters: Vec<char> = text.chars().collect();
    let at = random.below(letters.len() as u64 + 1) as usize;
    let other = random.of(alphabet);
    match random.below(3) {
        0 if at < letters.len() => letters[at] = other,
        1 if at < letters.len() => _ = letters.remove(at),
        _ => letters.insert(at, other),
    }
    letters.into_iter().collect()
}

/// Returns the string literals in the crate's sources and tests, also those in its documentation.
pub fn texts_of_crate(folder: &Path) -> BTreeSet<String> {
    let mut found = BTreeSet::new();
    for entry in std::fs::read_dir(folder).expect("a folder") {
        let path = entry.expect("an entry").path();
        if path.is_dir() && !path.ends_with("target") {
            found.extend(texts_of_crate(&path));
        } else if path.extension().is_some_and(|ending| ending == "rs") {
            std::fs::read_to_string(&path)
                .expect("a text")
                .lines()
                .for_each(|line| quoted(line, &mut found));
        }
    }
    found
}

/// Adds the string literals in the line. A literal of several lines is taken line by line.
fn quoted(line: &str, found: &mut BTreeSet<String>) {
    let escapes =
        [("\\0", "\0"), ("\\n", "\n"), ("\\r", "\r"), ("\\t", "\t"), ("\\", ""), ("\u{1}", "\"")];
    for text in line.replace("\\\"", "\u{1}").split('"').skip(1).step_by(2) {
        found.insert(
            escapes
                .iter()
                .fold(text.to_string(), |text, (escape, meant)| text.replace(escape, meant)),
        );
    }
}

/// The words of each unit, and its length in nanoseconds or seconds, in the table of a page.
static UNITS: LazyLock<Vec<(Vec<&str>, u64)>> = LazyLock::new(|| {
    let rows = include_str!("../../docs/DURATIONS.md")
        .lines()
        .filter_map(|line| line.strip_prefix("| `")?.split_once("` | "));
    rows.filter_map(|(words, size)| {
        Some((words.split("` `").collect(), size.split(' ').next()?.replace(',', "").parse().ok()?))
    })
    .collect()
});

/// Returns each word with the greatest number that it accepts.
pub fn words() -> impl Iterator<Item = (&'static str, u64)> {
    UNITS.iter().flat_map(|(words, size)| words.iter().map(move |word| (*word, u64::MAX / size)))
}

const NO_WORDS: [&str; 10] =
    ["", "S", "H", "sek", "µ", "μ", "µsec", "Ms", "monthss", "nightsandmore"];

const SPACES: [&str; 6] = [" ", "  ", "\t", "\u{85}", "\u{3000}", "\u{2028} "];

/// Passes each word with numbers at its limit, with fractions, and alone or after another span, to
/// a function.
pub fn words_at_their_limits(to: &mut dyn FnMut(&str)) {
    let fractions =
        "|.0|.00|.5|.50|.000000001|.0000000010|.9|.3074457345|.18446744073|.0001|.25|.|. ";
    let others = ["", "1ns", " 999999999ns ", "0s", "18446744073709551615s", "x", "."];
    for (word, most) in words() {
        let numbers = (0..7)
            .map(|near| u128::from(most) + 3 - near)
            .chain([0, 1, 9, 10, 584, 18_446_744_073]);
        for (number, fraction) in
            numbers.flat_map(|number| fractions.split('|').map(move |fraction| (number, fraction)))
        {
            for other in others {
                to(&format!("{number}{fraction}{word}{other}"));
                to(&format!("{other}{number}{fraction} {word}"));
            }
        }
    }
}

/// Passes a few timestamps with each character replaced by each of many, and each two of them by
/// each two of a few, to a function.
pub fn spoiled_timestamps(to: &mut dyn FnMut(&str)) {
    let many: Vec<char> = (0..256).filter_map(char::from_u32).collect();
    for text in [
        "2018-02-14T00:28:07Z", "2018-02-14 00:28:07", "2016-12-31T23:59:60+00:00",
        "2000-02-29T12:34:56.789Z", "1970-01-01T00:00:00.123456789+00:00",
    ] {
        variants(text, &many, to);
        let letters: Vec<char> = text.chars().collect();
        for (first, second) in
            (0..letters.len()).flat_map(|first| (0..first).map(move |second| (first, second)))
        {
            for pair in 0..STAMP.len() * STAMP.len() {
                let mut spoiled = letters.clone();
                (spoiled[first], spoiled[second]) =
                    (STAMP[pair / STAMP.len()], STAMP[pair % STAMP.len()]);
                to(&String::from_iter(spoiled));
            }
        }
    }
}

/// Returns the text of a span at one of the limits, or far from all of them.
fn random_span(random: &mut Random) -> String {
    let (words, size) = &UNITS[random.below(UNITS.len() as u64) as usize];
    let (word, most) = (random.of(words), u64::MAX / size);
    let number = match random.below(8) {
        0..=2 => random.below(1_000).to_string(),
        3 | 4 => (u128::from(most) + 4).saturating_sub(random.below(8).into()).to_string(),
        5 => (most / (1 + random.below(12))).to_string(),
        6 => random.of_any_size().to_string(),
        _ => random_digits(random, 22),
    };
    let number: String =
        number.chars().map(|digit| format!("{digit}{}", random.space(1))).collect();
    let fraction =
        if random.percent(45) { format!(".{}", random_fraction(random)) } else { String::new() };
    let space = random.space(10);
    let word = if random.percent(4) { random.of(&NO_WORDS) } else { word };
    format!("{number}{fraction}{space}{word}")
}

fn random_digits(random: &mut Random, most: u64) -> String {
    (0..random.below(most + 1)).map(|_| char::from(b'0' + random.below(10) as u8)).collect()
}

/// Returns the digits of a fraction: few or many, some at a limit of its product, often with
/// trailing zeros.
fn random_fraction(random: &mut Random) -> String {
    let digits = match random.below(6) {
        0 => random_digits(random, 22),
        1 => ((u64::MAX / UNITS[random.below(UNITS.len() as u64) as usize].1).saturating_add(2)
            - random.below(5))
        .to_string(),
        2 => format!("{}{}", "0".repeat(random.below(20) as usize), random.below(10)),
        _ => random_digits(random, 9),
    };
    let zeros = if random.percent(40) { random.below(14) } else { 0 };
    let mut text = digits + &"0".repeat(zeros as usize);
    if random.percent(3) {
        text.insert_str(random.below(text.len() as u64 + 1) as usize, random.of(&SPACES));
    }
    text
}

/// Returns the text of a duration of one to four spans, sometimes with an error.
pub fn random_duration(random: &mut Random) -> String {
    let mut text = random.space(5).to_string();
    for _ in 0..1 + random.below(4) {
        text.push_str(&random_span(random));
        text.push_str(random.space(60));
    }
    if random.percent(15) { spoiled(&text, &HOSTILE, random) } else { text }
}

/// Returns spans whose sum is the greatest duration, or slightly less or more.
pub fn random_sum_at_limit(random: &mut Random) -> String {
    let first = random.of_any_size();
    let second = (u64::MAX - first).saturating_add(2) - random.below(5).min(2);
    let nanos = random.of(&[0, 1, 1_000, 999_999_999, 1_000_000_000, 1_000_000_001, 500_000_000]);
    let more = random
        .of(&["", " 1ns", " 999999999ns", " 1s", " 0.5s", " 500ms", " 0.999999999s", " 1000000us"]);
    match random.below(4) {
        0 => format!("{first}s {second}s {nanos}ns{more}"),
        1 => format!("{nanos}ns {first}s {second}s{more}"),
        2 => format!("{first}.{nanos:09}s{second}s{more}"),
        _ => format!("{}ns {nanos}ns {second}s{more}", u64::MAX - random.below(3)),
    }
}

/// Returns a text close to that of a timestamp: parts in and out of their bounds, and some end.
pub fn random_stamp(random: &mut Random) -> String {
    let any_year = 1970 + random.below(8030);
    let year = random.of(&[1969, 1970, 1972, 1999, 2000, 2100, 2400, 9999, 0, any_year, any_year]);
    let (month, day) = (random.below(14), random.below(33));
    let (hour, minute, second) = (random.below(25), random.below(61), random.below(62));
    let sign = random.of(&['T', 'T', ' ', 't']);
    let fraction =
        if random.percent(60) { format!(".{}", random_digits(random, 24)) } else { String::new() };
    let end = random
        .of(&["Z", "Z", "", "+00:00", "+02:00", "-00:00", "+00:0", "ZZ", "z", "+00:00Z", "+abcdZ"]);
    let text = format!(
        "{year:04}-{month:02}-{day:02}{sign}{hour:02}:{minute:02}:{second:02}{fraction}{end}"
    );
    if random.percent(20) { spoiled(&text, &STAMP, random) } else { text }
}
