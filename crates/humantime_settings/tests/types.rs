//! Types that derive how they are read, with each attribute of `serde`, and types that read by
//! hand.

use crate::support::Wait;
use humantime::StdDuration;
use humantime_settings::AsText;
use serde::{Deserialize, DeserializeOwned, Deserializer, Format, Kind};
use std::alloc::Global;
use std::collections::BTreeMap;

/// The table at the top: each field has a type of its own.
#[derive(Debug, Drop, Deserialize)]
#[serde(rename_all = "kebab-case")]
pub(crate) struct Config {
    pub speed: Option<Speed>,
    pub speeds: Option<Vec<Speed>>,
    pub by_speed: Option<BTreeMap<Speed, u8>>,
    pub letter: Option<Letter>,
    pub palette: Option<Palette>,
    pub palettes: Option<Vec<Palette>>,
    pub no_list: Option<NoList>,
    pub no_lists: Option<Vec<NoList>>,
    pub desk: Option<Desk>,
    pub word: Option<Word>,
    pub words: Option<BTreeMap<String, Option<Word>>>,
    pub even: Option<Even>,
    pub evens: Option<Vec<Even>>,
    pub half: Option<Half>,
    pub assigned: Option<Assigned>,
    pub list: Option<Vec<Assigned>>,
    pub few: Option<Few>,
    pub written: Option<Written>,
    pub all_written: Option<Vec<Written>>,
    pub silent: Option<Silent>,
    pub share: Option<Share>,
    pub totals: Option<Totals>,
    pub switches: Option<Switches>,
    pub ages: Option<Ages>,
    pub limits: Option<Limits>,
    pub left: Option<Left>,
    pub right: Option<Right>,
    pub retries: Option<Retries>,
    pub small: Option<i8>,
    pub whole: Option<i64>,
    pub wide: Option<u128>,
    pub counts: Option<Vec<i64>>,
    pub ratio: Option<f64>,
    pub action: Option<Action>,
    pub actions: Option<Vec<Action>>,
    pub event: Option<Event>,
    pub step: Option<Step>,
    pub choice: Option<Choice>,
    pub hidden: Option<Hidden>,
    pub point: Option<Point>,
    pub tree: Option<Tree>,
    pub both: Option<Both<Speed>>,
    pub cell: Option<Cell>,
    pub wait: Option<Wait>,
}

/// Implements both ways to read a type by a function.
macro_rules! by_hand {
    ($type:ident, $read:ident) => {
        impl<'de> Deserialize<'de> for $type {
            fn deserialize<F: Format>(
                alloc: Global,
                from: &mut Deserializer<'de, '_, F>,
            ) -> Result<$type, F::Error> {
                $read(alloc, from)
            }
        }

        impl DeserializeOwned for $type {
            fn deserialize_owned<F: Format>(
                alloc: Global,
                from: &mut Deserializer<'_, '_, F>,
            ) -> Result<$type, F::Error> {
                $read(alloc, from)
            }
        }
    };
}

/// `fast` or `slow`.
#[derive(Debug, Drop, PartialEq, Eq, PartialOrd, Ord)]
pub(crate) struct Speed(bool);

by_hand!(Speed, read_speed);

fn read_speed<F: Format>(
    alloc: Global,
    from: &mut Deserializer<'_, '_, F>,
) -> Result<Speed, F::Error> {
    match from.string(alloc)?.as_str() {
        "fast" => Ok(Speed(true)),
        "slow" => Ok(Speed(false)),
        _ => Err(from.unknown_variant()),
    }
}

/// `a` or `b`.
#[derive(Debug, Drop)]
pub(crate) struct Letter(char);

by_hand!(Letter, read_letter);

fn read_letter<F: Format>(
    _alloc: Global,
    from: &mut Deserializer<'_, '_, F>,
) -> Result<Letter, F::Error> {
    match from.char()? {
        c @ ('a' | 'b') => Ok(Letter(c)),
        _ => Err(from.unknown_variant()),
    }
}

/// A map of `red` and `blue`.
#[derive(Debug, Drop)]
pub(crate) struct Palette(u8);

by_hand!(Palette, read_palette);

fn read_palette<F: Format>(
    alloc: Global,
    from: &mut Deserializer<'_, '_, F>,
) -> Result<Palette, F::Error> {
    from.begin_map()?;
    let mut last = 0;
    while from.next_entry()? {
        let key = from.string(alloc)?;
        if !matches!(key.as_str(), "red" | "blue") {
            return Err(from.unknown_key());
        }
        last = u8::deserialize_owned(alloc, from)?;
    }
    Ok(Palette(last))
}

/// Anything but a list.
#[derive(Debug, Drop)]
pub(crate) struct NoList;

by_hand!(NoList, read_no_list);

fn read_no_list<F: Format>(
    _alloc: Global,
    from: &mut Deserializer<'_, '_, F>,
) -> Result<NoList, F::Error> {
    if let Kind::Seq = from.peek()? {
        return Err(from.custom("a list is not accepted"));
    }
    from.skip()?;
    Ok(NoList)
}

/// A struct whose fields have to be there.
#[derive(Debug, Drop, Deserialize)]
pub(crate) struct Desk {
    #[serde(default)]
    count: u8,
    no_list: NoList,
    word: Word,
}

/// A string, which is asked for before it is read.
#[derive(Debug, Drop)]
pub(crate) struct Word(String);

by_hand!(Word, read_word);

fn read_word<F: Format>(
    alloc: Global,
    from: &mut Deserializer<'_, '_, F>,
) -> Result<Word, F::Error> {
    match from.peek()? {
        Kind::Str => Ok(Word(from.string(alloc)?)),
        _ => Err(from.invalid()),
    }
}

#[derive(Debug, Drop, Deserialize)]
#[serde(rename_all = "camelCase")]
pub(crate) struct Count {
    #[serde(default)]
    item_count: u64,
}

/// An even count.
#[derive(Debug, Drop, Deserialize)]
#[serde(try_from = "Count")]
pub(crate) struct Even(u64);

impl TryFrom<Count> for Even {
    type Error = &'static str;

    fn try_from(count: Count) -> Result<Even, &'static str> {
        match count.item_count % 2 {
            0 => Ok(Even(count.item_count)),
            _ => Err("the count is odd"),
        }
    }
}

/// A count above 0.
#[derive(Debug, Drop)]
pub(crate) struct Half(u64);

by_hand!(Half, read_half);

fn read_half<F: Format>(
    alloc: Global,
    from: &mut Deserializer<'_, '_, F>,
) -> Result<Half, F::Error> {
    match Count::deserialize_owned(alloc, from)?.item_count {
        0 => Err(from.invalid()),
        count => Ok(Half(count / 2)),
    }
}

/// A string such as `b=1`.
#[derive(Debug, Drop)]
pub(crate) struct Assigned(String);

by_hand!(Assigned, read_assigned);

fn read_assigned<F: Format>(
    alloc: Global,
    from: &mut Deserializer<'_, '_, F>,
) -> Result<Assigned, F::Error> {
    let text = from.string(alloc)?;
    if text.starts_with("b=") {
        Ok(Assigned(text))
    } else {
        Err(from.missing("b"))
    }
}

/// A list of at most one number.
#[derive(Debug, Drop)]
pub(crate) struct Few(u64);

by_hand!(Few, read_few);

fn read_few<F: Format>(
    _alloc: Global,
    from: &mut Deserializer<'_, '_, F>,
) -> Result<Few, F::Error> {
    from.begin_seq()?;
    if !from.next_item()? {
        return Ok(Few(0));
    }
    let few = Few(from.u64()?);
    if from.next_item()? {
        return Err(from.invalid());
    }
    Ok(few)
}

/// A number that is written as a string.
#[derive(Debug, Drop)]
pub(crate) struct Written(pub u64);

by_hand!(Written, read_written);

fn read_written<F: Format>(
    alloc: Global,
    from: &mut Deserializer<'_, '_, F>,
) -> Result<Written, F::Error> {
    match from.string(alloc)?.parse() {
        Ok(number) => Ok(Written(number)),
        Err(_) => Err(from.custom("not a number")),
    }
}

/// A string that is empty.
#[derive(Debug, Drop)]
pub(crate) struct Silent;

by_hand!(Silent, read_silent);

fn read_silent<F: Format>(
    alloc: Global,
    from: &mut Deserializer<'_, '_, F>,
) -> Result<Silent, F::Error> {
    match from.string(alloc)?.as_str() {
        "" => Ok(Silent),
        "1~" => Err(from.custom("invalid character")),
        "loud" => Err(from.custom("it is loud at line 7, or at line 8")),
        _ => Err(from.custom("")),
    }
}

/// A number from 0 to 1.
#[derive(Debug, Drop)]
pub(crate) struct Share(f64);

by_hand!(Share, read_share);

fn read_share<F: Format>(
    _alloc: Global,
    from: &mut Deserializer<'_, '_, F>,
) -> Result<Share, F::Error> {
    match from.f64()? {
        share if 0.0 <= share && share <= 1.0 => Ok(Share(share)),
        _ => Err(from.invalid()),
    }
}

/// A map of numbers, whose entries are counted before they are read.
#[derive(Debug, Drop)]
pub(crate) struct Totals(u64);

by_hand!(Totals, read_totals);

fn read_totals<F: Format>(
    alloc: Global,
    from: &mut Deserializer<'_, '_, F>,
) -> Result<Totals, F::Error> {
    from.begin_map()?;
    let (start, mut count) = (from.mark(), 0);
    while from.next_entry()? {
        drop(from.string(alloc)?);
        from.skip()?;
        count += 1;
    }
    from.rewind(start);
    let mut total = 0;
    while from.next_entry()? {
        drop(from.string(alloc)?);
        total += u64::from(u8::deserialize_owned(alloc, from)?) / count;
    }
    from.release(start);
    Ok(Totals(total))
}

/// A map with `on` or `off`, whose order is free.
#[derive(Debug, Drop)]
pub(crate) struct Switches(bool);

by_hand!(Switches, read_switches);

fn read_switches<F: Format>(
    alloc: Global,
    from: &mut Deserializer<'_, '_, F>,
) -> Result<Switches, F::Error> {
    from.begin_map()?;
    let mut found = None;
    while from.next_entry()? {
        let is_on = from.string(alloc)?.as_str() == "on";
        if found.is_some() {
            return Err(from.duplicate("switch"));
        }
        found = Some(is_on);
        from.skip()?;
    }
    match found {
        Some(is_on) => Ok(Switches(is_on)),
        None => Err(from.missing("on")),
    }
}

/// One identifier under three spellings.
#[derive(Debug, Drop, Deserialize)]
#[serde(rename_all = "kebab-case")]
pub(crate) struct Ages {
    max_age: u8,
    #[serde(flatten)]
    camel: CamelAge,
    #[serde(flatten)]
    snake: SnakeAge,
}

#[derive(Debug, Drop, Deserialize)]
#[serde(rename_all = "camelCase")]
pub(crate) struct CamelAge {
    max_age: u8,
}

#[derive(Debug, Drop, Deserialize)]
pub(crate) struct SnakeAge {
    max_age: u8,
    wait: Wait,
}

/// The same, where only the first field is needed.
#[derive(Debug, Drop, Deserialize)]
#[serde(rename_all = "kebab-case")]
pub(crate) struct Limits {
    max_age: u8,
    #[serde(flatten)]
    more: MoreLimits,
}

#[derive(Debug, Drop, Deserialize)]
#[serde(rename_all = "camelCase")]
pub(crate) struct MoreLimits {
    max_age: Option<u8>,
    #[serde(default)]
    min_age: u8,
}

/// One field under one name.
#[derive(Debug, Drop, Deserialize)]
#[serde(rename_all = "kebab-case")]
pub(crate) struct Left {
    max_age: u8,
}

#[derive(Debug, Drop, Deserialize)]
#[serde(rename_all = "SCREAMING_SNAKE_CASE")]
pub(crate) struct Right {
    max_age: u8,
}

/// Fields that functions read.
#[derive(Debug, Drop, Deserialize)]
#[serde(deny_unknown_fields)]
pub(crate) struct Retries {
    #[serde(default, alias = "zwaits", with = "humantime_settings")]
    waits: Vec<StdDuration>,
    #[serde(default, alias = "zz", with = "humantime_settings")]
    names: BTreeMap<String, StdDuration>,
    #[serde(default, alias = "zcount", deserialize_with = "read_age")]
    count: u8,
    #[serde(default, with = "humantime_settings")]
    pause: Option<StdDuration>,
}

fn read_age<F: Format>(alloc: Global, from: &mut Deserializer<'_, '_, F>) -> Result<u8, F::Error> {
    Ok(Left::deserialize_owned(alloc, from)?.max_age)
}

#[derive(Debug, Drop, Deserialize)]
#[serde(rename_all = "kebab-case")]
pub(crate) enum Action {
    StandBy,
    GoOn(Speed),
    Both(Speed, Word),
    #[serde(alias = "paint")]
    PaintIt {
        palette: Palette,
        even: Option<Even>,
    },
}

#[derive(Debug, Drop, Deserialize)]
#[serde(tag = "kind", rename_all = "UPPERCASE", deny_unknown_fields)]
pub(crate) enum Event {
    Stop,
    Start {
        speed: Speed,
        #[serde(default)]
        word: Option<Word>,
    },
    #[serde(rename = "again")]
    Again {
        list: Vec<Assigned>,
    },
}

#[derive(Debug, Drop, Deserialize)]
#[serde(tag = "kind", content = "of", rename_all = "snake_case", deny_unknown_fields)]
pub(crate) enum Step {
    NoStep,
    ToSpeed(Speed),
    ToPalette { palette: Palette },
    ToPair(Letter, Few),
}

#[derive(Debug, Drop, Deserialize)]
#[serde(untagged)]
pub(crate) enum Choice {
    Speed(Speed),
    Action(Action),
    Even(Even),
    Number(u8),
}

/// Two of four names are read.
#[derive(Debug, Drop, Deserialize)]
pub(crate) enum Hidden {
    Shown,
    #[serde(skip)]
    Kept,
    Seen,
    #[serde(skip)]
    Lost,
}

#[derive(Debug, Drop, Deserialize)]
pub(crate) struct Point(
    u8,
    #[serde(with = "humantime_settings")] StdDuration,
    Option<Word>,
);

#[derive(Debug, Drop, Deserialize)]
#[serde(recursive)]
pub(crate) struct Tree {
    #[serde(default)]
    speed: Option<Speed>,
    #[serde(default, recursive)]
    nodes: Vec<Tree>,
    #[serde(recursive)]
    next: Option<Box<Tree>>,
}

#[derive(Debug, Drop, Deserialize)]
pub(crate) struct Both<T> {
    one: T,
    two: T,
}

/// A cell whose note is not read.
#[derive(Debug, Drop, Deserialize)]
#[serde(deny_unknown_fields, rename_all = "PascalCase")]
pub(crate) struct Cell {
    row_number: u8,
    #[serde(skip)]
    note: u8,
    word: Option<Word>,
}
