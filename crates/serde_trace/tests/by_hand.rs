//! Types that read by hand.

use crate::attributes::{Beside, Server};
use crate::words::{assert_errors, value};
use serde::{Case, Deserialize, DeserializeOwned, Deserializer, Format, Kind, Name, NameKind};
use std::alloc::Global;
use std::collections::BTreeMap;
use std::process::Abort;
use std::test::Fail;

/// Implements the traits of a type, which reads by this block.
macro_rules! by_hand {
    ($type:ident, $alloc:ident, $from:ident, $block:block) => {
        impl DeserializeOwned for $type {
            fn deserialize_owned<F: Format>(
                $alloc: Global,
                $from: &mut Deserializer<'_, '_, F>,
            ) -> Result<$type, F::Error> $block
        }

        impl<'de> Deserialize<'de> for $type {
            fn deserialize<F: Format>(
                alloc: Global,
                from: &mut Deserializer<'de, '_, F>,
            ) -> Result<$type, F::Error> {
                $type::deserialize_owned(alloc, from)
            }
        }
    };
}

/// Asserts that each document has its error, as a value, in a list, and in a map after another one.
fn assert_each<T: DeserializeOwned>(
    rt: &(impl Abort + AllocGlobal),
    message: &str,
    documents: &[&str],
) -> Result<(), Fail> {
    for document in documents {
        let [one, list, map] = ["#", "[ # 'x ]", "{ a: # b: 5 }"].map(|around| format!(
            in rt.alloc(); "{message}\n{}", around.replace(rt.alloc(), '#', *document)?
        ));
        assert_errors::<T>(rt, &one?)?;
        assert_errors::<Vec<T>>(rt, &list?)?;
        assert_errors::<BTreeMap<String, T>>(rt, &map?)?;
    }
    Ok(())
}

#[derive(Drop)]
struct Mode;

by_hand!(Mode, alloc, from, {
    if from.string(alloc)?.as_str() == "slow" { Ok(Mode) } else { Err(from.unknown_variant()) }
});

#[derive(Drop)]
struct Level;

by_hand!(Level, _alloc, from, {
    if from.u64()? < 3 { Ok(Level) } else { Err(from.unknown_variant()) }
});

#[derive(Drop, Deserialize)]
enum Speed {
    Fast,
}

#[derive(Drop, Deserialize)]
#[serde(untagged)]
enum Either {
    Speed(Speed),
    Map { speed: Speed },
    Number(u8),
    Rest {},
}

#[derive(Drop, Deserialize)]
struct Modes {
    #[serde(default)]
    either: Option<Either>,
    mode: Option<Mode>,
    level: Option<Level>,
}

#[test]
fn an_unknown_variant_of_a_string(rt: HostRuntime) -> Result<(), Fail> {
    assert_errors::<Modes>(
        &rt,
        "
        unknown variant `quick`
            { mode: ^'quick }
            { either: { speed: 'Fast } mode: ^'quick }
            { either: 7 mode: ^'quick }
            { either: { other: 'x } mode: ^'quick }
        invalid type: integer `5`, expected a string
            { mode: ^5 }
        ",
    )?;
    // The first variant of `Either` has an unknown name before `Rest` is read.
    assert_errors::<Modes>(
        &rt,
        "
        unknown variant ``
            { either: 7 level: ^9 }
            { either: { other: 'x } level: ^9 }
        ",
    )?;
    assert_errors::<Either>(
        &rt,
        "
        data did not match any variant of untagged enum
            ^'Slow
            ^[ 'Slow ]
            ^300
        ",
    )
}

#[derive(Drop)]
struct Palette;

by_hand!(Palette, alloc, from, {
    from.begin_map()?;
    for _ in 0..u64::MAX {
        if !from.next_entry()? {
            break;
        }
        match from.string(alloc)?.as_str() {
            "red" => from.skip()?,
            "blue" => {
                from.skip()?;
                return Err(from.unknown_key());
            }
            _ => return Err(from.unknown_key()),
        }
    }
    Ok(Palette)
});

#[derive(Drop, Deserialize)]
#[serde(deny_unknown_fields)]
struct Colors {
    #[serde(default)]
    one: Option<One>,
    palette: Palette,
}

#[derive(Drop, Deserialize)]
struct One {
    #[serde(default)]
    n: i8,
}

#[test]
fn an_unknown_key_of_an_entry(rt: HostRuntime) -> Result<(), Fail> {
    assert_errors::<Colors>(
        &rt,
        "
        unknown field `green`
            { one: { n: 2 } palette: { ^green: 1 } }
            { one: { m: 2 } palette: { red: [ 1 ] ^green: 1 blue: 2 } }
        unknown field `two`, expected `one` or `palette`
            { palette: { red: 1 } ^two: { } }
        invalid type: sequence, expected a map
            { palette: ^[ 1 ] }
        ",
    )?;
    assert_each::<Palette>(&rt, "unknown field `blue`", &["{ red: 1 ^blue: [ 2 ] }"])?;
    assert_each::<Palette>(
        &rt,
        "unknown field `green`",
        &["{ ^green: 1 }", "{ red: 1 ^green: 1 }"],
    )
}

#[derive(Drop)]
struct NoList;

by_hand!(NoList, _alloc, from, {
    if let Kind::Seq = from.peek()? {
        return Err(from.custom("no list"));
    }
    from.skip()?;
    Ok(NoList)
});

/// What a word reads: it looks for a string, and calls `invalid` or an empty `custom`.
#[derive(Drop)]
struct Word;

by_hand!(Word, _alloc, from, {
    if from.take_unit()? {
        return Err(from.custom(""));
    }
    match from.peek()? {
        Kind::Str => from.skip()?,
        _ => return Err(from.invalid()),
    }
    Ok(Word)
});

#[derive(Drop, Deserialize)]
struct Looks {
    #[serde(default)]
    count: i8,
    no_list: Option<NoList>,
    word: Option<Word>,
}

#[test]
fn a_look_before_an_error(rt: HostRuntime) -> Result<(), Fail> {
    assert_each::<NoList>(&rt, "no list", &["^[ 1 ]", "^( 1 )"])?;
    assert_each::<Word>(&rt, "invalid value", &["^5", "^{ }", "^null"])?;
    assert_errors::<Looks>(
        &rt,
        "
        no list
            { count: 1 no_list: ^[ 1 ] }
        invalid value
            { count: 1 word: ^5 }
            { word: ^[ 1 ] no_list: [ ] }
            { word: ^? }
            { no_list: ^? }
        ",
    )?;
    assert_errors::<Option<Option<Word>>>(&rt, "invalid value\n^5")
}

/// A string with an error of each kind.
#[derive(Drop)]
struct Pair;

by_hand!(Pair, alloc, from, {
    match from.string(alloc)?.as_str() {
        "missing" => Err(from.missing("a_b")),
        "duplicate" => Err(from.duplicate("a")),
        "unknown" => Err(from.unknown_variant()),
        "length" => Err(from.wrong_len()),
        "invalid" => Err(from.invalid()),
        "custom" => Err(from.custom("no at line 7")),
        _ => Ok(Pair),
    }
});

#[test]
fn an_error_of_a_string(rt: HostRuntime) -> Result<(), Fail> {
    assert_each::<Pair>(&rt, "missing field `a_b`", &["^'missing"])?;
    assert_each::<Pair>(&rt, "unknown variant `unknown`", &["^'unknown"])?;
    assert_each::<Pair>(&rt, "invalid length 0", &["^'length"])?;
    assert_each::<Pair>(&rt, "invalid value", &["^'invalid"])?;
    assert_each::<Pair>(&rt, "no at line 7", &["^'custom"])?;
    assert_each::<Pair>(&rt, "invalid type: integer `5`, expected a string", &["^5"])?;
    assert_errors::<BTreeMap<String, Pair>>(&rt, "duplicate field `b`\n{ a: 'x ^b: 'duplicate }")
}

#[derive(Drop, Deserialize)]
#[serde(rename_all = "camelCase")]
struct Optional {
    a_b: Option<u8>,
}

/// A map that is rejected for a name that no key stands for.
#[derive(Drop)]
struct Down;

by_hand!(Down, alloc, from, {
    drop(Server::deserialize_owned(alloc, from)?);
    Err(from.missing("is_up"))
});

#[derive(Drop, Deserialize)]
struct Pairs {
    optional: Optional,
    pair: Pair,
}

#[test]
fn a_name_that_another_entry_lacks(rt: HostRuntime) -> Result<(), Fail> {
    assert_errors::<Pairs>(&rt, "missing field `a_b`\n{ optional: { } pair: ^'missing }")?;
    assert_each::<Down>(&rt, "missing field `is_up`", &["{ host-name: 'a ^}"])
}

/// A map that is read ahead, and rejected where it is opened again.
#[derive(Drop)]
struct Opened;

by_hand!(Opened, alloc, from, {
    let start = from.mark();
    drop(BTreeMap::<String, Optional>::deserialize_owned(alloc, from)?);
    from.rewind(start);
    from.release(start);
    from.begin_map()?;
    Err(from.missing("a_b"))
});

/// A map that is rejected for a name that is not read.
#[derive(Drop)]
struct Skipped;

by_hand!(Skipped, _alloc, from, {
    let mut name = Name::exact("a_b");
    (name.case, name.skipped) = (Case::Camel, true);
    from.begin_map()?;
    while from.next_key(&[name])?.is_some() {
        from.skip()?;
    }
    Err(from.missing("a_b"))
});

/// A string that is rejected as if it were an unknown key.
#[derive(Drop)]
struct NoKey;

by_hand!(NoKey, _alloc, from, {
    let mut name = Name::exact("A");
    name.kind = NameKind::Variant;
    from.variant(&[name])?;
    Err(from.unknown_key())
});

/// A string that names a variant, of which none is read.
#[derive(Drop)]
struct NoVariant;

by_hand!(NoVariant, _alloc, from, {
    let mut name = Name::exact("A");
    (name.kind, name.skipped) = (NameKind::Variant, true);
    from.variant(&[name])?;
    Err(from.unknown_variant())
});

#[test]
fn a_name_that_no_key_stands_for(rt: HostRuntime) -> Result<(), Fail> {
    assert_each::<Opened>(&rt, "missing field `a_b`", &["{ x: { } ^}"])?;
    assert_each::<Skipped>(&rt, "missing field `a_b`", &["{ ^}", "{ aB: 1 ^}"])?;
    let message = "unknown variant `x`, there are no variants";
    assert_each::<NoVariant>(&rt, message, &["^'x"])?;
    assert_errors::<Vec<NoKey>>(&rt, "unknown field `x`\n[ ^'x ]")
}

/// A sequence of which items are read ahead.
#[derive(Drop)]
struct Ahead;

by_hand!(Ahead, _alloc, from, {
    from.begin_seq()?;
    from.expect_item()?;
    let start = from.mark();
    from.skip()?;
    from.expect_item()?;
    from.rewind(start);
    from.release(start);
    Err(from.custom("ahead"))
});

#[test]
fn items_that_are_read_ahead(rt: HostRuntime) -> Result<(), Fail> {
    assert_each::<Ahead>(&rt, "ahead", &["[ ^1 2 3 ]", "[ ^[ 1 ] { a: 1 } ]"])
}

/// A map whose entries after the first one are read ahead.
#[derive(Drop)]
struct Rest;

by_hand!(Rest, alloc, from, {
    from.begin_map()?;
    if !from.next_entry()? {
        return Err(from.missing("first"));
    }
    drop(from.string(alloc)?);
    from.skip()?;
    let start = from.mark();
    while from.next_entry()? {
        drop(from.string(alloc)?);
        from.skip()?;
    }
    from.rewind(start);
    while from.next_entry()? {
        drop(from.string(alloc)?);
        drop(One::deserialize_owned(alloc, from)?);
    }
    from.release(start);
    Ok(Rest)
});

/// A map of two names, whose entries are read ahead, maps as those of numbers.
#[derive(Drop)]
struct Keys;

by_hand!(Keys, alloc, from, {
    let names = [Name::exact("a"), Name::exact("b")];
    from.begin_map()?;
    let start = from.mark();
    while from.next_key(&names)?.is_some() {
        match from.peek()? {
            Kind::Map => drop(BTreeMap::<String, i64>::deserialize_owned(alloc, from)?),
            _ => from.skip()?,
        }
    }
    from.rewind(start);
    while from.next_key(&names)?.is_some() {
        drop(One::deserialize_owned(alloc, from)?);
    }
    from.release(start);
    Ok(Keys)
});

/// A map whose first key is read ahead, and which is then rejected.
#[derive(Drop)]
struct NoMap;

by_hand!(NoMap, _alloc, from, {
    let start = from.mark();
    from.begin_map()?;
    let _found = from.next_key(&[Name::exact("a")])?;
    from.rewind(start);
    from.release(start);
    Err(from.custom("no map"))
});

/// A map that is passed, and then read and rejected.
#[derive(Drop)]
struct Passed;

by_hand!(Passed, _alloc, from, {
    let start = from.mark();
    from.skip()?;
    from.rewind(start);
    from.release(start);
    from.begin_map()?;
    while from.next_key(&[Name::exact("a"), Name::exact("b")])?.is_some() {
        from.skip()?;
    }
    Err(from.invalid())
});

/// A map that is read for another name, and then as a variant.
#[derive(Drop)]
struct Task;

by_hand!(Task, alloc, from, {
    let start = from.mark();
    drop(One::deserialize_owned(alloc, from)?);
    from.rewind(start);
    from.release(start);
    drop(Beside::deserialize_owned(alloc, from)?);
    Ok(Task)
});

#[test]
fn maps_that_are_read_ahead(rt: HostRuntime) -> Result<(), Fail> {
    assert_each::<Rest>(
        &rt,
        "invalid value: integer `300`, expected an integer in range",
        &[
            "{ a: 1 b: { n: ^300 } }",
            "{ a: [ ] b: { n: 1 } c: { n: ^300 } d: 5 }",
        ],
    )?;
    assert_each::<Rest>(
        &rt,
        "invalid type: integer `5`, expected a map",
        &["{ a: 1 b: ^5 }", "{ a: { } b: { } c: ^5 }"],
    )?;
    assert_each::<Rest>(&rt, "missing field `first`", &["{ ^}"])?;
    assert_each::<Keys>(
        &rt,
        "invalid value: integer `300`, expected an integer in range",
        &[
            "{ a: { n: ^300 } }",
            "{ a: { n: 1 } c: { } b: { n: ^300 } a: 5 }",
        ],
    )?;
    // Keys that stand for no name are not there twice.
    assert_errors::<Keys>(&rt, "duplicate field `n`\n{ c: { n: 1 } d: { n: 1 ^n: 2 } }")?;
    assert_errors::<Vec<One>>(&rt, "duplicate field `n`\n[ { n: 1 } { n: 1 ^n: 2 } ]")?;
    // Nor are those that were read before going back.
    assert_each::<Keys>(
        &rt,
        "duplicate field `n`",
        &[
            "{ a: { n: 1 ^n: 2 } b: { n: 1 } }",
            "{ a: { n: 1 } b: { n: 1 ^n: 2 } }",
        ],
    )?;
    assert_each::<Task>(
        &rt,
        "missing field `of`",
        &["{ kind: 'Once ^}", "{ kind: 'Pair ^}", "{ n: 1 kind: 'Named ^}"],
    )?;
    assert_each::<Task>(&rt, "missing field `kind`", &["{ of: 1 ^}"])?;
    assert_each::<NoMap>(&rt, "no map", &["^{ b: 1 }", "^{ a: [ ] }", "^{ }"])?;
    assert_each::<Passed>(
        &rt,
        "invalid value",
        &["^{ }", "^{ b: 1 }", "^{ c: [ ] a: 1 b: 2 }"],
    )
}

/// A character that is first read as a string.
#[derive(Drop, PartialEq, Eq, PartialOrd, Ord)]
struct Letter(char);

by_hand!(Letter, alloc, from, {
    let start = from.mark();
    drop(from.string(alloc)?);
    from.rewind(start);
    from.release(start);
    match from.char()? {
        'x' => Err(from.invalid()),
        letter => Ok(Letter(letter)),
    }
});

#[test]
fn strings_that_are_read_ahead(rt: HostRuntime) -> Result<(), Fail> {
    let message = "invalid value: string \"ab\", expected a character";
    assert_each::<Letter>(&rt, message, &["^'ab"])?;
    assert_each::<Letter>(&rt, "invalid value", &["^'x"])?;
    assert_errors::<BTreeMap<Letter, u8>>(
        &rt,
        "
        invalid value: string \"ab\", expected a character
            { ^ab: 1 }
            { a: 1 ^ab: 'x }
        invalid value
            { ^x: 1 }
            { a: 1 b: 2 ^x: 3 }
        invalid type: string \"x\", expected an integer
            { a: ^'x }
            { a: 1 b: ^'x }
        ",
    )
}

/// A map that is rejected as if it were an unknown key, after its own keys.
#[derive(Drop)]
struct AfterKeys;

by_hand!(AfterKeys, alloc, from, {
    drop(One::deserialize_owned(alloc, from)?);
    Err(from.unknown_key())
});

/// The same, after going back from its first key.
#[derive(Drop)]
struct BeforeKeys;

by_hand!(BeforeKeys, _alloc, from, {
    from.begin_map()?;
    let start = from.mark();
    let _found = from.next_key(&[Name::exact("a")])?;
    from.rewind(start);
    from.release(start);
    Err(from.unknown_key())
});

#[test]
fn a_map_that_is_rejected_as_a_key(rt: HostRuntime) -> Result<(), Fail> {
    let table = "unknown field ``\n^{ m: 1 }";
    assert_errors::<AfterKeys>(&rt, table)?;
    assert_errors::<BeforeKeys>(&rt, table)?;
    let table = "unknown field ``\n[ ^{ m: 1 } ]";
    assert_errors::<Vec<AfterKeys>>(&rt, table)?;
    assert_errors::<Vec<BeforeKeys>>(&rt, table)
}

/// An item that begins, but is not read.
#[derive(Drop)]
struct Item;

by_hand!(Item, _alloc, from, {
    from.begin_seq()?;
    let is_more = from.next_item()?;
    if is_more { Err(from.invalid()) } else { Err(from.wrong_len()) }
});

/// A number that is read as another type, and then rejected.
#[derive(Drop)]
struct Checked;

by_hand!(Checked, alloc, from, {
    let one = One::deserialize_owned(alloc, from)?;
    if one.n > 0 { Ok(Checked) } else { Err(from.invalid()) }
});

#[derive(Drop)]
struct Integer;

by_hand!(Integer, _alloc, from, {
    match from.i64() {
        Ok(_) => Ok(Integer),
        Err(error) if from.is_fatal(&error) => Err(error),
        Err(_) => Err(from.invalid()),
    }
});

/// An integer of a wide type, which is then rejected.
#[derive(Drop)]
struct Wide;

by_hand!(Wide, _alloc, from, {
    from.u128()?;
    Err(from.invalid())
});

/// A map of one name, which is rejected at another key.
#[derive(Drop)]
struct Only;

by_hand!(Only, _alloc, from, {
    from.begin_map()?;
    while let Some(at) = from.next_key(&[Name::exact("a")])? {
        if at > 0 {
            return Err(from.invalid());
        }
        from.skip()?;
    }
    Ok(Only)
});

#[test]
fn a_key_that_is_invalid(rt: HostRuntime) -> Result<(), Fail> {
    assert_each::<Only>(&rt, "invalid value", &["{ ^b: 1 }", "{ a: 1 ^b: 2 }"])
}

#[derive(Drop)]
struct Bytes;

by_hand!(Bytes, alloc, from, {
    drop(from.byte_buf(alloc)?);
    Ok(Bytes)
});

#[test]
fn a_byte_array(rt: HostRuntime) -> Result<(), Fail> {
    let _bytes: Bytes = value(&rt, "'ab")?;
    assert_each::<Bytes>(&rt, "invalid type: integer `5`, expected byte array", &["^5"])?;
    let message = "invalid value: sequence, expected byte array";
    assert_each::<Bytes>(&rt, message, &["^[ 300 ]", "^[ ]"])
}

/// A value with a wrong length, whatever the last step has read.
#[derive(Drop)]
struct NoLength;

by_hand!(NoLength, _alloc, from, {
    let start = from.mark();
    match from.peek()? {
        Kind::Bool => drop(from.take_unit()?),
        Kind::Unit => drop(from.take_none()?),
        Kind::Str => drop(from.variant(&[Name::exact("a")])?),
        Kind::Seq => {
            from.skip()?;
            from.rewind(start);
        }
        _ => drop(from.u64()?),
    }
    from.release(start);
    Err(from.wrong_len())
});

/// A tuple of 300 items.
#[derive(Drop)]
struct Tuple;

by_hand!(Tuple, _alloc, from, {
    from.begin_seq()?;
    for _ in 0..300 {
        from.expect_item()?;
        from.skip()?;
    }
    from.expect_end()?;
    Ok(Tuple)
});

#[test]
fn a_wrong_length(rt: HostRuntime) -> Result<(), Fail> {
    let documents = ["^5", "^'a", "^'b", "^true", "^null"];
    assert_each::<NoLength>(&rt, "invalid length 0", &documents)?;
    assert_each::<NoLength>(&rt, "invalid length 2", &["^[ 1 2 ]"])?;
    let items = " 1".repeat(rt.alloc(), 301)?;
    let document = format!(in rt.alloc(); "^[{items} ]")?;
    let message = "invalid length 301, expected a tuple of size 300";
    assert_each::<Tuple>(&rt, message, &[&document])
}

#[test]
fn an_invalid_value(rt: HostRuntime) -> Result<(), Fail> {
    assert_each::<Wide>(
        &rt,
        "invalid value: integer `5`, expected an integer in range",
        &["^5"],
    )?;
    assert_each::<Item>(
        &rt,
        "invalid value",
        &["[ ^1 2 ]", "( ^1 2 )", "[ ^[ 1 ] ]"],
    )?;
    assert_each::<Item>(&rt, "invalid length 0", &["^[ ]"])?;
    assert_each::<Checked>(
        &rt,
        "invalid value",
        &["^{ }", "^{ n: 0 }", "^{ m: 1 }", "^[ 0 ]"],
    )?;
    assert_each::<Integer>(&rt, "invalid value", &["^'x", "^[ 1 ]", "^1.5"])
}

/// A map in which the last of several keys counts.
#[derive(Drop)]
pub(crate) struct LastWins;

by_hand!(LastWins, alloc, from, {
    from.begin_map()?;
    for _ in 0..u64::MAX {
        match from.next_key(&[Name::exact("a"), Name::exact("b")])? {
            Some(0) => drop(One::deserialize_owned(alloc, from)?),
            Some(_) => from.skip()?,
            None => break,
        }
    }
    Ok(LastWins)
});

#[test]
fn keys_that_may_come_twice(rt: HostRuntime) -> Result<(), Fail> {
    let _last: LastWins = value(&rt, "{ a: { n: 1 } b: 1 a: { n: 2 } b: 'x b: [ ] a: { } }")?;
    assert_errors::<LastWins>(
        &rt,
        "
        invalid value: integer `300`, expected an integer in range
            { a: { n: 1 } a: { n: ^300 } }
            { b: [ ] a: { } c: 1 a: { n: ^300 } b: 1 }
        duplicate field `n`
            { b: 1 b: 2 a: { n: 1 ^n: 2 } a: 5 }
        ",
    )
}
