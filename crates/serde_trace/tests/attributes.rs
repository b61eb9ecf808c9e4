//! Types with derived impls, under each attribute that changes where or why a value is rejected.

use crate::words::assert_errors;
use serde::{Deserialize, Deserializer, Format, Kind};
use std::alloc::Global;
use std::test::Fail;

#[derive(Drop, Deserialize)]
#[serde(rename_all = "kebab-case", deny_unknown_fields)]
pub(crate) struct Server {
    #[serde(alias = "label")]
    host_name: String,
    #[serde(default, deserialize_with = "small", alias = "tries")]
    max_tries: u8,
    #[serde(skip)]
    is_up: bool,
}

#[derive(Drop, Deserialize)]
#[serde(deny_unknown_fields)]
struct Nothing {}

/// Reads a number below 10.
fn small<'de, F: Format>(
    _alloc: Global,
    from: &mut Deserializer<'de, '_, F>,
) -> Result<u8, F::Error> {
    match from.u64()? {
        number @ 0..=9 => Ok(number as u8),
        _ => Err(from.custom("not below 10")),
    }
}

#[test]
fn keys_of_a_struct(rt: HostRuntime) -> Result<(), Fail> {
    // The second value of `max-tries` is read before its key is known to be there twice.
    assert_errors::<Server>(
        &rt,
        "
        unknown field `host_name`, expected `host-name` or `max-tries`
            { host-name: 'a ^host_name: 'b }
            { ^host_name: [ { } ] host-name: 5 }
        unknown field `is-up`, expected `host-name` or `max-tries`
            { host-name: 'a ^is-up: true }
        missing field `host-name`
            { ^}
            { max-tries: 1 ^}
            < tries: 1 ^>
        duplicate field `host-name`
            { host-name: 'a ^host-name: 'b }
            { label: 'a ^host-name: 5 }
        duplicate field `label`
            < host-name: 'a ^label: 'b >
        duplicate field `max-tries`
            { max-tries: 1 ^max-tries: 2 }
            { max-tries: 1 ^max-tries: 10 }
            { tries: 1 ^max-tries: [ 1 { } ] }
        duplicate field `tries`
            { max-tries: 1 host-name: 'a ^tries: 'b }
        not below 10
            { max-tries: ^10 max-tries: 1 }
            [ 'a ^10 ]
        invalid type: integer `5`, expected a string
            { host-name: ^5 tries: 10 }
            [ ^5 ]
        invalid type: integer `5`, expected a map
            ^5
        ",
    )?;
    assert_errors::<Nothing>(&rt, "unknown field `a`, there are no fields\n{ ^a: 1 }")
}

#[derive(Drop, Deserialize)]
struct Around {
    #[serde(deserialize_with = "by_hand")]
    other: Server,
    #[serde(deserialize_with = "by_hand")]
    server: Server,
}

/// Reads a server, or passes what is no map, twice.
fn by_hand<'de, F: Format>(
    alloc: Global,
    from: &mut Deserializer<'de, '_, F>,
) -> Result<Server, F::Error> {
    if let Kind::Map = from.peek()? {
        return Server::deserialize(alloc, from);
    }
    let start = from.mark();
    from.skip()?;
    from.rewind(start);
    from.release(start);
    from.skip()?;
    Ok(Server {
        host_name: String::new(alloc),
        max_tries: 0,
        is_up: false,
    })
}

#[test]
fn a_key_twice_around_a_key_twice(rt: HostRuntime) -> Result<(), Fail> {
    assert_errors::<Around>(
        &rt,
        "
        duplicate field `server`
            { server: { label: 'a } ^server: { label: 'b label: 'c } }
            { server: { label: 'a } ^server: { x: 1 } }
            { server: 5 ^server: { label: 'b label: 'c } }
            { other: 5 server: 5 ^server: { label: 'b label: 'c } }
            { server: 5 other: 5 ^server: { label: 'b label: 'c } }
        duplicate field `label`
            { server: { label: 'a ^label: 'b } server: 5 }
        ",
    )
}

#[derive(Drop, Deserialize)]
#[serde(rename_all = "kebab-case")]
struct Kebab {
    max_age: i8,
}

#[derive(Drop, Deserialize)]
#[serde(rename_all = "camelCase")]
struct Camel {
    max_age: i8,
}

#[derive(Drop, Deserialize)]
struct Snake {
    max_age: i8,
}

#[derive(Drop, Deserialize)]
#[serde(rename_all = "SCREAMING-KEBAB-CASE")]
struct Sides {
    left: Kebab,
    right: Camel,
    own: Option<i8>,
}

#[derive(Drop, Deserialize)]
struct Flat {
    wait: String,
    #[serde(flatten)]
    kebab: Kebab,
    #[serde(flatten)]
    camel: Camel,
    #[serde(flatten)]
    snake: Snake,
}

#[derive(Drop, Deserialize)]
struct Shared {
    #[serde(flatten)]
    first: Kebab,
    #[serde(flatten)]
    second: Kebab,
}

/// The second one lacks a field that the first one need not have.
#[derive(Drop, Deserialize)]
struct Late {
    #[serde(flatten)]
    first: Optional,
    #[serde(flatten)]
    second: Kebab,
}

#[derive(Drop, Deserialize)]
#[serde(rename_all = "camelCase")]
struct Optional {
    max_age: Option<i8>,
}

/// A field that is not read has the name of another one in the map.
#[derive(Drop, Deserialize)]
struct Partly {
    max_age: i8,
    #[serde(flatten)]
    rest: Ageless,
}

#[derive(Drop, Deserialize)]
struct Beyond {
    max_age: i8,
    #[serde(flatten)]
    rest: Camel,
}

#[derive(Drop, Deserialize)]
#[serde(rename_all = "camelCase")]
struct Ageless {
    #[serde(skip)]
    max_age: i8,
    #[serde(default)]
    tries: i8,
}

#[test]
fn one_name_in_several_cases(rt: HostRuntime) -> Result<(), Fail> {
    assert_errors::<Sides>(
        &rt,
        "
        missing field `maxAge`
            { LEFT: { max-age: 1 } RIGHT: { ^} }
            { LEFT: { max-age: 1 } RIGHT: { max-age: 1 ^} OWN: 300 }
            { RIGHT: { max_age: 1 ^} LEFT: { } }
        missing field `max-age`
            { LEFT: { ^} RIGHT: { maxAge: 1 } }
            { RIGHT: { maxAge: 1 } LEFT: { maxAge: 1 ^} }
        missing field `RIGHT`
            { LEFT: { max-age: 1 } ^}
        missing field `LEFT`
            { RIGHT: { maxAge: 1 } ^}
            { right: 1 ^}
        invalid value: integer `300`, expected an integer in range
            { OWN: ^300 }
            { RIGHT: { maxAge: 1 } LEFT: { max-age: ^300 } }
        ",
    )?;
    Ok(())
}

#[test]
fn one_name_in_a_shared_map(rt: HostRuntime) -> Result<(), Fail> {
    assert_errors::<Flat>(
        &rt,
        "
        missing field `max_age`
            { max-age: 1 maxAge: 2 wait: 'x ^}
            { maxAge: 2 max-age: 1 wait: 'x other: [ 1 ] ^}
        missing field `maxAge`
            { max-age: 1 max_age: 2 wait: 'x ^}
        missing field `max-age`
            { maxAge: 1 max_age: 2 wait: 'x ^}
            { wait: 'x ^}
        invalid value: integer `300`, expected an integer in range
            { max-age: 1 maxAge: ^300 max_age: 2 wait: 'x }
            { max-age: 1 max_age: ^300 maxAge: 2 wait: 'x }
        duplicate field `maxAge`
            { max-age: 1 maxAge: 2 wait: 'x ^maxAge: 3 }
        invalid type: integer `5`, expected a string
            { max-age: 1 maxAge: 300 wait: ^5 }
        ",
    )?;
    assert_errors::<Shared>(
        &rt,
        "
        missing field `max-age`
            { ^}
            { max-age: 1 ^}
        ",
    )?;
    assert_errors::<Late>(
        &rt,
        "
        missing field `max-age`
            { ^}
            { max_age: 1 ^}
        ",
    )?;
    assert_errors::<Beyond>(
        &rt,
        "
        missing field `max_age`
            { maxAge: 1 ^}
            { maxAge: 1 x: 2 ^}
        ",
    )?;
    assert_errors::<Partly>(
        &rt,
        "
        missing field `max_age`
            { ^}
            { tries: 1 ^}
            { maxAge: 1 ^}
        ",
    )
}

#[derive(Drop, Deserialize)]
#[serde(rename_all = "lowercase")]
enum Job {
    Never,
    Once(i8),
    #[serde(skip)]
    Hidden,
}

/// An enum whose first variant is not read.
#[derive(Drop, Deserialize)]
enum Later {
    #[serde(skip)]
    Hidden,
    Once(i8),
}

#[derive(Drop, Deserialize)]
#[serde(tag = "kind")]
enum Inside {
    Never,
    Once { tries: i8 },
    Twice(Kebab),
}

#[derive(Drop, Deserialize)]
#[serde(tag = "kind", content = "of")]
pub(crate) enum Beside {
    Never,
    Once(i8),
    Pair(i8, i8),
    Named { tries: i8 },
}

#[derive(Drop, Deserialize)]
#[serde(untagged)]
enum Any {
    Number(i8),
    Job(Job),
    Pair(i8, i8),
}

#[derive(Drop, Deserialize)]
struct Jobs {
    #[serde(default)]
    any: Vec<Any>,
    job: Job,
}

#[test]
fn variants(rt: HostRuntime) -> Result<(), Fail> {
    assert_errors::<Jobs>(
        &rt,
        "
        unknown variant `x`, expected `never` or `once`
            { job: ^'x }
            { job: { ^x: 1 } }
            { any: [ 'never { once: 1 } ( 1 2 ) ] job: ^'x }
            { any: [ { once: 1 } ] job: { ^x: [ ] } }
        unknown variant `hidden`, expected `never` or `once`
            { job: ^'hidden }
        invalid type: unit variant, expected a variant with data
            { job: ^'once }
        wanted exactly 1 element, found 0 elements
            { job: { ^} }
            { job: { 5 ^} }
        wanted exactly 1 element, more than 1 element
            { job: { once: 1 ^never: null } }
        invalid type: integer `1`, expected unit
            { job: { never: ^1 } }
        invalid value: integer `300`, expected an integer in range
            { job: { once: ^300 } }
        invalid type: integer `1`, expected a map
            { job: ^1 }
        data did not match any variant of untagged enum
            { any: [ 1 ^300 'x ] }
            { any: [ 1 ^'x ] }
            { any: [ ( 1 2 ) ^[ 1 2 3 ] ] }
            { any: [ { once: 1 } ^{ once: 300 } ] }
        ",
    )?;
    assert_errors::<Later>(
        &rt,
        "
        unknown variant `x`, expected `Once`
            ^'x
            { ^x: 1 }
        wanted exactly 1 element, found 0 elements
            { ^}
        ",
    )?;
    assert_errors::<Inside>(
        &rt,
        "
        unknown variant `x`, expected one of `Never`, `Once`, `Twice`
            { kind: ^'x }
            { tries: 'y kind: ^'x more: [ 1 ] }
        invalid type: integer `1`, expected variant identifier
            { kind: ^1 }
        missing field `kind`
            { tries: 1 ^}
        missing field `tries`
            { kind: 'Once ^}
        missing field `max-age`
            { kind: 'Twice max_age: 1 ^}
        duplicate field `kind`
            { kind: 'Never ^kind: 'Never }
        duplicate field `tries`
            { kind: 'Once tries: 1 ^tries: 2 }
            { tries: 1 ^tries: 2 kind: 'Once }
        invalid value: integer `300`, expected an integer in range
            { kind: 'Once tries: ^300 }
            { max-age: ^300 kind: 'Twice }
        invalid type: string \"Never\", expected a map
            ^'Never
        ",
    )?;
    assert_errors::<Beside>(
        &rt,
        "
        unknown variant `x`, expected one of `Never`, `Once`, `Pair`, `Named`
            { kind: ^'x of: 1 }
            { of: 1 kind: ^'x }
            { more: [ ] kind: ^'x }
        missing field `of`
            { kind: 'Once ^}
            { kind: 'Pair ^}
            { kind: 'Named more: [ 1 ] ^}
        missing field `kind`
            { of: 1 ^}
        duplicate field `of`
            { kind: 'Once of: 1 ^of: 2 }
        duplicate field `kind`
            { kind: 'Once of: 1 ^kind: 'Never }
        invalid length 3, expected a tuple of size 2
            { kind: 'Pair of: ^[ 1 2 3 ] }
            { of: ^[ 1 2 'x ] kind: 'Pair }
        invalid length 1
            { kind: 'Pair of: ^[ 1 ] }
        missing field `tries`
            { kind: 'Named of: { try: 1 ^} }
        ",
    )
}

#[derive(Drop, Deserialize)]
struct One {
    #[serde(default)]
    n: u8,
}

#[derive(Drop, Deserialize)]
#[serde(try_from = "One")]
struct Even(u8);

impl TryFrom<One> for Even {
    type Error = &'static str;

    fn try_from(one: One) -> Result<Even, &'static str> {
        if one.n > 0 && one.n % 2 == 0 {
            Ok(Even(one.n))
        } else {
            Err("not even")
        }
    }
}

#[derive(Drop, Deserialize)]
struct Evens {
    one: Even,
    more: Option<Vec<Even>>,
}

#[test]
fn a_value_of_another_type(rt: HostRuntime) -> Result<(), Fail> {
    assert_errors::<Evens>(
        &rt,
        "
        not even
            { one: ^{ n: 1 } }
            { one: ^{ } }
            { more: [ { n: 2 } ^{ n: 3 } { n: 5 } ] one: { n: 1 } }
            { more: [ ^{ m: 2 } ] }
        invalid type: string \"x\", expected an integer
            { one: { n: ^'x } }
        invalid type: boolean `true`, expected a sequence
            { more: ^true }
        ",
    )
}
