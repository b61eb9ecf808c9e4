//! Values that are read, and steps that the format has of its own.

use crate::words::{Wrong, assert_errors, read, value, words_of};
use serde::Deserialize;
use serde_trace::Traced;
use std::collections::BTreeMap;
use std::test::Fail;

#[derive(Drop, Deserialize)]
struct All {
    bool: bool,
    small: i8,
    long: (i128, u128),
    real: (f32, f64),
    char: char,
    text: Option<String>,
    unit: (),
    rest: BTreeMap<String, Vec<Option<u64>>>,
}

#[test]
fn each_step_reads(rt: HostRuntime) -> Result<(), Fail> {
    let all: All = value(
        &rt,
        "{ bool: true small: -128 long: [ -9223372036854775809 18446744073709551616 ] \
        real: [ 1.5 -2 ] char: 'é text: 'a,b unit: null more: [ { } ] \
        rest: { x: [ 1 null ] y: [ ] } }",
    )?;
    assert_eq!(rt;
        (all.bool, all.small, all.long),
        (true, -128, (-9223372036854775809, 18446744073709551616))
    );
    assert_eq!(rt; (all.real, all.char, all.unit), ((1.5, -2.0), 'é', ()));
    assert_eq!(rt; all.text.as_ref().map(|text| text.as_str()), Some("a,b"));
    let list = all.rest.get("x").ok_or("no x")?;
    assert_eq!(rt; list.as_slice(), [Some(1), None].as_slice());
    assert_eq!(rt; all.rest.get("y").map(|list| list.len()), Some(0));
    let message = "invalid type: map, expected ";
    let rejected = |expected: &str, document: &str| {
        assert_errors::<All>(&rt, &format!(in rt.alloc(); "{message}{expected}\n{document}")?)
    };
    rejected("a boolean", "{ bool: ^{ } }")?;
    rejected("an integer", "{ small: ^{ } }")?;
    rejected("an integer", "{ long: [ ^{ } 1 ] }")?;
    rejected("an integer", "{ long: [ 1 ^{ } ] }")?;
    rejected("f32", "{ real: [ ^{ } 1 ] }")?;
    rejected("f64", "{ real: [ 1 ^{ } ] }")?;
    rejected("a character", "{ char: ^{ } }")?;
    rejected("a string", "{ text: ^{ } }")?;
    rejected("unit", "{ unit: ^{ } }")?;
    rejected("a sequence", "{ long: ^{ } }")?;
    assert_errors::<All>(
        &rt,
        "
        invalid value: string \"ab\", expected a character
            { char: ^'ab }
        invalid value: integer `-129`, expected an integer in range
            { small: ^-129 }
        invalid value: integer `-1`, expected an integer in range
            { rest: { x: [ 1 ^-1 ] } }
            { long: [ 1 ^-1 ] }
        invalid type: null, expected a map
            { rest: ^null }
            ^null
        invalid type: floating point `1.5`, expected an integer
            { rest: { a: [ ] b: [ ^1.5 ] } }
        ",
    )
}

#[test]
fn keys_of_a_map(rt: HostRuntime) -> Result<(), Fail> {
    type Numbers = BTreeMap<char, BTreeMap<char, i8>>;
    assert_eq!(rt; value::<Numbers>(&rt, "{ a: { b: 7 } }")?.len(), 1);
    assert_errors::<Numbers>(
        &rt,
        "
        invalid value: string \"ab\", expected a character
            { ^ab: { } }
            { a: { b: 1 ^ab: 'x } }
        invalid value: integer `128`, expected an integer in range
            { a: { b: 1 } c: { d: ^128 } }
        ",
    )?;
    assert_errors::<BTreeMap<Mark, u8>>(
        &rt,
        "
        data did not match any variant of untagged enum
            { ^ab: 1 }
            { a: 1 b: 2 ^cd: 3 }
        invalid type: string \"x\", expected an integer
            { a: 1 b: ^'x }
        ",
    )?;
    // A key may be null.
    let table = "invalid type: string \"x\", expected an integer\n{ null: ^'x }";
    assert_errors::<BTreeMap<(), u8>>(&rt, table)?;
    let table = "invalid type: string \"x\", expected an integer\n{ null: ^'x }\n{ ^x: 1 }";
    assert_errors::<BTreeMap<Option<u8>, u8>>(&rt, table)
}

#[derive(Drop, PartialEq, Eq, PartialOrd, Ord, Deserialize)]
#[serde(untagged)]
enum Mark {
    Code(u8),
    Letter(char),
}

#[derive(Drop, Deserialize)]
struct Named {
    one: u8,
    two: Option<(u8, u8)>,
}

#[test]
fn tuples_and_structs_of_the_format(rt: HostRuntime) -> Result<(), Fail> {
    assert_eq!(rt;
        value::<Vec<(u8, u8)>>(&rt, "[ ( 1 2 ) [ 3 4 ] ( 5 6 ) ]")?.as_slice(),
        [(1, 2), (3, 4), (5, 6)].as_slice()
    );
    let named: Named = value(&rt, "< one: 1 more: < one: 'x > two: ( 2 3 ) >")?;
    assert_eq!(rt; (named.one, named.two), (1, Some((2, 3))));
    let named: Named = value(&rt, "[ 1 null ]")?;
    assert_eq!(rt; (named.one, named.two), (1, None));
    assert_errors::<Vec<Named>>(
        &rt,
        "
        invalid length 3, expected a tuple of size 2
            [ { one: 1 two: ^( 2 3 4 ) } ]
            [ < one: 1 > < two: ^[ 2 3 4 ] > ]
            [ [ 1 null ] ^[ 1 null { } ] ]
        invalid value: integer `256`, expected an integer in range
            [ { one: ^256 } ]
            [ < one: 1 two: [ 255 ^256 ] > ]
        invalid length 1
            [ < two: ^[ 2 ] > ]
        invalid length 0
            [ < two: ^[ ] > ]
        missing field `one`
            [ < ^> ]
            [ { one: 1 } { two: ( 2 3 ) ^} ]
        missing field `two`
            [ [ 1 ^] ]
        invalid type: integer `5`, expected a map
            [ { one: 1 } ^5 ]
        ",
    )?;
    assert_errors::<BTreeMap<String, [u8; 2]>>(
        &rt,
        "
        invalid length 3
            { a: [ 1 2 ] b: ^[ 1 2 3 ] }
        invalid length 1
            { b: ^[ 1 ] }
        ",
    )
}

#[test]
fn items_that_are_rejected(rt: HostRuntime) -> Result<(), Fail> {
    for document in [
        "[ 1 'x [ 1 [ 2 ] ] 300 { a: { } } 4 ]",
        "row 1 'x [ 1 [ 2 ] ] 300 { a: { } } 4",
    ] {
        let items: Vec<Traced<u8>> = value(&rt, document)?;
        let mut read = Vec::new(rt.alloc());
        for Traced(item) in &items {
            read.push(item.as_ref().ok().copied())?;
        }
        assert_eq!(rt;
            read.as_slice(),
            [Some(1), None, None, None, None, Some(4)].as_slice(),
            "{document}"
        );
    }
    // What is read inside is told from its own start.
    let pairs: BTreeMap<String, Traced<Vec<(u8, Traced<u8>)>>> = value(
        &rt,
        "{ a: [ [ 1 'x ] [ 'y 2 ] ] b: [ ] }",
    )?;
    let Some(Traced(Err(rejection))) = pairs.get("a") else {
        panic!(rt; "read");
    };
    assert_eq!(rt; rejection.path.as_slice(), [1, 0].as_slice());
    assert!(rt; pairs.get("b").is_some_and(|Traced(list)| list.is_ok()));
    assert_errors::<Vec<u8>>(
        &rt,
        "
        invalid type: boolean `true`, expected an integer
            row 1 2 ^true 3
            row ^true
        ",
    )
}

#[test]
fn errors_of_the_format(rt: HostRuntime) -> Result<(), Fail> {
    type Lists = BTreeMap<String, Vec<u8>>;
    // What is after a value that is rejected is read, too.
    for document in [
        "!",
        "{ !",
        "{ a: !",
        "{ a: [ !",
        "{ a: [ 1 !",
        "{ a: [ ] !",
        "{ a: [ 'x ] !",
        "{ a: [ 300 ] b: [ ! ] }",
        "[ 1 ! ]",
    ] {
        let words = words_of(rt.alloc(), document)?;
        assert!(rt;
            matches!(read::<Lists>(rt.alloc(), &words), Err(Wrong::Broken)),
            "{document}"
        );
        assert!(rt;
            matches!(
                read::<Traced<Lists>>(rt.alloc(), &words),
                Err(Wrong::Broken)
            ),
            "{document}"
        );
    }
    Ok(())
}
