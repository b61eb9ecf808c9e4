//! What is said of a rejection.

use serde::Kind;
use serde_trace::{Cause, Part, Rejection, Unexpected};
use std::alloc::Global;
use std::test::Fail;

/// A value, what it is called, and what it is, by first letters: an integer, a floating-point
/// number, a string, or bytes.
type Found = (Unexpected<'static>, &'static str, &'static str);

const FOUND: [Found; 17] = [
    (Unexpected::Str("a\n\"é"), "string \"a\\n\\\"é\"", "s"),
    (Unexpected::Integer(-7), "integer `-7`", "i"),
    (Unexpected::Float(1.0), "floating point `1.0`", "f"),
    (Unexpected::Float(1e16), "floating point `1e16`", "f"),
    (Unexpected::Float(-0.0), "floating point `-0.0`", "f"),
    // As many digits as there are, and a sign alone does not make it a floating-point number.
    (
        Unexpected::Number("-18446744073709551616"),
        "integer `-18446744073709551616`",
        "if",
    ),
    (Unexpected::Number("0"), "integer `0`", "if"),
    (Unexpected::Number("-0"), "floating point `-0`", "f"),
    (Unexpected::Number("-0.0"), "floating point `-0.0`", "f"),
    (Unexpected::Number("1e5"), "floating point `1e5`", "f"),
    (Unexpected::Number("1E5"), "floating point `1E5`", "f"),
    (Unexpected::Bool(true), "boolean `true`", ""),
    (Unexpected::Bool(false), "boolean `false`", ""),
    (Unexpected::Null, "null", ""),
    (Unexpected::Datetime, "datetime", ""),
    (Unexpected::Seq(3), "sequence", "b"),
    (Unexpected::Map, "map", ""),
];

/// A kind that is expected, the letter of the values that are of it, and what is said after it.
const EXPECTED: [(Kind, char, &str); 9] = [
    (Kind::Signed, 'i', " in range"),
    (Kind::Float, 'f', ""),
    (Kind::Str, 's', ""),
    (Kind::Bytes, 'b', ""),
    (Kind::Unit, '-', ""),
    (Kind::Bool, '-', ""),
    (Kind::Unsigned, '-', ""),
    (Kind::Seq, '-', ""),
    (Kind::Map, '-', ""),
];

fn said(alloc: Global, cause: Cause, found: Unexpected<'_>) -> Result<String, Fail> {
    let rejection = Rejection {
        path: Vec::new(alloc),
        part: Part::Value,
        cause,
    };
    Ok(rejection.message(alloc, found)?)
}

#[test]
fn what_is_found(rt: HostRuntime) -> Result<(), Fail> {
    let alloc = rt.alloc();
    for (found, called, letters) in FOUND {
        assert_eq!(rt; format!(in alloc; "{found}")?.as_str(), called);
        for (kind, letter, more) in EXPECTED {
            let is_value = letters.contains(letter);
            let (what, more) = if is_value {
                ("value", more)
            } else {
                ("type", "")
            };
            let wanted = format!(in alloc; "invalid {what}: {called}, expected a THING{more}")?;
            assert_eq!(rt;
                said(
                    alloc,
                    Cause::Expected(kind, String::from_str(alloc, "a THING")?),
                    found
                )?,
                wanted
            );
        }
        let wanted = format!(in alloc; "invalid value: {called}, expected an integer in range")?;
        assert_eq!(rt; said(alloc, Cause::Range, found)?, wanted);
    }
    Ok(())
}

#[test]
fn each_cause(rt: HostRuntime) -> Result<(), Fail> {
    let alloc = rt.alloc();
    let text = |text| String::from_str(alloc, text);
    let (key, list, map) = (Unexpected::Str("a b"), Unexpected::Seq(3), Unexpected::Map);
    for (cause, found, wanted) in [
        (Cause::Message(text("no `x`")?), key, "no `x`"),
        (Cause::Message(text("")?), key, "invalid value"),
        (Cause::Missing(text("x-y")?), map, "missing field `x-y`"),
        (Cause::Duplicate, key, "duplicate field `a b`"),
        (Cause::UnknownField(text("")?), key, "unknown field `a b`"),
        (
            Cause::UnknownField(text(", expected `x`")?),
            key,
            "unknown field `a b`, expected `x`",
        ),
        (
            Cause::UnknownVariant(text(", there are no variants")?),
            key,
            "unknown variant `a b`, there are no variants",
        ),
        (Cause::Length, list, "invalid length 3"),
        (Cause::Length, map, "invalid length 0"),
        (
            Cause::Long(2),
            list,
            "invalid length 3, expected a tuple of size 2",
        ),
    ] {
        assert_eq!(rt; said(alloc, cause, found)?.as_str(), wanted);
    }
    Ok(())
}
