//! Documents that stop being JSON or TOML at a rare byte, and marks at rare escapes and keys.

use crate::support::{Row, Wait, assert_errors, reads};
use serde::{Deserialize, DeserializeOwned, Deserializer, Format};
use std::alloc::Global;
use std::collections::BTreeMap;
use std::test::Fail;

/// Other keys are passed.
#[derive(Debug, Drop, Deserialize)]
struct Settings {
    wait: Option<Wait>,
    ratio: Option<f64>,
    small: Option<i8>,
    deep: Option<Vec<Vec<Vec<i8>>>>,
    limit: Option<Limit>,
}

/// In TOML no value is a unit.
#[derive(Debug, Drop, Deserialize)]
#[serde(untagged)]
enum Limit {
    Units(BTreeMap<String, ()>),
    Variant(Variant),
}

#[derive(Debug, Drop, Deserialize)]
enum Variant {
    Most(u32),
}

/// A value that cannot be borrowed. A string that can be has an error of the format alone.
#[derive(Debug, Drop)]
struct Unborrowed;

impl DeserializeOwned for Unborrowed {
    fn deserialize_owned<F: Format>(
        _alloc: Global,
        from: &mut Deserializer<'_, '_, F>,
    ) -> Result<Unborrowed, F::Error> {
        let start = from.mark();
        if from.borrowed_str().is_ok() {
            return Err(from.custom("no at line 7"));
        }
        from.rewind(start);
        from.skip()?;
        Ok(Unborrowed)
    }
}

/// What is not JSON, marked at the first byte that no JSON has there, or the start of a wrong word
/// or escape.
const NO_JSON: &[Row<'static>] = &[
    (
        "invalid number",
        &[
            r#"{"a":0^1}"#,
            r#"{"a":-0^0}"#,
            r#"{"a":1.^}"#,
            r#"{"a":-^}"#,
            r#"{"a":1e+^]}"#,
            r#"{"a":1E^x}"#,
            r#"{"a":0^12.5}"#,
            r#"{"a":[-^-1]}"#,
            r#"{"a":1.^e5}"#,
        ],
    ),
    (
        "expected `,` or `}`",
        &[
            r#"{"a":0^x1}"#,
            r#"{"a":1.5^.5}"#,
            r#"{"a":12^_3}"#,
            r#"{"a":true^x}"#,
            r#"{"a":null^s}"#,
            "{\"a\":1^é}",
            "{\"a\":1^\u{a0}}",
            "{\"a\":1^\u{661}}",
            r#"{"a":1e5^e5}"#,
            r#"{"a":{}^]}"#,
        ],
    ),
    (
        "expected `,` or `]`",
        &[
            r#"{"a":[1 ^2]}"#,
            r#"{"a":["b"^:1]}"#,
            r#"{"a":[[]^}"#,
            r#"{"a":[{}^{}]}"#,
        ],
    ),
    (
        "invalid string",
        &[
            "{\"a\":\"1 ^\t2\"}",
            "{\"a\":\"é^\n\"}",
            "{\"a\":\"\u{7f}^\t\"}",
            "{\"a\":\"^\u{1f}\"}",
            "{\"a^\u{0}\":1}",
            r#"{"a":"\^q"}"#,
            r#"{"a":"\^x41"}"#,
            r#"{"\^a":1}"#,
            r#"{"a":"\^u12x4"}"#,
            r#"{"a":"\^u+123"}"#,
            r#"{"a":"\^u-123"}"#,
            r#"{"a":"\ud800\udc00\^udc"#,
            r#"{"a":"\^ud800\u0"#,
            r#"{"a":"\^ud800"}"#,
            r#"{"a":"\^udbff\u0041"}"#,
            r#"{"a":"\^udc00"}"#,
            r#"{"a":"\^udfff\ud800"}"#,
            r#"{"a":"\^ud800\ue000"}"#,
            r#"{"a":"\^uD800\udbff"}"#,
            r#"{"a":"\ud800\udc00\^ud800x"}"#,
            r#"{"a":"\^u00"}"#,
            r#"{"a":"\u00e9\^U00e9"}"#,
            r#"{"a":"\^'"}"#,
            "{\"a\":\"\\^\n\"}",
            r#"{"a":"\^u00é0"}"#,
        ],
    ),
    (
        "EOF while parsing",
        &[
            r#"{"a":"x^"#,
            r#"{"a":"\^"#,
            r#"{"a":"\u^"#,
            r#"{"a":"\u00^"#,
            r#"{"a":"\ud800^"#,
            r#"{"a":"\ud800\^"#,
            r#"{"a":"\ud800\udc0^"#,
            r#"{"a":t^"#,
            r#"{"a":nul^"#,
            r#"{"a":fals^"#,
            r#"{"a":-^"#,
            r#"{"a":1.^"#,
            r#"{"a":1e^"#,
            r#"{"a":0^"#,
            r#"{"a"^"#,
            r#"{"a":^"#,
            r#"{"^"#,
            "{\"a\":[ \n^",
            r#"{"a":1,^"#,
            r#"{"a":"\\^"#,
            r#"{"a":"\u0022^"#,
        ],
    ),
    (
        "expected value",
        &[
            r#"{"a":^nulx}"#,
            r#"{"a":^True}"#,
            r#"{"a":^+1}"#,
            r#"{"a":^.5}"#,
            r#"{"a":^'x'}"#,
            "{\"a\":^\u{feff}1}",
            r#"{"a":^:1}"#,
            r#"{"a":[1,^,2]}"#,
            r#"{"a":[1,^}"#,
            r#"{"a":^]}"#,
            "{\"a\":^\u{c}1}",
        ],
    ),
    (
        "trailing characters",
        &["{}^,", "{} ^{}", "{}^\u{b}", "{}\n^\u{0}", "{}^]"],
    ),
    (
        "key must be a string",
        &[
            r#"{"a":1,^2:3}"#,
            r#"{"a":["\"\\\/\b\f\n\r\t\u0041\ud83d\ude00",-1.5E-5,0e+1,-0],^1}"#,
            "{^[]:1}",
            r#"{^,"a":1}"#,
            "{^]",
            r#"{"a":1,^,"b":2}"#,
            "{^true:1}",
        ],
    ),
    (
        "trailing comma",
        &[
            r#"{"a":1,^]"#,
            r#"{"a":1,^}"#,
            r#"{"a":[1, ^]}"#,
            r#"{"a":[{},^]}"#,
        ],
    ),
    (
        "expected `:`",
        &[
            r#"{"a"^}"#,
            r#"{"a"^,1}"#,
            r#"{"a" ^"b"}"#,
            r#"{"a"^{}}"#,
            r#"{«"a":{*126»"a"^{"#,
        ],
    ),
    (
        "recursion limit exceeded",
        &[
            r#"{"a":«[*126»^["#,
            r#"{"a":«[*126»^{"#,
            r#"{"a":«{"a":*126»^{"#,
        ],
    ),
];

/// What is not TOML, in which a space and a digit can begin a time.
const NO_TOML: &[Row<'static>] = &[
    (
        "unexpected key or value, expected newline, `#`",
        &[
            "a = 1 ^2",
            "a = true ^2",
            "a = 1.5 ^2 3",
            "a = inf ^1",
            "a = 0x1F ^2",
            "a = '1' ^2",
            "a = 1  ^2",
            "x = 'é'\na = 1 ^2 # 1 2\nb = 1 2",
        ],
    ),
    (
        "missing comma between array elements, expected `,` or `]`",
        &[
            "a = [1 ^2]",
            "a = [\n1 ^2]",
            "a = [[1], 1979-05-27 07:32:00, 1 ^2]",
        ],
    ),
    (
        "missing comma between key-value pairs, expected `,` or `}`",
        &["a = { b = 1 ^2 }"],
    ),
    ("invalid date-time", &["a = ^1979-05-27 7", "a = ^07:32 1"]),
    (
        "VALUE",
        &["a = ^1x 2", "a = ^01", "a = ^01 2", "a = ^+", "a = ^"],
    ),
    (
        "number out of range",
        &["a = ^99999999999999999999 2", "a = ^1e999"],
    ),
    ("`_` may only go between digits", &["a = ^1_ 2"]),
    (
        "invalid string",
        &["a = \"1 ^\u{1}\"", "a = '^\n'", "a = 'x^"],
    ),
    (
        "invalid escape sequence",
        &[r#"a = "\^q""#, r#"a = "\^ud800""#],
    ),
    (
        "duplicate key",
        &[
            "a.b.c = 1\na.b.^c = '''\nx\n'''\n",
            "[a.b]\n[a]\n^b.c = {\nx = 1\n}\n",
            "«a.*70»a = 1\n«a.*70»^a = 1\n",
            "«a.*79»a = 1\n«a.*79»^a = 1",
            "[«a.*70»a]\n[«a.*70»^a]",
            "a = { «b.*70»b = 1, «b.*70»^b = [\n] }",
            "xx = 1\n^xx = 2",
            "'' = 1\n^'' = 2",
            "''.\"\" = 1\n\"\".^'' = 2",
            "['']\n[^\"\"]\n",
            "[x]\nx = 1\n\n^x = 2",
            "a.b = 1\na.^b = 2\n]",
            "[\ta . b]\n[\ta . ^b]",
        ],
    ),
    (
        "cannot extend a value with a dotted key",
        &[
            "a = 1\n^a.b.c.d = [\n1,\n2]\n",
            "a.b = 1\na.^b.c.d = 2",
            "a.b.c.d = 1\na.b.c . ^d . e = 2",
            "«a.*69»a = 1\n«a.*69»^a.a = 1",
            "a = 1\n^a«.a*79» = 1",
            "[a]\nb = 1\n[ a . ^b . c ]\n",
            "a.b.c = 1\n[[a.b.^c.d.e]]\n",
            "x.x = 1\nx.^x.x = 2",
        ],
    ),
];

/// Strings with escapes up to the error or in it.
const ESCAPES: &[Row<'static>] = &[
    (
        "invalid character at 1",
        &[
            r#"{"wait":"1^\ud83d\ude00^"}"#,
            r#"wait = "1^\U0001F600^""#,
            r#"wait = "1^\u00e9^""#,
            r#"wait = "\x31^\x7e^""#,
            r#"{"wait":"\u0031^\u007E^"}"#,
            "wait = \"\"\"\r\n1^~^\"\"\"",
            "wait = '''\r\n1^~^'''",
            "wait = '''\n1^~^'''",
            r#"{"wait":"1^\/^"}"#,
            r#"wait = '1^\^'"#,
            "wait = \"\"\"1\\\r\n\t \n^~^\"\"\"",
            "wait = \"\"\"1\\\t\r\n^~^\"\"\"",
        ],
    ),
    (
        "invalid character at 2",
        &[
            "wait = \"\"\"1 \\  \r\n\t ^~^\"\"\"",
            r#"{"wait":"1\t^\"^"}"#,
            r#"wait = "1\t^\e^""#,
        ],
    ),
    (
        "invalid character at 4",
        &[
            r#"{"wait":"\u30001^~^"}"#,
            "{\"wait\":\"\u{3000}1^~^\"}",
            r#"wait = "\u30001^~^""#,
            r#"wait = "\U000030001^~^""#,
        ],
    ),
    (
        "number out of range",
        &[
            r#"{"ratio":^1e400}"#,
            r#"{"é":1,"ratio":^1e400}"#,
            "{\n\n\"ratio\":\n\n  ^-1e400\n\n}\n",
            "{\"é\":\n\"µ\",\"ratio\":^1e400}",
        ],
    ),
    (
        "invalid value: integer `128`, expected an integer in range",
        &[
            r#"{"small":^128}"#,
            "small = ^128",
            "small = ^0x80",
            "small = ^1_28",
            "deep = [[[127]], [[], [1, ^128]]]",
        ],
    ),
    (
        "data did not match any variant of untagged enum",
        &["limit = ^{ Most = {} }", "small = 1\nlimit = ^{ Most = [] }"],
    ),
    // Other values before the error are as they may be.
    (
        "invalid character at 1",
        &[
            r#"{"a":"\u00e9\ud83d\ude00\/\b\f\n\r\t\"\\","wait":"1^~^"}"#,
            r#"{"a":"\udbff\udfff\ud800\udc00","wait":"1^~^"}"#,
            r#"{"a":"\ud7ff","wait":"1^~^"}"#,
            r#"{"a":"\ue000","wait":"1^~^"}"#,
            "{\r\n\"a\"\r:\t1,\r\n\"wait\": \"1^~^\"\r\n}\r",
            r#"{"a":[-0.0e-5,1E+09,0,-0,0e0,12.50],"wait":"1^~^"}"#,
            r#"{"a":«[*126»«]*126»,"wait":"1^~^"}"#,
            r#"{"a":[{},[],[[]],{"":{}}],"wait":"1^~^"}"#,
            "a = 1979-05-27 07:32:00\nwait = '1^~^'",
            "wait\t= '1^~^'",
            "«a.*79»wait = 1\nwait = '1^~^'",
            "a = [1979-05-27 07:32:00, 1]\nwait = '1^~^'",
        ],
    ),
];

const NAMES: &[(&str, &str)] = &[(
    "VALUE",
    "invalid value, expected a string, number, boolean, date-time, array or inline table",
)];

#[test]
fn no_json(rt: HostRuntime) -> Result<(), Fail> {
    assert_errors(&rt, reads!(Settings), &[], NO_JSON)
}

#[test]
fn no_toml(rt: HostRuntime) -> Result<(), Fail> {
    assert_errors(&rt, reads!(Settings), NAMES, NO_TOML)
}

#[test]
fn escapes(rt: HostRuntime) -> Result<(), Fail> {
    assert_errors(&rt, reads!(Settings), &[], ESCAPES)
}

#[test]
fn borrowed_strings(rt: HostRuntime) -> Result<(), Fail> {
    let rows: &[Row<'_>] = &[("no at line 7", &[r#"{"a":^"x"}"#])];
    assert_errors(&rt, reads!(BTreeMap<String, Unborrowed>), &[], rows)
}
