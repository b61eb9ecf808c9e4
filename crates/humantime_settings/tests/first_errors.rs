//! The first error of each document: its place, and the words of `serde`.

use crate::support::{Row, assert_errors, reads};
use crate::types::{Config, Written};
use humantime_settings::{from_json, from_toml};
use std::test::Fail;

/// A key twice, whose second value is wrong, too, where a function reads the field.
const KEYS_TWICE: &[Row<'static>] = &[
    (
        "duplicate field `waits`",
        &[
            r#"{"retries":{"waits":["1s"],^"waits":["2s","1x"]}}"#,
            r#"{"retries":{"waits":["1s"],^"waits":["x"],"waits":[]}}"#,
            r#"{"retries":{"waits":[],"count":{"max-age":1}, ^"waits" : [["1s"]]}}"#,
        ],
    ),
    (
        "duplicate field `zwaits`",
        &[
            r#"{"retries":{"waits":[],^"zwaits":["1s",null]}}"#,
            "[retries]\nwaits = ['1s']\n^zwaits = ['1x']",
            "retries = { waits = [], ^zwaits = [1] }",
        ],
    ),
    (
        "duplicate field `names`",
        &[r#"{"retries":{"names":{"a":"1s"},^"names":{"b":"1s","c":5}}}"#],
    ),
    (
        "duplicate field `zz`",
        &[
            r#"{"retries":{"names":{},^"zz":{"b":"x"}}}"#,
            "[retries]\nnames.a = '1s'\n^zz.b = 5",
            "[retries.names]\n[retries.^zz]\na = 'x'\n",
        ],
    ),
    (
        "duplicate field `count`",
        &[
            r#"{"retries":{"count":{"max-age":1},^"count":{"max-age":300}}}"#,
            r#"{"retries":{"count":{"max-age":1},^"count":{}}}"#,
            r#"{"retries":{"count":{"max-age":1},^"count":{"max-age":1,"max-age":2}}}"#,
        ],
    ),
    (
        "duplicate field `zcount`",
        &[
            r#"{"retries":{"count":{"max-age":1},^"zcount":{"max-age":300}}}"#,
            "[retries]\ncount.max-age = 1\n^zcount.max-age = 300",
            "[retries.count]\nmax-age = 1\n[retries.^zcount]\n",
        ],
    ),
    (
        "duplicate field `pause`",
        &[
            r#"{"retries":{"pause":"1s",^"pause":"x"}}"#,
            r#"{"retries":{"pause":null,^"pause":5}}"#,
        ],
    ),
];

/// One identifier that structs in one map spell each in its way.
const FLATTENED_STRUCTS: &[Row<'static>] = &[
    (
        "missing field `max_age`",
        &[
            r#"{"ages":{"max-age":1,"maxAge":2,"wait":"1s"^}}"#,
            "^[ages]\nmax-age = 1\nmaxAge = 2\nwait = '1s'",
            "ages = ^{ wait = '1s', maxAge = 2, max-age = 1 }",
            "^ages.max-age = 1\nages.maxAge = 2\nages.wait = '1s'",
        ],
    ),
    (
        "missing field `maxAge`",
        &[
            r#"{"ages":{"max-age":1,"max_age":2,"wait":"1s"^}}"#,
            "^[ages]\nmax-age = 1\nmax_age = 2\nwait = '1s'",
        ],
    ),
    (
        "missing field `max-age`",
        &[
            r#"{"ages":{"maxAge":1,"max_age":2,"wait":"1s"^}}"#,
            "^[ages]\nmaxAge = 1\nmax_age = 2\nwait = '1s'",
            r#"{"limits":{"maxAge":1^}}"#,
            "^[limits]\nmaxAge = 1",
            "limits = ^{ minAge = 1, maxAge = 2 }",
            r#"{"left":{^},"right":{}}"#,
            "[right]\nMAX_AGE = 1\n^[left]\n",
        ],
    ),
    (
        "missing field `MAX_AGE`",
        &[
            r#"{"left":{"max-age":1},"right":{^}}"#,
            "^[right]\n[left]\nmax-age = 1",
            "right = ^{ max-age = 1 }\nleft.max-age = 1",
        ],
    ),
    (
        "duplicate field `maxAge`",
        &[r#"{"ages":{"max-age":1,"maxAge":1,"max_age":1,^"maxAge":2,"wait":"1s"}}"#],
    ),
];

/// A type that reads a string, and knows it among variants.
const VARIANTS_BY_HAND: &[Row<'static>] = &[
    (
        "unknown variant `quick`",
        &[
            r#"{"speed":^"quick"}"#,
            r#"{"speed":^"qu\u0069ck"}"#,
            r#"{"speeds":["fast",^"quick"]}"#,
            r#"{"by-speed":{"fast":1,^"quick":2}}"#,
            "speed = ^'quick'",
            "speeds = ['fast', ^'quick', 'quick']",
            "by-speed.^quick = 1",
            "[by-speed]\nfast = 1\n^quick = 2",
            r#"{"choice":{"itemCount":2},"speed":^"quick"}"#,
            "choice.itemCount = 2\nspeed = ^'quick'",
            r#"{"action":{"go-on":^"quick"}}"#,
            "action.go-on = ^'quick'",
            "actions = ['stand-by', { go-on = ^'quick' }]",
            r#"{"event":{"kind":"START","speed":^"quick"}}"#,
            r#"{"event":{"speed":^"quick","kind":"START"}}"#,
            "[event]\nkind = 'START'\nspeed = ^'quick'",
            r#"{"step":{"kind":"to_speed","of":^"quick"}}"#,
            r#"{"step":{"of":^"quick","kind":"to_speed"}}"#,
            "step = { of = ^'quick', kind = 'to_speed' }",
            r#"{"both":{"one":"fast","two":^"quick"}}"#,
            "[both]\ntwo = 'slow'\none = ^'quick'",
            r#"{"tree":{"nodes":[{"speed":"slow"},{"speed":^"quick"}]}}"#,
            "[[tree.nodes]]\nspeed = 'slow'\n[[tree.nodes.nodes]]\nspeed = ^'quick'",
        ],
    ),
    ("unknown variant ``", &[r#"{"speed":^""}"#, "speed = ^''"]),
    (
        "unknown variant `z`",
        &[
            r#"{"letter":^"z"}"#,
            "letter = ^'z'",
            r#"{"choice":{"itemCount":2},"letter":^"z"}"#,
            "choice.itemCount = 2\nletter = ^'z'",
            r#"{"step":{"of":[^"z",[]],"kind":"to_pair"}}"#,
            "[step]\nkind = 'to_pair'\nof = [^'z', []]",
        ],
    ),
    (
        "unknown variant `dash`, expected one of `stand-by`, `go-on`, `both`, `paint-it`",
        &[
            r#"{"actions":["stand-by",^"dash"]}"#,
            "actions = [{ go-on = 'fast' }, { ^dash = 1 }]",
        ],
    ),
    (
        "data did not match any variant of untagged enum",
        &[
            r#"{"choice":^"quick"}"#,
            "choice = ^'quick'",
            r#"{"choice":^{"itemCount":3}}"#,
            "^choice.itemCount = 3",
        ],
    ),
];

/// A type that reads the keys of a map one by one.
const MAPS_BY_HAND: &[Row<'static>] = &[
    (
        "unknown field `green`",
        &[
            r#"{"left":{"max-age":1},"palette":{^"green":1}}"#,
            "[left]\nmax-age = 1\n[palette]\n^green = 1",
            r#"{"even":{"itemCount":2},"palettes":[{"red":1,^"green":1}]}"#,
            "even = {}\npalettes = [{ red = 1, ^green = 2 }]",
            r#"{"palette":{^"green":1}}"#,
            r#"{"cell":{"RowNumber":1},"palette":{"red":1,^"green":2}}"#,
            r#"{"tree":{"x":1},"palette":{^"green":1}}"#,
            r#"{"palettes":[{"red":1},{"blue":1,^"green":1}]}"#,
            "palette = { ^green = 1 }",
            "[palette]\nred = 1\n^green = 1",
            "x = 1\npalette.^green = 1",
            "[palette.^green]\n",
            "[[palettes]]\nred = 1\n[[palettes]]\n^green = 2",
            r#"{"step":{"kind":"to_palette","of":{"palette":{"red":1,^"green":1}}}}"#,
            r#"{"action":{"paint-it":{"palette":{^"green":1}}}}"#,
            "action.paint.palette.^green = 1",
        ],
    ),
    (
        "invalid value: integer `300`, expected an integer in range",
        &[
            r#"{"palette":{"red":1,"blue":^300}}"#,
            "palette = { red = ^300 }",
            r#"{"totals":{"a":1,"b":^300}}"#,
            "[totals]\na = 1\nb = ^300",
            r#"{"totals":{"a":^300,"b":1}}"#,
            r#"{"tree":{},"totals":{"a":1,"b":2,"c":^300,"d":300}}"#,
        ],
    ),
    (
        "duplicate field `off`",
        &[r#"{"switches":{"on":1,^"off":2}}"#],
    ),
    (
        "duplicate field `on`",
        &[
            r#"{"switches":{"off":[],^"on":2}}"#,
            "[switches]\noff = 1\n^on = 2",
            "switches = { ^on = 1, off = 2 }",
        ],
    ),
    (
        "missing field `on`",
        &[r#"{"switches":{^}}"#, "^[switches]\n", "switches = ^{}"],
    ),
];

/// A type that looks before it reads.
const VALUES_THAT_ARE_LOOKED_AT: &[Row<'static>] = &[
    (
        "a list is not accepted",
        &[
            r#"{"no-list":^[1]}"#,
            r#"{"small":1,"no-list":^[]}"#,
            r#"{"no-lists":[1,{"a":1},^[2]]}"#,
            "no-list = ^[1]",
            "small = 1\nno-list = ^[\n1,\n]",
            "no-lists = [1, ^[2], [3]]",
            "^[[no-list]]\na = 1",
            r#"{"desk":{"count":1,"no_list":^[1]}}"#,
            r#"{"desk":{"no_list": ^[],"count":7,"word":"a"}}"#,
            "desk = { word = 'a', no_list = ^[1] }",
            "[desk]\ncount = 1\nno_list = ^[]",
            "^[[desk.no_list]]\n",
        ],
    ),
    (
        "invalid value",
        &[
            r#"{"desk":{"no_list":1,"word":^5}}"#,
            "[desk]\nno_list = 1\nword = ^[]",
            r#"{"word":^5}"#,
            r#"{"word":^{}}"#,
            r#"{"small":1,"word":^["a"]}"#,
            r#"{"words":{"a":"b","c":null,"d":^true}}"#,
            r#"{"cell":{"RowNumber":1,"Word":^[]}}"#,
            r#"{"event":{"kind":"START","speed":"fast","word":^1}}"#,
            r#"{"point":[1,"1s",^7]}"#,
            "word = ^5",
            "word = ^1979-05-27",
            "words.a = 'b'\nwords.c = ^true",
            "cell = { RowNumber = 1, Word = ^[] }",
            "point = [1, '1s', ^7.5]",
            r#"{"action":{"both":["fast",^5]}}"#,
            "action.both = ['fast', ^5]",
        ],
    ),
];

/// A type that rejects what another type has read.
const VALUES_REJECTED_AFTER_READING: &[Row<'static>] = &[
    (
        "the count is odd",
        &[
            r#"{"even":^{"itemCount":1}}"#,
            r#"{"evens":[{"itemCount":2},^{"itemCount":3}]}"#,
            r#"{"action":{"paint":{"palette":{"red":1},"even":^{"itemCount":5}}}}"#,
            "^even.itemCount = 1",
            "^[even]\nitemCount = 1",
            "[[evens]]\nitemCount = 2\n^[[evens]]\nitemCount = 3\nx = 1",
            "evens = [{ itemCount = 2 }, ^{ itemCount = 3 }]",
        ],
    ),
    (
        "invalid value",
        &[
            r#"{"half":^{"itemCount":0}}"#,
            r#"{"half":^{}}"#,
            "^[half]\n",
            "half = ^{ itemCount = 0 }",
        ],
    ),
    (
        "invalid value",
        &[
            r#"{"silent":^"x"}"#,
            "silent = ^'x'",
            r#"{"share":^1.5}"#,
            r#"{"share":^2}"#,
            "share = ^-0.1",
            "share = ^2",
            r#"{"few":[1,^2]}"#,
            "few = [1, ^2]",
        ],
    ),
    (
        "not a number",
        &[
            "{\"small\":1,\n \"written\":^\"7x\",\n \"word\":\"a\"}",
            "{\n\"written\":^\"\"}",
            "{\"all-written\":[\"70\",\n^\"7x\",\n\"\"]}",
            "small = 1\nwritten = ^'7x'\nword = 'a'\n",
            "small = 1\nwritten = ^''\n",
            "all-written = ['70',\n  ^'7x',\n  '']\n",
        ],
    ),
    (
        "invalid type: integer `70`, expected a string",
        &["{\n\"written\":\n^70\n}", "small = 1\nwritten = ^70\n"],
    ),
    // This is the start of what is said of a duration.
    (
        "invalid character",
        &[r#"{"silent":^"1~"}"#, "silent = ^'1~'"],
    ),
    (
        "it is loud at line 7, or at line 8",
        &[r#"{"silent":^"loud"}"#, "silent = ^'loud'"],
    ),
];

/// A string that lacks a part.
const STRINGS_THAT_LACK_A_PART: &[Row<'static>] = &[(
    "missing field `b`",
    &[
        r#"{"list":["b=1",^"a=1"]}"#,
        r#"{"assigned":^"a"}"#,
        r#"{"assigned":^"]"}"#,
        r#"{"event":{"kind":"again","list":[^"x"]}}"#,
        "list = ['b=1', ^'a=1']",
        "assigned = ^'a'",
        "[event]\nlist = ['b=1', 'b=2', ^'']\nkind = 'again'",
    ],
)];

/// Numbers.
const NUMBERS: &[Row<'static>] = &[
    (
        "invalid type: floating point `-0`, expected an integer",
        &[
            r#"{"whole":^-0}"#,
            r#"{"small":^-0}"#,
            r#"{"counts":[1,^-0]}"#,
            r#"{"left":{"max-age":^-0}}"#,
            r#"{"wide":^-0}"#,
        ],
    ),
    (
        "invalid type: floating point `-0.0`, expected an integer",
        &["whole = ^-0.0", r#"{"whole":^-0.0}"#],
    ),
    (
        "invalid type: floating point `1E5`, expected an integer",
        &[r#"{"counts":[^1E5]}"#],
    ),
    (
        "invalid value: integer `300`, expected an integer in range",
        &[
            r#"{"small":^300}"#,
            "small = ^300",
            r#"{"point":[^300,"1s"]}"#,
        ],
    ),
    (
        "number out of range",
        &["\n\n{\"ratio\":\n^1e400\n}\n", r#"{"ratio":^-1e999}"#],
    ),
];

/// Names that no key stands for.
const NAMES_WITHOUT_A_KEY: &[Row<'static>] = &[
    (
        "unknown variant `Kept`, expected `Shown` or `Seen`",
        &[
            r#"{"hidden":^"Kept"}"#,
            "hidden = ^'Kept'",
            r#"{"hidden":{^"Kept":null}}"#,
        ],
    ),
    (
        "unknown field `Note`, expected `RowNumber` or `Word`",
        &[r#"{"cell":{^"Note":1}}"#, "cell.^Note = 1"],
    ),
    (
        "unknown field `x`, expected `speed` or `word`",
        &[
            r#"{"event":{"kind":"START","speed":"fast",^"x":1}}"#,
            "[event]\nkind = 'START'\nspeed = 'fast'\n^x = 1",
        ],
    ),
    (
        "unknown field `x`, expected `kind` or `of`",
        &[
            r#"{"step":{"kind":"no_step",^"x":1}}"#,
            "step = { kind = 'no_step', ^x = 1 }",
        ],
    ),
];

/// What is not JSON has no other error.
const NO_JSON: &[Row<'static>] = &[
    ("key must be a string", &[r#"{"whole":"x", ^y}"#]),
    (
        "trailing comma",
        &[
            r#"{"whole":true,"a":[1,^]}"#,
            r#"{"whole":1.5,^}"#,
            r#"{"whole":true,^]}"#,
        ],
    ),
    ("EOF while parsing", &[r#"{"whole":true^"#]),
    (
        "trailing characters",
        &[r#"{"whole":true} ^x"#, r#"{"whole":true}^}"#],
    ),
    ("expected value", &[r#"{"speed":"quick","a":^nul}"#]),
    ("expected `:`", &[r#"{"word":5,"a"^}"#]),
    ("invalid string", &[r#"{"word":5,"a":"\^q"}"#]),
];

#[test]
fn keys_twice(rt: HostRuntime) -> Result<(), Fail> {
    assert_errors(&rt, reads!(Config), &[], KEYS_TWICE)
}

#[test]
fn flattened_structs(rt: HostRuntime) -> Result<(), Fail> {
    assert_errors(&rt, reads!(Config), &[], FLATTENED_STRUCTS)
}

#[test]
fn variants_by_hand(rt: HostRuntime) -> Result<(), Fail> {
    assert_errors(&rt, reads!(Config), &[], VARIANTS_BY_HAND)
}

#[test]
fn maps_by_hand(rt: HostRuntime) -> Result<(), Fail> {
    assert_errors(&rt, reads!(Config), &[], MAPS_BY_HAND)
}

#[test]
fn values_that_are_looked_at(rt: HostRuntime) -> Result<(), Fail> {
    assert_errors(&rt, reads!(Config), &[], VALUES_THAT_ARE_LOOKED_AT)
}

#[test]
fn values_rejected_after_reading(rt: HostRuntime) -> Result<(), Fail> {
    assert_eq!(rt; from_json::<Written>(rt.alloc(), "\n\"70\"")?.0, 70);
    let config: Config = from_toml(rt.alloc(), "\nwritten = '70'")?;
    assert_eq!(rt; config.written.as_ref().map(|number| number.0), Some(70));
    assert_errors(&rt, reads!(Config), &[], VALUES_REJECTED_AFTER_READING)
}

#[test]
fn strings_that_lack_a_part(rt: HostRuntime) -> Result<(), Fail> {
    assert_errors(&rt, reads!(Config), &[], STRINGS_THAT_LACK_A_PART)
}

#[test]
fn numbers(rt: HostRuntime) -> Result<(), Fail> {
    assert_errors(&rt, reads!(Config), &[], NUMBERS)
}

#[test]
fn names_without_a_key(rt: HostRuntime) -> Result<(), Fail> {
    assert_errors(&rt, reads!(Config), &[], NAMES_WITHOUT_A_KEY)
}

#[test]
fn no_json(rt: HostRuntime) -> Result<(), Fail> {
    assert_errors(&rt, reads!(Config), &[], NO_JSON)
}
