//! Wrong values below each attribute of `serde`, in TOML and in JSON.

use crate::support::{UNITS, Wait, assert_table, reads};
use humantime::{StdDuration, SystemTime};
use humantime_settings::AsText;
use serde::Deserialize;
use std::collections::BTreeMap;
use std::test::Fail;

#[derive(Debug, Drop, Deserialize)]
struct All {
    server: Option<Server>,
    inside: Option<Inside>,
    beside: Option<Beside>,
    mode: Option<Mode>,
    either: Option<Either>,
    eithers: Option<Vec<Either>>,
    plain: Option<Vec<Plain>>,
    flat: Option<Flat>,
    sizes: Option<Sizes>,
    counts: Option<BTreeMap<i64, Wait>>,
    flags: Option<BTreeMap<u8, bool>>,
}

#[derive(Debug, Drop, Deserialize)]
#[serde(rename_all = "kebab-case", deny_unknown_fields)]
struct Server {
    #[serde(with = "humantime_settings")]
    max_age: StdDuration,
    #[serde(rename = "listen.on")]
    address: String,
    #[serde(alias = "tries", default = "three")]
    retries: u8,
    #[serde(default, with = "humantime_settings")]
    idle_time: Option<StdDuration>,
    weight: Option<f32>,
    is_open: Option<bool>,
    letter: Option<char>,
    pair: Option<(u32, u32)>,
    both: Option<[u8; 2]>,
}

fn three() -> u8 {
    3
}

#[derive(Debug, Drop, Deserialize)]
#[serde(tag = "kind", rename_all = "snake_case", rename_all_fields = "kebab-case")]
enum Inside {
    OneTime { max_wait: Wait, tries: Option<u8> },
    Never,
    #[serde(rename = "many times")]
    Many { of: Vec<Wait> },
}

#[derive(Debug, Drop, Deserialize)]
#[serde(tag = "kind", content = "of")]
enum Beside {
    One(Wait),
    Many(Vec<Wait>),
    Named { first: Wait },
    Nothing,
}

#[derive(Debug, Drop, Deserialize)]
#[serde(rename_all = "kebab-case")]
enum Mode {
    FullSpeed,
    SlowDown(u32),
    #[serde(alias = "off")]
    TurnedOff { since: AsText<SystemTime> },
}

#[derive(Debug, Drop, Deserialize)]
enum Plain {
    One(Wait),
    Four,
}

#[derive(Debug, Drop, Deserialize)]
#[serde(untagged)]
enum Either {
    Wait(Wait),
    Waits(Vec<Wait>),
    Count(u32),
}

#[derive(Debug, Drop, Deserialize)]
#[serde(rename_all = "kebab-case")]
struct Flat {
    full_name: String,
    #[serde(flatten)]
    limits: Limits,
}

#[derive(Debug, Drop, Deserialize)]
#[serde(rename_all = "camelCase")]
struct Limits {
    max_wait: Wait,
    min_wait: Wait,
}

#[derive(Debug, Drop, Default, Deserialize)]
#[serde(default)]
struct Sizes {
    wait: Wait,
    size: u32,
}

const WRONG: &str = r#"
    // `rename`, `rename_all` and `deny_unknown_fields`.
    unknown field `max_age`, expected one of FIELDS
        [server]¶^max_age = '1s'
        {"server":{^"max_age":"1s"}}
    unknown field `address`, expected one of FIELDS
        [server]¶^address = ''
        {"server":{ ^"address" : ""}}
    unknown field `listen`, expected one of FIELDS
        server.max-age = '1s'¶server.^listen.on = ''
        {"server":{"max-age":"1s",^"listen":{"on":""}}}
    unknown field `LONG`, expected one of FIELDS
        server.^'LONG' = 1
        {"server":{^"LONG":1}}
    unknown field `wiat`, expected one of FIELDS
        [server.^wiat]¶
        {"server":{^"wiat":{}}}
    missing field `max-age`
        ^[server]¶'listen.on' = ''¶
        {"server":{"listen.on":""^}}
    missing field `listen.on`
        server = ^{ max-age = '1s' }
        {"server":{"max-age":"1s"^}}
        server = ^['1s']
        {"server":["1s"^]}
    invalid character at 1
        server.max-age = '1^~^'
        {"server":{"max-age":"1^~^"}}
    invalid type: integer `7`, expected a string
        [server]¶'listen.on' = ^7
        {"server":{"listen.on":^7}}
    invalid type: datetime, expected a string
        [server]¶'listen.on' = ^07:32:00
    expected a duration in quotes
        [server]¶max-age = ^1979-05-27
        {"server":{"max-age":^["1s"]}}
    value was empty
        [server]¶max-age = '1s'¶idle-time = '^'
        {"server":{"idle-time":"^"}}
    // `alias`, and `default` with a function.
    duplicate field `tries`
        [server]¶retries = 1¶^tries = 2
        {"server":{"retries":1,^"tries":2}}
        [server]¶^tries = 1¶retries = 2
    invalid value: integer `256`, expected an integer in range
        [server]¶tries = ^256
        {"server":{"tries":^256}}
    invalid value: integer `-1`, expected an integer in range
        [server]¶retries = ^-1
        {"server":{"retries":^-1}}
    invalid type: string "three", expected an integer
        [server]¶retries = ^'three'
        {"server":{"retries":^"three"}}
    invalid type: floating point `1.5`, expected an integer
        [server]¶retries = ^1.5
        {"server":{"retries":^1.5}}
    invalid type: datetime, expected an integer
        [server]¶retries = ^1979-05-27
    invalid type: null, expected an integer
        {"server":{"retries":^null}}
    // Values of other types.
    invalid type: string "a", expected f32
        [server]¶weight = ^'a'
        {"server":{"weight":^"a"}}
    invalid type: integer `1`, expected a boolean
        [server]¶is-open = ^1
        {"server":{"is-open":^1}}
    invalid value: string "ab", expected a character
        [server]¶letter = ^'ab'
        {"server":{"letter":^"ab"}}
    invalid type: boolean `true`, expected a character
        [server]¶letter = ^true
        {"server":{"letter":^true}}
    invalid length 0
        server.pair = ^[]
        {"server":{"pair":^[]}}
    invalid length 1
        server.pair = ^[1]
        {"server":{"pair":^[1]}}
    invalid length 4, expected a tuple of size 2
        server.pair = ^[1, 2, 3, 4]
        {"server":{"pair":^[1,2,[],4]}}
    invalid length 300, expected a tuple of size 2
        server.pair = ^[«1, *299»1]
        {"server":{"pair":^[«1,*299»1]}}
    invalid type: string "2", expected an integer
        server.pair = [1, ^'2']
        {"server":{"pair":[1,^"2"]}}
    invalid length 3
        server.both = ^[1, 2, 3]
        {"server":{"both":^[1,2,3]}}
    invalid type: string "x", expected a map
        server = ^'x'
        {"server":^"x"}
    invalid type: datetime, expected a map
        server = ^1979-05-27
        inside = ^1979-05-27 07:32:00
        mode = ^1979-05-27
    invalid type: boolean `true`, expected a map
        server = ^true
        {"server":^true}
    invalid length 10, expected a tuple of size 9
        server = ^['1s', '', 3, '1s', 1, true, 'a', [1, 2], [1, 2], 0]
        {"server":^["1s","",3,null,1,true,"a",[1,2],[1,2],0]}
    expected a duration in quotes
        ^[[server]]¶max-age = '1s'
        {"server":[^{"max-age":"1s"}]}
    // `tag`.
    unknown variant `twice`, expected one of KINDS
        inside = { kind = ^'twice' }
        {"inside":{"kind":^"twice"}}
    unknown variant `OneTime`, expected one of KINDS
        [inside]¶kind = ^'OneTime'¶max-wait = '1s'
        {"inside":{"max-wait":"1s","kind":^"OneTime"}}
    unknown variant `Many`, expected one of KINDS
        inside.kind = ^'Many'
        {"inside":{"kind" : ^"Many" , "of":[]}}
    missing field `kind`
        inside = ^{ max-wait = '1s' }
        {"inside":{"max-wait":"1s"^}}
        beside = ^{ of = [] }
        {"beside":{"of":[]^}}
    invalid type: integer `5`, expected variant identifier
        [inside]¶kind = ^5
        {"inside":{"kind":^5}}
    missing field `max-wait`
        ^[inside]¶kind = 'one_time'
        {"inside":{"kind":"one_time"^}}
    invalid character at 1
        [inside]¶kind = 'one_time'¶max-wait = '1^~^'
        {"inside":{"max-wait":"1^~^","kind":"one_time"}}
    invalid value: integer `300`, expected an integer in range
        [inside]¶kind = 'one_time'¶max-wait = '1s'¶tries = ^300
        {"inside":{"kind":"one_time","max-wait":"1s","tries":^300}}
    expected a duration in quotes
        inside = { kind = 'many times', of = ['1s', ^2] }
        {"inside":{"of":["1s",^2],"kind":"many times"}}
    invalid type: string "never", expected a map
        inside = ^'never'
        {"inside":^"never"}
    invalid type: floating point `7.5`, expected a map
        inside = ^7.5
        {"inside":^7.5}
    duplicate field `kind`
        {"inside":{"kind":"never",^"kind":"never"}}
    // `tag` and `content`.
    unknown variant `two`, expected one of VARIANTS
        beside = { kind = ^'two', of = [] }
        {"beside":{"kind":^"two","of":[]}}
    unknown variant `many`, expected one of VARIANTS
        [beside]¶of = []¶kind = ^'many'
        {"beside":{"of":[],"kind":^"many"}}
    invalid type: integer `7`, expected variant identifier
        beside = { kind = ^7, of = [] }
        {"beside":{"of":[],"kind":^7}}
    missing field `of`
        beside = ^{ kind = 'Many' }
        {"beside":{"kind":"Many"^}}
        ^[beside]¶kind = 'Named'
        {"beside":{"kind":"Named"^}}
    expected a duration in quotes
        beside = { kind = 'One', of = ^5 }
        {"beside":{"of":^5,"kind":"One"}}
    invalid type: string "1s", expected a sequence
        beside = { kind = 'Many', of = ^'1s' }
        {"beside":{"kind":"Many","of":^"1s"}}
    invalid character at 1
        beside = { kind = 'Many', of = ['1s', '2^~^'] }
        {"beside":{"kind":"Many","of":["1s","2^~^"]}}
        [beside]¶kind = 'Named'¶of.first = '1^~^'
        {"beside":{"of":{"first":"1^~^"},"kind":"Named"}}
    missing field `first`
        beside = { kind = 'Named', of = ^{} }
        {"beside":{"kind":"Named","of":{^}}}
    invalid type: integer `5`, expected unit
        beside = { kind = 'Nothing', of = ^5 }
        {"beside":{"kind":"Nothing","of":^5}}
    // No tag.
    unknown variant `fast`, expected one of MODES
        mode = ^'fast'
        {"mode":^"fast"}
    unknown variant `SlowDown`, expected one of MODES
        mode = { ^SlowDown = 1 }
        {"mode":{^"SlowDown":1}}
    unknown variant `turned`, expected one of MODES
        [mode.^turned]¶
        [[mode.^turned]]¶
        {"mode":{^"turned":{}}}
    unknown time unit "x", UNITS
        plain = [{ Four = {} }, { One = '2^x^' }]
        {"plain":[{"Four":null},{"One":"2^x^"}]}
    invalid type: unit variant, expected a variant with data
        mode = ^'slow-down'
        {"mode":^"slow-down"}
    invalid type: string "x", expected an integer
        mode = { slow-down = ^'x' }
        {"mode":{"slow-down":^"x"}}
    invalid type: integer `1`, expected unit
        mode.full-speed = ^1
        {"mode":{"full-speed":^1}}
    wanted exactly 1 element, found 0 elements
        mode = ^{}
        {"mode":{^}}
    wanted exactly 1 element, more than 1 element
        mode = { full-speed = {}, ^slow-down = 1 }
        {"mode":{"full-speed":null,^"slow-down":1}}
    expected a timestamp in quotes
        mode.turned-off.since = ^5
        {"mode":{"turned-off":{"since":^5}}}
    numeric component is out of range
        [mode.off]¶since = '2018-02-^30^ 00:00:00'
        {"mode":{"off":{"since":"2018-02-^30^ 00:00:00"}}}
    missing field `since`
        ^[mode.off]¶
        {"mode":{"off":{^}}}
    invalid type: sequence, expected a map
        mode = ^[1]
        {"mode":^[1]}
    // `untagged`.
    data did not match any variant of untagged enum
        either = ^'1h 2parsecs'
        {"either":^"1h 2parsecs"}
        either = ^-1
        {"either":^-1}
        either = ^['1s', 5]
        {"either":^["1s",5]}
        either = ^['1h', '1h 2parsecs']
        {"either":^["1h","1h 2parsecs"]}
        eithers = ['1s', ^'x', 5]
        {"eithers":["1s",^"x",5]}
        eithers = [['1s'], ^['1s', ['2s']]]
        {"eithers":[["1s"], ^["1s",["2s"]]]}
        ^[[eithers]]¶x = 1¶[[eithers]]¶
        {"eithers":[1,^{"x":1}]}
    // `flatten`.
    missing field `maxWait`
        flat = ^{ full-name = 'a' }
        {"flat":{"full-name":"a"^}}
        ^[flat]¶full-name = 'a'¶max_wait = '1s'¶minWait = '1s'
        {"flat":{"full-name":"a","max_wait":"1s","minWait":"1s"^}}
    missing field `full-name`
        ^[flat]¶maxWait = '1s'¶minWait = '1s'
        {"flat":{"maxWait":"1s","minWait":"1s"^}}
    invalid character at 1
        [flat]¶full-name = 'a'¶maxWait = '1^~^'¶minWait = '1s'
        {"flat":{"full-name":"a","maxWait":"1^~^"}}
    expected a duration in quotes
        [flat]¶full-name = ''¶maxWait = ^5
        {"flat":{"maxWait":^5,"full-name":""}}
    invalid type: integer `5`, expected a string
        flat = { full-name = ^5, maxWait = '' }
        {"flat":{"maxWait":"","full-name":^5}}
    // `default` of a type, and keys that are no strings.
    invalid type: string "x", expected an integer
        sizes.size = ^'x'
        {"sizes":{"size":^"x"}}
        counts = { ^x = '1s' }
        {"counts":{^"x":"1s"}}
    expected number at 3
        [sizes]¶wait = '1h ^x^'
        {"sizes":{"size":1,"wait":"1h ^x^"}}
    invalid type: string "a", expected an integer
        [counts.^a]¶
        {"counts":{"1":"1s",^"a":{}}}
    invalid character at 1
        [counts]¶'+5' = '1^~^'
        {"counts":{"-5":"1^~^"}}
    invalid value: string "300", expected an integer in range
        flags = { ^300 = true }
        {"flags":{^"300":true}}
    invalid type: string "yes", expected a boolean
        flags.7 = ^'yes'
        {"flags":{"7":^"yes"}}
"#;

/// The names of the fields and variants above, one that is unknown, and the end of a message.
const NAMES: &[(&str, &str)] = &[
    (
        "FIELDS",
        "`max-age`, `listen.on`, `retries`, `idle-time`, `weight`, `is-open`, `letter`, `pair`, `both`",
    ),
    ("KINDS", "`one_time`, `never`, `many times`"),
    ("VARIANTS", "`One`, `Many`, `Named`, `Nothing`"),
    ("MODES", "`full-speed`, `slow-down`, `turned-off`"),
    UNITS,
    ("LONG", "«k*70».«k*30»"),
];

#[test]
fn wrong_values(rt: HostRuntime) -> Result<(), Fail> {
    assert_table(&rt, reads!(All), NAMES, WRONG)
}
