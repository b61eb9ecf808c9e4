//! Documents with errors, in JSON and in TOML.

use crate::drawn::Table;
use crate::support::{
    Row, UNITS, Wait, assert_errors, assert_read, difference, filled, reader, reads,
};
use humantime::{Duration, StdDuration, SystemTime, Timestamp};
use humantime_settings::{AsText, SettingsError};
use serde::Deserialize;
use std::collections::BTreeMap;
use std::test::Fail;

#[derive(Debug, Drop, Deserialize)]
#[serde(deny_unknown_fields)]
struct Job {
    #[serde(alias = "label")]
    name: String,
    #[serde(with = "humantime_settings")]
    every: StdDuration,
    #[serde(with = "humantime_settings")]
    since: SystemTime,
    #[serde(default, with = "humantime_settings")]
    keep: Option<Duration>,
}

#[derive(Debug, Drop, Deserialize)]
struct Jobs {
    #[serde(alias = "limit", with = "humantime_settings")]
    timeout: StdDuration,
    job: Job,
    more: Option<Vec<Job>>,
    pauses: Option<Vec<Wait>>,
    days: Option<BTreeMap<String, AsText<SystemTime>>>,
    #[serde(default, with = "humantime_settings")]
    waits: Vec<StdDuration>,
    #[serde(default, with = "humantime_settings")]
    ends: BTreeMap<String, SystemTime>,
    #[serde(default, with = "humantime_settings")]
    limits: BTreeMap<String, Duration>,
    #[serde(default, with = "humantime_settings")]
    zone: Option<Timestamp>,
    counts: Option<Vec<i64>>,
    pairs: Option<Vec<Vec<i64>>>,
    #[serde(rename = "more.every")]
    note: Option<String>,
}

/// The job of a document in TOML, and in JSON, the ends of some messages, and the names of fields
/// and variants.
const NAMES: &[(&str, &str)] = &[
    (
        "JOB",
        "[job]\nname = \"5µs x\"\nevery = \"1d\"\nsince = \"2018-02-14T00:28:07Z\"",
    ),
    (
        "OBJECT",
        r#"{"name": "é ", "every": "5us", "since": "2018-02-14T00:28:07Z"}"#,
    ),
    UNITS,
    (
        "PRECISION",
        "a lack of precision (values below 1ns are not supported)",
    ),
    ("MODES", "`Fast` or `Slow`"),
    (
        "FIELDS",
        "one of `counts`, `waits`, `texts`, `part`, `outers`, `mode`, `modes`, `wait`, `pair`, \
        `rates`, `either`, `eithers`, `numbers`, `mixed`",
    ),
];

/// Some documents have characters of several bytes before the error, which an offset in a message
/// counts in bytes, and a column in characters. In some there is a wrong value that is not asked
/// for, after a key that is nearly that of the error, or the same in another table, or with the
/// same text. What is not JSON or TOML has no other error.
const ERRORS: &[Row<'static>] = &[
    (
        "time unit needed, for example 7sec or 7ms",
        &[
            r#"{"timeout":"2h 7^","job":{"name":"é","every":"1d","since":"2018-02-14T00:28:07Z"}}"#,
            "timeout = \"2h 7^\"\nJOB",
        ],
    ),
    (
        "timestamp format is invalid",
        &[
            "{\n  \"timeout\": \"2h\",\n  \"job\": OBJECT,\n\t\"zone\": \"^\"\n}",
            r#"{"timeout":"2h","days":{"a":"2018-02-14 00:28:07","b":"1^h^"}}"#,
            "zone = '1^h^'\ntimeout = '2h'\nJOB",
            "timeout = '1s'\ndays.a = '2018-02-14 00:28:07'\ndays . \"b\" = '2018-02-14^'\nJOB",
            "timeout = '1s'\npauses = ['1s', '2s']\nzone = '1^h^'\nJOB",
            "timeout = '1s'\ndays = { a = '2018-02-14 00:28:07' }\nzone = '1^h^'\nJOB",
            "timeout = '1s'\nJOB\n[ \t\"days\" ] # days\na = '1^h^'\n",
            "timeout = '1s'\nJOB\n[x.job]\nevery = '1~'\n[x.days]\na = '1h'\n[days]\na = '2^h^'\n",
        ],
    ),
    (
        "expected number at 5",
        &[
            "{\n  \"timeout\": \"2h\",\n  \"job\": {\"name\": \"é 5µs x\", \"every\": \"5µs ^x^\", \
            \"since\": \"2018-02-14T00:28:07Z\"}\n}",
            "# every = '5µs x'\ntimeout = '2h'\nJOB\n[[more]]\nname = 'a'\nevery = '5µs ^x^'\n\
            since = ''",
        ],
    ),
    (
        "numeric component is out of range",
        &[
            "{\n  \"timeout\": \"2h\",\n  \"job\": {\"name\": \"é \", \"every\": \"5us\", \
            \"since\": \"2018-02-^30^T00:28:07Z\"}\n}",
            "timeout = '2h'\nJOB\n[[more]]\nname = 'a'\nevery = '1s'\nsince = '2018-02-14 \
            00:28:07'\n[[more]]\nname = 'a'\nevery = '1s'\nsince = '2018-02-^30^ 00:28:07'\n",
        ],
    ),
    (
        "expected a duration in quotes",
        &[
            "{\n  \"timeout\": ^2,\n  \"job\": OBJECT\n}",
            r#"{"timeout":^null}"#,
            r#"{"waits":["1s",^null]}"#,
            r#"{"x":["a,b","{","}"],"y":",","waits":["1s",^null]}"#,
            "timeout = ^30\nJOB",
            "timeout = ^[ '2h' ]\nJOB",
            "timeout = '2h'\npauses = [ '1s', ^2, '3s' ]\nJOB",
            "timeout = ^{ a = '2h' }\nJOB",
            "timeout = '2h'\npauses = [ '1s', ^[ '2s' ], [ '3s' ] ]\nJOB",
            "timeout = '2h'\nJOB\n^[[pauses]]\na = '1s'\n",
            "timeout = ^inf\nJOB",
            "timeout = '2h'\nJOB\nkeep = ^-nan # null\n",
            "timeout = '2h'\n'job.every' = 5\n[job]\nname = 'a'\nevery = ^7\nsince = '2018-02-14 \
            00:28:07'",
            "timeout = '2h'\n[job]\nname = 'a'\nevery = ^7\nsince = '2018-02-14 00:28:07'\n\
            ['job.every']",
            "timeout = '2h'\n'more.every' = 5\nJOB\n[[more]]\nname = 'a'\nsince = '2018-02-14 \
            00:28:07'\n^[more.every]",
            "timeout = '2h'\n[\tjob\t]\nname = 'a'\nevery = ^7\nsince = '2018-02-14 00:28:07'",
            "waits = ['1s', ^2]",
            "[limits]\n^a.b = '1s'\n",
        ],
    ),
    (
        "invalid character at 5",
        &[
            "{\n  \"timeout\": \"2h\",\n  \"job\": {\"name\": \"é \", \"every\": \"5us\", \
            \"since\": \"2018-02-14T00:28:07Z\", \"keep\": \"\\u0031h\\t2 ^\\\"^\"}\n}",
            "timeout = \"\\u0031d\\t2 ^~^\"\nJOB",
        ],
    ),
    (
        "invalid character at 2",
        &[
            r#"{"timeout":"2h","pauses":["1s","2s","1 ^é^"],"job":{}}"#,
            "timeout = '1s'\npauses = [ '1s', # '1 é'\n '2s' , '1 ^é^' ]\nJOB",
            "timeout = '2h'\n'more.every' = 'x'\nJOB\n[[more]]\nname = 'a'\nevery = '5 ^é^'\nsince \
            = '2018-02-14 00:28:07'\n",
        ],
    ),
    (
        "number is too large or cannot be represented without PRECISION",
        &[r#"{"timeout":"1h ^1.5ns^"}"#, "timeout = '^1.5ns^'\nJOB"],
    ),
    (
        "expected number at 3",
        &[
            "{\r\n\r\n\r\n\r\n\"pauses\":[\"1s\",\"1h ^x^\"]}",
            r#"{"timeout":"1s ^\\^"}"#,
            "timeout = \"\"\"1s \\\n\\\n ^~^\"\"\"\nJOB",
            "timeout = \"\"\"1s ^~^\\\n \"\"\"\nJOB",
            "\u{feff}# a comment\ntimeout = '1h ^x^'\nJOB",
            "\u{feff}timeout = '1h ^x^'\nJOB",
        ],
    ),
    (
        "expected a timestamp in quotes",
        &[
            r#"{"timeout":"2h","days":{"a":^null}}"#,
            r#"{"timeout":"2h","zone":^90}"#,
            r#"{"ends":{"a":^1}}"#,
            "timeout = '2h'\nzone = ^2018-02-14 00:28:07Z # UTC\nJOB",
            "timeout = '2h'\nx = [nan, ',null,', -inf]\nnull = [[nan], inf]\nzone = ^5\nJOB",
            "timeout = '2h'\nends.a = ^['2018-02-14 00:28:07']\nJOB",
        ],
    ),
    (
        "invalid type: boolean `true`, expected an integer",
        &[
            r#"{"timeout":"2h","counts":[1,^true]}"#,
            "timeout = '2h'\ncounts = [ 1, ^true, 2.5 ]\nJOB",
        ],
    ),
    (
        "invalid type: null, expected an integer",
        &[r#"{"timeout":"2h","counts":[1, ^null]}"#],
    ),
    (
        r#"invalid type: string "2", expected an integer"#,
        &[r#"{"timeout":"2h","counts":[^"2"]}"#],
    ),
    (
        "invalid type: sequence, expected an integer",
        &[
            r#"{"timeout":"2h","counts":[^[2]]}"#,
            "timeout = '2h'\ncounts = [1, ^[2]]\nJOB",
            "timeout = '2h'\ncounts = [1, ^[[2], 3], [4]]\nJOB",
            "timeout = '2h'\npairs = [[1], [1, 2], [^[1], 2], [[3]]]\nJOB",
        ],
    ),
    (
        "invalid type: map, expected a sequence",
        &[
            r#"{"timeout":"2h","counts": ^{}}"#,
            "timeout = '2h'\nJOB\n^[counts]\na = 1\n",
        ],
    ),
    (
        "invalid type: integer `-7`, expected a string",
        &[r#"{"timeout":"2h","more.every":^-7}"#],
    ),
    (
        "invalid type: boolean `false`, expected a map",
        &[r#"{"timeout":"2h","job":^false}"#],
    ),
    (
        "invalid value: integer `9223372036854775808`, expected an integer in range",
        &[r#"{"counts":[1, ^9223372036854775808 ]}"#],
    ),
    (
        "invalid value: integer `-9223372036854775809`, expected an integer in range",
        &[r#"{"counts":[^-9223372036854775809]}"#],
    ),
    (
        "duplicate field `timeout`",
        &[
            "{\"timeout\":\"2h\",\n ^\"timeout\" :\n\"2h\"}",
            r#"{"timeout":"2h",^"time\u006fut":"\""}"#,
            r#"{"limit":"1s",^"timeout":"2h"}"#,
            "^timeout = '2h'\nlimit = '1s'\nJOB",
        ],
    ),
    (
        "duplicate field `name`",
        &[
            r#"{"job":{"name":"a",^"name":"b"}}"#,
            "job = { ^name = 'a', label = 'b' }",
        ],
    ),
    (
        "duplicate field `waits`",
        &[r#"{"waits":["1s"],^"waits":["2s"]}"#],
    ),
    (
        "duplicate field `ends`",
        &[r#"{"ends":{},^"ends":{"a":"2018-02-14 00:28:07"}}"#],
    ),
    (
        "unknown field `nmae\n`, expected one of `name`, `every`, `since`, `keep`",
        &["{\"timeout\":\"2h\",\n\"job\":{ ^\"nm\\u0061e\\n\":1}}"],
    ),
    (
        "missing field `since`",
        &[
            "{\n  \"timeout\": \"2h\",\n  \"job\": {\"name\": \"é\", \"every\": \"5us\"^}\n}",
            "timeout = '2h'\nJOB\n^[[more]]\nname = 'a'\nevery = '1s'\n",
        ],
    ),
    (
        "unknown field `nmae`, expected one of `name`, `every`, `since`, `keep`",
        &[
            "{\"timeout\":\"2h\",\n\"job\":{^\"nmae\":\"é\"}}",
            "timeout = '2h'\nJOB\n^nmae = 'a'\n",
        ],
    ),
    ("EOF while parsing", &[r#"{"timeout":"2h"^"#, "{^"]),
    (
        "invalid character at 4",
        &[r#"{"waits":["1s","2s 1^~^"]}"#, "waits = ['1s', '2s 1^~^']"],
    ),
    (
        r#"invalid type: string "1s", expected a sequence"#,
        &[r#"{"waits":^"1s"}"#, "timeout = '2h'\npauses = ^'1s'\nJOB"],
    ),
    (
        "invalid type: null, expected a sequence",
        &[r#"{"waits":^null}"#],
    ),
    (
        "expected number at 8",
        &["timeout = '2h'\nJOB\nkeep = '1h 5µs ^x^' # '1h'"],
    ),
    (
        "missing field `timeout`",
        &["^JOB", "^\u{feff}x = 1\n", "^", "^\n", "^#"],
    ),
    (
        "expected number at 4",
        &["timeout = '2h'\nmore = [\n  { name = 'b', # [\n    every = '1 s ^é^' },\n]\nJOB"],
    ),
    (
        "invalid character at 1",
        &[
            "\"timeout\" = '1^~^'\nJOB",
            "timeou = '1~'\ntimeout = '1^~^'\nJOB",
            "timeouts = '1~'\ntimeout = '1^~^'\nJOB",
            "timeou = '1~'\ntimeouts = '1~'\ntime.out = '1~'\ntimeout = '1^~^'\nJOB",
            "time.out = '1~'\ntimeout = '1^~^'\nJOB",
            "x = 1 # y, ['\ny = { a = 1.5, b = true } # ]\nz = [1, 2] # {\ntimeout = '1^~^'\nJOB",
            "x = 7\r\ny = true\r\ntimeout = '1^~^'\r\nJOB",
            "timeout = '2h'\n'job.every' = '1~'\n[job]\nname = 'a'\nevery = '1^~^'\nsince = \
            '2018-02-14 00:28:07'",
            "timeout = '2h'\n'more.every' = '1~'\nJOB\n[[more]]\nname = 'a'\nevery = '1^~^'\nsince \
            = '2018-02-14 00:28:07'\n",
            "[limits]\n'$a' = '1^~^'\n",
            "Timeout = '1~'\ntimeout = '2^~^'\nJOB",
            "waits = []\n[limits]\na = '1s'\nb = '1^~^'\n",
        ],
    ),
    (
        "expected number at 6",
        &["timeout = \"\"\"\n1s\n2s ^x^\"\"\"\nJOB"],
    ),
    (
        r#"unknown time unit "x", UNITS"#,
        &["more = []\nx = [[1, 2], [{ y = 3 }]]\ntimeout = '1^x^'\nJOB"],
    ),
    (
        "invalid type: sequence, expected a string",
        &["timeout = '2h'\nJOB\n^[['more.every']]\n[['more.every']]\n"],
    ),
    (
        "invalid type: floating point `2.5`, expected an integer",
        &["timeout = '2h'\ncounts = [ 1, ^2.5, true ]\nJOB"],
    ),
    (
        "invalid type: floating point `2.0`, expected an integer",
        &[
            "timeout = '2h'\ncounts = [ 1, ^2.0, true ]\nJOB",
            "timeout = '2h'\ncounts = [1, ^2.0]\nJOB",
        ],
    ),
    (
        "invalid type: map, expected an integer",
        &["timeout = '2h'\ncounts = [ 1, ^{ a = 1 } ]\nJOB"],
    ),
    (
        "invalid type: datetime, expected an integer",
        &["timeout = '2h'\ncounts = [ 1, ^1979-05-27 ]\nJOB"],
    ),
    (
        "invalid type: integer `-1`, expected a sequence",
        &["timeout = '2h'\npairs = [[1], ^-1]\nJOB"],
    ),
    (
        "invalid type: integer `1`, expected a sequence",
        &["timeout = '2h'\npairs = [[1], ^1, [true]]\nJOB"],
    ),
    (
        "invalid type: floating point `99.5`, expected an integer",
        &["timeout = '2h'\ncounts = [0x1F, +1_0, -2, ^9_9.5]\nJOB"],
    ),
    (
        "invalid type: integer `5`, expected a string",
        &[
            "timeout = '2h'\n'job.name' = 5\n[job]\nname = ^5\n",
            "timeout = '2h'\n'more.every' = ^5\nJOB\n[[more]]\nname = 'a'\nevery = '1s'\nsince = \
            '2018-02-14 00:28:07'\n",
        ],
    ),
    ("invalid string", &["timeout = \"2h^\nJOB"]),
    (
        "unexpected key or value, expected newline, `#`",
        &["timeout = 1 ^2\nJOB", "x = 1.5 ^2 # 3"],
    ),
    (
        "duplicate key",
        &[
            "timeout = '2h'\n^timeout = '2h'\nJOB",
            "a.b = 1\na.^b = 2",
            "'a'.\"b.c\" = 1\n  a . ^'b.c' = 2",
            "[x.y]\n[ x . ^y ]\n",
            "[[x]]\n[^x]\n",
        ],
    ),
    // A dotted key extends neither a table with a header nor a list of tables.
    (
        "duplicate key",
        &[
            "[a.b]\n[a]\nc.d = 1\n^b.c = 1",
            "['a' . \"b.c\"]\n[a]\n\t^'b.c' . d.e = 1",
            "[[a.b]]\n[a]\n^b.c = 1",
            "[a.b.c]\n[a.b]\n^c.d = 1",
            "[x]\na.b.c = 1\na.b.d = 2\na . b . ^c = 3\n",
            "a = 1\n[b]\nc = { d.e = 1, d.^e = 2 }",
        ],
    ),
    (
        "invalid type: sequence, expected a map",
        &["limits = ^['1s']"],
    ),
    (
        "cannot extend a value with a dotted key",
        &[
            "a = 1\n^a.b = 2",
            "a = 1\n^a.b = [\n2,\n]",
            "a.b = 1\na.^b.c = 2",
            "x = [{ a.b = 1, a.^b.c = 2 }]\n[y]\n",
            "a = {}\n[^a.b]\n",
            "a.b = 1\n[a.^b.c.d]\n",
            "a.b = []\n[[ a . ^b . c ]]\n",
        ],
    ),
    // Errors after much else, or in much else. In JSON the object and 126 arrays are passed, and
    // no more. In TOML a list is right, and its item is not, however many are in it; at 80 the
    // document is rejected.
    (
        "invalid character at 10001",
        &[
            r#"{"timeout":"«\t*10000»1^~^"}"#,
            r#"timeout = "«\t*10000»1^~^""#,
        ],
    ),
    (
        "invalid character at 1",
        &[
            "others = [«'1s', *5000»'1s']\ntimeout = '1^~^'\nJOB",
            "timeout = '1s'\nwaits = [«'1s', *5000»'1^~^', '2~', '1~', '1~']\nJOB",
            "timeout = '1s'\nJOB\n«[[more]]\nname = 'a'\nevery = '1s'\nsince = '2018-02-14 \
            00:28:07'\n*250»[[more]]\nname = 'a'\nevery = '1^~^'",
        ],
    ),
    (
        "expected a duration in quotes",
        &[
            "{«\n*300»\"timeout\":^1}",
            r#"{"x":«[*126»«]*126»,"timeout":^1}"#,
            "timeout = '1s'\npauses = [^[]]\nJOB",
            "timeout = '1s'\npauses = [^«[*78»«]*78»]\nJOB",
        ],
    ),
    ("key must be a string", &[r#"{"timeout": 5, ^x}"#]),
    ("expected value", &[r#"{"timeout": "1m 9parsecs", "x": ^}"#]),
    (
        "recursion limit exceeded",
        &[r#"{"x":«[*126»^[]«]*126»,"timeout":1}"#],
    ),
    (
        "cannot recurse further; max recursion depth met",
        &["timeout = '1s'\npauses = «[*80»^[]«]*80»\nJOB"],
    ),
];

/// What any object is read as.
#[derive(Debug, Drop, Deserialize)]
struct Open {
    other: Option<u8>,
}

/// Texts that are not JSON.
const NO_JSON: &[Row<'static>] = &[
    (
        "expected `:`",
        &[
            r#"{"limit"^="1s"}"#,
            "{\"limit\"\n\t^\"1s\"}",
            r#"{"limit"^,"1s"}"#,
            "{\"limit\"\n^, 1}",
        ],
    ),
    (
        "expected `,` or `]`",
        &[
            r#"{"a":{},"b":[1,"2" ^3]}"#,
            r#"{"a":["b" ^: 1]}"#,
            r#"{"a":[1,2^}]"#,
        ],
    ),
    (
        "expected `,` or `}`",
        &[
            r#"{"a":{"b":true ^"c":1}}"#,
            r#"{"a":"b"^:1}"#,
            r#"{"a":{"b":1^]}"#,
        ],
    ),
    ("trailing comma", &["{\"a\":[1,\n^]}", r#"{"a":1 , ^}"#]),
    (
        "expected value",
        &[
            r#"{"a":^}"#,
            r#"{"a":[^,1]}"#,
            r#"{"a":[^}]"#,
            r#"{"a":^nul}"#,
            r#"{"a":[null,^'b']}"#,
        ],
    ),
    ("key must be a string", &["{^a:1}", r#"{"a":1,^2:3}"#]),
    (
        "invalid number",
        &[
            r#"{"a":0^1}"#,
            r#"{"a":-^}"#,
            r#"{"a":[1.^e5]}"#,
            r#"{"a":1e+^, "b":2}"#,
        ],
    ),
    (
        "invalid string",
        &[
            r#"{"a":"\^q"}"#,
            "{\"a\":\"^\n\"}",
            "{\"a\":\"1 ^\t2\"}",
            r#"{"a":"\\\u0031\^u12 "}"#,
            "{\"a\u{e9}^\u{1f}\":1}",
        ],
    ),
    ("trailing characters", &[r#"{"a":1} ^{}"#, r#"{"a":1}^,"#]),
    (
        "EOF while parsing",
        &[
            r#"{"a":[1,^"#,
            "{\"a\":{\"b\":1}\n^",
            r#"{"a":"b^"#,
            r#"{"a":"\u00^"#,
        ],
    ),
];

#[derive(Debug, Drop, Deserialize)]
struct Part {
    #[serde(with = "humantime_settings")]
    every: StdDuration,
    #[serde(default)]
    name: String,
}

#[derive(Debug, Drop, Deserialize)]
struct Outer {
    part: Part,
    #[serde(default)]
    inner: Vec<Part>,
}

#[derive(Debug, Drop, Deserialize)]
enum Mode {
    Fast,
    Slow(u32),
}

#[derive(Debug, Drop, Deserialize)]
#[serde(untagged)]
enum Either {
    Count(u32),
    Mode(Mode),
    Numbers(BTreeMap<i64, u32>),
}

#[derive(Debug, Drop, Deserialize)]
#[serde(deny_unknown_fields)]
struct Keyed {
    counts: Option<BTreeMap<Wait, u32>>,
    waits: Option<BTreeMap<Wait, Wait>>,
    texts: Option<BTreeMap<String, Wait>>,
    part: Option<Part>,
    outers: Option<Vec<Outer>>,
    mode: Option<Mode>,
    modes: Option<Vec<Mode>>,
    wait: Option<Wait>,
    pair: Option<(u32, u32)>,
    rates: Option<Vec<f32>>,
    either: Option<Either>,
    eithers: Option<Vec<Either>>,
    numbers: Option<Vec<BTreeMap<i64, Wait>>>,
    mixed: Option<Vec<BTreeMap<String, Either>>>,
}

/// Errors in keys, and in tables that keys make. Of a key and its value, the one that is read as a
/// duration is marked; if both are, the key is read first. A table that lacks a key begins at its
/// brace, at the first key that makes it, or at its header after that. The front part of a key is
/// marked where a table is wrong, or unknown.
const OF_KEYS: &[Row<'static>] = &[
    (
        "expected number at 3",
        &["[counts]\n'2s' = 1\n'1s ^~^' = 1\n"],
    ),
    (
        "time unit needed, for example 10sec or 10ms",
        &["counts = { 10^ = 1 }"],
    ),
    (
        "expected number at 0",
        &["counts.1s = 1\ncounts.'^~^' = 1", "texts.x = '^~^'"],
    ),
    (
        "invalid character at 1",
        &[
            "[ counts . '1^~^' ]\n",
            r#"counts."\u0031^~^" = 1"#,
            r#"{"counts":{"\u0031^~^":1}}"#,
            "counts.'1^~^'.x = 1\ncounts.'1~'.y = 1",
            "counts.'1^~^'.a = 1\ncounts.'1~'.b = 1\ncounts.'1~'.c = 1\ncounts.'1~'.d = 1\n\
            counts.'1~'.e = 1\ncounts.'1~'.f = 1\ncounts.'1~'.g = 1\ncounts.'1~'.h = 1\n\
            counts.'1~'.i = 1\n",
            "texts = { '$__toml_private_datetime' = '1^~^' }",
            r#"texts = { "a\nin `b" = '1^~^' }"#,
            "texts = { '1~' = '1^~^' }",
            "texts.'' = '1^~^'",
            "texts = { a = '1s', \"\" = '1^~^', b = '1s' }",
            "[[mixed]]\n[[numbers]]\n[texts]\n'' = '1^~^'\n",
            "waits = { '1^~^' = '1~' }",
            "waits = { '1~' = '1s', '1s' = '1^~^' }",
            "numbers = [{ 5 = '1s' }, { 5 = '1^~^' }]",
            "numbers = [{ '+5' = '1s' }, { '+5' = '1^~^' }]",
            "numbers = [{ 5 = '1s' } # ,\n, { 5 = '1^~^' }]",
        ],
    ),
    (
        "unknown field `part.every`, expected FIELDS",
        &["^'part.every' = 1"],
    ),
    (
        "missing field `every`",
        &[
            "part = ^{ name = 'a' }",
            "wait = '1s'\n^part.name = 'a'\npart.more = 1\n",
            "[^part.more]\n[part.most]\n",
            "[part.more]\n^[part]\nname = 'a'\n",
            "[[outers]]\npart.name = 'a'\npart.every = '1s'\n[[outers]]\n^part.name = 'b'\n",
            "[[outers]]\n^part.name = 'a'\n[[outers]]\npart.every = '1s'\n",
            "[[outers]]\n^part.name = 'a'\n[[outers]]\n[outers.part]\nevery = '1s'\n",
            "outers = [{ part.every = '1s' }, { ^part.name = 'b', part.x = 1 }]",
            "outers = [{ ^part.name = 'b' }]\npart = {}",
            "[[outers]]\npart.every = '1s'\n[[outers.inner]]\nevery = '1s'\n[[outers.inner]]\n\
            every = '2s'\n[[outers]]\npart.every = '1s'\n[[outers.inner]]\nevery = '3s'\n\
            ^[[outers.inner]]\nname = 'a'\n",
        ],
    ),
    (
        "missing field `part`",
        &[
            "outers = [{ part.every = '1s', part.name = 'b' }, ^{ x = 1 }]",
            "^[[outers]]\n[[outers]]\npart.every = '1s'\n",
        ],
    ),
    (
        "invalid type: map, expected an integer",
        &["[counts.^1s.x]\n[counts]\n2s = 1\n"],
    ),
    (
        "expected a duration in quotes",
        &[
            "^wait.x = 1\nwait.y = 2\n",
            "[^wait.x]\n",
            "part.^every.x = 1\n",
            "[texts]\n^''.'' = '1s'\n",
            "^[texts.\"\"]\n",
            "[[outers]]\npart.every = ^5\n[[outers]]\n[outers.part.every]\n",
            "mode = { Fast = {} }\nwait = ^5",
            "[[numbers]]\n007 = '1s'\n[[numbers]]\n007 = ^5",
            "numbers = [{ -0 = '1s' }, { -0 = ^5 }]",
        ],
    ),
    (
        "unknown field `wiat`, expected FIELDS",
        &["wait = '1s'\n^wiat.x = 1\n", "[^wiat.x]\n", "[^wiat]\n"],
    ),
    (
        "unknown variant `Slwo`, expected MODES",
        &[
            "mode = ^'Slwo'",
            "mode = { ^Slwo = 1 }",
            "mode.^Slwo = 1",
            "[mode]\n^Slwo = 1",
            "modes = ['Fast', ^'Slwo', 'Slwo']",
            "modes = ['Fast', ^'Slwo']",
            "modes = [^'Slwo', 'Fast', 'Fast']",
            "modes = ['Fast', ^'Slwo', 'Fast', 'Fast', 'Fast', 'Fast']",
            "modes = [^'Slwo', { Slwo = 1 }]",
            "modes = [{ Slow = 1 }, { ^Slwo = 2 }, { Slwo = 3 }]",
        ],
    ),
    (
        "invalid type: datetime, expected a map",
        &["counts = ^1979-05-27", "mode = ^1979-05-27"],
    ),
    (
        "data did not match any variant of untagged enum",
        &[
            "either = ^'x'",
            "^either.x = 1\neither.y = 2",
            "eithers = [1, ^'x', 2]",
            "^[[eithers]]\nx = 1\n[[eithers]]\nx = 1\n",
            "mixed = [{ a = { 5 = 1 } }, { a = ^'x' }]",
            "mixed = [{ a = { Fast = {} } }, { a = ^'x' }]",
            "mixed = [{ a = { '+5' = 1 } }, { a = ^'x' }]",
        ],
    ),
    (
        "invalid type: integer `5`, expected unit",
        &[
            "modes = [{ Fast = {} }, { Fast = ^5 }]",
            "modes = ['Fast', { Fast = ^5 }]",
        ],
    ),
    (
        r#"invalid type: string "1", expected f32"#,
        &["rates = [1e300, 1, -1e-300, inf, ^'1']"],
    ),
    (
        r#"invalid type: string "x", expected an integer"#,
        &[
            "numbers = [{ 5 = '1s' }, { ^x = '1s' }]",
            "numbers = [{ '+5' = '1s' }, { ^x = '1s' }]",
        ],
    ),
];

/// Errors of tables, each of which is right with an `s` in place of what is marked, or contains too
/// much in one another.
const LARGE_TABLES: &[Row<'static>] = &[
    (
        "invalid character at 4001",
        &[r#"{"wait":"« *4000»1^~^"}"#, "wait = '« *4000»1^~^'"],
    ),
    (
        "invalid character at 701",
        &[
            r#"{"wait":"«\u0020*700»1^~^"}"#,
            r#"wait = "«\u0020*700»1^~^""#,
        ],
    ),
    (
        "invalid character at 1",
        &[
            r#"{"named":{"«\u0020*700»":"1^~^"}}"#,
            r#"named."«\u0020*700»" = '1^~^'"#,
            r#"{"named":{«"key#":"1s",*300»"z":"1^~^"}}"#,
            "[named]\n«key# = '1s'\n*300»z = '1^~^'",
            r#"{"many":[«{},*1500»{"wait":"1^~^"}]}"#,
            "many = [«{},*1500»{ wait = '1^~^' }]",
            "«[[many]]\n*500»wait = '1^~^'",
        ],
    ),
    (
        "recursion limit exceeded",
        &[r#"{"x":«[*126»^«[*4000»"#, r#"«{"x":*127»^«{"x":*900»"#],
    ),
    (
        "cannot recurse further; max recursion depth met",
        &[
            "x = «[*80»^«[*4000»",
            "x = «{x=*80»^«{x=*1500»",
            "^«x.*2000»x = 1",
        ],
    ),
];

#[test]
fn errors_of_documents(rt: HostRuntime) -> Result<(), Fail> {
    assert_errors(&rt, reads!(Jobs), NAMES, ERRORS)?;
    // Texts of at most one byte, and a byte order mark, as JSON.
    let [_, json] = reads!(Jobs);
    assert_errors(
        &rt,
        [json; 2],
        &[],
        &[
            ("EOF while parsing", &["^", r#""^"#]),
            ("expected value", &["^}", "^\u{feff}{}", "^tru[", "[^nuLl]"]),
            (
                "trailing characters",
                &["1^x", "-0.5 ^2", "true^false", "\"a\"^:1", "[1]\n^,2"],
            ),
            ("invalid number", &["0^1", "[-0.5e^]"]),
            ("invalid type: integer `7`, expected a map", &["^7"]),
        ],
    )?;
    assert_errors(&rt, reads!(Open), &[], NO_JSON)?;
    assert_errors(&rt, reads!(Keyed), NAMES, OF_KEYS)?;
    assert_errors(&rt, reads!(Table), &[], LARGE_TABLES)?;
    for document in LARGE_TABLES
        .iter()
        .flat_map(|row| row.1)
        .filter(|document| document.contains('~'))
    {
        let right = filled(&rt, document, &[("^~^", "s")])?;
        assert_read(&rt, reader(reads!(Table), &right), &right);
    }
    Ok(())
}

#[test]
fn long_keys(rt: HostRuntime) -> Result<(), Fail> {
    // Keys of many bytes, also with wide characters. Of two wrong values, the one whose key sorts
    // first has the error.
    for key in [
        "«k*74»",
        "«k*75»",
        "«k*76»",
        "«k*77»",
        "«k*80»",
        "«k*81»",
        "«k*200»",
        "«k*300»",
        "«k*70»ékkkk",
        "«k*68»𝄞kkkk",
    ] {
        assert_errors(
            &rt,
            reads!(Keyed),
            &[("K", key)],
            &[
                (
                    "expected number at 0",
                    &[
                        "[texts]\n'K' = '^~^'",
                        "[texts]\n'Kb' = '~'\n'Ka' = '^~^'\n'Kc' = '~'",
                    ],
                ),
                (
                    "expected a duration in quotes",
                    &[
                        "[texts]\n'K' = ^5",
                        "[texts]\n'Ka' = '1s'\n'Kb' = ^5",
                        "[texts]\n'Kb' = 1\n'Kc' = 2\n'Ka' = ^3",
                    ],
                ),
            ],
        )?;
    }
    Ok(())
}

/// Documents with what is printed of their errors.
const PRINTED: &[(&str, &str)] = &[
    (
        "{\n  \"timeout\": \"10moons\"\n}",
        "line 2, column 17: unknown time unit \"moons\", UNITS\n  \"timeout\": \
        \"10moons\"\n                ^^^^^",
    ),
    // Control characters but tabs are escapes, in the line and in the message.
    (
        "{\"\u{1b}[2J\t\u{9b}é\": \u{7f}",
        "line 1, column 3: invalid string\n{\"\\u{1b}[2J\t\\u{9b}é\": \\u{7f}\n  ^",
    ),
    (
        "{\"timeout\": \"1 \u{9b}x\u{9b}\"}",
        "line 1, column 16: invalid character at 2\n{\"timeout\": \"1 \
        \\u{9b}x\\u{9b}\"}\n               ^^^^^^",
    ),
    (
        "{\"\u{85}\": 1, \"timeout\": \"1x\\u001b\"}",
        "line 1, column 24: invalid character at 2\n{\"\\u{85}\": 1, \"timeout\": \
        \"1x\\u001b\"}\n                            ^^^^^^",
    ),
    (
        "\ttimeout = 'é 10moons'",
        "line 1, column 13: expected number at 0\n\ttimeout = 'é 10moons'\n\t           ^",
    ),
    (
        "# µ\r\ntimeout = '1x 2'\r\n",
        "line 2, column 13: unknown time unit \"x\", UNITS\ntimeout = '1x 2'\n            ^",
    ),
    // Characters that turn the line around are escapes, too, and take their columns.
    (
        "timeout = '\u{202e}\u{2066}1~'",
        "line 1, column 12: expected number at 0\ntimeout = \
        '\\u{202e}\\u{2066}1~'\n           ^^^^^^^^",
    ),
    (
        "{\"\u{2028}\u{200f}\u{61c}\": 1, \"timeout\": \"1~\"}",
        "line 1, column 25: invalid character at 1\n{\"\\u{2028}\\u{200f}\\u{61c}\": 1, \
        \"timeout\": \"1~\"}\n                                            ^",
    ),
    // Only the carriage return is cut off the line.
    (
        "timeout = '1~' \t\r\n",
        "line 1, column 13: invalid character at 1\ntimeout = '1~' \t\n            ^",
    ),
    // A line of 78 columns is shown whole.
    (
        "timeout = '« *64»1~'",
        "line 1, column 77: invalid character at 65\ntimeout = '« *64»1~'\n« *76»^",
    ),
    // Of a wider one the end before the error has what the rest leaves, less three columns for
    // dots.
    (
        "timeout = '« *65»1~'",
        "line 1, column 78: invalid character at 66\n...out = '« *65»1~'\n« *76»^",
    ),
    (
        "timeout = '«\u{a0}*250»1~'",
        "line 1, column 263: invalid character at 501\n...«\u{a0}*72»1~'\n« *76»^",
    ),
    (
        "timeout = '«\u{3000}*200»1~'",
        "line 1, column 213: invalid character at 601\n...«\u{3000}*36»1~'\n« *76»^",
    ),
    // What is wrong and what follows it have the other columns.
    (
        "{\"timeout\":\"1«x*300»\", \"«x*300»\":1}",
        "line 1, column 14: unknown time unit \"«x*300»\", UNITS\n{\"timeout\":\"1«x*62»...\n« \
        *13»«^*62»",
    ),
    (
        "timeout = '1~«\u{3000}*200»'",
        "line 1, column 13: invalid character at 1\ntimeout = '1~«\u{3000}*31»...\n« *12»^",
    ),
    // An escape is not cut, however many there are.
    (
        "{\"«\u{7f}*450»\": 1, \"timeout\": \"1~\"}",
        "line 1, column 472: invalid character at 1\n...«\\u{7f}*6»\": 1, \"timeout\": \"1~\"}\n« \
        *58»^",
    ),
    (
        "{\"«\u{9b}*200»\": 1, \"timeout\": \"1~\"}",
        "line 1, column 222: invalid character at 1\n...«\\u{9b}*6»\": 1, \"timeout\": \"1~\"}\n« \
        *58»^",
    ),
];

#[test]
fn errors_are_printed(rt: HostRuntime) -> Result<(), Fail> {
    let alloc = rt.alloc();
    for (document, shown) in PRINTED {
        let document = filled(&rt, document, &[])?;
        let error = reader(reads!(Jobs), &document)(alloc, &document).ok_or("read")?;
        assert_eq!(rt; error.to_string(alloc)?, filled(&rt, shown, NAMES)?);
    }
    let unplaced = SettingsError::WithoutPosition(String::from_str(alloc, "a\tb\u{1b}\n")?);
    assert_eq!(rt; unplaced.to_string(alloc)?.as_str(), "a\tb\\u{1b}\\u{a}");
    assert_eq!(rt;
        SettingsError::OutOfMemory.to_string(alloc)?.as_str(),
        "out of memory"
    );
    Ok(())
}

#[test]
fn documents_end_in_a_string(rt: HostRuntime) -> Result<(), Fail> {
    for (before, string, message) in [
        ("{\"timeout\":", "\"2h \\u0031s é\"", "EOF while parsing"),
        ("timeout = ", "'2h é'", "invalid string"),
    ] {
        for (end, _) in string.char_indices().skip(1) {
            let text = format!(in rt.alloc(); "{before}{}^", &string[..end])?;
            let read = reader(reads!(Jobs), &text);
            assert_eq!(rt; difference(&rt, read, &text, Some(message))?.as_str(), "");
        }
    }
    Ok(())
}

#[test]
fn each_byte_alone(rt: HostRuntime) -> Result<(), Fail> {
    for byte in 0..0x80_u8 {
        let text = format!(in rt.alloc(); "{}", char::from(byte))?;
        for read in reads!(Jobs) {
            let error = read(rt.alloc(), &text);
            let at_start = matches!(&error, Some(SettingsError::At { offset, .. }) if *offset <= 1);
            assert!(rt; at_start, "{error:?} {text:?}");
        }
    }
    Ok(())
}
