//! Each call has its answer, or reports that memory was refused, whichever allocation fails, and
//! then has its answer.

use crate::values::{Lists, VALUES_TOML, Values};
use humantime::SystemTime;
use humantime_settings::{AsText, SettingsError, from_json, from_toml, to_json, to_toml};
use std::alloc::Global;
use std::process::Abort;

type Answer = Result<String, SettingsError>;

fn json_to_toml(alloc: Global, text: &str) -> Answer {
    to_toml(alloc, &from_json::<Values>(alloc, text)?)
}

fn toml_to_json(alloc: Global, text: &str) -> Answer {
    to_json(alloc, &from_toml::<Lists>(alloc, text)?)
}

fn json_to_json(alloc: Global, text: &str) -> Answer {
    to_json(alloc, &from_json::<Lists>(alloc, text)?)
}

fn before_1970(alloc: Global, _text: &str) -> Answer {
    to_json(alloc, &AsText(SystemTime::from_parts(-1, 0)))
}

/// Returns what is written, or the text of an error.
fn told(alloc: Global, answer: Answer) -> Answer {
    match answer {
        Err(error) if error != SettingsError::OutOfMemory => Ok(error.to_string(alloc)?),
        answer => answer,
    }
}

/// Asserts that each call has its answer. The allocations of all together are at most as many as
/// one of them can be refused.
fn assert_answers(
    rt: &(impl Abort + AllocGlobal),
    calls: &[(fn(Global, &str) -> Answer, &str, &str)],
) {
    let (alloc, mut is_refused) = (rt.alloc(), false);
    for (call, text, wanted) in calls {
        let mut answer = told(alloc, call(alloc, text));
        if !is_refused && answer == Err(SettingsError::OutOfMemory) {
            is_refused = true;
            answer = told(alloc, call(alloc, text));
        }
        assert!(rt;
            answer
                .as_ref()
                .is_ok_and(|answer| answer.as_str() == *wanted),
            "{answer:?}"
        );
    }
}

#[test]
fn json(rt: HostRuntime) {
    let values =
        r#"{"wait":"2\u0068 37m","since":"2018-02-14\u002000:28:07","every":"36h","until":"2018-02-14T00:28:07.5Z","pause":"12µs"}"#;
    let moons = "{\"since\":\"2018-02-14T00:28:07Z\",\n\"wait\":\"3\\u0020moons\"}";
    let wanted =
        "line 2, column 16: unknown time unit \"moons\", supported units: ns, us/µs, ms, sec, min, hours, days, weeks, months, years (and few variations)\
            \n\"wait\":\"3\\u0020moons\"}\
            \n               ^^^^^";
    let before = "time is not from 1970 to 9999";
    assert_answers(
        &rt,
        &[
            (json_to_toml, values, VALUES_TOML),
            (json_to_toml, moons, wanted),
            (before_1970, "", before),
        ],
    );
}

#[test]
fn toml(rt: HostRuntime) {
    let text =
        "waits = ['1.5min']\npauses = [\"2\\u0068\"]\n[ends]\nlast = '1970-01-01 00:00:01'\n";
    let written = "{\
            \n  \"waits\": [\
            \n    \"1m 30s\"\
            \n  ],\
            \n  \"ends\": {\
            \n    \"last\": \"1970-01-01T00:00:01Z\"\
            \n  },\
            \n  \"pauses\": [\
            \n    \"2h\"\
            \n  ],\
            \n  \"runs\": [],\
            \n  \"limits\": {}\
            \n}";
    let missing = "line 1, column 1: missing field `ends`\nwaits = []\n^";
    assert_answers(
        &rt,
        &[
            (toml_to_json, text, written),
            (toml_to_json, "waits = []\n", missing),
        ],
    );
}

#[test]
fn text_in_toml(rt: HostRuntime) {
    let wanted =
        "line 1, column 27: unknown time unit \"moons\", supported units: ns, us/µs, ms, sec, min, hours, days, weeks, months, years (and few variations)\
            \nwaits = ['1s', \"\\u0032h 3 moons\"]\
            \n                          ^^^^^";
    assert_answers(
        &rt,
        &[(
            toml_to_json,
            "waits = ['1s', \"\\u0032h 3 moons\"]\n[ends]\n",
            wanted,
        )],
    );
}

#[test]
fn type_in_toml(rt: HostRuntime) {
    let wanted =
        "line 1, column 16: expected a duration in quotes\nwaits = ['1s', 2]\n               ^";
    assert_answers(
        &rt,
        &[(toml_to_json, "waits = ['1s', 2]\n[ends]\n", wanted)],
    );
}

#[test]
fn names(rt: HostRuntime) {
    let ends = "line 1, column 11: missing field `waits`\n{\"ends\":{}}\n          ^";
    let syntax = "line 1, column 10: expected value\n{\"waits\":}\n         ^";
    assert_answers(
        &rt,
        &[
            (json_to_json, "{\"ends\":{}}", ends),
            (json_to_json, "{\"waits\":}", syntax),
        ],
    );
}

#[test]
fn lists_in_json(rt: HostRuntime) {
    let text = r#"{"waits":[],"ends":{},"runs":["1970-01-01T00:00:01Z"],"limits":{"a":"2s"}}"#;
    let written = "{\
            \n  \"waits\": [],\
            \n  \"ends\": {},\
            \n  \"pauses\": [],\
            \n  \"runs\": [\
            \n    \"1970-01-01T00:00:01Z\"\
            \n  ],\
            \n  \"limits\": {\
            \n    \"a\": \"2s\"\
            \n  }\
            \n}";
    assert_answers(&rt, &[(json_to_json, text, written)]);
}

#[test]
fn keys_in_toml(rt: HostRuntime) {
    let duplicate = "line 2, column 3: duplicate key\na.b = 2\n  ^";
    assert_answers(&rt, &[(toml_to_json, "a.b = 1\na.b = 2", duplicate)]);
}

#[test]
fn times_in_toml(rt: HostRuntime) {
    let more = "line 1, column 7: unexpected key or value, expected newline, `#`\na = 1 2\n      ^";
    assert_answers(&rt, &[(toml_to_json, "a = 1 2", more)]);
}
