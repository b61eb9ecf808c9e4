//! Durations and timestamps as text in JSON and TOML.

use humantime::{Duration, StdDuration, SystemTime, Timestamp};
use humantime_settings::{AsText, from_json, from_toml, to_json, to_toml};
use serde::{
    Described, Deserialize, DeserializeOwned, Deserializer, Format, Serialize, Serializer,
};
use serde_trace::{Traced, Unexpected};
use std::alloc::Global;
use std::collections::BTreeMap;
use std::fmt::Debug;
use std::process::Abort;
use std::test::Fail;
use std::time;

#[derive(Debug, Drop, PartialEq, Serialize, Deserialize)]
pub struct Values {
    #[serde(with = "humantime_settings")]
    wait: StdDuration,
    #[serde(with = "humantime_settings")]
    since: SystemTime,
    #[serde(with = "humantime_settings")]
    every: Duration,
    #[serde(with = "humantime_settings")]
    until: Timestamp,
    #[serde(with = "humantime_settings")]
    pause: time::Duration,
}

pub const VALUES_TOML: &str = r#"wait = "2h 37m"
since = "2018-02-14T00:28:07Z"
every = "1day 12h"
until = "2018-02-14T00:28:07.500000000Z"
pause = "12µs"
"#;

/// Returns the moment of these parts.
fn moment(rt: &impl Abort, secs: i64, nanos: u32) -> SystemTime {
    SystemTime::from_parts(secs, nanos).expect(rt, "no moment")
}

/// Asserts that the value is read from each of these texts in JSON, and from the one in TOML, and
/// written as the first one and this one.
fn assert_texts<'a, T>(
    rt: &(impl Abort + AllocGlobal),
    value: &T,
    json: &[&'a str],
    toml: &str,
) -> Result<(), Fail>
where
    T: Debug + Drop + PartialEq + Serialize + Deserialize<'a> + DeserializeOwned,
{
    for text in json {
        assert_eq!(rt; &from_json::<T>(rt.alloc(), text)?, value);
    }
    assert_eq!(rt;
        Some(&serde_json::to_string(rt.alloc(), value)?.as_str()),
        json.first()
    );
    assert_eq!(rt; &from_toml::<T>(rt.alloc(), toml)?, value);
    assert_eq!(rt; to_toml(rt.alloc(), value)?.as_str(), toml);
    Ok(())
}

#[test]
fn values_are_read_and_written(rt: HostRuntime) -> Result<(), Fail> {
    let values = Values {
        wait: StdDuration::from_secs(9420),
        since: moment(&rt, 1_518_568_087, 0),
        every: Duration::new(StdDuration::from_secs(129_600)),
        until: Timestamp::from(moment(&rt, 1_518_568_087, 500_000_000)),
        pause: time::Duration::from_micros(12),
    };
    let json = [
        r#"{"wait":"2h 37m","since":"2018-02-14T00:28:07Z","every":"1day 12h","until":"2018-02-14T00:28:07.500000000Z","pause":"12µs"}"#,
        r#" { "pause" : "12us", "until":"2018-02-14 00:28:07.5", "every":"1d12h", "since":"2018-02-14 00:28:07", "wait":"2h 37min" } "#,
        r#"{"wait":"2\u0068 37m","since":"2018-02-14\u002000:28:07","every":"36h","until":"2018-02-14T00:28:07.5Z","pause":"12µs"}"#,
    ];
    assert_texts(&rt, &values, &json, VALUES_TOML)
}

/// A wait whose impls by hand call the functions that the derives call.
#[derive(Debug, Drop, PartialEq)]
struct Wait(StdDuration);

impl Described for Wait {}

impl Serialize for Wait {
    fn serialize<S: Serializer>(&self, out: &mut S) -> Result<(), S::Error> {
        humantime_settings::serialize(&self.0, out)
    }
}

impl<'de> Deserialize<'de> for Wait {
    fn deserialize<F: Format>(
        alloc: Global,
        from: &mut Deserializer<'de, '_, F>,
    ) -> Result<Wait, F::Error> {
        Ok(Wait(humantime_settings::deserialize(alloc, from)?))
    }
}

impl DeserializeOwned for Wait {
    fn deserialize_owned<F: Format>(
        alloc: Global,
        from: &mut Deserializer<'_, '_, F>,
    ) -> Result<Wait, F::Error> {
        Ok(Wait(humantime_settings::deserialize(alloc, from)?))
    }
}

#[test]
fn impls_by_hand_read_and_write(rt: HostRuntime) -> Result<(), Fail> {
    let mut waits = BTreeMap::new(rt.alloc());
    waits.insert(
        String::from_str(rt.alloc(), "wait")?,
        Wait(StdDuration::from_secs(90)),
    )?;
    let json = [r#"{"wait":"1m 30s"}"#, r#"{"wait":"90s"}"#];
    assert_texts(&rt, &waits, &json, "wait = \"1m 30s\"\n")
}

#[derive(Debug, Drop, PartialEq, Serialize, Deserialize)]
struct Optional {
    #[serde(default, with = "humantime_settings")]
    wait: Option<StdDuration>,
    #[serde(default, with = "humantime_settings")]
    until: Option<Timestamp>,
}

#[test]
fn optional_values_are_read_and_written(rt: HostRuntime) -> Result<(), Fail> {
    assert_texts(
        &rt,
        &Optional {
            wait: None,
            until: None,
        },
        &[r#"{"wait":null,"until":null}"#, "{}"],
        "",
    )?;
    let (wait, until) = (
        StdDuration::from_secs(9420),
        Timestamp::from(moment(&rt, 1_518_568_087, 0)),
    );
    let json = r#"{"wait":"2h 37m","until":"2018-02-14T00:28:07Z"}"#;
    let toml = "wait = \"2h 37m\"\nuntil = \"2018-02-14T00:28:07Z\"\n";
    assert_texts(
        &rt,
        &Optional {
            wait: Some(wait),
            until: Some(until),
        },
        &[json],
        toml,
    )
}

#[derive(Debug, Drop, PartialEq, Serialize, Deserialize)]
pub struct Lists {
    waits: Vec<AsText<StdDuration>>,
    ends: BTreeMap<String, AsText<SystemTime>>,
    #[serde(default)]
    pauses: Vec<AsText<Option<Duration>>>,
    #[serde(default, with = "humantime_settings")]
    runs: Vec<Timestamp>,
    #[serde(default, with = "humantime_settings")]
    limits: BTreeMap<String, time::Duration>,
}

#[test]
fn lists_and_maps_are_read_and_written(rt: HostRuntime) -> Result<(), Fail> {
    let alloc = rt.alloc();
    let json =
        r#"{"waits":["1s","1m 30s"],"ends":{"first":"1970-01-01T00:00:00Z"},"pauses":["2h",null],"runs":["1970-01-01T00:00:01Z"],"limits":{"a":"2s","b":"1s"}}"#;
    let lists: Lists = from_json(alloc, json)?;
    assert_eq!(rt;
        lists.waits.as_slice(),
        &[
            AsText(StdDuration::from_secs(1)),
            AsText(StdDuration::from_secs(90))
        ][..]
    );
    assert_eq!(rt;
        (lists.ends.len(), lists.ends.get("first")),
        (1, Some(&AsText(moment(&rt, 0, 0))))
    );
    assert_eq!(rt;
        lists.pauses.as_slice(),
        &[
            AsText(Some(Duration::new(StdDuration::from_secs(7200)))),
            AsText(None)
        ][..]
    );
    assert_eq!(rt;
        lists.runs.as_slice(),
        &[Timestamp::from(moment(&rt, 1, 0))][..]
    );
    assert_eq!(rt;
        (lists.limits.len(), lists.limits.get("a")),
        (2, Some(&time::Duration::from_secs(2)))
    );
    assert_eq!(rt; serde_json::to_string(alloc, &lists)?.as_str(), json);
    // In another order and notation, and with the last of two equal keys.
    let other =
        r#"{"limits":{"b":"1000ms","a":"1s","a":"2s"},"runs":["1970-01-01 00:00:01"],"pauses":["120min",null],"ends":{"first":"1970-01-01 00:00:00"},"waits":["1000ms","1.5min"]}"#;
    assert_eq!(rt; from_json::<Lists>(alloc, other)?, lists);
    // TOML has no `null`.
    let toml = "waits = ['1s', '1m 30s']\
            \nends.first = '1970-01-01 00:00:00'\
            \npauses = ['2h']\
            \nruns = ['1970-01-01 00:00:01']\
            \n[limits]\
            \na = '2s'\
            \nb = '1s'\n";
    let read: Lists = from_toml(alloc, toml)?;
    assert_eq!(rt;
        (&read.waits, &read.ends, &read.runs, &read.limits),
        (&lists.waits, &lists.ends, &lists.runs, &lists.limits)
    );
    assert_eq!(rt; from_toml::<Lists>(alloc, &to_toml(alloc, &read)?)?, read);
    let empty: Lists = from_toml(alloc, "waits = []\n[ends]\n")?;
    assert_eq!(rt;
        to_json(alloc, &empty)?.as_str(),
        "{\
            \n  \"waits\": [],\
            \n  \"ends\": {},\
            \n  \"pauses\": [],\
            \n  \"runs\": [],\
            \n  \"limits\": {}\
            \n}"
    );
    Ok(())
}

#[test]
fn values_that_are_not_texts_are_rejected(rt: HostRuntime) -> Result<(), Fail> {
    // What the formats say without `from_json` and `from_toml`. JSON cuts a message at 32 bytes,
    // and TOML at 80.
    for (text, message) in [
        (
            r#"{"wait":"2 moons"}"#,
            "unknown time unit \"moons\", su... at line 1 column 9",
        ),
        (r#"{"wait":""}"#, "value was empty at line 1 column 9"),
        (
            r#"{"wait":1}"#,
            "expected a duration in quotes at line 1 column 9",
        ),
        (
            r#"{"until":"2018-02-30T00:28:07Z"}"#,
            "numeric component is out of r... at line 1 column 10",
        ),
        (
            r#"{"until":"1s"}"#,
            "timestamp format is invalid at line 1 column 10",
        ),
        (
            r#"{"until":90}"#,
            "expected a timestamp in quotes at line 1 column 10",
        ),
        (
            "wait = '2 moons'",
            "unknown time unit \"moons\", supported units: ns, us/µs, ms, sec, min, hours, ...\
                \nin `wait`\n",
        ),
        (
            "until = '1969-12-31T23:59:59Z'",
            "numeric component is out of range\nin `until`\n",
        ),
        (
            "until = 1970-01-01T00:00:00Z",
            "expected a timestamp in quotes\nin `until`\n",
        ),
    ] {
        let json = serde_json::from_str::<Optional>(rt.alloc(), text)
            .err()
            .ok_or("read")?
            .to_string(rt.alloc())?;
        let toml = toml::from_str::<Optional>(rt.alloc(), text)
            .err()
            .ok_or("read")?
            .to_string(rt.alloc())?;
        assert_eq!(rt;
            if text.starts_with('{') {
                json.as_str()
            } else {
                toml.as_str()
            },
            message
        );
    }
    // A trace cuts nothing more.
    let Traced(read) = toml::from_str::<Traced<Optional>>(rt.alloc(), "wait = '2 moons'")?;
    let rejection = read.err().ok_or("read")?;
    assert_eq!(rt;
        rejection.message(rt.alloc(), Unexpected::Null)?.as_str(),
        "unknown time unit \"moons\", supported units: ns, us/µs, ms, sec, min, hours, ..."
    );
    let error = serde_json::from_str::<Values>(rt.alloc(), r#"{"wait":null}"#)
        .err()
        .ok_or("read")?;
    assert_eq!(rt;
        error.to_string(rt.alloc())?.as_str(),
        "expected a duration in quotes at line 1 column 9"
    );
    Ok(())
}

#[test]
fn moments_without_a_text_are_not_written(rt: HostRuntime) -> Result<(), Fail> {
    let (alloc, said) = (rt.alloc(), "time is not from 1970 to 9999");
    for (secs, nanos, wanted) in [
        (-1, 0, said),
        (-1, 999_999_999, said),
        (0, 0, ""),
        (253_402_300_799, 0, ""),
        (253_402_300_800, 0, said),
    ] {
        let value = Optional {
            wait: None,
            until: Some(Timestamp::from(moment(&rt, secs, nanos))),
        };
        for written in [to_json(alloc, &value), to_toml(alloc, &value)] {
            assert_eq!(rt;
                written.as_ref().err().map_or("", |error| error.message()),
                wanted
            );
        }
    }
    Ok(())
}
