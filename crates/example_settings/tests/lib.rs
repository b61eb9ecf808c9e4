//! Settings that are right, and with a wrong string, a misspelled key and a wrong tag, with all
//! that is written.
#![tactic(auto)]

use example_settings::run;
use std::alloc::{AllocError, Global};
use std::io;
use std::test::Fail;

const SETTINGS: &str = "# 90 seconds
timeout = '1.5min'
retries = ['500ms', '60s']

[backup]
every = '36h'
since = '2018-02-14 00:28:07'
keep = '2weeks'
target = { kind = 'server', address = '10.0.0.7', timeout = '5s' }

[breaks]
";

const CANONICAL: &str = "timeout = \"1m 30s\"
retries = [\"500ms\", \"1m\"]

[backup]
every = \"1day 12h\"
since = \"2018-02-14T00:28:07Z\"
keep = \"14days\"

[backup.target]
kind = \"server\"
address = \"10.0.0.7\"
timeout = \"5s\"

[breaks]
";

fn words_of(alloc: Global, words: &[&str]) -> Result<Vec<String>, AllocError> {
    words
        .iter()
        .map(|word| String::from_str(alloc, word))
        .try_collect(alloc)
}

#[test]
fn wrong_words_and_a_file_that_is_not_read_are_errors(rt: HostRuntime) -> Result<(), Fail> {
    for (words, status, message) in &[
        ([].as_slice(), 2, "usage: example_settings FILE\n"),
        (
            ["a.toml", "b.toml"].as_slice(),
            2,
            "usage: example_settings FILE\n",
        ),
        (["a.toml"].as_slice(), 1, "a.toml: entity not found\n"),
    ] {
        let (mut out, mut err) = (Vec::new(rt.alloc()), Vec::new(rt.alloc()));
        let file = Err(io::ErrorKind::NotFound.into());
        assert_eq!(rt;
            run(
                rt.alloc(),
                &words_of(rt.alloc(), words)?,
                file,
                &mut out,
                &mut err
            )?,
            *status
        );
        assert_eq!(rt; String::from_utf8(err)?.as_str(), *message);
        assert!(rt; out.is_empty());
    }
    Ok(())
}

#[test]
fn settings_or_the_error_are_written(rt: HostRuntime) -> Result<(), Fail> {
    for (right, wrong, out_text, err_text) in &[
        ("60s", "60s", CANONICAL, ""),
        (
            "60s",
            "60",
            "",
            "a.toml: line 3, column 24: time unit needed, for example 60sec or 60ms\
                \nretries = ['500ms', '60']\
                \n                       ^\n",
        ),
        (
            "every",
            "evry",
            "",
            "a.toml: line 6, column 1: unknown field `evry`, expected one of `every`, `since`, `keep`, `target`\
                \nevry = '36h'\
                \n^\n",
        ),
        (
            "retries =",
            "retry = 3\nretries =",
            "",
            "a.toml: line 3, column 1: unknown field `retry`, expected one of `timeout`, \
            `retries`, `backup`, `breaks`\nretry = 3\n^\n",
        ),
        (
            "retries = ['500ms', '60s']\n",
            "",
            "",
            "a.toml: line 1, column 1: missing field `retries`\n# 90 seconds\n^\n",
        ),
        (
            "server",
            "sever",
            "",
            "a.toml: line 9, column 19: unknown variant `sever`, expected `directory` or `server`\
                \ntarget = { kind = 'sever', address = '10.0.0.7', timeout = '5s' }\
                \n                  ^\n",
        ),
        (
            "'5s'",
            "5",
            "",
            "a.toml: line 9, column 61: expected a duration in quotes\
                \ntarget = { kind = 'server', address = '10.0.0.7', timeout = 5 }\
                \n                                                            ^\n",
        ),
    ] {
        let (mut out, mut err) = (Vec::new(rt.alloc()), Vec::new(rt.alloc()));
        let text = SETTINGS.replace(rt.alloc(), *right, *wrong)?;
        let status = run(
            rt.alloc(),
            &words_of(rt.alloc(), &["a.toml"])?,
            Ok(text),
            &mut out,
            &mut err,
        )?;
        assert_eq!(rt; status, if err_text.is_empty() { 0 } else { 1 });
        assert_eq!(rt; String::from_utf8(out)?.as_str(), *out_text);
        assert_eq!(rt; String::from_utf8(err)?.as_str(), *err_text);
    }
    Ok(())
}

#[test]
fn a_backup_may_be_kept_for_ever_and_in_a_directory(rt: HostRuntime) -> Result<(), Fail> {
    for (part, other, canonical, changed) in &[
        ("keep = '2weeks'\n", "", "keep = \"14days\"\n", ""),
        (
            "'server', address = '10.0.0.7', timeout = '5s'",
            "'directory', path = '/srv'",
            "\"server\"\naddress = \"10.0.0.7\"\ntimeout = \"5s\"",
            "\"directory\"\npath = \"/srv\"",
        ),
    ] {
        let (mut out, mut err) = (Vec::new(rt.alloc()), Vec::new(rt.alloc()));
        let text = SETTINGS.replace(rt.alloc(), *part, *other)?;
        let words = words_of(rt.alloc(), &["a.toml"])?;
        assert_eq!(rt; run(rt.alloc(), &words, Ok(text), &mut out, &mut err)?, 0);
        let wanted = CANONICAL.replace(rt.alloc(), *canonical, *changed)?;
        assert_eq!(rt; String::from_utf8(out)?.as_str(), wanted.as_str());
    }
    Ok(())
}
