//! Documents that are cut at each byte, and keys of many parts.

use crate::support::{Read, assert_errors, assert_read, reads};
use crate::types::Config;
use humantime_settings::SettingsError;
use std::process::Abort;
use std::test::Fail;

const WHOLE: [&str; 2] = [
    r#" {"speed":"fa\u0073t", "speeds":["slow","fast"],
  "retries":{"waits":["1s"," 2h\u00095m "],"names":{"😀\ud83d\ude00":"3d"},"count":{"max-age":7}},
  "action":{"paint-it":{"even":{"itemCount":2},"palette":{"red":1,"blue":255}}},
  "event":{"list":["b=1"],"kind":"again"}, "step":{"of":["a",[7]],"kind":"to_pair"},
  "choice":{"go-on":"slow"},"ages":{"max-age":1,"maxAge":2,"max_age":3,"wait":"1µs"},
  "tree":{"nodes":[{"next":{"speed":"fast"}},{}],"x":[null,true,-1.5e-3,{"y":"\\\"/"}]}
}
"#,
    "\u{feff}# 'é'\r\nspeed = 'fast'\nspeeds = [ 'slow', # ]\n\t\"fa\\u0073t\", ]
action.paint-it = { even = { itemCount = 2 }, palette.red = 0x1, palette.'blue' = 2_5_5 }
tree . next . \"speed\" = \"\"\"\nfa\\\n  st\"\"\"\nwait = '''\n1s 2h'''
x = [1979-05-27 07:32:00Z, inf]
[retries]\nwaits = ['1s', \" 2h\\t5m \"]\nnames = { '😀\\' = '3d' }
[ retries . \"count\" ]\nmax-age = 7\n[step]\nof = ['a', [7]]\nkind = 'to_pair'
[[tree.nodes]]\n[tree.nodes.next]\nspeed = 'slow'\n[[tree.nodes]]\ny = 1
[ages]\nmax-age = 1\nmaxAge = 2\nmax_age = 3\nwait = '1µs' # \t\n",
];

/// Asserts that an error of a document is in it, with the line that it is in.
fn assert_within(rt: &(impl Abort + AllocGlobal), read: Read, text: &str) -> Result<(), Fail> {
    match read(rt.alloc(), text) {
        None => {}
        Some(
            SettingsError::At {
                offset,
                line,
                before,
                part,
                after,
                ..
            },
        ) => {
            let front = text.get(..offset).ok_or("no offset of a character")?;
            let start = front.rfind('\n').map_or(0, |at| at + 1);
            assert_eq!(rt; before.as_str(), &front[start..], "{text}");
            assert_eq!(rt; line, front.matches('\n').count() + 1, "{text}");
            let rest = text[offset..].lines().next().unwrap_or("");
            let shown = format!(in rt.alloc(); "{part}{after}")?;
            assert_eq!(rt; shown.as_str(), rest, "{text}");
        }
        Some(error) => panic!(rt; "{error:?} {text}"),
    }
    Ok(())
}

#[test]
fn documents_are_cut_at_each_byte(rt: HostRuntime) -> Result<(), Fail> {
    for (document, read) in WHOLE.iter().zip(reads!(Config).iter().rev()) {
        assert_read(&rt, *read, document);
        for (at, _) in document.char_indices() {
            assert_within(&rt, *read, &document[..at])?;
            assert_within(&rt, *read, &document[at..])?;
        }
    }
    Ok(())
}

#[test]
fn values_are_wrong_in_cut_documents(rt: HostRuntime) -> Result<(), Fail> {
    for (document, read) in WHOLE.iter().zip(reads!(Config).iter().rev()) {
        let wrong = document.replace(rt.alloc(), "max-age", "wiat")?;
        for (at, _) in wrong.char_indices() {
            assert_within(&rt, *read, &wrong[..at])?;
        }
    }
    Ok(())
}

/// Keys of 71 parts that are there twice, or extend a value. Two have 128 KB, and the wrong part is
/// the last or the first of 71: each is found in a time that is linear, or the test does not end in
/// a minute.
#[test]
fn long_keys_twice(rt: HostRuntime) -> Result<(), Fail> {
    let long = "p".repeat(rt.alloc(), 1800)?;
    let names = [("LONG", long.as_str()), ("PART", "part")];
    assert_errors(
        &rt,
        reads!(Config),
        &names,
        &[
            (
                "duplicate key",
                &[
                    "«LONG#.*70»x = 1\n«LONG#.*70»^x = 1\n",
                    "[«PART#.*70»x]\n[«PART#.*70»^x]\n",
                    "«'PART#' . *70»x = 1\n«'PART#' . *70»^x = [\n1,\n2 ]\n",
                    "[x]\n«PART#.*70»x = 1\n«PART#.*70»^x = 1\n",
                    "y = { «PART#.*70»x = 1, «PART#.*70»^x = 1 }\n",
                    "[[«PART#.*70»x]]\n[«PART#.*70»^x]\n",
                ],
            ),
            (
                "cannot extend a value with a dotted key",
                &[
                    "«PART#.*35»x = 1\n«PART#.*35»^x.«PART#.*34»y = 1\n",
                    "[«PART#.*35»z]\nx = 1\n[«PART#.*35»z.^x.«PART#.*33»y]\n",
                    "LONG0 = 1\n^«LONG#.*70»x = 1\n",
                ],
            ),
        ],
    )
}
