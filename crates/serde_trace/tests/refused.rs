//! Values that are read while one allocation fails: there is no other error than this.

use crate::words::{Wrong, read, words_of};
use serde::Deserialize;
use serde_trace::Unexpected;
use std::process::Abort;

#[derive(Drop, Deserialize)]
#[serde(rename_all = "kebab-case", deny_unknown_fields)]
struct Tried {
    own_name: Option<String>,
    any: Option<Vec<Any>>,
}

#[derive(Drop, Deserialize)]
#[serde(untagged)]
enum Any {
    Name(Name),
    Map { a_b: u8 },
    Word { word: String, more: Option<u8> },
    List(u8, u8),
}

#[derive(Drop, Deserialize)]
enum Name {
    First,
    Second,
}

/// Documents, and the number of entries and items in the path of their errors.
const DOCUMENTS: [(&str, usize); 8] = [
    ("{ own-name: 'x any: [ 'First { a_b: 1 } { word: 'y } [ 1 2 ] ] }", 0),
    ("{ own-name: 'x own-name: 'y }", 1),
    ("{ other: 1 }", 1),
    ("{ own-name: 5 }", 1),
    ("{ any: [ 'Third ] }", 2),
    ("{ any: [ { } ] }", 2),
    ("{ any: [ [ 1 2 3 ] ] }", 2),
    ("{ any: [ { First: null Second: null } ] }", 2),
];

#[test]
fn a_value(rt: HostRuntime) {
    let alloc = rt.alloc();
    for (document, levels) in DOCUMENTS {
        let Ok(words) = words_of(alloc, document) else {
            continue;
        };
        match read::<Tried>(alloc, &words) {
            Err(error) => assert!(rt; error == Wrong::OutOfMemory),
            Ok((Ok(_), _)) => assert_eq!(rt; levels, 0),
            Ok((Err(rejection), end)) => {
                assert_eq!(rt;
                    (rejection.path.len(), end),
                    (levels, words.len()),
                    "{document}"
                );
                // It fails at most once, if an allocation does.
                let said = rejection.message(alloc, Unexpected::Str("x")).is_ok();
                assert!(rt; said || rejection.message(alloc, Unexpected::Str("x")).is_ok());
            }
        }
    }
}
