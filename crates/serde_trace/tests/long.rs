//! Long documents, which are read in the time of their length: in a time that grows with its
//! square, a test does not end in a minute.

use crate::by_hand::LastWins;
use crate::words::read;
use serde::{Deserialize, DeserializeOwned};
use serde_trace::Part;
use std::alloc::Global;
use std::collections::BTreeMap;
use std::process::Abort;
use std::test::Fail;

const TIMES: usize = 20_000;

const ITEMS: usize = 8_000;

#[derive(Drop, Deserialize)]
#[serde(untagged)]
enum Any {
    One { a: u8, kind: Kind },
    List(Vec<Kind>),
    Other { b: u8, c: Option<u8> },
}

#[derive(Drop, Deserialize)]
enum Kind {
    First,
    Second,
}

#[derive(Drop, Deserialize)]
struct Long {
    list: Vec<Any>,
    end: u8,
}

/// Returns words, then others so many times, and then the last ones.
fn repeated<'a>(
    alloc: Global,
    first: &[&'a str],
    often: &[&'a str],
    last: &[&'a str],
) -> Result<Vec<&'a str>, Fail> {
    let mut words = Vec::new(alloc);
    words.extend_from_slice(first)?;
    for _ in 0..TIMES {
        words.extend_from_slice(often)?;
    }
    words.extend_from_slice(last)?;
    Ok(words)
}

/// Asserts that a value is rejected by this path.
fn assert_path<T: DeserializeOwned>(
    rt: &(impl Abort + AllocGlobal),
    words: &[&str],
    part: Part,
    path: &[usize],
) -> Result<(), Fail> {
    let (read, end) = read::<T>(rt.alloc(), words)?;
    let Err(rejection) = read else {
        panic!(rt; "read");
    };
    assert_eq!(rt; (rejection.path.as_slice(), end), (path, words.len()));
    assert!(rt; rejection.part == part);
    Ok(())
}

#[test]
fn many_keys(rt: HostRuntime) -> Result<(), Fail> {
    let alloc = rt.alloc();
    let words = repeated(alloc, &["{"], &["x:", "[", "]"], &["}"])?;
    assert_path::<Long>(&rt, &words, Part::End, &[])?;
    let words = repeated(alloc, &["{"], &["x:", "1"], &["end:", "300", "}"])?;
    assert_path::<Long>(&rt, &words, Part::Value, &[TIMES])?;
    let words = repeated(
        alloc,
        &["{", "end:", "1"],
        &["x:", "1"],
        &["end:", "1", "}"],
    )?;
    assert_path::<Long>(&rt, &words, Part::Key, &[TIMES + 1])?;
    let words = repeated(alloc, &["{"], &["x:", "1"], &["x:", "'a", "}"])?;
    assert_path::<BTreeMap<String, u8>>(&rt, &words, Part::Value, &[TIMES])
}

#[test]
fn many_keys_that_come_twice(rt: HostRuntime) -> Result<(), Fail> {
    let alloc = rt.alloc();
    let mut words = repeated(alloc, &["{"], &["x:", "1"], &[])?;
    for _ in 0..TIMES {
        words.extend_from_slice(&["b:", "1", "a:", "{", "}"])?;
    }
    words.extend_from_slice(&["a:", "'a", "}"])?;
    assert_path::<LastWins>(&rt, &words, Part::Value, &[3 * TIMES])
}

/// Asserts that the last item of a list is rejected, after many that are such words.
fn assert_last_item(rt: &(impl Abort + AllocGlobal), item: &[&str]) -> Result<(), Fail> {
    let mut words = repeated(rt.alloc(), &["{"], &["x:", "1"], &["list:", "["])?;
    for _ in 0..ITEMS {
        words.extend_from_slice(item)?;
    }
    words.extend_from_slice(&["[", "'Third", "]", "]", "}"])?;
    assert_path::<Long>(rt, &words, Part::Value, &[TIMES, ITEMS])
}

#[test]
fn many_items_with_an_error_each(rt: HostRuntime) -> Result<(), Fail> {
    assert_last_item(&rt, &["{", "a:", "1", "a:", "2", "b:", "1", "}"])?;
    assert_last_item(&rt, &["{", "a:", "1", "kind:", "'Third", "b:", "1", "}"])
}

#[test]
fn many_items_that_are_another_variant(rt: HostRuntime) -> Result<(), Fail> {
    assert_last_item(&rt, &["{", "b:", "1", "}"])?;
    assert_last_item(&rt, &["{", "a:", "300", "b:", "1", "}"])?;
    assert_last_item(&rt, &["{", "a:", "1", "kind:", "{", "}", "b:", "1", "}"])
}

#[test]
fn a_long_string(rt: HostRuntime) -> Result<(), Fail> {
    let text = "x".repeat(rt.alloc(), 10 * TIMES)?;
    let word = format!(in rt.alloc(); "'{text}")?;
    assert_path::<Vec<Kind>>(&rt, &["[", "'First", word.as_str(), "]"], Part::Value, &[1])
}
