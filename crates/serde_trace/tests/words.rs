//! A small format, and where a rejection leads in its documents.

use serde::{DeserializeOwned, Deserializer, Format, Kind, Name, find};
use serde_trace::{Part, Rejection, Traced, Unexpected};
use std::alloc::{AllocError, Global};
use std::process::Abort;
use std::str::FromStr;
use std::test::Fail;

/// A document of words between spaces, and how many are read.
///
/// Values are `null`, `true`, numbers, `'text`, `[ 1 2 ]` and `{ key: 1 }`; a key may be `null:`.
/// `< key: 1 >` is read only as a struct, and `( 1 2 )` ends only as a tuple: by the steps that
/// this format has of its own. `row` begins a sequence that ends with the document, and gives its
/// end as often as it is asked for. A look at `?` fails, and `!` is fatal.
#[derive(Drop)]
pub(crate) struct Words<'t> {
    words: &'t [&'t str],
    next: usize,
}

#[derive(Clone, Copy, Debug, Drop, PartialEq, Eq)]
pub(crate) enum Wrong {
    Misfit,
    Broken,
    OutOfMemory,
}

impl<'t> Words<'t> {
    fn look(&self) -> Result<&'t str, Wrong> {
        match self.words.get(self.next) {
            Some(&"!") => Err(Wrong::Broken),
            word => Ok(word.copied().unwrap_or("")),
        }
    }

    fn take(&mut self) -> Result<&'t str, Wrong> {
        let word = self.look()?;
        self.next += 1;
        Ok(word)
    }

    /// Takes one of these words, and returns which.
    fn take_one(&mut self, words: &[&str]) -> Result<usize, Wrong> {
        let word = self.take()?;
        words
            .iter()
            .position(|one| *one == word)
            .ok_or(Wrong::Misfit)
    }

    fn take_if(&mut self, words: &[&str]) -> Result<bool, Wrong> {
        let is_next = words.contains(&self.look()?);
        self.next += is_next as usize;
        Ok(is_next)
    }

    fn number<T: FromStr>(&mut self) -> Result<T, Wrong>
    where
        T::Err: Drop,
    {
        self.take()?.parse::<T>().map_err(|_| Wrong::Misfit)
    }

    fn text(&mut self) -> Result<&'t str, Wrong> {
        let word = self.take()?;
        word.strip_prefix('\'')
            .or(word.strip_suffix(':'))
            .ok_or(Wrong::Misfit)
    }
}

impl Format for Words<'_> {
    type Error = Wrong;

    type Mark = usize;

    fn bool(&mut self, _input: &[u8]) -> Result<bool, Wrong> {
        self.number()
    }

    fn i64(&mut self, _input: &[u8]) -> Result<i64, Wrong> {
        self.number()
    }

    fn u64(&mut self, _input: &[u8]) -> Result<u64, Wrong> {
        self.number()
    }

    fn i128(&mut self, _input: &[u8]) -> Result<i128, Wrong> {
        self.number()
    }

    fn u128(&mut self, _input: &[u8]) -> Result<u128, Wrong> {
        self.number()
    }

    fn f32(&mut self, _input: &[u8]) -> Result<f32, Wrong> {
        self.number()
    }

    fn f64(&mut self, _input: &[u8]) -> Result<f64, Wrong> {
        self.number()
    }

    fn char(&mut self, _input: &[u8]) -> Result<char, Wrong> {
        self.text()?.parse::<char>().map_err(|_| Wrong::Misfit)
    }

    fn plain_str(&mut self, _input: &[u8]) -> Result<(usize, usize), Wrong> {
        Err(Wrong::Misfit)
    }

    fn plain_bytes(&mut self, _input: &[u8]) -> Result<(usize, usize), Wrong> {
        Err(Wrong::Misfit)
    }

    fn string(&mut self, alloc: Global, _input: &[u8]) -> Result<String, Wrong> {
        String::from_str(alloc, self.text()?).map_err(|_| Wrong::OutOfMemory)
    }

    fn byte_buf(&mut self, alloc: Global, input: &[u8]) -> Result<Vec<u8>, Wrong> {
        Ok(self.string(alloc, input)?.into_bytes())
    }

    fn peek(&mut self, _input: &[u8]) -> Result<Kind, Wrong> {
        Ok(match self.look()? {
            "null" => Kind::Unit,
            "true" | "false" => Kind::Bool,
            "[" | "(" | "row" => Kind::Seq,
            "{" | "<" => Kind::Map,
            "?" => return Err(Wrong::Misfit),
            word if word.starts_with('\'') || word.ends_with(':') => Kind::Str,
            word if word.contains('.') => Kind::Float,
            _ => Kind::Signed,
        })
    }

    fn take_unit(&mut self, _input: &[u8]) -> Result<bool, Wrong> {
        self.take_if(&["null", "null:"])
    }

    fn take_none(&mut self, _input: &[u8]) -> Result<bool, Wrong> {
        self.take_if(&["null", "null:"])
    }

    fn begin_seq(&mut self, _input: &[u8]) -> Result<(), Wrong> {
        self.take_one(&["[", "(", "row"]).map(|_| ())
    }

    fn next_item(&mut self, _input: &[u8]) -> Result<bool, Wrong> {
        match self.look()? {
            "" => Ok(false),
            "?" => Err(Wrong::Misfit),
            _ => Ok(!self.take_if(&["]"])?),
        }
    }

    fn end_tuple(&mut self, _input: &[u8]) -> Result<(), Wrong> {
        if self.take_if(&[")", "]"])? {
            Ok(())
        } else {
            Err(Wrong::Misfit)
        }
    }

    fn begin_struct(&mut self, _input: &[u8]) -> Result<bool, Wrong> {
        Ok(self.take_one(&["{", "<", "["])? == 2)
    }

    fn begin_map(&mut self, _input: &[u8]) -> Result<(), Wrong> {
        self.take_one(&["{"]).map(|_| ())
    }

    fn next_key(&mut self, _input: &[u8], names: &[Name<'_>]) -> Result<Option<usize>, Wrong> {
        if self.take_if(&["}", ">"])? {
            Ok(None)
        } else {
            Ok(Some(find(names, self.text()?)))
        }
    }

    fn next_entry(&mut self, _input: &[u8]) -> Result<bool, Wrong> {
        Ok(!self.take_if(&["}"])?)
    }

    fn variant(&mut self, _input: &[u8], names: &[Name<'_>]) -> Result<usize, Wrong> {
        Ok(find(names, self.text()?))
    }

    fn skip(&mut self, _input: &[u8]) -> Result<(), Wrong> {
        let end = end_of(self.words, self.next);
        for _ in self.next..=end {
            self.take()?;
        }
        Ok(())
    }

    fn mark(&mut self) -> usize {
        self.next
    }

    fn rewind(&mut self, mark: usize) {
        self.next = mark;
    }

    fn release(&mut self, _mark: usize) {}

    fn is_fatal(&self, error: &Wrong) -> bool {
        *error != Wrong::Misfit
    }

    fn missing(&self, _name: &str) -> Wrong {
        Wrong::Misfit
    }

    fn duplicate(&self, _name: &str) -> Wrong {
        Wrong::Misfit
    }

    fn unknown_key(&self) -> Wrong {
        Wrong::Misfit
    }

    fn unknown_variant(&self) -> Wrong {
        Wrong::Misfit
    }

    fn wrong_len(&self) -> Wrong {
        Wrong::Misfit
    }

    fn invalid(&self) -> Wrong {
        Wrong::Misfit
    }

    fn no_memory(&self) -> Wrong {
        Wrong::OutOfMemory
    }

    fn custom(&self, _message: &str) -> Wrong {
        Wrong::Misfit
    }
}

/// Returns the words of a document.
pub(crate) fn words_of(alloc: Global, document: &str) -> Result<Vec<&str>, AllocError> {
    let mut words = Vec::new(alloc);
    for word in document.split(' ') {
        words.push(word)?;
    }
    Ok(words)
}

/// Reads a value, and returns with it how many words are read.
pub(crate) fn read<T: DeserializeOwned>(
    alloc: Global,
    words: &[&str],
) -> Result<(Result<T, Rejection>, usize), Wrong> {
    let mut format = Words { words, next: 0 };
    let Traced(read) = Traced::deserialize_owned(alloc, &mut Deserializer::new(&[], &mut format))?;
    Ok((read, format.next))
}

/// Asserts that a document is read to its end, and returns the value.
pub(crate) fn value<T: DeserializeOwned>(
    rt: &(impl Abort + AllocGlobal),
    document: &str,
) -> Result<T, Fail> {
    let words = words_of(rt.alloc(), document)?;
    let (read, end) = read::<T>(rt.alloc(), &words)?;
    assert_eq!(rt; end, words.len(), "{document}");
    Ok(read.ok().ok_or("rejected")?)
}

/// Returns the number of the last word of the value that begins with this one.
fn end_of(words: &[&str], start: usize) -> usize {
    let mut open = 0_usize;
    for at in start..words.len() {
        let word = words[at];
        match word.as_bytes() {
            b"row" => return words.len() - 1,
            [b'[' | b'(' | b'{' | b'<'] => open += 1,
            [b']' | b')' | b'}' | b'>'] => open = open.saturating_sub(1),
            _ => {}
        }
        if open == 0 && !word.ends_with(':') {
            return at;
        }
    }
    words.len() - 1
}

/// Returns the number of the first word of the value of an entry or item.
fn value_of(words: &[&str], at: usize) -> usize {
    at + words.get(at).is_some_and(|word| word.ends_with(':')) as usize
}

/// Returns the number of the word to which a rejection leads.
fn place_of(words: &[&str], rejection: &Rejection) -> usize {
    let mut at = 0;
    for number in &rejection.path {
        at = value_of(words, at) + 1;
        for _ in 0..*number {
            at = end_of(words, at) + 1;
        }
    }
    match rejection.part {
        Part::Key => at,
        Part::Value => value_of(words, at),
        Part::End => end_of(words, value_of(words, at)),
    }
}

/// Returns how many items a sequence has.
fn items_of(words: &[&str], start: usize) -> usize {
    let (mut at, mut items) = (start + 1, 0);
    while at < end_of(words, start) {
        at = end_of(words, at) + 1;
        items += 1;
    }
    items
}

fn found_at<'t>(words: &[&'t str], at: usize) -> Unexpected<'t> {
    let word = words.get(at).copied().unwrap_or("");
    match word {
        "null" => Unexpected::Null,
        "true" | "false" => Unexpected::Bool(word == "true"),
        "[" | "(" | "row" => Unexpected::Seq(items_of(words, at)),
        "{" | "<" => Unexpected::Map,
        _ => match word.strip_prefix('\'').or(word.strip_suffix(':')) {
            Some(text) => Unexpected::Str(text),
            None => Unexpected::Number(word),
        },
    }
}

/// Asserts that each document of a table is rejected, and is read to its end. It has a `^` before
/// the word of its error, and is below its message. Names each that differs.
pub(crate) fn assert_errors<T: DeserializeOwned>(
    rt: &(impl Abort + AllocGlobal),
    table: &str,
) -> Result<(), Fail> {
    let alloc = rt.alloc();
    let (mut differ, mut message, mut is_asked) = (String::new(alloc), "", true);
    for line in table.trim().lines() {
        let document = line.trim();
        let Some(marked) = document.split(' ').position(|word| word.starts_with('^')) else {
            assert!(rt; is_asked, "no document has this error: {message}");
            (message, is_asked) = (document, false);
            continue;
        };
        is_asked = true;
        let plain = document.replace(alloc, '^', "")?;
        let words = words_of(alloc, &plain)?;
        match read::<T>(alloc, &words)? {
            (Ok(_), _) => write!(differ, "\n{document}: read")?,
            (Err(rejection), end) => {
                let at = place_of(&words, &rejection);
                let said = rejection.message(alloc, found_at(&words, at))?;
                if (at, said.as_str(), end) != (marked, message, words.len()) {
                    write!(differ, "\n{document}: word {at}: {said}, {end} words read")?;
                }
            }
        }
    }
    assert!(rt; is_asked, "no document has this error: {message}");
    assert_eq!(rt; differ.as_str(), "");
    Ok(())
}
