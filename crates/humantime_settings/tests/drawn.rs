//! Fixed and drawn documents with at most one error each: it is found where it was put.

use crate::config_parts::{self, Parts};
use crate::support::{Random, Read, UNITS, Wait, assert_read, difference, filled, reads};
use crate::types::Config;
use humantime::SystemTime;
use humantime_settings::AsText;
use serde::Deserialize;
use std::alloc::AllocError;
use std::collections::BTreeMap;
use std::process::Abort;
use std::test::Fail;

/// The document, or a table in it.
#[derive(Debug, Drop, Deserialize)]
#[serde(recursive)]
pub(crate) struct Table {
    wait: Option<Wait>,
    since: Option<AsText<SystemTime>>,
    list: Option<Vec<Wait>>,
    grid: Option<Vec<Vec<Wait>>>,
    named: Option<BTreeMap<String, Wait>>,
    a: Option<BTreeMap<String, Wait>>,
    job: Option<Job>,
    tasks: Option<Vec<Task>>,
    #[serde(rename = "a.b")]
    dotted: Option<Wait>,
    #[serde(recursive)]
    one: Option<Box<Table>>,
    #[serde(default, recursive)]
    many: Vec<Table>,
}

#[derive(Debug, Drop, Deserialize)]
#[serde(deny_unknown_fields, rename_all = "kebab-case")]
struct Job {
    max_age: Wait,
    count: u8,
}

#[derive(Debug, Drop, Deserialize)]
#[serde(tag = "kind")]
enum Task {
    Every { wait: Wait },
    Never,
}

/// What is wrong in a document: the name of a part, and that of a wrong one in its place.
const KINDS: [(&str, &str); 10] = [
    ("value", "wrong value"),
    ("value", "wrong value"),
    ("value", "wrong value"),
    ("time", "wrong time"),
    ("number", "wrong number"),
    ("tag", "wrong tag"),
    ("fields", "wrong fields"),
    ("job", "wrong job"),
    (",", "wrong ,"),
    ("=", "wrong ="),
];

const BOTH: Parts = &[
    ("wait", &["<'wait><=><value>"]),
    ("since", &["<'since><=><time>"]),
    ("list", &["<'list><=><values>"]),
    (
        "values",
        &[
            "[<_>]",
            "[<_><value><]>",
            "[<_><value><,><value><]>",
            "[<_><value><,><value><,><value><]>",
        ],
    ),
    (
        "grid",
        &[
            "<'grid><=>[<_>]",
            "<'grid><=>[<_><values><]>",
            "<'grid><=>[<_><values><,><values><]>",
        ],
    ),
    (
        "named",
        &["<'named><=>{<_><'x><=><value><,><name><=><value><_>}"],
    ),
    (
        "pairs",
        &[
            "<last>",
            "<skip><,><wait><,><last>",
            "<wait><,><list><,><job>",
            "<skip><,><grid><,><since>",
            "<named><,><wait><,><last>",
            "<job><,><tasks>",
            "<tasks><,><job><,><wait>",
        ],
    ),
    ("job", &["<'job><=>{<_><fields><_>}"]),
    (
        "fields",
        &[
            "<'count><=><number><,><'max-age><=><value>",
            "<'max-age><=><value><,><'count><=><number>",
        ],
    ),
    ("number", &["7", "0", "255"]),
    (
        "tasks",
        &[
            "<'tasks><=>[<_><task><]>",
            "<'tasks><=>[<_><task><,><task><]>",
        ],
    ),
    (
        "task",
        &[
            "{<_><'kind><=><tag><,><'wait><=><value><_>}",
            "{<_><'wait><=><value><,><'kind><=><tag><_>}",
        ],
    ),
    ("tag", &["<\"Every>"]),
    ("one", &["<'one><=>{<_><pairs><_>}"]),
    (
        "many",
        &[
            "<'many><=>[<_>]",
            "<'many><=>[<_>{<_><pairs><_>}<]>",
            "<'many><=>[<_>{<_><pairs><_>}<,>{<_><pairs><_>}<]>",
        ],
    ),
    (
        "value",
        &["<\"1s>", "<\"2h 5m>", "<\"1\ts>", "<\"\u{3000}1h\n2s >"],
    ),
    (
        "time",
        &["<\"2018-02-14 00:28:07>", "<\"2018-02-14T00:28:07.5Z>"],
    ),
    // An error begins and ends at `^`. One that ends where it begins has only one.
    (
        "wrong number",
        &[
            "^256«invalid value: integer `256`, expected an integer in range»",
            "^-1«invalid value: integer `-1`, expected an integer in range»",
            "^1.5«invalid type: floating point `1.5`, expected an integer»",
            "^true«invalid type: boolean `true`, expected an integer»",
            "^<\"7>«invalid type: string \"7\", expected an integer»",
            "^[<_>7<_>]«invalid type: sequence, expected an integer»",
            "^{<_>}«invalid type: map, expected an integer»",
            "<number of one>",
        ],
    ),
    (
        "wrong tag",
        &[
            "^<\"every>«unknown variant `every`, expected `Every` or `Never`»",
            "^<\"Never2>«unknown variant `Never2`, expected `Every` or `Never`»",
            "^7«invalid type: integer `7`, expected variant identifier»",
            "^[]«invalid type: sequence, expected variant identifier»",
        ],
    ),
    (
        "wrong fields",
        &[
            "<'max-age><=><value><,>^\"wiat\"<=>7<,><'count><=><number>«unknown field `wiat`, JOB»",
            "<'count><=><number><,>^\"max_age\"<=><value><,><'max-age><=><value>«unknown field \
            `max_age`, JOB»",
            "<'count><=><number><,><'max-age><=><value><,>^\"count\"<=><number>",
            "<'max-age><=><value><,>^\"max-age\"<=><value>",
        ],
    ),
    (
        "wrong job",
        &[
            "<'job><=><{^><_><'count><=>7<^}>«missing field `max-age`»",
            "<'job><=><{^><_><'max-age><=><value><^}>«missing field `count`»",
            "<'job><=><{^><^}>«missing field `max-age`»",
            "<'job><=>^7«invalid type: integer `7`, expected a map»",
        ],
    ),
    ("wrong ,", &["<blank>^"]),
    ("blank", &[" ", "\n", "\t "]),
    (
        "wrong value",
        &[
            "<wrong text>",
            "<wrong text>",
            "<wrong text>",
            "<no text>«expected a duration in quotes»",
        ],
    ),
    (
        "wrong time",
        &[
            "<wrong moment>",
            "<wrong moment>",
            "<wrong moment>",
            "<no text>«expected a timestamp in quotes»",
        ],
    ),
    (
        "wrong text",
        &[
            "<\"^>«value was empty»",
            "<\"^~^>«expected number at 0»",
            "<\"5µs ^~^>«expected number at 5»",
            "<\"1s 2^>«time unit needed, for example 2sec or 2ms»",
            "<\"1^x^ 2s>«unknown time unit \"x\", UNITS»",
            "<\" 2h 5^~^>«invalid character at 5»",
            "<\"\u{3000}2h\t5^~^>«invalid character at 7»",
            "<\"1h ^#^[ >«expected number at 3»",
            "<\"1s ^\\^>«expected number at 3»",
            "<\"1s ^\"^>«expected number at 3»",
            "<\"1h\n2s ^é^𝄞>«expected number at 6»",
            "<\"1d\u{3000}2h ^𝄞^1h>«expected number at 8»",
            "<\"5^parsecs^ 1h>«unknown time unit \"parsecs\", UNITS»",
            "<\"9^µx^>«unknown time unit \"µx\", UNITS»",
            "<\"5µs ^\u{1b}^>«expected number at 5»",
            "<\"5^\u{10ffff}^>«invalid character at 1»",
            "<\"\u{2003}2w ^/^>«expected number at 6»",
            "<\"1s ^\\^u00e9>«expected number at 3»",
            "<\"1h ^😀^x>«expected number at 3»",
            "<\"1s 2h ^é^𝄞>«expected number at 6»",
            "<\"1h\n2s\n^é^𝄞>«expected number at 6»",
            "<\"5^parsecs^\t1h>«unknown time unit \"parsecs\", UNITS»",
            "<\"1d ^\u{1b}^>«expected number at 3»",
            "<\"2w ^/^>«expected number at 3»",
            "<\"1d 2h ^𝄞^1h>«expected number at 6»",
            "<\"2w ^é^>«expected number at 3»",
            "<\"1h\r\n2s ^\u{1b}^>«expected number at 7»",
            "<\"1h ^\u{1b}^😀>«expected number at 3»",
            "<\"1s\n2^parsecs^\n>«unknown time unit \"parsecs\", UNITS»",
            "<\"1s ^~^>«expected number at 3»",
            "<\"1^~^>«invalid character at 1»",
            "<\"1s\n2^>«time unit needed, for example 2sec or 2ms»",
            "<\"1m 9^parsecs^>«unknown time unit \"parsecs\", UNITS»",
            "<\"2h\t^é^>«expected number at 3»",
        ],
    ),
    (
        "wrong moment",
        &[
            "<\"^>",
            "<\"2018-2^-^14 00:28:07>",
            "<\"2018-02^é^>",
            "<\"2018-02-^30^ 00:28:07>",
            "<\"2018-^13^-14T00:28:07.>",
            "<\"2018-02-14 00:28:07^\u{1b}[\"^>",
            "<\"2018-02-14 00:28:07.5^+02:00^>",
            "<\"2018-02-14T00:28:07^😀𝄞é^>",
            "<\"2018-02-14 00:28:07^𝄞\t😀~^>",
            "<\"2018-02-14 00:28:07^\u{10ffff}\\1^>",
            "<\"2018-02-14 00:28:07Z^\n~^>",
            "<\"2018-02-14 00:28:07^\\1^>",
        ],
    ),
];

const JSON: Parts = &[
    (
        "document",
        &[
            "<_>{<_><'wait><=><value><,><since><_>}<_>",
            "<_>{<_><pairs><,><'a.b><=><value><,><rest>}<_>",
        ],
    ),
    (
        "rest",
        &["<a>", "<one><,><a>", "<a><,><many>", "<many><,><a><,><one>"],
    ),
    ("a", &["<'a><=>{<_><'b><=><value><_>}<_>"]),
    // Keys that are unknown, with their values, also as the last of a table.
    (
        "skip",
        &[
            r#""skip":[{"wait":"1~"}, "]\"", 1.5e3, null]"#,
            r#""\"wait\"" : "\\""#,
            r#""skip":{ }"#,
        ],
    ),
    ("last", &[r#""last"<=>0"#, r#""last"<=>{}"#]),
    // Keys with escapes, and with what they do not end at.
    ("name", &[r#""\"""#, r#""z\ty""#, r#""\u007a\\""#, r#""}""#]),
    (
        "no text",
        &["^7", "^-2.5e3", "^true", "^[<_><\"1s><_>]", "^[]", "^{}"],
    ),
    ("_", &["", " ", "\n", "\r\n\t"]),
    ("=", &["<_>:<_>"]),
    (
        "wrong =",
        &["<_>^=<_>", "<blank>^", "<_>:<_>^:", "<_>:<_>^,"],
    ),
    (",", &["<_>,<_>"]),
    ("]", &["<_>]"]),
    ("open", &["\""]),
];

const TOML: Parts = &[
    (
        "document",
        &[
            "<start><wait><end><since><end>",
            "<start><lines><end><'a.b><=><value><end><rest>",
        ],
    ),
    ("start", &["", "\u{feff}", "# [\n", "\r\n"]),
    (
        "rest",
        &[
            "<one><end><many><end><a>",
            "<one><end><heads><a>",
            "<many><end><a><head>",
            "<heads><a><head>",
            "<heads><head><a>",
        ],
    ),
    (
        "a",
        &[
            "[a]<end><'b><=><value><end>",
            "[ a ]<end><'b><=><value><end>",
            "[\"a\"]<end><'b><=><value><end>",
        ],
    ),
    (
        "head",
        &[
            "[one]<end><lines><end>",
            "[ one ]<end><lines><end>",
            "['one']<end><lines><end>",
        ],
    ),
    (
        "heads",
        &[
            "",
            "<item>",
            "<item><item>",
            "<item>[many.a]<end><']><=><value><end>",
            "<item>[ many . 'a' ]<end><']><=><value><end><item>",
        ],
    ),
    (
        "item",
        &[
            "[[many]]<end><lines><end>",
            "[[ 'many' ]]<end><lines><end>",
            "\t[[\"many\"]]<end><lines><end>",
        ],
    ),
    (
        "lines",
        &[
            "<last>",
            "<skip><end><wait><end><last>",
            "<wait><end><list><end><last>",
            "<skip><end><grid><end><since>",
            "<named><end><wait><end><last>",
            "named.<'x><=><value><end><list><end>'named' . <'y z><=><value><end><last>",
            "<job><end><tasks><end><last>",
            "<tasks><end><job>",
        ],
    ),
    (
        "named",
        &[
            "<'named><=>{<_><'x><=><value><,><name><=><value><_>}",
            "named.<'x><=><value>",
            "\"named\" . <'y z><=><value>",
        ],
    ),
    (
        "skip",
        &[
            "skip = [1, ']', { wait = '1~', b = [ 2, \"[\" ] }, 1979-05-27]",
            "skip.wait = '1~'",
            "skip = \"\"\"\nwait = '1~'\n\"\"\"",
        ],
    ),
    ("last", &["last = 0", "last = {}"]),
    ("name", &["y", "'y.z'", "\"\\u0061\\t\"", "\"]\""]),
    (
        "no text",
        &[
            "^7",
            "^0x1F",
            "^-2.5e3",
            "^inf",
            "^-nan",
            "^true",
            "^1979-05-27 07:32:00Z",
            "^07:32:00",
            "^[<_><\"1s><_>]",
            "^[]",
            "^{}",
            "^{ a = <\"1s> }",
        ],
    ),
    ("_", &["", " ", "\n", " # ]\n\t"]),
    ("=", &["=", " = ", "\t= "]),
    ("wrong =", &["<tab>^: ", "^~", "<is>^=", "<is>^, "]),
    ("tab", &[" ", "\t"]),
    ("is", &["=", " = "]),
    (",", &[",", " , ", ", # '~' ]\n", ",\r\n\t"]),
    ("]", &["]", " ,\n]", "<_>]"]),
    // What is before the content of a string, and ends of lines that a backslash leaves out.
    (
        "open",
        &[
            "\"",
            "\"",
            "\"",
            "'",
            "\"\"\"",
            "\"\"\"\n",
            "\"\"\"\r\n",
            "'''",
            "'''\n",
            "'''\r\n",
        ],
    ),
    ("break", &["\\\n", "\\\r\n  ", "\\ \t\n\n \t\r\n"]),
    // What follows a value outside brackets.
    (
        "end",
        &[
            "\n",
            "\r\n",
            " # ' [ { \" = '1~'\n",
            "\t#]\r\n",
            "\n\n# [wait]\n",
            "\n  ",
        ],
    ),
];

/// What stands for names in both formats, in TOML, and in JSON.
const GRAMMAR: [&[Parts]; 3] = [
    &[BOTH, config_parts::BOTH],
    &[TOML, config_parts::TOML],
    &[JSON, config_parts::JSON],
];

/// The ways to write a character between double quotes.
const WAYS: [&[Parts]; 3] = [
    &[&[
        ("1", &["1", r"\u0031"]),
        ("s", &["s", r"\u0073"]),
        (" ", &[" ", r"\u0020"]),
        ("~", &["~", r"\u007e", r"\u007E"]),
        ("-", &["-", r"\u002D"]),
        ("µ", &["µ", r"\u00b5"]),
        ("\u{3000}", &["\u{3000}", r"\u3000"]),
        ("\\", &[r"\\", r"\u005c"]),
        ("\"", &[r#"\""#, r"\u0022"]),
        ("p", &["p", r"\u0070"]),
        ("\t", &[r"\t", r"\u0009"]),
        ("\n", &[r"\n", r"\u000A"]),
        ("\r", &[r"\r"]),
    ]],
    &[&[
        ("2", &["2", r"\x32", r"\U00000032"]),
        ("é", &["é", r"\xe9", r"\u00E9", r"\u00e9"]),
        ("\u{1b}", &[r"\e", r"\x1B", r"\u001b"]),
        ("𝄞", &["𝄞", r"\U0001D11E"]),
        ("😀", &["😀", r"\U0001f600"]),
        ("\u{10ffff}", &["\u{10ffff}", r"\U0010FFFF"]),
    ]],
    &[&[
        ("/", &["/", r"\/", r"\u002f"]),
        ("é", &["é", r"\u00e9"]),
        ("\u{1b}", &[r"\u001b"]),
        ("𝄞", &["𝄞", r"\uD834\uDd1e", r"\ud834\udd1E"]),
        ("😀", &["😀", r"\ud83d\uDE00", r"\uD83D\ude00"]),
        ("\u{10ffff}", &["\u{10ffff}", r"\uDBFF\udfff"]),
    ]],
];

/// Returns the texts that a name has for both formats, or for one.
fn texts(tables: &[&[Parts]; 3], is_json: bool, name: &str) -> Option<&'static [&'static str]> {
    let mut tables = tables[1 + is_json as usize].iter().chain(tables[0]);
    tables.find_map(|table| Some(table.iter().find(|entry| entry.0 == name)?.1))
}

/// Documents, in which each `@` is a duration and each `%` a timestamp. Some keys are unknown, or
/// have escapes and what they do not end at.
const FIXED_JSON: &[&str] = &[
    "{\"wait\":@,\"since\":%}",
    "\r\n\t{ \n\"w\\u0061it\"\t: @ ,\r\n\"since\" :\n%\n}\n",
    "{\"skip\":[{\"wait\":\"1~\"}, \"]\\\"\", 1.5e3, null], \"wait\": @, \"list\":[ ],\"last\":{}, \
     \"\\u0061.b\" :@,\"one\":{\"last\":0 },\"a\":{ \"b\":@}}",
    "{\"list\":[@,\"1\\ts\",@,\n@],\"\\\"wait\\\"\":\"\\\\\",\"grid\":[[@],[\t],\r\n\
    [\"\\u0031s\",@]],\"since\":%,\"many\":[\n],\"a.b\":@}",
    "{\"named\":{\"x\":@, \"\\\"\":\"2h 5m\",\"z\\ty\":@ , \"\\u007a\\\\\" : @,\"}\":@},\
     \"many\":[{\"last\":{},\"wait\":@}, {\"skip\":{ },\"list\":[@, \"1s\"]}]}",
    "{\"many\":[{\"named\":{\"]\":\"1\\u0073\"},\"wait\":@}],\"a\":{\"b\":@},\
     \"on\\u0065\":{\"grid\":[],\"since\":%,\"one\":{\"wait\":@},\"last\":0}}",
];

const FIXED_TOML: &[&str] = &[
    "wait=@\nsince = %",
    "\u{feff}skip = [1, ']', { wait = '1~', b = [2, \"[\"] }, 1979-05-27]\n\twait\t= @\t#]\r\nlist \
    = []\n\n# [wait]\n\"a.b\" = @ # ' [ {\n",
    "'one' = { # ]\n\twait=@,last = {},named.x = @ }\r\nlast = 0 # \" = '1~'\n[ \ta \
    ]\r\n\"\\u0062\" = @\n",
    "# [\n\"\\u006cist\" = [@, # '~' ]\n\"\"\"\r\n\u{3000}1h\n2s \"\"\" ,\r\n\t@ ,\n@ ,\n\
    ]\n  since = %\n'a.b'\t= @",
    "grid=[ # ]\n\t[@ ,\n],[\n],['1s', @\n] ]\r\n[a]\nb =@",
    "many = [{ 'wait'= @ , \"named\" = { x = @, # '~' ]\n 'y'\t= @ } } , {\n\"last\" = 0, list = \
    [@] } ]\n",
    "\r\nnamed.x = @\nlist = [@]\n'named' . \"y z\" = @\n  \"a.b\"= @\n[[many]]\nwait = @ #\n\
    [many.a]\n']' = @\n",
    "skip.wait = '1~'\n[[ 'many' ]] # ' [ {\ngrid = []\n[\"a\"]\nb = @",
    "named={\"x\"=@,\"\\u0061\\t\" =@,\"]\"=@}\n\t[[\"many\"]]\nlist = ['''\n1s''', @]\n[ many . \
    'a' ]\r\n\"]\" = @\n[[many]]\nsince=%\n",
    "skip = \"\"\"\nwait = '1~'\n\"\"\"\n\"named\".'y z' = @\n'named'.'y.z'=\"\"\"\\\r\n \
    1\\ \t\n\n s\"\"\"\nwait=@\n[one]\n\t\"wait\" = @",
    "[one]\n'since' = %\nnamed.x = @\nlist=[]\n['one'.one]\nwait = @",
];

/// The parts at these places, with the names of what is wrong there, and the message if it has none
/// of its own.
const PLACES: [(&str, &str, &str); 5] = [
    ("value", "wrong text", ""),
    ("value", "no text", "expected a duration in quotes"),
    ("time", "wrong moment", ""),
    ("time", "wrong moment", ""),
    ("time", "no text", "expected a timestamp in quotes"),
];

/// What names in messages stand for.
const NAMES: &[(&str, &str)] = &[
    UNITS,
    ("JOB", "expected `max-age` or `count`"),
    (
        "ACTIONS",
        "expected one of `stand-by`, `go-on`, `both`, `paint-it`",
    ),
    ("EVENTS", "expected one of `STOP`, `START`, `again`"),
    (
        "STEPS",
        "expected one of `no_step`, `to_speed`, `to_palette`, `to_pair`",
    ),
];

/// A document that is drawn.
#[derive(Drop)]
struct Draw<'a> {
    random: Random,
    is_json: bool,
    /// An error begins and ends at `^`.
    text: String,
    /// The part that is wrong, the name of what is wrong, and the message if this has none.
    kind: (&'a str, &'a str, &'a str),
    /// Its number among those that are still to be put, from 1. None has the number 0.
    wrong: usize,
}

impl<'a> Draw<'a> {
    /// Puts a text with what names in it stand for.
    fn put(&mut self, text: &'a str) -> Result<(), AllocError> {
        for part in text.split('>') {
            let (before, name) = part.split_once('<').unwrap_or((part, ""));
            self.text.push_str(before)?;
            match name.split_at_checked(1) {
                None => {}
                Some(("'", key)) => self.put_key(key)?,
                Some(("\"", text)) => self.put_string(text)?,
                _ => {
                    let text = self.text_of(name);
                    self.put(text)?;
                }
            }
        }
        Ok(())
    }

    /// Returns one of the texts of a name, or one that is wrong in the place of the one that is to
    /// be wrong.
    fn text_of(&mut self, name: &'a str) -> &'a str {
        let (part, wrong, _) = self.kind;
        self.wrong = self.wrong.wrapping_sub((name == part) as usize);
        let is_wrong = name == part && self.wrong == 0;
        let text = self.one_of(&GRAMMAR, if is_wrong { wrong } else { name });
        let Some((text, message)) = text.split_once('«') else {
            return text
        };
        self.kind.2 = message.trim_end_matches('»');
        text
    }

    /// Returns one of the texts of a name, or the name.
    fn one_of<'b>(&mut self, tables: &[&[Parts]; 3], name: &'b str) -> &'b str {
        texts(tables, self.is_json, name).map_or(
            name,
            |texts| texts[self.random.below(texts.len())],
        )
    }

    /// Puts a key in quotes, which can have an escape, or in TOML also in single quotes or bare.
    fn put_key(&mut self, key: &str) -> Result<(), AllocError> {
        let alloc = *self.text.allocator();
        let is_bare = key.bytes().all(|byte| byte.is_ascii_lowercase());
        let key = match self.random.below(if self.is_json { 2 } else { 5 }) {
            0 => format!(in alloc; "\"{key}\"")?,
            1 => format!(in alloc; "\"\\u{:04x}{}\"", key.as_bytes()[0], &key[1..])?,
            2 if is_bare => format!(in alloc; "{key}")?,
            3 if is_bare && !self.text.ends_with('^') => format!(in alloc; "\t{key} ")?,
            _ => format!(in alloc; "'{key}'")?,
        };
        self.text.push_str(&key)
    }

    /// Puts a string with this text, each of whose characters is written in one of its ways.
    fn put_string(&mut self, text: &str) -> Result<(), AllocError> {
        let open = self.one_of(&GRAMMAR, "open");
        let (is_long, is_literal) = (open.len() > 1, open.starts_with('\''));
        self.text.push_str(open)?;
        for (at, c) in text.char_indices() {
            if is_long && !is_literal {
                self.put_blank(c)?;
            }
            let is_plain = is_literal || c == '\n' && is_long && self.random.below(2) == 0;
            let plain = &text[at..at + c.len_utf8()];
            let way = match c {
                '\r' | '\n' if is_plain && !is_long => " ",
                '\u{1b}' if is_plain => "?",
                _ if is_plain => plain,
                _ => self.one_of(&WAYS, plain),
            };
            self.text.push_str(way)?;
        }
        self.text.push_str(open.trim_end())
    }

    /// Puts a backslash at the end of a line, or nothing. White space behind it would be no text,
    /// and a mark begins behind it.
    fn put_blank(&mut self, c: char) -> Result<(), AllocError> {
        let is_marked = self.text.ends_with('^') || c == '^' && self.text.contains('^');
        if is_marked || matches!(c, ' ' | '\t' | '\n') || self.random.below(6) > 0 {
            return Ok(());
        }
        let blank = self.one_of(&GRAMMAR, "break");
        self.text.push_str(blank)
    }
}

/// Draws a document with a wrong part of this kind and number, and asserts that it has this error.
/// Returns whether there is such a part.
fn is_wrong(
    rt: &(impl Abort + AllocGlobal),
    reads: [Read; 2],
    (is_json, seed): (bool, u64),
    (kind, wrong): ((&str, &str, &str), usize),
    text: &str,
) -> Result<bool, Fail> {
    let alloc = rt.alloc();
    let mut draw = Draw {
        random: Random::new(seed),
        is_json,
        text: String::new(alloc),
        kind,
        wrong,
    };
    draw.put(text)?;
    let read = reads[is_json as usize];
    if !draw.text.contains('^') {
        assert_read(rt, read, &draw.text);
        return Ok(false);
    }
    let message = filled(rt, draw.kind.2, NAMES)?;
    let message = (!message.is_empty()).then_some(message.as_str());
    let difference = difference(rt, read, &draw.text, message)?;
    assert!(rt; difference.is_empty(), "{difference}");
    Ok(true)
}

/// Draws documents, the first from this seed, until 500 have an error.
fn assert_found(rt: &(impl Abort + AllocGlobal), is_json: bool, mut seed: u64) -> Result<(), Fail> {
    let mut found = 0;
    while found < 500 {
        let number = seed as usize;
        let (part, name) = KINDS[number % KINDS.len()];
        // Mostly the first of its kind is wrong.
        let wrong = ((part, name, ""), [1, 2, 1, 1, 3][number / KINDS.len() % 5]);
        found += is_wrong(rt, reads!(Table), (is_json, seed), wrong, "<document>")? as u32;
        seed += 1;
    }
    Ok(())
}

/// Draws documents with each attribute, the first from this seed, until 1,000 have an error.
fn assert_all_found(
    rt: &(impl Abort + AllocGlobal),
    is_json: bool,
    mut seed: u64,
) -> Result<(), Fail> {
    let (kinds, mut found) = (config_parts::KINDS, 0);
    let documents = texts(&GRAMMAR, is_json, "config").ok_or("no documents")?;
    while found < 1000 {
        let number = seed as usize;
        let (part, name, entry) = kinds[number % kinds.len()];
        let rest = number / kinds.len();
        let document = filled(rt, documents[rest % documents.len()], &[("ENTRY", entry)])?;
        // Mostly the first of its kind is wrong, and at times none.
        let nth = [1, 1, 2, 1, 0][rest / documents.len() % 5];
        let wrong = ((part, name, ""), nth);
        found += is_wrong(rt, reads!(Config), (is_json, seed), wrong, &document)? as u32;
        seed += 1;
    }
    Ok(())
}

/// Asserts that these documents are right, and that each wrong value is marked in each of its
/// places, in one of the ways to write it.
fn assert_marked(
    rt: &(impl Abort + AllocGlobal),
    is_json: bool,
    documents: &[&str],
) -> Result<(), Fail> {
    let mut seed = 0;
    for document in documents {
        let document = filled(rt, document, &[("@", "<value>"), ("%", "<time>")])?;
        let right = (("", "", ""), 0);
        assert!(rt; !is_wrong(rt, reads!(Table), (is_json, seed), right, &document)?);
        for (part, name, message) in PLACES {
            let (wrong, places) = (
                texts(&GRAMMAR, is_json, name).ok_or(name)?,
                document.matches(part).count(),
            );
            for number in 0..wrong.len() * places {
                seed += 1;
                let kind = (part, wrong[number / places], message);
                let wrong = (kind, number % places + 1);
                assert!(rt; is_wrong(rt, reads!(Table), (is_json, seed), wrong, &document)?);
            }
        }
    }
    Ok(())
}

#[test]
fn wrong_values_in_json(rt: HostRuntime) -> Result<(), Fail> {
    assert_marked(&rt, true, FIXED_JSON)
}

#[test]
fn wrong_values_in_toml(rt: HostRuntime) -> Result<(), Fail> {
    assert_marked(&rt, false, FIXED_TOML)
}

#[test]
fn drawn_documents_in_json(rt: HostRuntime) -> Result<(), Fail> {
    assert_found(&rt, true, 0)
}

#[test]
fn more_drawn_documents_in_json(rt: HostRuntime) -> Result<(), Fail> {
    assert_found(&rt, true, 1 << 32)
}

#[test]
fn drawn_documents_in_toml(rt: HostRuntime) -> Result<(), Fail> {
    assert_found(&rt, false, 0)
}

#[test]
fn more_drawn_documents_in_toml(rt: HostRuntime) -> Result<(), Fail> {
    assert_found(&rt, false, 1 << 32)
}

#[test]
fn all_attributes_in_json(rt: HostRuntime) -> Result<(), Fail> {
    assert_all_found(&rt, true, 0)
}

#[test]
fn more_attributes_in_json(rt: HostRuntime) -> Result<(), Fail> {
    assert_all_found(&rt, true, 1 << 32)
}

#[test]
fn all_attributes_in_toml(rt: HostRuntime) -> Result<(), Fail> {
    assert_all_found(&rt, false, 0)
}

#[test]
fn more_attributes_in_toml(rt: HostRuntime) -> Result<(), Fail> {
    assert_all_found(&rt, false, 1 << 32)
}
