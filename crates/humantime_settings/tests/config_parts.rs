//! The parts of drawn documents with each attribute of `serde`, right and wrong.

/// Names, and the texts of which each stands for one. In a text, angle brackets have a name or,
/// after a single quote, a key or, after a double quote, the text of a string. One that is wrong
/// can end in its message, in angle quotes.
pub(crate) type Parts = &'static [(&'static str, &'static [&'static str])];

/// A part that is to be wrong, the name of a wrong one in its place, and an entry that has it.
pub(crate) const KINDS: &[(&str, &str, &str)] = &[
    ("speed", "wrong speed", "<'speed><=><speed>"),
    (
        "speed",
        "wrong speed",
        "<'speeds><=>[<_><speed><,><speed><]>",
    ),
    (
        "speed",
        "wrong speed",
        "<'tree><=>{<_><'next><=><tree><,><'speed><=><speed><_>}",
    ),
    (
        "speeds by name",
        "wrong by name",
        "<'by-speed><=><speeds by name>",
    ),
    ("no list", "wrong no list", "<'no-list><=><no list>"),
    ("no list", "wrong no list", "<'desk><=><desk>"),
    ("desk", "wrong desk", "<'desk><=><desk>"),
    ("word", "wrong word", "<'word><=><word>"),
    (
        "word",
        "wrong word",
        "<'cell><=>{<_><'RowNumber><=>1<,><'Word><=><word><_>}",
    ),
    ("word", "wrong word", "<'point><=><point>"),
    ("palette", "wrong palette", "<'palette><=><palette>"),
    (
        "palette",
        "wrong palette",
        "<'palettes><=>[<_><palette><,><palette><]>",
    ),
    ("even", "wrong even", "<'even><=><even>"),
    ("even", "wrong even", "<'evens><=>[<_><even><,><even><]>"),
    ("even", "even twice", "<'even><=><even>"),
    ("half", "wrong half", "<'half><=><half>"),
    (
        "assigned",
        "wrong assigned",
        "<'list><=>[<_><assigned><,><assigned><]>",
    ),
    ("ages", "wrong ages", "<'ages><=><ages>"),
    ("ages", "ages twice", "<'ages><=><ages>"),
    ("limits", "wrong limits", "<'limits><=><limits>"),
    ("retries", "wrong retries", "<'retries><=><retries>"),
    ("retries", "wrong retries", "<'retries><=><retries>"),
    ("retries", "retries twice", "<'retries><=><retries>"),
    ("action", "wrong action", "<'action><=><action>"),
    (
        "action",
        "wrong action",
        "<'actions><=>[<_><action><,><action><]>",
    ),
    ("event", "wrong event", "<'event><=><event>"),
    ("step", "wrong step", "<'step><=><step>"),
    ("choice", "wrong choice", "<'choice><=><choice>"),
    ("hidden", "wrong hidden", "<'hidden><=><hidden>"),
    ("point", "wrong point", "<'point><=><point>"),
    ("both", "wrong both", "<'both><=><both>"),
    ("cell", "wrong cell", "<'cell><=><cell>"),
    ("switches", "wrong switches", "<'switches><=><switches>"),
    ("totals", "wrong totals", "<'totals><=><totals>"),
    ("silent", "wrong silent", "<'silent><=><silent>"),
    ("share", "wrong share", "<'share><=><share>"),
];

pub(crate) const BOTH: Parts = &[
    // Entries of which none has a part that is to be wrong.
    (
        "before",
        &[
            "<'left><=>{<_><'max-age><=>7<_>}",
            "<'counts><=>[<_>1<,>-2<]>",
            "<'small><=>-128",
        ],
    ),
    (
        "after",
        &[
            "<'wide><=>7",
            "<'x><=>{<_><'speed><=><\"quick><_>}",
            "<'whole><=>0",
            "<'ratio><=>-2.5e3",
        ],
    ),
    ("speed", &["<\"fast>", "<\"slow>"]),
    (
        "wrong speed",
        &[
            "^<\"quick>«unknown variant `quick`»",
            "^<\"Fast>«unknown variant `Fast`»",
            "^<\"slow >«unknown variant `slow `»",
            "^7«invalid type: integer `7`, expected a string»",
            "^true«invalid type: boolean `true`, expected a string»",
            "^[<_>]«invalid type: sequence, expected a string»",
            "^{<_>}«invalid type: map, expected a string»",
        ],
    ),
    ("speeds by name", &["{<_>}", "{<_><'fast><=><number><_>}"]),
    (
        "wrong by name",
        &[
            "{<_>^<'quick><=><number><_>}«unknown variant `quick`»",
            "{<_><'fast><=><number><,>^<'quick><=><number><_>}«unknown variant `quick`»",
            "{<_><'fast><=>7<,><'slow><=><wrong number><_>}",
        ],
    ),
    ("no list", &["7", "<\"a>", "{<_>}", "true"]),
    (
        "wrong no list",
        &[
            "^[<_>]«a list is not accepted»",
            "^[<_>[]<,>{}<]>«a list is not accepted»",
        ],
    ),
    (
        "desk",
        &[
            "{<_><'no_list><=><no list><,><'word><=><word><_>}",
            "{<_><'count><=>7<,><'word><=><word><,><'no_list><=><no list><_>}",
        ],
    ),
    (
        "wrong desk",
        &[
            "<{^><_><'no_list><=><no list><^}>«missing field `word`»",
            "<{^><_><'count><=>7<,><'word><=><word><^}>«missing field `no_list`»",
            "{<_><'no_list><=>7<,><'word><=><word><,><'count><=><wrong number><_>}",
        ],
    ),
    ("word", &["<\"a>", "<\"1~>"]),
    (
        "wrong word",
        &[
            "^7«invalid value»",
            "^1.5«invalid value»",
            "^true«invalid value»",
            "^[<_>]«invalid value»",
            "^{<_>}«invalid value»",
        ],
    ),
    (
        "palette",
        &[
            "{<_>}",
            "{<_><'red><=><number><_>}",
            "{<_><'blue><=><number><,><'red><=><number><_>}",
        ],
    ),
    (
        "wrong palette",
        &[
            "{<_>^<'green><=>1<_>}«unknown field `green`»",
            "{<_><'red><=><number><,>^<'Red><=>{<_>}<_>}«unknown field `Red`»",
            "{<_><'blue><=><wrong number><_>}",
            "^7«invalid type: integer `7`, expected a map»",
            "^<\"red>«invalid type: string \"red\", expected a map»",
            "^[<_>]«invalid type: sequence, expected a map»",
        ],
    ),
    (
        "even",
        &[
            "{<_>}",
            "{<_><'itemCount><=>2<_>}",
            "{<_><'item_count><=>1<,><'itemCount><=>0<_>}",
        ],
    ),
    (
        "wrong even",
        &[
            "<odd>",
            "{<_><'itemCount><=>^<\"2><_>}«invalid type: string \"2\", expected an integer»",
            "{<_><'itemCount><=>^-2<_>}«invalid value: integer `-2`, expected an integer in range»",
            "^7«invalid type: integer `7`, expected a map»",
        ],
    ),
    (
        "odd",
        &[
            "^{<_><'itemCount><=>3<_>}«the count is odd»",
            "^{<_><'itemCount><=>1<,><'item_count><=>2<_>}«the count is odd»",
        ],
    ),
    ("half", &["{<_><'itemCount><=>1<_>}"]),
    (
        "wrong half",
        &[
            "^{<_>}«invalid value»",
            "^{<_><'itemCount><=>0<_>}«invalid value»",
            "^{<_><'item_count><=>7<_>}«invalid value»",
        ],
    ),
    ("assigned", &["<\"b=1>", "<\"b=>"]),
    (
        "wrong assigned",
        &[
            "^<\"a=1>«missing field `b`»",
            "^<\">«missing field `b`»",
            "^7«invalid type: integer `7`, expected a string»",
        ],
    ),
    (
        "ages",
        &[
            "{<_><'max-age><=>1<,><'maxAge><=>2<,><'wait><=><value><,><'max_age><=>3<_>}",
            "{<_><'wait><=><value><,><'max_age><=>1<,><'maxAge><=>2<,><'max-age><=>3<_>}",
        ],
    ),
    (
        "wrong ages",
        &[
            "<{^><_><'max-age><=>1<,><'maxAge><=>2<,><'wait><=><value><^}>«missing field \
            `max_age`»",
            "<{^><_><'wait><=><value><,><'max_age><=>1<,><'max-age><=>2<^}>«missing field \
            `maxAge`»",
            "<{^><_><'max_age><=>1<,><'wait><=><value><,><'maxAge><=>2<^}>«missing field \
            `max-age`»",
            "<{^><_><'max-age><=>1<,><'maxAge><=>2<,><'max_age><=>3<^}>«missing field `wait`»",
            "{<_><'max-age><=>1<,><'maxAge><=>2<,><'wait><=><value><,><'max_age><=><wrong \
            number><_>}",
            "{<_><'max-age><=>1<,><'maxAge><=>2<,><'wait><=>^7<,><'max_age><=>3<_>}«expected a \
             duration in quotes»",
        ],
    ),
    (
        "limits",
        &[
            "{<_><'max-age><=><number><_>}",
            "{<_><'maxAge><=><number><,><'max-age><=><number><,><'minAge><=>7<_>}",
        ],
    ),
    (
        "wrong limits",
        &[
            "<{^><_><'maxAge><=><number><^}>«missing field `max-age`»",
            "<{^><_><'minAge><=>7<,><'maxAge><=>1<^}>«missing field `max-age`»",
            "<{^><_><'max_age><=><number><,><'maxAge><=><number><^}>«missing field `max-age`»",
            "{<_><'max-age><=>7<,><'minAge><=><wrong number><_>}",
        ],
    ),
    ("left", &["{<_><'max-age><=><number><_>}"]),
    (
        "wrong left",
        &[
            "<{^><^}>«missing field `max-age`»",
            "<{^><_><'max_age><=>7<^}>«missing field `max-age`»",
            "{<_><'max-age><=><wrong number><_>}",
        ],
    ),
    (
        "retries",
        &[
            "{<_>}",
            "{<_><'waits><=><values><,><'count><=><left><_>}",
            "{<_><'zwaits><=><values><,><'names><=>{<_><'a><=><value><_>}<_>}",
            "{<_><'pause><=><value><,><'zcount><=><left><_>}",
        ],
    ),
    (
        "wrong retries",
        &[
            "{<_><'waits><=>[<_><value><,><wrong value><]><_>}",
            "{<_><'names><=>{<_><'a><=><wrong value><_>}<,><'waits><=><values><_>}",
            "{<_><'count><=><wrong left><,><'pause><=><value><_>}",
            "{<_><'pause><=><wrong value><_>}",
            "{<_><'waits><=><values><,>^<'zwaits><=><values><_>}«duplicate field `zwaits`»",
            "{<_><'waits><=>[<_>]<,>^<'zwaits><=>[<_><value><,>7<]><_>}«duplicate field `zwaits`»",
            "{<_><'names><=>{<_>}<,>^<'zz><=>{<_><'a><=>7<_>}<_>}«duplicate field `zz`»",
            "{<_><'count><=><left><,>^<'zcount><=>{<_><'max-age><=>300<_>}<_>}«duplicate field \
            `zcount`»",
            "{<_>^<'wiat><=>1<_>}«unknown field `wiat`, expected one of `waits`, `names`, `count`, \
             `pause`»",
        ],
    ),
    (
        "action",
        &[
            "<\"stand-by>",
            "{<_><'go-on><=><speed><_>}",
            "{<_><'both><=>[<_><speed><,><word><]><_>}",
            "{<_><'paint><=>{<_><'palette><=><palette><_>}<_>}",
            "{<_><'paint-it><=>{<_><'even><=><even><,><'palette><=><palette><_>}<_>}",
        ],
    ),
    (
        "wrong action",
        &[
            "^<\"dash>«unknown variant `dash`, ACTIONS»",
            "{<_>^<'dash><=>1<_>}«unknown variant `dash`, ACTIONS»",
            "^<\"go-on>«invalid type: unit variant, expected a variant with data»",
            "^7«invalid type: integer `7`, expected a map»",
            "<{^><^}>«wanted exactly 1 element, found 0 elements»",
            "{<_><'go-on><=><speed><,>^<'stand-by><=>{}<_>}«wanted exactly 1 element, more than 1 \
             element»",
            "{<_><'go-on><=><wrong speed><_>}",
            "{<_><'both><=>[<_><speed><,><wrong word><]><_>}",
            "{<_><'both><=>^[<_><speed><]><_>}«invalid length 1»",
            "{<_><'both><=>^[<_><speed><,><word><,>1<]><_>}«invalid length 3, expected a tuple of \
             size 2»",
            "{<_><'paint><=><{^><_><'x><=>1<^}><_>}«missing field `palette`»",
            "{<_><'paint-it><=>{<_><'palette><=><wrong palette><_>}<_>}",
            "{<_><'paint><=>{<_><'even><=><odd><,><'palette><=>{<_>}<_>}<_>}",
        ],
    ),
    (
        "event",
        &[
            "{<_><'kind><=><\"STOP><_>}",
            "{<_><'kind><=><\"START><,><'speed><=><speed><_>}",
            "{<_><'speed><=><speed><,><'word><=><word><,><'kind><=><\"START><_>}",
            "{<_><'list><=>[<_><assigned><]><,><'kind><=><\"again><_>}",
        ],
    ),
    (
        "wrong event",
        &[
            "{<_><'kind><=>^<\"start><_>}«unknown variant `start`, EVENTS»",
            "{<_><'x><=>1<,><'kind><=>^7<_>}«invalid type: integer `7`, expected variant \
            identifier»",
            "<{^><_><'speed><=><speed><^}>«missing field `kind`»",
            "<{^><_><'kind><=><\"START><^}>«missing field `speed`»",
            "{<_><'kind><=><\"START><,><'speed><=><wrong speed><_>}",
            "{<_><'word><=><wrong word><,><'speed><=><speed><,><'kind><=><\"START><_>}",
            "{<_><'list><=>[<_><assigned><,><wrong assigned><]><,><'kind><=><\"again><_>}",
            "{<_><'speed><=><speed><,>^<'x><=>1<,><'kind><=><\"START><_>}«unknown field `x`, \
             expected `speed` or `word`»",
            "^7«invalid type: integer `7`, expected a map»",
            "^<\"STOP>«invalid type: string \"STOP\", expected a map»",
        ],
    ),
    ("letter", &["<\"a>", "<\"b>"]),
    (
        "wrong letter",
        &[
            "^<\"z>«unknown variant `z`»",
            "^<\"ab>«invalid value: string \"ab\", expected a character»",
            "^7«invalid type: integer `7`, expected a character»",
        ],
    ),
    (
        "step",
        &[
            "{<_><'kind><=><\"no_step><_>}",
            "{<_><'kind><=><\"to_speed><,><'of><=><speed><_>}",
            "{<_><'of><=>{<_><'palette><=><palette><_>}<,><'kind><=><\"to_palette><_>}",
            "{<_><'of><=>[<_><letter><,>[<_>7<]><]><,><'kind><=><\"to_pair><_>}",
        ],
    ),
    (
        "wrong step",
        &[
            "{<_><'kind><=>^<\"to_Speed><_>}«unknown variant `to_Speed`, STEPS»",
            "<{^><_><'of><=><speed><^}>«missing field `kind`»",
            "<{^><_><'kind><=><\"to_speed><^}>«missing field `of`»",
            "{<_><'of><=><wrong speed><,><'kind><=><\"to_speed><_>}",
            "{<_><'kind><=><\"to_palette><,><'of><=>{<_><'palette><=><wrong palette><_>}<_>}",
            "{<_><'of><=>[<_><wrong letter><,>[<_>]<]><,><'kind><=><\"to_pair><_>}",
            "{<_><'kind><=><\"to_pair><,><'of><=>[<_><letter><,>[<_>7<,>^8<]><]><_>}«invalid \
            value»",
            "{<_><'kind><=><\"no_step><,>^<'x><=>1<_>}«unknown field `x`, expected `kind` or `of`»",
        ],
    ),
    (
        "choice",
        &[
            "7",
            "<\"fast>",
            "<\"stand-by>",
            "{<_><'itemCount><=>2<_>}",
            "{<_><'go-on><=><speed><_>}",
        ],
    ),
    (
        "wrong choice",
        &[
            "^256«data did not match any variant of untagged enum»",
            "^-1«data did not match any variant of untagged enum»",
            "^true«data did not match any variant of untagged enum»",
            "^<\"quick>«data did not match any variant of untagged enum»",
            "^[<_><\"x><]>«data did not match any variant of untagged enum»",
            "^{<_><'itemCount><=>3<_>}«data did not match any variant of untagged enum»",
        ],
    ),
    ("hidden", &["<\"Shown>", "<\"Seen>"]),
    (
        "wrong hidden",
        &[
            "^<\"Kept>«unknown variant `Kept`, expected `Shown` or `Seen`»",
            "{<_>^<'Lost><=>{}<_>}«unknown variant `Lost`, expected `Shown` or `Seen`»",
            "^7«invalid type: integer `7`, expected a map»",
        ],
    ),
    ("point", &["[<_><number><,><value><,><word><]>"]),
    (
        "wrong point",
        &[
            "^[<_><number><,><value><]>«invalid length 2»",
            "^[<_><number><,><value><,><word><,>4<]>«invalid length 4, expected a tuple of size 3»",
            "[<_><wrong number><,><value><,><word><]>",
            "[<_><number><,><wrong value><,><word><]>",
            "^{<_>}«invalid type: map, expected a sequence»",
        ],
    ),
    (
        "tree",
        &[
            "{<_>}",
            "{<_><'speed><=><speed><_>}",
            "{<_><'next><=><tree><_>}",
            "{<_><'nodes><=>[<_><tree><,><tree><]><,><'speed><=><speed><_>}",
        ],
    ),
    ("both", &["{<_><'one><=><speed><,><'two><=><speed><_>}"]),
    (
        "wrong both",
        &[
            "<{^><_><'one><=><speed><^}>«missing field `two`»",
            "{<_><'two><=><wrong speed><,><'one><=><speed><_>}",
        ],
    ),
    (
        "cell",
        &[
            "{<_><'RowNumber><=><number><_>}",
            "{<_><'Word><=><word><,><'RowNumber><=><number><_>}",
        ],
    ),
    (
        "wrong cell",
        &[
            "{<_>^<'Note><=>1<_>}«unknown field `Note`, expected `RowNumber` or `Word`»",
            "{<_><'RowNumber><=>1<,>^<'note><=>1<_>}«unknown field `note`, expected `RowNumber` or \
             `Word`»",
            "<{^><_><'Word><=><word><^}>«missing field `RowNumber`»",
            "{<_><'RowNumber><=><wrong number><_>}",
        ],
    ),
    ("switches", &["{<_><'on><=>1<_>}", "{<_><'off><=>[<_>]<_>}"]),
    (
        "wrong switches",
        &[
            "<{^><^}>«missing field `on`»",
            "{<_><'off><=>1<,>^<'on><=>2<_>}«duplicate field `on`»",
        ],
    ),
    ("totals", &["{<_><'a><=><number><,><'b><=><number><_>}"]),
    (
        "wrong totals",
        &[
            "{<_><'a><=><wrong number><_>}",
            "{<_><'a><=><number><,><'b><=><wrong number><,><'c><=><number><_>}",
        ],
    ),
    ("silent", &["<\">"]),
    (
        "wrong silent",
        &[
            "^<\"x>«invalid value»",
            "^<\"loud>«it is loud at line 7, or at line 8»",
        ],
    ),
    ("share", &["0", "1", "0.5"]),
    (
        "wrong share",
        &[
            "^1.5«invalid value»",
            "^-2«invalid value»",
            "^true«invalid type: boolean `true`, expected f64»",
            "^<\"1>«invalid type: string \"1\", expected f64»",
        ],
    ),
];

pub(crate) const JSON: Parts = &[
    (
        "config",
        &[
            "<_>{<_><before><,>ENTRY<,><after><_>}<_>",
            "<_>{<_><after><,><before><,>ENTRY<_>}<_>",
            "<_>{<_>ENTRY<_>}<_>",
        ],
    ),
    // Where a key is missing.
    ("{^", &["{"]),
    ("^}", &["<_>^}"]),
    (
        "number of one",
        &[
            "^null«invalid type: null, expected an integer»",
            "^-0«invalid type: floating point `-0`, expected an integer»",
            "^1E2«invalid type: floating point `1E2`, expected an integer»",
            "^98765432109876543210«invalid value: integer `98765432109876543210`, expected an \
             integer in range»",
        ],
    ),
    (
        "even twice",
        &[
            "{<_><'itemCount><=>2<,>^<'itemCount><=>3<_>}«duplicate field `itemCount`»",
            "{<_><'itemCount><=>2<,>^<'itemCount><=><\"2><_>}«duplicate field `itemCount`»",
        ],
    ),
    (
        "ages twice",
        &[
            "{<_><'maxAge><=>1<,><'max-age><=>2<,><'max_age><=>3<,>\
             ^<'maxAge><=>4<,><'wait><=><value><_>}\
             «duplicate field `maxAge`»",
            "{<_><'maxAge><=>1<,><'max-age><=>2<,><'max_age><=>3<,>\
             <'wait><=><value><,>^<'max-age><=>4<_>}\
             «duplicate field `max-age`»",
        ],
    ),
    (
        "retries twice",
        &[
            "{<_><'waits><=><values><,>^<'waits><=>[<_>7<]><_>}«duplicate field `waits`»",
            "{<_><'zwaits><=><values><,>^<'waits><=>[<_>{}<,><value><]><_>}«duplicate field \
            `waits`»",
            "{<_><'count><=><left><,>^<'count><=>{<_><'x><=>1<_>}<_>}«duplicate field `count`»",
            "{<_><'pause><=><value><,>^<'pause><=>7<_>}«duplicate field `pause`»",
        ],
    ),
];

pub(crate) const TOML: Parts = &[
    (
        "config",
        &[
            "<start><before><end>ENTRY<end><after><end>",
            "<start><after><end><before><end>ENTRY",
            "<start>ENTRY",
        ],
    ),
    ("{^", &["^{"]),
    ("^}", &["<_>}"]),
    (
        "number of one",
        &[
            "^1979-05-27«invalid type: datetime, expected an integer»",
            "^-inf«invalid type: floating point `-inf`, expected an integer»",
            "^1E2«invalid type: floating point `100.0`, expected an integer»",
            "^0x100«invalid value: integer `256`, expected an integer in range»",
        ],
    ),
    // A key that is there twice is not TOML.
    ("even twice", &["<odd>"]),
    ("ages twice", &["<wrong ages>"]),
    ("retries twice", &["<wrong retries>"]),
];
