//! Lines that are wrong, a total that is too long, the ends of lines, and an output that fails.
#![tactic(auto)]

use example_table::run;
use std::io::{self, Cursor};
use std::test::Fail;

#[test]
fn a_text_has_a_table_or_a_mark(rt: HostRuntime) -> Result<(), Fail> {
    let most = "584542046090years 7months 15days 17h 5m 3s";
    let all_of_it = format!(in rt.alloc();
        "a        100%  {most}\ntotal          {most}\nmean           {most}\nlongest        a\n"
    )?;
    for (text, status, table, message) in &[
        ("", 0, "total          0s\n", ""),
        (
            "a\t0",
            0,
            "a          0%  0s\ntotal          0s\nmean           0s\nlongest        a\n",
            "",
        ),
        (
            "a\t90s\r\n\t0",
            0,
            "a        100%  1m 30s\
                \n           0%  0s\
                \ntotal          1m 30s\
                \nmean           45s\
                \nlongest        a\n",
            "",
        ),
        ("a\t18446744073709551615s", 0, all_of_it.as_str(), ""),
        (
            "a\t1h\nb\t60min\nc\t0",
            0,
            "a         50%  1h\nb         50%  1h\nc          0%  0s\n\
            total          2h\nmean           40m\nlongest        b\n",
            "",
        ),
        (
            "ダウンロード\t1h\nb\t0",
            0,
            "ダウンロード  100%  1h\nb               0%  0s\n\
            total               1h\nmean                30m\nlongest             ダウンロード\n",
            "",
        ),
        (
            "a\tb\t1h",
            2,
            "",
            "example_table: line 1: expected number at 0\na\tb\t1h\n \t^\n",
        ),
        (
            "a\t1h\nb 2h\nc",
            2,
            "",
            "example_table: line 2: a tab and a duration are missing\nb 2h\n    ^\n",
        ),
        (
            "\n",
            2,
            "",
            "example_table: line 1: a tab and a duration are missing\n\n^\n",
        ),
        (
            "µs\t",
            2,
            "",
            "example_table: line 1: value was empty\nµs\t\n  \t^\n",
        ),
        (
            "a\t1h\r\nµs\t5µs x\r\n",
            2,
            "",
            "example_table: line 2: expected number at 5\nµs\t5µs x\n  \t    ^\n",
        ),
        (
            "a\t1h,2h",
            2,
            "",
            "example_table: line 1: invalid character at 2\na\t1h,2h\n \t  ^\n",
        ),
        (
            "a\t18446744073709551615s\nb\t1s",
            2,
            "",
            "example_table: line 2: the total is longer than any duration\nb\t1s\n \t^\n",
        ),
    ] {
        let (mut out, mut err) = (Vec::new(rt.alloc()), Vec::new(rt.alloc()));
        assert_eq!(rt; run(rt.alloc(), text, &mut out, &mut err)?, *status);
        assert_eq!(rt; String::from_utf8(out)?.as_str(), *table);
        assert_eq!(rt; String::from_utf8(err)?.as_str(), *message);
    }
    Ok(())
}

#[test]
fn an_output_that_fails_is_an_error(rt: HostRuntime) {
    let failure = run(
        rt.alloc(),
        "a\t1h",
        &mut Cursor::new([0; 9]),
        &mut Vec::new(rt.alloc()),
    )
    .err();
    assert_eq!(rt;
        failure.map(|error| error.kind()),
        Some(io::ErrorKind::WriteZero)
    );
}
