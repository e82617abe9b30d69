//! What is made compact, and what is refused.

use super::{compact, Fault};

fn text_of(text: &str) -> Result<String, &'static str> {
    match compact(text.as_bytes()) {
        Ok(made) => Ok(String::from_utf8(made.text).unwrap()),
        Err(Fault::NotJson(_)) => Err("not JSON"),
        Err(Fault::Unsendable(_)) => Err("unsendable"),
    }
}

#[test]
fn blanks_and_needless_escapes_are_left_out() {
    assert_eq!(
        text_of(" { \"b\\u0041\" : [ 1 , -0 , true ] ,\r\n\"a\":{ } }\t").unwrap(),
        r#"{"bA":[1,0,true],"a":{}}"#
    );
    assert_eq!(text_of(r#""\/\u00e4\ud83d\ude00\u000a\u0001\"""#).unwrap(), "\"/\u{e4}\u{1f600}\\n\\u0001\\\"\"");
    assert_eq!(text_of("[[],[ ],null]").unwrap(), "[[],[],null]");
}

#[test]
fn what_is_no_json_is_refused() {
    for text in [
        "",
        "{",
        "[1,]",
        "[1 2]",
        "1 2",
        "{\"a\"}",
        "{\"a\":}",
        "{a:1}",
        "tru",
        "+1",
        "01",
        "1.",
        ".5",
        "\"\t\"",
        "\"\\x\"",
        "\"\\u12\"",
        "\"a",
        "NaN",
        "[1.5",
    ] {
        assert_eq!(text_of(text), Err("not JSON"), "{text}");
    }
    assert!(
        matches!(compact(b"\"\xff\""), Err(Fault::NotJson(told)) if told == "not UTF-8: line 1, column 2: byte 0xff")
    );
    assert!(
        matches!(compact(b"{\n  \"a\" 1}"), Err(Fault::NotJson(told)) if told.starts_with("not JSON: line 2, column 7:"))
    );
}

#[test]
fn numbers_are_whole_and_have_64_bits() {
    for text in [
        "1.5",
        "1e2",
        "1E+2",
        "9223372036854775808",
        "-9223372036854775809",
        "[1.0]",
        r#""\ud800""#,
        r#""\udc00x""#,
        r#""\ud800\u0041""#,
    ] {
        assert_eq!(text_of(text), Err("unsendable"), "{text}");
    }
    assert_eq!(text_of("-9223372036854775808").unwrap(), "-9223372036854775808");
}

#[test]
fn levels_are_counted() {
    assert_eq!(compact(b"1").unwrap().levels, 0);
    assert_eq!(compact(b"[[],{\"a\":[1]}]").unwrap().levels, 3);
    let deep = format!("{}\n {}{}", "[".repeat(63), "[[1],[2],3", "]".repeat(64));
    assert_eq!(compact(deep.as_bytes()).unwrap().too_deep, Some((2, 3)));
    assert_eq!(compact(deep.replace("[1],[2]", "1").as_bytes()).unwrap().too_deep, None);
    let deepest = |levels: usize| compact(("[\n".repeat(levels) + &"]".repeat(levels)).as_bytes()).unwrap();
    assert_eq!((deepest(127).too_deep_for_a_line, deepest(128).too_deep_for_a_line), (None, Some((128, 1))));
    assert!(matches!(compact("[".repeat(3000).as_bytes()), Err(Fault::NotJson(_))));
}
