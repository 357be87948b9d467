//! What texts the crate makes of a document, and why it makes none. Expected values are worked out by hand.
use jihluka::{edit, fill, indent, minify, patch, validate, Category, Code, Error, Fault};

const ORDER: &str = " { \"id\" : 7, \"items\" : [ {\"sku\": \"Zo\\u00eb\", \"count\": 2}, [] ],\n \"note\" : \"ë\" } ";
const SMALL: &str = r#"{"id":7,"items":[{"sku":"Zo\u00eb","count":2},[]],"note":"ë"}"#;
const WIDE: &str = r#"{
  "id": 7,
  "items": [
    {
      "sku": "Zo\u00eb",
      "count": 2
    },
    []
  ],
  "note": "ë"
}"#;
const PATCH: &str = r#"[{"op":"test","path":"/id","value":7}, {"op":"add","path":"/items/-","value":"ü"}, {"op":"remove","path":"/note"}]"#;
const PATCHED: &str = r#"{"id":7,"items":[{"sku": "Zo\u00eb", "count": 2},[],"ü"]}"#;
const EDITS: &str = "[\"set\",[\"items\",0,\"count\"],3]\n[\"push\",[\"items\"],\"ü\"]\n[\"pair\",[],\"paid\",true]\n[\"take\",[\"id\"]]\n";
const EDITED: &str =
    r#"{"id":null,"items":[{"sku":"Zo\u00eb","count":3},[],"ü"],"note":"ë","paid":true}"#;
const SCHEMA: &str = r#"{"id": 0, "currency": "€", "note": null}"#;
const FILLED: &str = r#"{"id":7,"currency":"€","note":"ë"}"#;

fn made(text: &str) -> Result<String, Error> {
    Ok(text.to_owned())
}

/// A fault on the first line.
fn fault(code: Code, offset: usize) -> Fault {
    Fault {
        code,
        line: 1,
        column: offset + 1,
        offset,
    }
}

fn nested(count: usize) -> String {
    "[".repeat(count) + &"]".repeat(count)
}

#[test]
fn each_kind_of_text() {
    let bytes = ORDER.as_bytes();
    assert_eq!(minify(ORDER), made(SMALL));
    assert_eq!(minify(bytes), made(SMALL));
    assert_eq!(minify(&ORDER.to_owned()), made(SMALL));
    assert_eq!(minify(b"[ 7 ]"), made("[7]"));
    assert_eq!(indent(ORDER, 2), made(WIDE));
    assert_eq!(indent(bytes, 2), made(WIDE));
    assert_eq!(patch(ORDER, PATCH), made(PATCHED));
    assert_eq!(patch(bytes, PATCH), made(PATCHED));
    assert_eq!(patch(ORDER, PATCH.as_bytes()), made(PATCHED));
    assert_eq!(edit(ORDER, EDITS), made(EDITED));
    assert_eq!(edit(bytes, &EDITS.to_owned()), made(EDITED));
    assert_eq!(fill(SCHEMA, ORDER), made(FILLED));
    assert_eq!(fill(&SCHEMA.as_bytes().to_vec(), bytes), made(FILLED));
}

#[test]
fn what_is_kept() {
    for text in [
        "1",
        r#""\u00eb""#,
        "[]",
        "{}",
        r#"{"a":1.50,"a":[]}"#,
        " [ 1 ,\n{} ] ",
    ] {
        assert_eq!(patch(text, "[]"), made(text.trim()), "{text}");
        assert_eq!(edit(text, ""), made(text.trim()), "{text}");
        let small = minify(text);
        assert_eq!(minify(&indent(text, 8).unwrap()), small, "{text}");
        assert_eq!(minify(small.as_ref().unwrap()), small, "{text}");
    }
}

#[test]
fn widths() {
    assert_eq!(indent("7", 8), made("7"));
    for width in 0..=8 {
        let blanks = " ".repeat(width);
        let wanted =
            format!("[\n{blanks}1,\n{blanks}{{\n{blanks}{blanks}\"a\": {{}}\n{blanks}}}\n]");
        assert_eq!(indent(r#"[1,{"a":{}}]"#, width), Ok(wanted));
    }
    for text in ["[1]", "[1", ""] {
        for width in [9, 1 << 32, usize::MAX] {
            assert_eq!(indent(text, width), Err(Error::BadWidth));
        }
    }
}

#[test]
fn longer_than_the_room() {
    let blanks = |level: usize| " ".repeat(8 * level);
    let mut wanted: Vec<String> = (0..199).map(|level| blanks(level) + "[").collect();
    wanted.push(blanks(199) + "[]");
    wanted.extend((0..199).rev().map(|level| blanks(level) + "]"));
    assert_eq!(indent(&nested(200), 8), Ok(wanted.join("\n")));
    let value = format!("\"{}\"", "ë".repeat(9000));
    let copies = [r#"{"op":"copy","from":"/0","path":"/-"}"#; 9].join(",");
    let wanted = format!("[{}]", [value.as_str(); 10].join(","));
    assert_eq!(
        patch(&format!("[{value}]"), &format!("[{copies}]")),
        Ok(wanted)
    );
}

#[test]
fn many_values() {
    let many = "7,".repeat(100_000) + "7";
    let text = format!("[ {} ]", many.replace(',', " ,\n"));
    assert_eq!(minify(&text), Ok(format!("[{many}]")));
    assert_eq!(edit(&text, r#"["take",[]]"#), made("null"));
    assert_eq!(minify(&nested(100_000)), Ok(nested(100_000)));
}

#[test]
fn broken_documents() {
    type Call = fn(&[u8]) -> Result<String, Error>;
    let whole: [Call; 4] = [
        |text| minify(text),
        |text| indent(text, 2),
        |text| patch(text, "[]"),
        |text| edit(text, ""),
    ];
    let first: Call = |text| fill("{}", text);
    for (text, code, offset) in [
        (&b""[..], Code::EOF_WHILE_PARSING, 0),
        (b"[1,", Code::EOF_WHILE_PARSING, 2),
        (b"[\"\xff\"]", Code::INVALID_UTF8, 2),
    ] {
        for call in whole.iter().chain([&first]) {
            assert_eq!(call(text), Err(Error::Document(fault(code, offset))));
        }
    }
    for call in whole {
        for text in [&b"[1] 2"[..], b"[1,\n 01]"] {
            let error = call(text).unwrap_err();
            assert_eq!(error, validate(text).unwrap_err());
            assert_eq!(error.fault().unwrap().code.category(), Category::Syntax);
        }
    }
}

#[test]
fn patches_that_are_none() {
    for (text, change, wanted) in [
        ("", "{}", Error::BadPatch(None)),
        (
            "[1",
            r#"[{"op":"remove","path":"0"}]"#,
            Error::BadOperation(0),
        ),
        (
            "[1]",
            r#"[{"op":"remove","path":"/0"}, 7]"#,
            Error::BadOperation(1),
        ),
        (
            "[1]",
            r#"[{"op":"remove","path":"/0"}, {"op":"remove","path":"/0"}]"#,
            Error::Missing(1),
        ),
        (
            "[1]",
            r#"[{"op":"test","path":"/0","value":1.0}]"#,
            Error::TestFailed(0),
        ),
        (
            r#"{"a":{}}"#,
            r#"[{"op":"move","from":"/a","path":"/a/b"}]"#,
            Error::IntoChild(0),
        ),
    ] {
        assert_eq!(patch(text, change), Err(wanted), "{change}");
    }
    for (change, code, offset) in [
        (&b""[..], Code::EOF_WHILE_PARSING, 0),
        (b"[{\"op\"", Code::EOF_WHILE_PARSING, 5),
        (b"[\"\xff\"]", Code::INVALID_UTF8, 2),
        (b"[] 1", Code::TRAILING_CHARACTERS, 3),
    ] {
        let wanted = Error::BadPatch(Some(fault(code, offset)));
        assert_eq!(patch("[1,", change), Err(wanted));
        assert_eq!((wanted.fault(), wanted.is_not_found()), (None, false));
    }
}

#[test]
fn edits_that_are_none() {
    for (text, change, wanted) in [
        ("[1", "[\"take\",[]]\n[\"take\"]", Error::BadEdit(2)),
        ("[1]", "7", Error::BadEdit(1)),
        ("[1]", "[\"take\",[]]\n\n[\"take\",[]]", Error::BadEdit(2)),
        (
            "[1]",
            "[\"take\",[0]]\n[\"push\",[0],1]",
            Error::EditRefused(2),
        ),
        ("[1]", "[\"set\",[1],1]", Error::EditRefused(1)),
    ] {
        assert_eq!(edit(text, change), Err(wanted), "{change}");
    }
}

#[test]
fn schemas() {
    for (schema, text, wanted) in [
        ("{}", "{} x", "{}"),
        ("{}", r#"{"a": 1}"#, r#"{"a":1}"#),
        (r#"{"a": 1}"#, " [7 ]", "[7]"),
        (
            r#"{"a": {"b": 1}}"#,
            r#"{"a": {}, "c": 2}"#,
            r#"{"a":{"b":1}}"#,
        ),
        (
            r#"{"a": {"b": 1, "c": 2}}"#,
            r#"{"a": {"b": [ ]}}"#,
            r#"{"a":{"b":[],"c":2}}"#,
        ),
        (
            r#"{"a": 1, "a": "\u00eb"}"#,
            r#"{"b": 2}"#,
            r#"{"a":1,"a":"ë"}"#,
        ),
        (
            r#"{"a": 1, "a": 2}"#,
            r#"{"a": 3, "a": 4}"#,
            r#"{"a":1,"a":4}"#,
        ),
        ("{}", &nested(255), &nested(255)),
        (
            r#"{"a": 1}"#,
            &format!(r#"{{"b": {}}}"#, nested(300)),
            r#"{"a":1}"#,
        ),
    ] {
        assert_eq!(fill(schema, text), made(wanted), "{schema} {text}");
    }
    let deep = fault(Code::RECURSION_LIMIT_EXCEEDED, 255);
    assert_eq!(fill("{}", &nested(256)), Err(Error::Document(deep)));
    assert_eq!(fill(&nested(256), ""), Err(Error::BadSchema(Some(deep))));
    let cut = fault(Code::EOF_WHILE_PARSING, 4);
    assert_eq!(fill(r#"{"a":"#, ""), Err(Error::BadSchema(Some(cut))));
    assert_eq!(fill("[]", ""), Err(Error::BadSchema(None)));
}

#[test]
fn words_of_errors() {
    let cut = fault(Code::EOF_WHILE_PARSING, 4);
    for (error, words) in [
        (Error::BadWidth, "the width is above 8"),
        (Error::BadPatch(None), "the patch is no array"),
        (
            Error::BadPatch(Some(cut)),
            "the patch is no JSON text: EOF while parsing: line 1 column 5 (byte 4), code 3",
        ),
        (Error::BadOperation(1), "the element of index 1 of the patch is no operation"),
        (
            Error::Missing(0),
            "the element of index 0 of the patch isn't made, as a pointer of it leads to nothing",
        ),
        (
            Error::TestFailed(0),
            "the element of index 0 of the patch isn't made, as the value is another one than it tests for",
        ),
        (
            Error::IntoChild(0),
            "the element of index 0 of the patch isn't made, as it would move a value into itself",
        ),
        (Error::BadEdit(2), "line 2 of the edits says no edit, or is blank"),
        (
            Error::EditRefused(2),
            "line 2 of the edits isn't made, as its path leads to nothing or to a value of another type than it needs",
        ),
        (Error::BadSchema(None), "the schema is no object"),
        (
            Error::BadSchema(Some(cut)),
            "the schema isn't read: EOF while parsing: line 1 column 5 (byte 4), code 3",
        ),
    ] {
        let boxed: Box<dyn std::error::Error + Send + Sync> = Box::new(error);
        assert_eq!(boxed.to_string(), words);
    }
}

#[test]
fn by_threads() {
    std::thread::scope(|scope| {
        for number in 0..8 {
            scope.spawn(move || {
                let small = format!("[{number}{}]", format!(",{number}").repeat(300));
                let test = format!(r#"[{{"op":"test","path":"/300","value":{number}}}]"#);
                for _ in 0..100 {
                    let wide = patch(&indent(&small, 3).unwrap(), &test).unwrap();
                    assert_eq!(minify(&wide).as_ref(), Ok(&small));
                }
            });
        }
    });
}
