//! How long what the calls make is at most. `jihluka.h` says so, for callers that choose a room by it.
use jihluka::{as_str, edit, fill, index, minify, patch, validate, Label, Span, Type};

/// Documents with strings, keys and numbers of each kind.
const DOCUMENTS: [&str; 12] = [
    "7",
    " -1.50e+15 ",
    "[1,2,3]",
    "[[],{},\"\"]",
    "{\"\":{\"\":[]}}",
    " { \"a\" : [ 1 , { } ] , \"a\" : null } ",
    r#""\u0000\u001f\u007f\b\f\n\r\t\"\\\/""#,
    r#"{"\u0000\u001f\u007f\b\f\n\r\t\"\\\/": 1E400}"#,
    r#"["\ud83d\ude00", "\u00eb\u20ac", "ë€😀"]"#,
    r#"{"\ud83d\ude00\u00eb":{"ë€😀":["\u2028"]}}"#,
    "\"\u{7f}\u{2028}\"",
    "[0.1,-0,1e15,123456789012345678901234567890]",
];

/// A document, a patch, and the values that it copies.
const PATCHES: [(&str, &str, &str); 9] = [
    ("7", r#"[{"op":"remove","path":""}]"#, ""),
    ("{}", r#"[{"op":"add","path":"/","value":1}]"#, ""),
    (
        "{}",
        r#"[{"op":"add","path":"/\u0001\b~0~1\u007f","value":[ ]}]"#,
        "",
    ),
    ("[]", r#"[{"op":"add","path":"/-","value":7}]"#, ""),
    (
        r#"{"\u0001\b\/":{"a":1}}"#,
        r#"[{"op":"replace","path":"/\u0001\b~1/a","value":2}]"#,
        "",
    ),
    (
        r#"{"a":1,"b":{}}"#,
        r#"[{"op":"move","from":"/a","path":"/b/\u001f"}]"#,
        "",
    ),
    ("[7]", r#"[{"op":"copy","from":"/0","path":"/-"}]"#, "7"),
    (
        "[[ 1 ]]",
        r#"[{"op":"copy","from":"/0","path":"/-"},{"op":"copy","from":"","path":"/0"}]"#,
        "[ 1 ][[ 1 ],[ 1 ]]",
    ),
    (
        r#"{"a":"\u0001"}"#,
        r#"[{"op":"copy","from":"/a","path":"/b"},{"op":"copy","from":"/b","path":"/c"}]"#,
        r#""\u0001""\u0001""#,
    ),
];

/// A document and edits.
const EDITS: [(&str, &str); 7] = [
    ("7", r#"["take",[]]"#),
    ("7", r#"["set",[],[ 1 ]]"#),
    ("[]", r#"["push",[],1]"#),
    ("{}", r#"["pair",[],"",1]"#),
    ("{}", r#"["pair",[],"\u0001\b\u007f\/",1]"#),
    (
        r#"{"\u0001\b\/":[1]}"#,
        "[\"take\",[\"\\u0001\\b/\",0]]\n[\"push\",[\"\\u0001\\b/\"],2]",
    ),
    ("[[],{}]", "[\"push\",[0],1]\n[\"pair\",[1],\"a\",2]\n"),
];

/// A schema and a text.
const SCHEMAS: [(&str, &str); 7] = [
    ("{}", "7"),
    ("{}", r#"{"a":1}"#),
    (r#"{"a":1}"#, r#"{"a":1e15}"#),
    (r#"{"a":1,"a":0.10}"#, r#"{"a":2,"a":1E400}"#),
    (
        r#"{"\u0001\b\u007f":1}"#,
        r#"{"\u0001\b\u007f":"\u001f\/"}"#,
    ),
    (r#"{"a":{"b":1,"c":[]}}"#, r#"{"a":{"b":{"d":[1,2]}}}"#),
    (r#"{"a":"\ud83d\ude00"}"#, "[ \"\\u20ac\" ]"),
];

/// The text of a string, which is at most as long as the string with its quotes.
fn check_string(text: &str, span: Span) {
    let string = &text[span.range()];
    assert!(as_str(string).unwrap().len() <= string.len(), "{string}");
}

/// The document without white space, which is at most as long, and its values, of which there are at most as
/// many as half of its bytes, rounded up.
fn check_document(text: &str) {
    assert!(minify(text).unwrap().len() <= text.len(), "{text}");
    let values = index(text).unwrap();
    assert!(values.len() <= (text.len() + 1) / 2, "{text}");
    for entry in values {
        if entry.kind == Type::String {
            check_string(text, entry.value);
        }
        if let Label::Key(key) = entry.label {
            check_string(text, key);
        }
    }
}

#[test]
fn documents() {
    DOCUMENTS.into_iter().for_each(check_document);
    assert_eq!(index("[1,2,3]").unwrap().len(), 4);
}

/// All documents of at most six of these characters.
#[test]
fn short_documents() {
    let mut texts = vec![String::new()];
    for _ in 0..6 {
        let longer = |text: String| {
            "[]{}:,\"\\ 1"
                .chars()
                .map(move |last| format!("{text}{last}"))
        };
        texts = texts.into_iter().flat_map(longer).collect();
        let valid = texts.iter().filter(|text| validate(*text).is_ok());
        valid.for_each(|text| check_document(text));
    }
}

/// With a patch: at most as long as the document, the patch and the values that are copied.
#[test]
fn patched_documents() {
    for (text, change, copied) in PATCHES {
        let made = patch(text, change).unwrap();
        assert!(
            made.len() <= text.len() + change.len() + copied.len(),
            "{made}"
        );
    }
}

/// With edits: at most as long as the document and the edits.
#[test]
fn edited_documents() {
    for (text, change) in EDITS {
        let made = edit(text, change).unwrap();
        assert!(made.len() <= text.len() + change.len(), "{made}");
    }
}

/// A schema that is filled: at most as long as the text and the schema.
#[test]
fn filled_schemas() {
    for (schema, text) in SCHEMAS {
        let made = fill(schema, text).unwrap();
        assert!(made.len() <= schema.len() + text.len(), "{made}");
    }
}
