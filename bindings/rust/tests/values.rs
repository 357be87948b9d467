//! What the crate tells of one value, by its text. Expected values are worked out by hand.
use jihluka::{
    as_i64, as_str, as_u64, count, elements, get, members, path, type_of, Code, Error, Type,
};
use std::borrow::Cow;

const ORDER: &str =
    r#" {"id": 4711, "wh\u006f": "Zo\u00eb\n", "rows": [["nut", -2], {}], "id": null} "#;

/// Texts of which the first byte says the type, whatever follows.
const BEGUN: [(&str, Type); 6] = [
    ("null x", Type::Null),
    ("\n false", Type::Boolean),
    ("-", Type::Number),
    ("\"\\", Type::String),
    ("{]", Type::Object),
    (" \t\r\n[", Type::Array),
];

/// Where a text is broken: the code and the offset.
fn place(error: Error) -> Option<(Code, usize)> {
    error.fault().map(|fault| (fault.code, fault.offset))
}

#[test]
fn types() {
    for (text, wanted) in BEGUN {
        assert_eq!(type_of(text), Ok(wanted), "{text:?}");
        assert_eq!(type_of(text.as_bytes()), Ok(wanted), "{text:?}");
    }
    for (text, code, offset) in [
        ("", Code::EOF_WHILE_PARSING, 0),
        (" \t", Code::EOF_WHILE_PARSING, 1),
        ("x", Code::INVALID_JSON_VALUE, 0),
    ] {
        let wanted = Some((code, offset));
        assert_eq!(place(type_of(text).unwrap_err()), wanted, "{text:?}");
        assert_eq!(place(as_u64(text).unwrap_err()), wanted, "{text:?}");
        assert_eq!(place(as_i64(text).unwrap_err()), wanted, "{text:?}");
        assert_eq!(place(as_str(text).unwrap_err()), wanted, "{text:?}");
        assert_eq!(place(count(text).unwrap_err()), wanted, "{text:?}");
        assert_eq!(place(elements(text).unwrap_err()), wanted, "{text:?}");
        assert_eq!(place(members(text).unwrap_err()), wanted, "{text:?}");
    }
}

#[test]
fn other_types() {
    for (text, found) in BEGUN {
        let wrong = Error::WrongType(found);
        let is_container = matches!(found, Type::Object | Type::Array);
        assert!(found == Type::Number || as_u64(text) == Err(wrong));
        assert!(found == Type::Number || as_i64(text) == Err(wrong));
        assert!(found == Type::String || as_str(text) == Err(wrong));
        assert!(is_container || count(text) == Err(wrong));
        assert!(found == Type::Array || elements(text).unwrap_err() == wrong);
        assert!(found == Type::Object || members(text).unwrap_err() == wrong);
        assert_eq!(
            wrong.to_string(),
            format!("the value is of the type {found}, which wasn't asked for")
        );
        assert_eq!((wrong.fault(), wrong.is_not_found()), (None, false));
    }
    assert_eq!(
        Error::NotInteger.to_string(),
        "the number is no integer in the range of the call"
    );
}

#[test]
fn integers() {
    let none = Error::NotInteger;
    for (text, natural, integer) in [
        ("0", Ok(0), Ok(0)),
        (" 12 ", Ok(12), Ok(12)),
        ("-0", Err(none), Ok(0)),
        ("18446744073709551615", Ok(u64::MAX), Err(none)),
        ("18446744073709551616", Err(none), Err(none)),
        ("9223372036854775807", Ok(i64::MAX as u64), Ok(i64::MAX)),
        ("-9223372036854775808", Err(none), Ok(i64::MIN)),
        ("-9223372036854775809", Err(none), Err(none)),
        ("1.0", Err(none), Err(none)),
        ("1e3", Err(none), Err(none)),
    ] {
        assert_eq!(as_u64(text), natural, "{text}");
        assert_eq!(as_u64(text.as_bytes()), natural, "{text}");
        assert_eq!(as_i64(text), integer, "{text}");
    }
    for (text, code, offset) in [
        ("01", Code::INVALID_NUMBER, 1),
        ("-", Code::EOF_WHILE_PARSING, 0),
        ("12 x", Code::TRAILING_CHARACTERS, 3),
    ] {
        assert_eq!(place(as_u64(text).unwrap_err()), Some((code, offset)));
        assert_eq!(place(as_i64(text).unwrap_err()), Some((code, offset)));
    }
}

#[test]
fn strings() {
    for (text, wanted) in [
        (r#""""#, ""),
        (" \t\r\n\"Zoë \u{1f600}\" ", "Zoë \u{1f600}"),
        (r#""\"\\\/\b\f\n\r\t\u0000""#, "\"\\/\u{8}\u{c}\n\r\t\0"),
        (r#" "a\ud83d\ude00\u00EB" "#, "a\u{1f600}ë"),
    ] {
        for found in [as_str(text).unwrap(), as_str(text.as_bytes()).unwrap()] {
            assert_eq!(found, wanted);
            let is_borrowed = matches!(found, Cow::Borrowed(_));
            assert_eq!(is_borrowed, !text.contains('\\'), "{text:?}");
            let is_inside = text.as_bytes().as_ptr_range().contains(&found.as_ptr());
            assert_eq!(is_inside, is_borrowed, "{text:?}");
        }
    }
    for (text, code, offset) in [
        (&b"\"a"[..], Code::EOF_WHILE_PARSING, 1),
        (b"\"a\" \"\\\"", Code::TRAILING_CHARACTERS, 4),
        (b"\"a\\\\\" x", Code::TRAILING_CHARACTERS, 6),
        (b"\"\\x\"", Code::INVALID_ESCAPE, 2),
        (b"\"\xff\"", Code::INVALID_UTF8, 1),
        (b"\"\\n\xff\"", Code::INVALID_UTF8, 3),
        (b"\"\n\"", Code::CONTROL_CHARACTER_WHILE_PARSING_STRING, 1),
    ] {
        assert_eq!(place(as_str(text).unwrap_err()), Some((code, offset)));
    }
    let long = "\\n".repeat(100_000) + &"x".repeat(100_000);
    let wanted = "\n".repeat(100_000) + &"x".repeat(100_000);
    assert_eq!(as_str(&format!("\"{long}\"")).unwrap(), wanted);
}

#[test]
fn counts() {
    for (text, wanted) in [("[ ] ", 0), ("{}", 0), ("[[], {}]", 2), (ORDER, 4)] {
        assert_eq!(count(text), Ok(wanted), "{text}");
    }
    for (text, code, offset) in [
        (&b"[1,]"[..], Code::INVALID_JSON_VALUE, 3),
        (b"[1] 2", Code::TRAILING_CHARACTERS, 4),
        (b"{\"a\":1", Code::EOF_WHILE_PARSING, 5),
        (b"[\"\xff\"]", Code::INVALID_UTF8, 2),
    ] {
        assert_eq!(place(count(text).unwrap_err()), Some((code, offset)));
    }
}

#[test]
fn elements_of_arrays() {
    for (text, wanted, end) in [
        ("[]", &[][..], None),
        (" [1 , [2, {}] ] ", &["1", "[2, {}]"], None),
        ("[1, 2,]", &["1", "2"], Some((Code::INVALID_JSON_VALUE, 6))),
        ("[1] 2", &["1"], Some((Code::TRAILING_CHARACTERS, 4))),
        ("[1", &["1"], Some((Code::EOF_WHILE_PARSING, 1))),
    ] {
        let mut found = elements(text).unwrap();
        for part in wanted {
            assert_eq!(found.next(), Some(Ok(*part)), "{text}");
        }
        let told = found.next().map(|error| place(error.unwrap_err()).unwrap());
        assert_eq!(told, end, "{text}");
        assert_eq!((found.next(), found.next()), (None, None), "{text}");
    }
    let bytes = elements(b"[\"\xc3\xab\", 2]").unwrap();
    let bytes: Vec<&[u8]> = bytes.map(Result::unwrap).collect();
    assert_eq!(bytes, [&b"\"\xc3\xab\""[..], b"2"]);
    assert_eq!(
        place(elements(b"[1, \"\xff\"]").unwrap_err()),
        Some((Code::INVALID_UTF8, 5))
    );
}

#[test]
fn members_of_objects() {
    let found: Vec<_> = members(ORDER).unwrap().map(Result::unwrap).collect();
    assert_eq!(
        found,
        [
            ("\"id\"", "4711"),
            ("\"wh\\u006f\"", "\"Zo\\u00eb\\n\""),
            ("\"rows\"", "[[\"nut\", -2], {}]"),
            ("\"id\"", "null"),
        ]
    );
    let keys: Vec<_> = found.iter().map(|(key, _)| as_str(*key).unwrap()).collect();
    assert_eq!(keys, ["id", "who", "rows", "id"]);
    let mut broken = members(&b"{\"a\":[2],3}"[..]).unwrap();
    assert_eq!(broken.next(), Some(Ok((&b"\"a\""[..], &b"[2]"[..]))));
    assert_eq!(
        place(broken.next().unwrap().unwrap_err()),
        Some((Code::EXPECT_OBJECT_KEY_OR_END, 9))
    );
    assert_eq!(broken.next(), None);
}

#[test]
fn clones_go_on_alone() {
    let mut found = elements("[1, 2, 3]").unwrap();
    assert_eq!(found.next(), Some(Ok("1")));
    let clone = found.clone();
    assert_eq!(found.next(), Some(Ok("2")));
    assert_eq!(clone.collect::<Result<Vec<_>, _>>(), Ok(vec!["2", "3"]));
    assert_eq!(found.collect::<Result<Vec<_>, _>>(), Ok(vec!["3"]));
    let found = members(r#"{"a": 1}"#).unwrap();
    assert_eq!(found.clone().count(), 1);
    let by_thread = std::thread::spawn(move || found.count());
    assert_eq!(by_thread.join().unwrap(), 1);
}

/// How many values there are in all, and the sum of the integers among them.
fn sum(json: &[u8]) -> Result<(u64, i64), Error> {
    let inside: Vec<&[u8]> = match type_of(json)? {
        Type::Array => elements(json)?.collect::<Result<_, _>>()?,
        Type::Object => members(json)?
            .map(|member| Ok(member?.1))
            .collect::<Result<_, Error>>()?,
        Type::Number => return Ok((1, as_i64(json)?)),
        _ => return Ok((1, 0)),
    };
    inside.into_iter().try_fold((1, 0), |(count, total), part| {
        let (more, of_part) = sum(part)?;
        Ok((count + more, total + of_part))
    })
}

#[test]
fn all_of_a_document() {
    assert_eq!(sum(ORDER.as_bytes()), Ok((9, 4709)));
    let rows = get(ORDER, &path!["rows"]).unwrap();
    assert_eq!(sum(rows.as_bytes()), Ok((5, -2)));
    let many = format!("[{}7]", "7,".repeat(199_999));
    assert_eq!(sum(many.as_bytes()), Ok((200_001, 1_400_000)));
    assert_eq!(count(&many), Ok(200_000));
}
