//! What the crate tells of all values of a document. Expected values are worked out by hand.
use jihluka::{as_str, get, index, path, validate, Entry, Error, Label, Path, Span, Type};
use Label::{At, Root};
use Type::{Array, Boolean, Null, Number, Object, String as Text};

const ORDER: &str = r#" {"id": 4711, "wh\u006f": ["Zo\u00eb", {"": [[]]}], "net": -1.50} "#;

/// A value: its start and its end, its type, its parent and its label.
type Row = (usize, usize, Type, usize, Label);

fn entry(&(start, end, kind, parent, label): &Row) -> Entry {
    let value = Span { start, end };
    Entry {
        value,
        label,
        parent,
        kind,
    }
}

/// The label of a key with these places.
const fn key(start: usize, end: usize) -> Label {
    Label::Key(Span { start, end })
}

fn nested(count: usize) -> String {
    "[".repeat(count) + &"]".repeat(count)
}

#[test]
fn each_value() {
    let table: [(&str, &[Row]); 14] = [
        ("7", &[(0, 1, Number, 0, Root)]),
        (" \r\n\tnull ", &[(4, 8, Null, 0, Root)]),
        ("false", &[(0, 5, Boolean, 0, Root)]),
        ("-1.5e3\n", &[(0, 6, Number, 0, Root)]),
        (r#""[{,\"ë""#, &[(0, 9, Text, 0, Root)]),
        ("[]", &[(0, 2, Array, 0, Root)]),
        (" { } ", &[(1, 4, Object, 0, Root)]),
        (
            "[1, [] ,{}]",
            &[
                (0, 11, Array, 0, Root),
                (1, 2, Number, 0, At(0)),
                (4, 6, Array, 0, At(1)),
                (8, 10, Object, 0, At(2)),
            ],
        ),
        (
            "[[1],2]",
            &[
                (0, 7, Array, 0, Root),
                (1, 4, Array, 0, At(0)),
                (2, 3, Number, 1, At(0)),
                (5, 6, Number, 0, At(1)),
            ],
        ),
        (
            r#"{"a":[1,{}]}"#,
            &[
                (0, 12, Object, 0, Root),
                (5, 11, Array, 0, key(1, 4)),
                (6, 7, Number, 1, At(0)),
                (8, 10, Object, 1, At(1)),
            ],
        ),
        // A key may come twice.
        (
            r#"{"a":1,"a":2}"#,
            &[
                (0, 13, Object, 0, Root),
                (5, 6, Number, 0, key(1, 4)),
                (11, 12, Number, 0, key(7, 10)),
            ],
        ),
        // A key keeps its escapes, and its letters as bytes.
        (
            r#"{"\u0061" : true}"#,
            &[(0, 17, Object, 0, Root), (12, 16, Boolean, 0, key(1, 9))],
        ),
        (
            r#"{"ë":[false,{"":null}]}"#,
            &[
                (0, 24, Object, 0, Root),
                (6, 23, Array, 0, key(1, 5)),
                (7, 12, Boolean, 1, At(0)),
                (13, 22, Object, 1, At(1)),
                (17, 21, Null, 3, key(14, 16)),
            ],
        ),
        (
            r#"{"a":{"b":0},"c":""}"#,
            &[
                (0, 20, Object, 0, Root),
                (5, 12, Object, 0, key(1, 4)),
                (10, 11, Number, 1, key(6, 9)),
                (17, 19, Text, 0, key(13, 16)),
            ],
        ),
    ];
    for (text, rows) in table {
        let wanted: Vec<Entry> = rows.iter().map(entry).collect();
        assert_eq!(index(text).as_ref(), Ok(&wanted), "{text}");
        assert_eq!(index(text.as_bytes()).as_ref(), Ok(&wanted), "{text}");
    }
}

#[test]
fn each_kind_of_text() {
    let wanted = index("[7]");
    assert_eq!(index(&"[7]".to_owned()), wanted);
    assert_eq!(index(b"[7]"), wanted);
    assert_eq!(index(&b"[7]".to_vec()), wanted);
}

/// The path to a value, of whose keys none comes twice.
fn path_to(text: &str, values: &[Entry], number: usize) -> Path {
    let Entry { label, parent, .. } = values[number];
    if label == Root {
        return path![];
    }
    let mut path = path_to(text, values, parent);
    match label {
        Label::Key(key) => path.push(&*as_str(&text[key.range()]).unwrap()),
        At(position) => path.push(position),
        Root => {}
    }
    path
}

#[test]
fn paths_lead_to_values() {
    let values = index(ORDER).unwrap();
    let paths: Vec<_> = (0..values.len())
        .map(|number| path_to(ORDER, &values, number))
        .collect();
    let wanted = [
        path![],
        path!["id"],
        path!["who"],
        path!["who", 0],
        path!["who", 1],
        path!["who", 1, ""],
        path!["who", 1, "", 0],
        path!["net"],
    ];
    assert_eq!(paths, wanted);
    for (path, value) in paths.iter().zip(&values) {
        assert_eq!(get(ORDER, path), Ok(&ORDER[value.value.range()]));
    }
}

#[test]
fn deep() {
    let values = index(&nested(100_000)).unwrap();
    assert_eq!(values.len(), 100_000);
    for (number, value) in values.iter().enumerate() {
        let parent = number.saturating_sub(1);
        let label = if number == 0 { Root } else { At(0) };
        let wanted = (number, 200_000 - number, Array, parent, label);
        assert_eq!(*value, entry(&wanted));
    }
}

#[test]
fn many_values() {
    let values = index(&format!("[{}7]", "7,".repeat(99_999))).unwrap();
    assert_eq!(values.len(), 100_001);
    for (position, value) in values[1..].iter().enumerate() {
        let wanted = (1 + 2 * position, 2 + 2 * position, Number, 0, At(position));
        assert_eq!(*value, entry(&wanted));
    }
    // A member has 9 bytes, as "0123":[], and its key 6.
    let members: Vec<_> = (0..10_000).map(|n| format!("\"{n:04}\":[]")).collect();
    let values = index(&format!("{{{}}}", members.join(","))).unwrap();
    assert_eq!(values.len(), 10_001);
    for (number, value) in values[1..].iter().enumerate() {
        let start = 1 + 10 * number;
        let wanted = (start + 7, start + 9, Array, 0, key(start, start + 6));
        assert_eq!(*value, entry(&wanted));
    }
    // What is in a string is no value.
    assert_eq!(
        index(&format!("\"{}\"", "[{,".repeat(100_000)))
            .unwrap()
            .len(),
        1
    );
}

#[test]
fn broken_documents() {
    for text in [
        &b""[..],
        b" \n",
        b"[1,",
        b"[1,]",
        b"[,,,,",
        b"{\"a\" 1}",
        b"[1] 2",
        b"[1,\n 01]",
        b"[\"\xff\"]",
        b"\"\\ud800\"",
        &nested(100_000).as_bytes()[1..],
    ] {
        let error = index(text).unwrap_err();
        assert_eq!(error, validate(text).unwrap_err());
        assert!(matches!(error, Error::Document(_)));
    }
}

#[test]
fn by_threads() {
    std::thread::scope(|scope| {
        for number in 0..8 {
            scope.spawn(move || {
                let text = format!("[{number}{}]", format!(",{number}").repeat(300));
                for _ in 0..100 {
                    let values = index(&text).unwrap();
                    assert_eq!(values.len(), 302);
                    assert_eq!(values[301], entry(&(601, 602, Number, 0, At(300))));
                }
            });
        }
    });
}
