//! What the crate does with each kind of text, path and error. Expected values are worked out by hand.
use jihluka::{get, get_many, path, validate, Category, Code, Error, Fault, Path, Paths, Type};

const BODY: &str = r#"{"iss": "https://id.example", "name": "Zoë", "roles": ["reader", "editor"]}"#;

fn error(code: Code, line: usize, column: usize, offset: usize) -> Error {
    Error::Document(Fault {
        code,
        line,
        column,
        offset,
    })
}

#[test]
fn each_kind_of_text() {
    let path = path!["name"];
    assert_eq!(get(BODY, &path), Ok("\"Zoë\""));
    assert_eq!(get(&BODY.to_owned(), &path), Ok("\"Zoë\""));
    assert_eq!(get(BODY.as_bytes(), &path), Ok("\"Zoë\"".as_bytes()));
    assert_eq!(
        get(&BODY.as_bytes().to_vec(), &path),
        Ok("\"Zoë\"".as_bytes())
    );
    assert_eq!(get(b"[1, 20] and more", &path![1]), Ok(&b"20"[..]));
}

#[test]
fn many_and_valid() {
    let paths = Paths::new([path!["roles", 1], path!["exp"], path![], path!["roles", 1]]).unwrap();
    let found = vec![Some("\"editor\""), None, Some(BODY), Some("\"editor\"")];
    assert_eq!(get_many(BODY, &paths), Ok(found.clone()));
    let valid = validate(BODY).unwrap();
    assert_eq!(valid.get_many(&paths), Ok(found));
    assert_eq!(valid.get(&path!["iss"]), get(BODY, &path!["iss"]));
    assert_eq!(valid.get(&path!["exp"]), get(BODY, &path!["exp"]));
    assert_eq!(valid.text(), BODY);
    let none = Paths::new::<[Path; 0]>([]).unwrap();
    assert!(none.is_empty());
    assert_eq!(get_many(b"", &none), Ok(vec![]));
}

#[test]
fn each_kind_of_error() {
    assert_eq!(
        get(b"[1,", &path![1]),
        Err(error(Code::EOF_WHILE_PARSING, 1, 3, 2))
    );
    assert_eq!(
        get("{\"a\":1}", &path!["b"]),
        Err(error(Code::GET_UNKNOWN_KEY_IN_OBJECT, 1, 7, 6))
    );
    assert_eq!(
        get("[1\n,nil]", &path![1]),
        Err(error(Code::INVALID_LITERAL, 2, 3, 5))
    );
    assert_eq!(
        validate(b"[1] 2").unwrap_err(),
        error(Code::TRAILING_CHARACTERS, 1, 5, 4)
    );
    assert_eq!(
        validate(b"\"\xff\"").unwrap_err(),
        error(Code::INVALID_UTF8, 1, 2, 1)
    );
    let told = get(b"1", &path![0]).unwrap_err();
    assert_eq!(
        told.to_string(),
        "invalid type: number, expected a JSON array: line 1 column 1 (byte 0), code 121"
    );
    assert_eq!(
        told.fault().unwrap().code.category(),
        Category::TypeUnmatched
    );
    assert!(!told.is_not_found());
    assert_eq!(Code(0).to_string(), "");
    let boxed: Box<dyn std::error::Error + Send + Sync> = Box::new(told);
    assert!(boxed.downcast_ref::<Error>().is_some());
}

#[test]
fn paths_that_are_none() {
    let long = |count| {
        std::iter::repeat(jihluka::Node::Index(0))
            .take(count)
            .collect::<Path>()
    };
    assert_eq!(get(BODY, &long(256)), Err(Error::BadPath(0)));
    assert_eq!(
        get(
            format!("{}7{}", "[".repeat(255), "]".repeat(255)).as_str(),
            &long(255)
        ),
        Ok("7")
    );
    assert_eq!(Paths::new([path![], long(256)]), Err(Error::BadPath(1)));
    assert_eq!(
        Paths::new([path!["a"], path!["b", 1], path!["b", "c"]]),
        Err(Error::BadPath(2))
    );
    for text in [
        "",
        " ",
        "[]\n[]",
        "[\n]",
        "\u{a0}[]",
        "[0",
        "\"a\"",
        "[-1]",
        "[1.5]",
        "[18446744073709551616]",
        "[[]]",
        "[] []",
    ] {
        assert_eq!(text.parse::<Path>(), Err(Error::BadPath(0)), "{text:?}");
    }
    let mut path = " [ ] ".parse::<Path>().unwrap();
    path.push("a");
    path.push(1);
    assert_eq!(get("{\"a\":[1,20]}", &path), Ok("20"));
    assert_eq!(
        " [ \"a\" , 1 ]\n"
            .parse::<Path>()
            .map(|path| get("{\"a\":[1,20]}", &path)),
        Ok(Ok("20"))
    );
}

#[test]
fn odd_keys() {
    for (key, quoted) in [
        ("", ""),
        ("\n", "\\n"),
        ("\"", "\\\""),
        ("\\", "\\\\"),
        ("\0", "\\u0000"),
        ("Zoë", "Zo\\u00eb"),
        ("\u{1f600}", "\\ud83d\\ude00"),
        ("\u{2028}", "\u{2028}"),
    ] {
        let text = format!("{{\"x\": 0, \"{quoted}\": [1]}}");
        assert_eq!(get(&text, &path![key, 0]), Ok("1"), "{key:?}");
        let paths = Paths::new([path![&key.to_owned()], path!["x"]]).unwrap();
        assert_eq!(
            get_many(&text, &paths),
            Ok(vec![Some("[1]"), Some("0")]),
            "{key:?}"
        );
    }
}

#[test]
fn by_threads() {
    let paths = Paths::new([path!["a"], path!["b", 1]]).unwrap();
    std::thread::scope(|scope| {
        for number in 0..8 {
            let paths = &paths;
            scope.spawn(move || {
                let (text, wanted) = (
                    format!("{{\"b\": [0, {number}], \"a\": \"x\"}}"),
                    number.to_string(),
                );
                for _ in 0..500 {
                    assert_eq!(
                        get_many(&text, paths),
                        Ok(vec![Some("\"x\""), Some(wanted.as_str())])
                    );
                }
            });
        }
    });
}

#[test]
fn the_header_says_the_same() {
    let header = include_str!("../../../include/jihluka.h");
    let codes: Vec<(&str, u32)> = header
        .lines()
        .filter_map(|line| {
            line.trim()
                .strip_prefix("JIHLUKA_CODE_")?
                .trim_end_matches(',')
                .split_once(" = ")
        })
        .map(|(name, number)| (name, number.parse().unwrap()))
        .collect();
    assert_eq!(
        codes,
        Code::NAMED
            .iter()
            .map(|(name, code)| (*name, code.0))
            .collect::<Vec<_>>()
    );
    let has = |name: &str, number: u32| {
        let line = format!("JIHLUKA_{name} = {number}");
        header
            .lines()
            .any(|it| it.trim().trim_end_matches(',') == line)
    };
    for (number, it) in (0..).zip(Type::ALL) {
        assert!(has(&it.to_string().to_uppercase(), number), "{it}");
    }
    let numbers: Vec<(&str, u32)> = include_str!("../src/raw.rs")
        .lines()
        .filter_map(|line| {
            line.strip_prefix("pub(crate) const ")?
                .trim_end_matches(';')
                .split_once(": u32 = ")
        })
        .map(|(name, number)| (name, number.parse().unwrap()))
        .collect();
    assert_eq!(numbers.len(), 21);
    assert!(numbers.iter().all(|&(name, number)| has(name, number)));
    let version = format!("#define JIHLUKA_VERSION \"{}\"", env!("CARGO_PKG_VERSION"));
    assert!(header.lines().any(|line| line == version));
}
