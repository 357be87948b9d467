//! What a finder tells. Expected values are worked out by hand, or are those of `get_many` and of `index`.
use jihluka::{as_str, get_many, index, path, validate};
use jihluka::{Code, Error, Fault, Finder, Found, Keys, Label, Path, Paths, Span};

const RULES: [Keys; 3] = [Keys::First, Keys::Last, Keys::Refuse];

/// Numbers that look random, the same in each run.
struct Chance(u64);

impl Chance {
    fn below(&mut self, count: usize) -> usize {
        self.0 = self.0.wrapping_mul(0x5851_f42d_4c95_7f2d).wrapping_add(1);
        (self.0 >> 33) as usize % count
    }

    fn pick<'a>(&mut self, some: &[&'a str]) -> &'a str {
        some[self.below(some.len())]
    }

    fn space(&mut self, text: &mut String) {
        *text += self.pick(&["", "", "", " ", "\n\t"]);
    }

    /// Puts a value, or of the depth 0 an object with members.
    fn value(&mut self, depth: usize, text: &mut String) {
        const SCALARS: [&str; 7] = [
            "null",
            "0",
            "-1.50",
            "7e3",
            r#""""#,
            r#""ë{[,""#,
            r#""\"\\""#,
        ];
        let is_object = depth == 0 || self.below(2) == 0;
        if depth > 4 || depth > 0 && self.below(2) == 0 {
            return *text += self.pick(&SCALARS);
        }
        text.push(if is_object { '{' } else { '[' });
        self.space(text);
        for number in 0..self.below(5) + usize::from(depth == 0) {
            if number > 0 {
                text.push(',');
                self.space(text);
            }
            if is_object {
                *text += self.pick(&[r#""a""#, r#""\u0061""#, r#""b""#, r#""""#, r#""ë""#]);
                self.space(text);
                text.push(':');
                self.space(text);
            }
            self.value(depth + 1, text);
            self.space(text);
        }
        text.push(if is_object { '}' } else { ']' });
    }

    fn object(&mut self) -> String {
        let mut text = String::new();
        self.value(0, &mut text);
        text
    }

    /// An object or an item of it, whole, cut or with a byte that is another one.
    fn text(&mut self) -> Vec<u8> {
        let text = self.object();
        let values = index(&text).unwrap();
        let mut text = text[values[self.below(values.len())].value.range()]
            .as_bytes()
            .to_vec();
        let place = self.below(text.len());
        match self.below(4) {
            0 => text.truncate(place),
            1 => text[place] = *b"\"{}[],:x\xff".get(self.below(9)).unwrap(),
            _ => {}
        }
        text
    }
}

fn finder<const N: usize>(paths: [Path; N], keys: Keys) -> Finder {
    Finder::new(&Paths::new(paths).unwrap(), keys).unwrap()
}

/// An error on the first line.
fn error(code: Code, offset: usize) -> Error {
    Error::Document(Fault {
        code,
        line: 1,
        column: offset + 1,
        offset,
    })
}

#[test]
fn each_kind_of_text() {
    const TEXT: &str = r#"{"name": "Zoë", "b": [1, 20]} and more"#;
    let mut finder = finder([path!["b", 1], path!["c"], path!["name"]], Keys::First);
    let wanted = vec![Some("20"), None, Some("\"Zoë\"")];
    let bytes: Vec<_> = wanted.iter().map(|it| it.map(str::as_bytes)).collect();
    assert_eq!(finder.get_many(TEXT), Ok(wanted.clone()));
    assert_eq!(finder.get_many(&TEXT.to_owned()), Ok(wanted.clone()));
    assert_eq!(finder.get_many(TEXT.as_bytes()), Ok(bytes.clone()));
    assert_eq!(finder.get_many(&TEXT.as_bytes().to_vec()), Ok(bytes));
    let found = finder.get_many(b"{\"c\": {}}");
    assert_eq!(found, Ok(vec![None, Some(&b"{}"[..]), None]));
    let whole = TEXT.trim_end_matches(" and more").to_owned();
    let found = validate(&whole).unwrap().get_many_with(&mut finder);
    assert_eq!(found, Ok(wanted));
    drop(finder);
    assert_eq!(found.unwrap()[0], Some("20")); // it is borrowed from the text alone
}

#[test]
fn one_after_the_other() {
    let mut finder = finder([path![0], path![], path![1]], Keys::First);
    for text in ["[1, 20]", "[[], {}]"] {
        let wanted = get_many(text, &Paths::new([path![0], path![], path![1]]).unwrap()).unwrap();
        let mut found = finder.find(text).unwrap();
        assert_eq!((found.len(), found.next()), (3, Some(wanted[0])));
        let rest = found.clone();
        assert_eq!((rest.len(), found.next()), (2, Some(wanted[1])));
        assert_eq!((found.next(), found.next()), (Some(wanted[2]), None));
        assert_eq!((found.len(), found.next()), (0, None));
        assert_eq!(rest.collect::<Vec<_>>(), wanted[1..]);
        let found = validate(text).unwrap();
        let found: Found<'_, '_, str> = found.find_with(&mut finder).unwrap();
        assert!(found.eq(wanted));
    }
    assert!(finder.find("[1]").is_err());
    assert_eq!(finder.find("[1, 2]").unwrap().last(), Some(Some("2")));
}

#[test]
fn as_get_many() {
    let mut chance = Chance(25);
    let texts: Vec<_> = (0..500).map(|_| chance.text()).collect();
    let (mut right, mut wrong) = (0, 0);
    for paths in [
        Paths::new([path!["a"]]),
        Paths::new([path!["b"], path!["a"], path![], path!["b"]]),
        Paths::new([path!["a", "b"], path!["a", ""], path!["ë"], path!["b", 0]]),
        Paths::new([path![0], path![2, "a"], path![1, 0, 0]]),
        Paths::new([path![]]),
    ] {
        let paths = paths.unwrap();
        let mut finder = Finder::new(&paths, Keys::First).unwrap();
        assert_eq!((finder.len(), finder.is_empty()), (paths.len(), false));
        for _ in 0..2000 {
            let text = &texts[chance.below(texts.len())];
            let wanted = get_many(text, &paths);
            assert_eq!(finder.get_many(text), wanted);
            assert_eq!(finder.find(text).map(Iterator::collect), wanted);
            if let Ok(valid) = validate(text) {
                assert_eq!(valid.get_many_with(&mut finder), valid.get_many(&paths));
                assert_eq!(valid.find_with(&mut finder).map(Iterator::collect), wanted);
            }
            *if wanted.is_ok() {
                &mut right
            } else {
                &mut wrong
            } += 1;
        }
    }
    assert!(right > 1000 && wrong > 1000, "{right} {wrong}");
}

/// The keys and the values of the members of a root that have a key, by the index.
fn members(text: &str, key: &str) -> Vec<(Span, Span)> {
    let with_key = |it: &jihluka::Entry| match it.label {
        Label::Key(at) if it.parent == 0 && as_str(&text[at.range()]).unwrap() == key => {
            Some((at, it.value))
        }
        _ => None,
    };
    index(text).unwrap().iter().filter_map(with_key).collect()
}

#[test]
fn each_rule_as_the_index() {
    let (mut chance, mut repeated) = (Chance(7), 0);
    for key in ["a", "b", "", "ë", "c"] {
        let mut finders = RULES.map(|keys| finder([path![key]], keys));
        for _ in 0..500 {
            let text = chance.object();
            let members = members(&text, key);
            let value = |member: Option<&(Span, Span)>| {
                Ok(vec![member.map(|(_, value)| &text[value.range()])])
            };
            let refused = match members.get(1) {
                Some((second, _)) => Err(second.start),
                None => value(members.first()),
            };
            let wanted = [value(members.first()), value(members.last()), refused];
            for (finder, wanted) in finders.iter_mut().zip(wanted) {
                let valid = validate(&text).unwrap();
                for found in [finder.get_many(&text), valid.get_many_with(finder)] {
                    let found = found.map_err(|it| {
                        let fault = it.fault().unwrap();
                        assert_eq!(fault.code, Code::DUPLICATE_KEY);
                        fault.offset
                    });
                    assert_eq!(found, wanted, "{text} {finder:?}");
                }
            }
            repeated += usize::from(members.len() > 1);
        }
    }
    assert!(repeated > 300, "{repeated}");
}

/// What a path leads to by the first of equal keys, by the last, and where a second one is refused.
type Answers = [Result<Option<&'static str>, (Code, usize)>; 3];

#[test]
fn each_rule() {
    const TWICE: Code = Code::DUPLICATE_KEY;
    const CUT: Code = Code::EOF_WHILE_PARSING;
    const EMPTY: Code = Code::GET_IN_EMPTY_OBJECT;
    let table: [(Path, &str, Answers); 10] = [
        (
            path!["a"],
            r#"{"a":1,"a":2}"#,
            [Ok(Some("1")), Ok(Some("2")), Err((TWICE, 7))],
        ),
        (
            path!["a"],
            r#"{"\u0061":1,"a":2,"a":3}"#,
            [Ok(Some("1")), Ok(Some("3")), Err((TWICE, 12))],
        ),
        // Keys that no path names may repeat, and what follows the object may be anything.
        (
            path!["b"],
            r#"{"a":1,"a":2,"b":3}, and more"#,
            [Ok(Some("3")); 3],
        ),
        (
            path![],
            r#"{"a":1,"a":2}"#,
            [Ok(Some(r#"{"a":1,"a":2}"#)); 3],
        ),
        (path!["b"], r#"{"a":1,"a":2}"#, [Ok(None); 3]),
        // An object in which a key is looked for is read to its end, but by the first.
        (
            path!["a"],
            r#"{"a":1,"b":"#,
            [Ok(Some("1")), Err((CUT, 10)), Err((CUT, 10))],
        ),
        // What is below a member that doesn't count plays no part.
        (
            path!["a", "b"],
            r#"{"a":{"b":1},"a":{"c":2}}"#,
            [Ok(Some("1")), Ok(None), Err((TWICE, 13))],
        ),
        (
            path!["a", "b"],
            r#"{"a":{},"a":{"b":5}}"#,
            [Err((EMPTY, 6)), Ok(Some("5")), Err((TWICE, 8))],
        ),
        (
            path!["a", "b"],
            r#"{"a":{"b":1,"b":2},"a":{}}"#,
            [Ok(Some("1")), Err((EMPTY, 24)), Err((TWICE, 19))],
        ),
        (
            path!["a", "b"],
            r#"{"a":{"b":1,"b":2}}"#,
            [Ok(Some("1")), Ok(Some("2")), Err((TWICE, 12))],
        ),
    ];
    for (path, text, answers) in table {
        for (keys, wanted) in RULES.into_iter().zip(answers) {
            let mut finder = finder([path.clone()], keys);
            let wanted = wanted
                .map(|it| vec![it])
                .map_err(|(code, offset)| error(code, offset));
            assert_eq!(finder.get_many(text), wanted, "{text} {keys:?}");
            if let Ok(valid) = validate(text) {
                assert_eq!(valid.get_many_with(&mut finder), wanted, "{text} {keys:?}");
            }
        }
    }
}

#[test]
fn no_paths() {
    for keys in RULES {
        let mut finder = finder([], keys);
        assert_eq!((finder.len(), finder.is_empty()), (0, true));
        for text in ["", "[", "{}", "7 8"] {
            assert_eq!(finder.get_many(text), Ok(vec![]));
            assert_eq!(finder.find(text).unwrap().next(), None);
        }
        let valid = validate("7").unwrap();
        assert_eq!(valid.get_many_with(&mut finder), Ok(vec![]));
    }
}

#[test]
fn bad_paths() {
    let made = |paths| Paths::new(paths).and_then(|it| Finder::new(&it, Keys::Last));
    for (paths, index) in [
        ([path!["a"], path![0], path!["b"]], 1),
        ([path!["a"], path!["b", 1], path!["b", "c"]], 2),
    ] {
        assert_eq!(made(paths).unwrap_err(), Error::BadPath(index));
    }
    assert!(made([path!["a"], path!["b", 1], path!["b", 0]]).is_ok());
}

#[test]
fn many_paths() {
    let long = |first: usize| {
        let mut path = path![first];
        (1..255).for_each(|_| path.push(0));
        path
    };
    let paths = Paths::new((0..300).map(long)).unwrap();
    let mut finder = Finder::new(&paths, Keys::First).unwrap();
    for count in [300, 1, 300] {
        let item = format!("{}7{}", "[".repeat(254), "]".repeat(254));
        let text = format!("[{}]", vec![item; count].join(","));
        let found = finder.get_many(&text);
        assert_eq!(found, get_many(&text, &paths));
        assert_eq!(found.is_ok(), count == 300);
    }
}

#[test]
fn what_it_is() {
    let finder = finder([path!["a"], path!["a"]], Keys::Refuse);
    assert_eq!((finder.len(), finder.keys()), (2, Keys::Refuse));
    assert_eq!(format!("{finder:?}"), "Finder { len: 2, keys: Refuse, .. }");
    assert_eq!(Keys::default(), Keys::First);
}

#[test]
fn on_another_thread() {
    let mut finder = finder([path!["a"], path!["b"]], Keys::First);
    let text = r#"{"b": [], "a": 7}"#;
    let wanted = Ok(vec![Some("7"), Some("[]")]);
    assert_eq!(finder.get_many(text), wanted);
    let there = std::thread::spawn(move || {
        assert_eq!(finder.get_many(text), Ok(vec![Some("7"), Some("[]")]));
        assert!(finder.get_many("[]").is_err());
        finder
    });
    let mut finder = there.join().unwrap();
    assert_eq!(finder.get_many(text), wanted);
    std::thread::spawn(move || drop(finder)).join().unwrap();
}

#[test]
fn by_threads() {
    let paths = Paths::new([path!["a"], path!["b", 1]]).unwrap();
    std::thread::scope(|scope| {
        for number in 0..8 {
            let paths = &paths;
            scope.spawn(move || {
                let mut finder = Finder::new(paths, RULES[number % 3]).unwrap();
                let (text, wanted) = (
                    format!(r#"{{"b": [0, {number}], "a": "x"}}"#),
                    number.to_string(),
                );
                for _ in 0..500 {
                    let found = finder.get_many(&text);
                    assert_eq!(found, Ok(vec![Some("\"x\""), Some(wanted.as_str())]));
                    assert!(finder.get_many("{\"b\": [0]}").is_err());
                }
            });
        }
    });
}
