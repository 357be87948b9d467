//! What each path is told, whatever the others lead to.
use jihluka::{get, get_each, path, validate, Code, Error, Finder, Keys, Outcome, Paths};

const TEXT: &str = r#"{"level":"info","http":null,"tags":[],"user":{}}"#;

fn paths() -> Paths {
    Paths::new([
        path!["level"],
        path!["http", "status"],
        path!["tags", 1],
        path!["user", "id"],
        path!["ms"],
        path![],
    ])
    .unwrap()
}

#[test]
fn tells_what_get_does() {
    let wanted = [
        Outcome::Found(r#""info""#),
        Outcome::Fails(Code(100), 26),
        Outcome::Fails(Code::GET_IN_EMPTY_ARRAY, 36),
        Outcome::Missing(46),
        Outcome::Missing(47),
        Outcome::Found(TEXT),
    ];
    assert_eq!(get_each(TEXT, &paths()).unwrap(), wanted);
    let document = validate(TEXT).unwrap();
    assert_eq!(document.get_each(&paths()).unwrap(), wanted);
    for keys in [Keys::First, Keys::Last, Keys::Refuse] {
        let mut finder = Finder::new(&paths(), keys).unwrap();
        assert_eq!(finder.get_each(TEXT).unwrap(), wanted);
        assert_eq!(document.get_each_with(&mut finder).unwrap(), wanted);
        // Between the two a call for all paths together changes nothing.
        assert!(finder.get_many(TEXT).is_err());
        assert_eq!(finder.get_each(TEXT).unwrap(), wanted);
    }
    let fault = get(TEXT, &path!["http", "status"])
        .unwrap_err()
        .fault()
        .unwrap();
    assert_eq!((fault.code, fault.offset), (Code(100), 26));
}

#[test]
fn refuses_a_broken_text() {
    let fields = Paths::new([path!["a", "x"], path!["b"]]).unwrap();
    let error = get_each(r#"{"a":1,"b":tru"#, &fields).unwrap_err();
    assert_eq!(error.fault().unwrap().code, Code::EOF_WHILE_PARSING);
    let told = get_each(r#"{"a":1,"b":2 and more"#, &fields).unwrap();
    assert_eq!(told[1], Outcome::Found("2"));
    assert!(matches!(
        get_each("{", &fields),
        Err(Error::Document(fault)) if fault.offset == 0
    ));
}

#[test]
fn says_what_is_absent() {
    let absent: Vec<bool> = get_each(TEXT, &paths())
        .unwrap()
        .iter()
        .map(Outcome::is_absent)
        .collect();
    assert_eq!(absent, [false, true, true, true, true, false]);
}
