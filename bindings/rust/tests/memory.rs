//! That memory may run out in the library, and which calls take none.
use jihluka::{
    as_i64, as_str, as_u64, count, edit, elements, fill, get, indent, index, members, minify,
};
use jihluka::{patch, path, rows, type_of, validate, Error, Finder, Keys, Paths, Rows};
use std::cell::Cell;
use std::ffi::c_void;

thread_local! {
    static IS_REFUSED: Cell<bool> = const { Cell::new(false) };
}

extern "C" {
    fn __libc_malloc(size: usize) -> *mut c_void;
}

/// What the library takes memory by, and Rust too.
#[no_mangle]
extern "C" fn malloc(size: usize) -> *mut c_void {
    if IS_REFUSED.with(Cell::get) {
        return std::ptr::null_mut();
    }
    // SAFETY: it is what this call was but for this file.
    unsafe { __libc_malloc(size) }
}

/// What a call comes to while no memory is to be had.
fn refused<V>(call: impl FnOnce() -> V) -> V {
    IS_REFUSED.with(|it| it.set(true));
    let found = call();
    IS_REFUSED.with(|it| it.set(false));
    found
}

/// More arrays in each other than a call has room for without memory.
fn deep() -> String {
    format!("{}7{}", "[".repeat(100), "]".repeat(100))
}

#[test]
fn runs_out() {
    const TEXT: &str = r#"{"a\n": [[[7]]]}"#;
    let deep = deep();
    let (key, none) = (path!["a\n"], Error::NoMemory);
    assert_eq!(refused(|| get(TEXT, &key)), Err(none));
    assert_eq!(refused(|| validate(&deep).map(|_| ())), Err(none));
    assert_eq!(refused(|| count(&deep)), Err(none));
    assert_eq!(refused(|| as_str(r#""a\n""#)), Err(none));
    assert_eq!(refused(|| index(TEXT)), Err(none));
    assert_eq!(refused(|| index("7")), Err(none));
    assert_eq!(refused(|| minify(TEXT)), Err(none));
    assert_eq!(refused(|| indent(TEXT, 2)), Err(none));
    assert_eq!(refused(|| patch(TEXT, "[]")), Err(none));
    assert_eq!(refused(|| edit(TEXT, r#"["take",[]]"#)), Err(none));
    assert_eq!(refused(|| fill("{}", TEXT)), Err(none));
    let paths = Paths::new([key]).unwrap();
    assert_eq!(refused(|| rows(TEXT, &paths, 0)), Err(none));
    for keys in [Keys::First, Keys::Last, Keys::Refuse] {
        let made = refused(|| Finder::new(&paths, keys).map(|_| ()));
        assert_eq!(made, Err(none));
    }
}

#[test]
fn goes_on_where_it_was() {
    let deep = deep();
    let array = format!("[1, {deep}]");
    let mut found = refused(|| elements(&array)).unwrap();
    assert_eq!(refused(|| found.next()), Some(Ok("1")));
    assert_eq!(refused(|| found.next()), Some(Err(Error::NoMemory)));
    assert_eq!(refused(|| found.next()), Some(Err(Error::NoMemory)));
    assert_eq!(found.next(), Some(Ok(deep.as_str())));
    assert_eq!(refused(|| found.next()), None);
    let object = format!(r#"{{"a": {deep}}}"#);
    let mut found = refused(|| members(&object)).unwrap();
    assert_eq!(refused(|| found.next()), Some(Err(Error::NoMemory)));
    assert_eq!(found.next(), Some(Ok((r#""a""#, deep.as_str()))));
    let paths = Paths::new([path!["a"], path!["b", 0]]).unwrap();
    let mut finder = Finder::new(&paths, Keys::First).unwrap();
    let few = r#"{"b": [7], "a": 1}"#;
    let more = format!(r#"{{"a": {deep}, "b": [[]]}}"#);
    for (text, wanted) in [(few, ["1", "7"]), (&more, [&deep, "[]"])] {
        assert_eq!(
            refused(|| finder.find(text).map(|_| ())),
            Err(Error::NoMemory)
        );
        assert!(finder.find(text).unwrap().eq(wanted.map(Some)));
    }
    let mut stream = Rows::new(Paths::new([path!["id"]]).unwrap());
    let (start, end) = ("{\"id\"", ":7}\n{}");
    assert_eq!(refused(|| stream.feed(start)), Err(Error::NoMemory));
    assert_eq!(stream.feed(start).unwrap(), b"");
    assert_eq!(refused(|| stream.feed(end)), Err(Error::NoMemory));
    assert_eq!(stream.lines(), 0);
    assert_eq!(stream.feed(end).unwrap(), b"1 7\n");
    assert_eq!(refused(|| stream.finish()), Err(Error::NoMemory));
    assert_eq!(stream.lines(), 1);
    let last = "! 2 not-found GetInEmptyObject 1\n";
    assert_eq!(stream.finish().unwrap(), last.as_bytes());
}

#[test]
fn takes_none() {
    assert!(refused(|| type_of("[1, 2]")).is_ok());
    assert!(refused(|| validate("[[[7]], {}]").is_ok()));
    assert_eq!(refused(|| count("[[[7]], {}]")), Ok(2));
    assert_eq!(refused(|| as_u64(" 12 ")), Ok(12));
    assert_eq!(refused(|| as_i64("-12")), Ok(-12));
    assert!(refused(|| as_u64("[")).is_err());
    assert_eq!(refused(|| as_str(r#" "Zoë" "#)).unwrap(), "Zoë");
    let paths = Paths::new([path!["a"], path!["b", 0]]).unwrap();
    let mut finder = Finder::new(&paths, Keys::First).unwrap();
    let document = validate(r#"{"b": [[[[7]]]], "a": 1}"#).unwrap();
    let wanted = [Some("1"), Some("[[[7]]]")];
    // Without a second look at once, and else where a call before took as much.
    assert!(refused(|| document
        .find_with(&mut finder)
        .unwrap()
        .eq(wanted)));
    assert!(finder.find(document.text()).unwrap().eq(wanted));
    assert!(refused(|| finder.find(document.text()).unwrap().eq(wanted)));
    assert!(refused(|| finder.find("[").map(|_| ())).is_err());
}
