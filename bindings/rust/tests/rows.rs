//! The rows that the crate gives of lines, at once and in pieces. Expected values are worked out by hand.
use jihluka::{get_many, path, rows, Error, Path, Paths, Rows};

/// The paths, the lines and their rows.
type Example = (Paths, &'static [u8], &'static str);

fn id() -> Paths {
    Paths::new([path!["id"]]).unwrap()
}

fn id_and_first() -> Paths {
    Paths::new([path!["id"], path!["t", 0]]).unwrap()
}

fn none() -> Paths {
    Paths::new::<[Path; 0]>([]).unwrap()
}

fn examples() -> Vec<Example> {
    let root = Paths::new([path![]]).unwrap();
    let repeated = Paths::new([path![], path![0], path![0]]).unwrap();
    vec![
        (id(), b"{\"id\":7}\n{\n", "1 7\n! 2 eof EofWhileParsing 0\n"),
        (
            id_and_first(),
            b"{\"id\":7,\"t\":[\"x\"]}\n{\"id\":8}\n\n{\"id\":tru}",
            "1 7\t3 \"x\"\n1 8\t-\n! 4 syntax InvalidLiteral 9\n",
        ),
        // The last line ends with a line feed, or with the text.
        (id(), b"", ""),
        (id(), b"{\"id\":7}", "1 7\n"),
        (id(), b"{\"id\":7}\n", "1 7\n"),
        (id(), b"{\"id\":7}\n{", "1 7\n! 2 eof EofWhileParsing 0\n"),
        (root.clone(), b"7", "1 7\n"),
        // A blank line has no row, but a number.
        (id(), b"\n", ""),
        (id(), b" \t\r\n\r", ""),
        (
            id(),
            b"\n \n\t\n\r\n{\n \r\t",
            "! 5 eof EofWhileParsing 0\n",
        ),
        (id(), b"\x0c\n", "! 1 syntax InvalidJsonValue 0\n"),
        // A carriage return before the line feed is white space.
        (id(), b"{\"id\":7}\r\n\r\n{\"id\":8}\r\n", "1 7\n1 8\n"),
        (root, b"7\r\n{}\r\n", "1 7\n2 {}\n"),
        // A key that is missing, of one path or of all.
        (id(), b"{\"a\":1}\n{\"b\":2}\n", "-\n-\n"),
        (
            id_and_first(),
            b"{\"t\":[[]]}\n{\"a\":0}\n",
            "-\t2 []\n-\t-\n",
        ),
        // Errors of lines have no part in the others.
        (
            id(),
            b"{\"id\":1}\n{\"id\":}\n{\"id\":3}\n[\n{\"id\":5}",
            "1 1\n! 2 syntax InvalidJsonValue 6\n1 3\n! 4 eof EofWhileParsing 0\n1 5\n",
        ),
        (
            id(),
            b"{}\n[ ] \n",
            "! 1 not-found GetInEmptyObject 1\n! 2 type Message 2\n",
        ),
        (
            id_and_first(),
            b"{\"id\":1,\"t\":[]}\n{\"t\":1}\n",
            "! 1 not-found GetInEmptyArray 13\n! 2 type Message 5\n",
        ),
        (
            id(),
            b"{\"id\":\"a\nb\"}",
            "! 1 eof EofWhileParsing 7\n! 2 syntax InvalidJsonValue 0\n",
        ),
        (
            id(),
            b"{\"id\":\"\xc3\xab\"}\n{\"id\":\"\xff\"}\n{\"id\":4,\"x\":\"\xff\"}\n",
            "4 \"ë\"\n! 2 syntax InvalidUTF8 7\n1 4\n",
        ),
        // A text is as it stands.
        (
            id_and_first(),
            b" {\"t\" : [ {\"a\":\t[1, 2]} ] , \"i\\u0064\" : -1.50e2 } ",
            "7 -1.50e2\t13 {\"a\":\t[1, 2]}\n",
        ),
        (
            repeated,
            b"[1, 2 ] \n[[]]",
            "7 [1, 2 ]\t1 1\t1 1\n4 [[]]\t2 []\t2 []\n",
        ),
        // No path asks nothing of a line, but that it isn't blank.
        (none(), b"7\n\n \n[\n\xff", "\n\n\n"),
    ]
}

fn made(text: &str) -> Result<Vec<u8>, Error> {
    Ok(text.as_bytes().to_vec())
}

#[test]
fn each_kind_of_line() {
    for (paths, lines, wanted) in examples() {
        assert_eq!(rows(lines, &paths, 0), made(wanted), "{wanted}");
    }
}

#[test]
fn each_kind_of_text() {
    let text = "{\"id\":\"ë\"}\n";
    let wanted = made("4 \"ë\"\n");
    assert_eq!(rows(text, &id(), 0), wanted);
    assert_eq!(rows(&text.to_owned(), &id(), 0), wanted);
    assert_eq!(rows(text.as_bytes(), &id(), 0), wanted);
    assert_eq!(rows(&text.as_bytes().to_vec(), &id(), 0), wanted);
    assert_eq!(rows(b"{\"id\":7}", &id(), 0), made("1 7\n"));
}

#[test]
fn lines_before() {
    const MOST: u64 = u64::MAX;
    for (lines, before, wanted) in [
        ("{\"id\":7}\n", 41, made("1 7\n")),
        ("\n{\n", 41, made("! 43 eof EofWhileParsing 0\n")),
        ("", MOST - 1, made("")),
        (
            "{",
            MOST - 2,
            made("! 18446744073709551614 eof EofWhileParsing 0\n"),
        ),
        ("", MOST, Err(Error::BadNumber)),
        ("{", MOST - 1, Err(Error::BadNumber)),
        ("\n\n", MOST - 2, Err(Error::BadNumber)),
        ("\n\n", MOST - 3, made("")),
    ] {
        assert_eq!(rows(lines, &id(), before), wanted, "{lines:?} {before}");
        if wanted.is_err() {
            assert_eq!(rows(lines, &none(), before), wanted, "{lines:?} {before}");
        }
    }
    let boxed: Box<dyn std::error::Error + Send + Sync> = Box::new(Error::BadNumber);
    assert_eq!(boxed.to_string(), "too many lines are said to come before");
    let error = Error::BadNumber;
    assert_eq!((error.fault(), error.is_not_found()), (None, false));
}

#[test]
fn paths_that_are_none() {
    let long: Path = (0..256usize).map(Into::into).collect();
    for (paths, bad) in [
        (vec![path!["a"], path![0]], 1),
        (vec![path![], path!["a", 0], path!["a", "b"]], 2),
        (vec![long], 0),
    ] {
        let made_ready = Paths::new(&paths);
        assert_eq!(made_ready, Err(Error::BadPath(bad)));
        let by_rows = made_ready.and_then(|paths| rows("{}", &paths, 0));
        let by_get = Paths::new(&paths).and_then(|paths| get_many("{}", &paths).map(|_| vec![]));
        assert_eq!(by_rows, by_get);
        assert_eq!(rows(" ", &Paths::new(&paths[..bad]).unwrap(), 0), made(""));
    }
}

#[test]
fn longer_than_the_room() {
    let broken: String = (1..=2000)
        .map(|number| format!("! {number} eof EofWhileParsing 0\n"))
        .collect();
    assert_eq!(rows(&"{\n".repeat(2000), &id(), 0), made(&broken));
    let many = Paths::new(vec![path![]; 50]).unwrap();
    let line = format!("[{}7]", "7,".repeat(49));
    let wanted = vec![format!("101 {line}"); 50].join("\t") + "\n";
    assert_eq!(rows(&line, &many, 0), made(&wanted));
    let missing = Paths::new(vec![path!["id"]; 50]).unwrap();
    let wanted = vec!["-"; 50].join("\t") + "\n";
    assert_eq!(rows("{\"a\":1}", &missing, 0), made(&wanted));
}

#[test]
fn many_lines() {
    let numbers = || 100_000..200_000;
    let lines: String = numbers()
        .map(|number| format!("{{\"id\": {number}, \"t\": [\"{number}\"]}}\r\n"))
        .collect();
    let wanted: String = numbers()
        .map(|number| format!("6 {number}\t8 \"{number}\"\n"))
        .collect();
    assert_eq!(rows(&lines, &id_and_first(), 0), made(&wanted));
    let mut stream = Rows::new(id_and_first());
    let found = fed(&mut stream, lines.as_bytes().chunks(65_536));
    assert!(found == Ok((wanted.into_bytes(), 100_000)));
}

/// What a stream gives of pieces, and how many lines have ended before its end.
fn fed<'p>(
    stream: &mut Rows,
    pieces: impl IntoIterator<Item = &'p [u8]>,
) -> Result<(Vec<u8>, u64), Error> {
    let mut made = Vec::new();
    for piece in pieces {
        made.extend(stream.feed(piece)?);
    }
    let lines = stream.lines();
    made.extend(stream.finish()?);
    Ok((made, lines))
}

#[test]
fn pieces() {
    for (paths, lines, wanted) in examples() {
        let ended = lines.iter().filter(|&&byte| byte == b'\n').count() as u64;
        let whole = Ok((wanted.as_bytes().to_vec(), ended));
        // A stream begins again after its end.
        let mut stream = Rows::new(paths);
        for size in 1..=lines.len() + 1 {
            assert_eq!(fed(&mut stream, lines.chunks(size)), whole, "{wanted}");
        }
        for at in 0..=lines.len() {
            let (start, end) = lines.split_at(at);
            for next in 0..=end.len() {
                let (middle, end) = end.split_at(next);
                let pieces = [start, middle, end, b""];
                assert_eq!(fed(&mut stream, pieces), whole, "{wanted}");
            }
        }
    }
}

#[test]
fn rows_come_where_lines_end() {
    let mut stream = Rows::new(id());
    for (piece, wanted, lines) in [
        ("", "", 0),
        ("{\"id\":1}", "", 0),
        ("\n", "1 1\n", 1),
        ("\n\n{\"id\"", "", 3),
        (":", "", 3),
        ("2}\r\n{\n{", "1 2\n! 5 eof EofWhileParsing 0\n", 5),
    ] {
        assert_eq!(stream.feed(piece), made(wanted), "{piece:?}");
        assert_eq!(stream.lines(), lines, "{piece:?}");
    }
    let mut clone = stream.clone();
    assert_eq!(stream.finish(), made("! 6 eof EofWhileParsing 0\n"));
    assert_eq!((stream.finish(), stream.lines()), (made(""), 0));
    assert_eq!(stream.feed("{\n"), made("! 1 eof EofWhileParsing 0\n"));
    assert_eq!(clone.feed("\"id\":3}\n"), made("1 3\n"));
    assert_eq!(clone.lines(), 6);
}

#[test]
fn by_threads() {
    let stream = Rows::new(id());
    std::thread::scope(|scope| {
        for number in 0..8 {
            let mut stream = stream.clone();
            scope.spawn(move || {
                let lines = format!("{{\"id\":{number}}}\n").repeat(100);
                let wanted = format!("1 {number}\n").repeat(100);
                for size in 1..=100 {
                    let found = fed(&mut stream, lines.as_bytes().chunks(size));
                    assert_eq!(found, Ok((wanted.clone().into_bytes(), 100)));
                }
            });
        }
    });
}
