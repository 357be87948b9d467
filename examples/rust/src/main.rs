//! A gateway that checks fields of a request's body before it lets the request pass, and tells a field that
//! is missing from one of another type and from a body that is broken or cut.
use jihluka::{get_many, path, Category, Error, Paths};

const BODIES: [&[u8]; 6] = [
    br#"{"sub": "u-17", "token": {"roles": ["reader", "editor"]}}"#,
    br#"{"token": {"roles": ["reader"]}}"#,
    br#"{"sub": "u-17", "token": "none"}"#,
    br#"{"sub": "u-17", "token": nil}"#,
    b"{\"sub\": \"\xff\", \"token\": {\"roles\": [\"reader\"]}}",
    br#"{"sub": "u-17", "tok"#,
];

fn show(body: &[u8], fields: &Paths) -> Result<(), Error> {
    let found = get_many(body, fields)?;
    let texts: Vec<_> = found
        .iter()
        .map(|value| value.map_or("missing".into(), String::from_utf8_lossy))
        .collect();
    println!("subject {}, first role {}", texts[0], texts[1]);
    Ok(())
}

fn main() -> Result<(), Error> {
    let fields = Paths::new([path!["sub"], path!["token", "roles", 0]])?;
    for body in BODIES {
        let Err(error) = show(body, &fields) else {
            continue;
        };
        match error.fault().map(|fault| fault.code.category()) {
            Some(Category::TypeUnmatched | Category::NotFound) => println!("400, {error}"),
            Some(Category::Eof) => println!("wait for more, {error}"),
            Some(Category::Syntax) => println!("422, {error}"),
            None => return Err(error),
        }
    }
    Ok(())
}
