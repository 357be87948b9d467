#![doc = include_str!("../README.md")]
#![warn(missing_docs)]

mod error;
mod finder;
mod index;
mod items;
mod made;
mod outcome;
mod path;
mod raw;
mod rows;
mod text;
mod value;

pub use error::{Category, Code, Error, Fault};
pub use finder::{Finder, Found, Keys};
pub use index::{index, Entry, Label};
pub use items::{elements, members, Elements, Members};
pub use made::{edit, fill, indent, minify, patch};
pub use outcome::Outcome;
pub use path::{Node, Path, Paths};
pub use rows::{rows, Rows};
pub use text::{Span, Text};
pub use value::{as_i64, as_str, as_u64, count, type_of, Type};

use error::judge;
use outcome::told;
use text::part_of;

fn look_up<'t, T: Text + ?Sized>(
    call: raw::Get,
    json: &'t T,
    path: &Path,
) -> Result<&'t T::Part, Error> {
    let (text, line) = (json.bytes(), path.as_str());
    let (mut span, mut fault) = (raw::Span::default(), raw::Fault::default());
    // SAFETY: the slices are borrowed while the call runs, and the two cells are this function's own. A call
    // without a check comes from `Valid` alone, whose text was judged.
    let status = unsafe {
        call(
            text.as_ptr(),
            text.len(),
            line.as_ptr(),
            line.len(),
            &mut span,
            &mut fault,
        )
    };
    judge(status, fault)?;
    Ok(json.part(span.start..span.end))
}

fn look_up_many<'t, T: Text + ?Sized>(
    call: raw::GetMany,
    json: &'t T,
    paths: &Paths,
) -> Result<Vec<Option<&'t T::Part>>, Error> {
    let (text, lines) = (json.bytes(), &paths.lines);
    let (mut spans, mut fault) = (
        vec![raw::Span::default(); paths.count],
        raw::Fault::default(),
    );
    // SAFETY: as in `look_up`, and there are as many spans as is said.
    let status = unsafe {
        call(
            text.as_ptr(),
            text.len(),
            lines.as_ptr(),
            lines.len(),
            spans.as_mut_ptr(),
            spans.len(),
            &mut fault,
        )
    };
    judge(status, fault)?;
    Ok(spans.into_iter().map(|span| part_of(json, span)).collect())
}

fn tell_each<'t, T: Text + ?Sized>(
    call: raw::GetEach,
    json: &'t T,
    paths: &Paths,
) -> Result<Vec<Outcome<&'t T::Part>>, Error> {
    let (text, lines) = (json.bytes(), &paths.lines);
    let (mut outcomes, mut fault) = (
        vec![raw::Outcome::default(); paths.count],
        raw::Fault::default(),
    );
    // SAFETY: as in `look_up`, and there are as many outcomes as is said.
    let status = unsafe {
        call(
            text.as_ptr(),
            text.len(),
            lines.as_ptr(),
            lines.len(),
            outcomes.as_mut_ptr(),
            outcomes.len(),
            &mut fault,
        )
    };
    judge(status, fault)?;
    Ok(outcomes
        .into_iter()
        .map(|outcome| told(json, outcome))
        .collect())
}

/// The text of the value to which the path leads. What follows it in the text may be anything.
///
/// It is an [`Error::Document`] where the path leads nowhere, or the text is broken before the value ends.
///
/// ```
/// use jihluka::{get, path, Code};
/// let json = r#"{"user":"ada","tags":["a","b"]}, and more"#;
/// assert_eq!(get(json, &path!["tags", 1])?, r#""b""#);
/// assert_eq!(get(json.as_bytes(), &path!["user"])?, br#""ada""#);
/// let error = get(json, &path!["exp"]).unwrap_err();
/// assert_eq!(error.fault().unwrap().code, Code::GET_UNKNOWN_KEY_IN_OBJECT);
/// # Ok::<(), jihluka::Error>(())
/// ```
pub fn get<'t, T: Text + ?Sized>(json: &'t T, path: &Path) -> Result<&'t T::Part, Error> {
    look_up(raw::jihluka_get, json, path)
}

/// The texts of the values at the paths, in their order, and `None` for a key that is missing in an object
/// with members.
///
/// It is an [`Error::Document`] where any of them leads nowhere otherwise, or the text is broken as far as
/// it is needed.
///
/// ```
/// use jihluka::{get_many, path, Paths};
/// let paths = Paths::new([path!["tags", 1], path!["exp"]])?;
/// assert_eq!(get_many(r#"{"user":"ada","tags":["a","b"]}"#, &paths)?, [Some(r#""b""#), None]);
/// # Ok::<(), jihluka::Error>(())
/// ```
pub fn get_many<'t, T: Text + ?Sized>(
    json: &'t T,
    paths: &Paths,
) -> Result<Vec<Option<&'t T::Part>>, Error> {
    look_up_many(raw::jihluka_get_many, json, paths)
}

/// Where each of the paths leads, in their order, whatever the others lead to.
///
/// It is an [`Error::Document`] where the text is broken before all paths are settled: if a key is missing, to the end
/// of its value.
///
/// ```
/// use jihluka::{get_each, path, Code, Outcome, Paths};
/// let paths = Paths::new([path!["level"], path!["user"], path!["http", "status"]])?;
/// assert_eq!(
///     get_each(r#"{"level":"info","http":null}"#, &paths)?,
///     [Outcome::Found(r#""info""#), Outcome::Missing(27), Outcome::Fails(Code(100), 26)],
/// );
/// # Ok::<(), jihluka::Error>(())
/// ```
pub fn get_each<'t, T: Text + ?Sized>(
    json: &'t T,
    paths: &Paths,
) -> Result<Vec<Outcome<&'t T::Part>>, Error> {
    tell_each(raw::jihluka_get_each, json, paths)
}

/// A text that is one value in UTF-8 with nothing but white space round it: what [`validate`] gives.
/// Look-ups in it validate nothing again.
#[derive(Debug)]
pub struct Valid<'t, T: ?Sized>(&'t T);

impl<T: ?Sized> Clone for Valid<'_, T> {
    fn clone(&self) -> Self {
        *self
    }
}

impl<T: ?Sized> Copy for Valid<'_, T> {}

/// Judges a text whole.
///
/// ```
/// use jihluka::{path, validate, Category};
/// let document = validate(r#"{"user":"ada"}"#)?;
/// assert_eq!(document.get(&path!["user"])?, r#""ada""#);
/// let fault = validate("[1,").unwrap_err().fault().unwrap();
/// assert_eq!((fault.code.category(), fault.line, fault.column), (Category::Eof, 1, 3));
/// # Ok::<(), jihluka::Error>(())
/// ```
pub fn validate<T: Text + ?Sized>(json: &T) -> Result<Valid<'_, T>, Error> {
    let (text, mut fault) = (json.bytes(), raw::Fault::default());
    // SAFETY: the slice is borrowed while the call runs, and the cell is this function's own.
    let status = unsafe { raw::jihluka_validate(text.as_ptr(), text.len(), &mut fault) };
    judge(status, fault)?;
    Ok(Valid(json))
}

impl<'t, T: Text + ?Sized> Valid<'t, T> {
    /// The text.
    pub fn text(self) -> &'t T {
        self.0
    }

    /// As [`get`], of a text that is validated already.
    pub fn get(self, path: &Path) -> Result<&'t T::Part, Error> {
        look_up(raw::jihluka_get_unchecked, self.0, path)
    }

    /// As [`get_many`], of a text that is validated already: each path is followed by itself.
    pub fn get_many(self, paths: &Paths) -> Result<Vec<Option<&'t T::Part>>, Error> {
        look_up_many(raw::jihluka_get_many_unchecked, self.0, paths)
    }

    /// As [`get_each`], of a text that is validated already: each path is followed by itself.
    pub fn get_each(self, paths: &Paths) -> Result<Vec<Outcome<&'t T::Part>>, Error> {
        tell_each(raw::jihluka_get_each_unchecked, self.0, paths)
    }
}
