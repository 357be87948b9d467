//! Where each path leads.
use crate::{raw, Code, Text};

/// Where one path leads, whatever the others lead to.
#[derive(Clone, Copy, Debug, PartialEq, Eq)]
pub enum Outcome<V> {
    /// To this value.
    Found(V),
    /// Nowhere, as an object, which may be empty, lacks its key: the offset of the closing brace, in bytes.
    Missing(usize),
    /// Nowhere, for another reason: the code, and the offset at which it fails, in bytes.
    Fails(Code, usize),
}

impl<V> Outcome<V> {
    /// The value, if the path leads to one.
    ///
    /// ```
    /// use jihluka::{get_each, path, Paths};
    /// let paths = Paths::new([path!["a"], path!["b"]])?;
    /// let values: Vec<_> = get_each(r#"{"a":1}"#, &paths)?.into_iter().map(|o| o.found()).collect();
    /// assert_eq!(values, [Some("1"), None]);
    /// # Ok::<(), jihluka::Error>(())
    /// ```
    pub fn found(self) -> Option<V> {
        match self {
            Outcome::Found(value) => Some(value),
            _ => None,
        }
    }

    /// Whether the text has no such value: an object lacks the key, an array the item, or the path leads below a
    /// `null`.
    ///
    /// ```
    /// use jihluka::{get_each, path, Paths};
    /// let paths = Paths::new([path!["http", "status"]])?;
    /// assert!(get_each(r#"{"http":null}"#, &paths)?[0].is_absent());
    /// assert!(!get_each(r#"{"http":"GET"}"#, &paths)?[0].is_absent());
    /// # Ok::<(), jihluka::Error>(())
    /// ```
    pub fn is_absent(&self) -> bool {
        match *self {
            Outcome::Found(_) => false,
            Outcome::Missing(_) => true,
            // A `null` is found where a container is wanted: its type is 0.
            Outcome::Fails(code, _) => {
                matches!(
                    code,
                    Code::GET_IN_EMPTY_ARRAY | Code::GET_INDEX_OUT_OF_ARRAY | Code(100..=109)
                )
            }
        }
    }
}

/// What a path is told, with the part of the text.
pub(crate) fn told<'t, T: Text + ?Sized>(json: &'t T, told: raw::Outcome) -> Outcome<&'t T::Part> {
    match told.status {
        raw::PATH_MISSING => Outcome::Missing(told.place),
        raw::PATH_FAILS => Outcome::Fails(Code(told.code), told.place),
        _ => Outcome::Found(json.part(told.span.start..told.span.end)),
    }
}
