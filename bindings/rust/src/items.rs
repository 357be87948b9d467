//! The items of a container, one after the other.
use crate::error::{judge, Error};
use crate::value::tell;
use crate::{raw, type_of, Text, Type};
use std::iter::FusedIterator;

/// A way through the items of a container: the text, and the cursor of the calls.
#[derive(Debug)]
struct Walk<'t, T: ?Sized> {
    json: &'t T,
    items: raw::Items,
}

impl<T: ?Sized> Clone for Walk<'_, T> {
    fn clone(&self) -> Self {
        Walk { ..*self }
    }
}

impl<'t, T: Text + ?Sized> Walk<'t, T> {
    fn new(json: &'t T, wanted: Type) -> Result<Self, Error> {
        let found = type_of(json)?;
        if found != wanted {
            return Err(Error::WrongType(found));
        }
        let items = tell(raw::jihluka_items_begin, json)?;
        Ok(Walk { json, items })
    }

    fn next(&mut self) -> Option<Result<raw::Item, Error>> {
        let (text, mut item, mut fault) = (
            self.json.bytes(),
            raw::Item::default(),
            raw::Fault::default(),
        );
        // SAFETY: the slice is borrowed while the call runs, and the three cells are this value's and this
        // function's own.
        let status = unsafe {
            raw::jihluka_items_next(
                text.as_ptr(),
                text.len(),
                &mut self.items,
                &mut item,
                &mut fault,
            )
        };
        (status != raw::END).then(|| judge(status, fault).map(|()| item))
    }

    fn part(&self, span: raw::Span) -> &'t T::Part {
        self.json.part(span.start..span.end)
    }
}

/// The elements of an array, one after the other: what [`elements`] gives.
#[derive(Debug)]
pub struct Elements<'t, T: ?Sized>(Walk<'t, T>);

/// The members of an object, one after the other: what [`members`] gives.
#[derive(Debug)]
pub struct Members<'t, T: ?Sized>(Walk<'t, T>);

/// A clone goes on from where this one is.
impl<T: ?Sized> Clone for Elements<'_, T> {
    fn clone(&self) -> Self {
        Elements(self.0.clone())
    }
}

/// A clone goes on from where this one is.
impl<T: ?Sized> Clone for Members<'_, T> {
    fn clone(&self) -> Self {
        Members(self.0.clone())
    }
}

impl<'t, T: Text + ?Sized> Iterator for Elements<'t, T> {
    type Item = Result<&'t T::Part, Error>;

    fn next(&mut self) -> Option<Self::Item> {
        let item = self.0.next()?;
        Some(item.map(|item| self.0.part(item.value)))
    }
}

impl<'t, T: Text + ?Sized> Iterator for Members<'t, T> {
    type Item = Result<(&'t T::Part, &'t T::Part), Error>;

    fn next(&mut self) -> Option<Self::Item> {
        let item = self.0.next()?;
        Some(item.map(|item| (self.0.part(item.key), self.0.part(item.value))))
    }
}

impl<T: Text + ?Sized> FusedIterator for Elements<'_, T> {}
impl<T: Text + ?Sized> FusedIterator for Members<'_, T> {}

/// The texts of the elements of an array, in their order.
///
/// All of the text has to be UTF-8, which is looked at first. Each element is looked at when its turn comes,
/// and all of them together once, so the text may be broken after those that came: then an
/// [`Error::Document`] comes, and nothing after it. After an [`Error::NoMemory`] the same element is tried
/// again. It is an [`Error::WrongType`] where the value is no array.
///
/// ```
/// use jihluka::{as_u64, elements};
/// let sum: u64 = elements("[1, 20]")?.map(|element| as_u64(element?)).sum::<Result<_, _>>()?;
/// assert_eq!(sum, 21);
/// let mut broken = elements(b"[1, }")?;
/// assert_eq!(broken.next(), Some(Ok(&b"1"[..])));
/// assert!(broken.next().unwrap().is_err());
/// assert_eq!(broken.next(), None);
/// # Ok::<(), jihluka::Error>(())
/// ```
pub fn elements<T: Text + ?Sized>(json: &T) -> Result<Elements<'_, T>, Error> {
    Walk::new(json, Type::Array).map(Elements)
}

/// The members of an object, in their order: of each the text of its key, with the quotes, and that of its
/// value. [`as_str`](crate::as_str) undoes the escapes of a key. A key may come twice.
///
/// The text is looked at as by [`elements`]. It is an [`Error::WrongType`] where the value is no object.
///
/// ```
/// use jihluka::{as_str, members};
/// let mut seen = Vec::new();
/// for member in members(r#"{"id": 4711, "na\u006de": "ada"}"#)? {
///     let (key, value) = member?;
///     seen.push((as_str(key)?, value));
/// }
/// assert_eq!(seen, [("id".into(), "4711"), ("name".into(), r#""ada""#)]);
/// # Ok::<(), jihluka::Error>(())
/// ```
pub fn members<T: Text + ?Sized>(json: &T) -> Result<Members<'_, T>, Error> {
    Walk::new(json, Type::Object).map(Members)
}
