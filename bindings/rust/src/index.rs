//! All values of a document.
use crate::error::{judge, Error};
use crate::text::count_bytes;
use crate::{raw, Span, Text, Type};
use std::alloc::{alloc_zeroed, Layout};

/// A value of a document, as [`index`] tells it.
#[derive(Clone, Copy, Debug, PartialEq, Eq, Hash)]
pub struct Entry {
    /// Where it is.
    pub value: Span,
    /// What it is labelled by in the value whose part it is.
    pub label: Label,
    /// The number of the value whose part it is, and 0 for the root.
    pub parent: usize,
    /// Its type.
    pub kind: Type,
}

/// What a value is labelled by.
#[derive(Clone, Copy, Debug, PartialEq, Eq, Hash)]
pub enum Label {
    /// By nothing, as it is the root.
    Root,
    /// By the key of a member, the quotes with it. [`as_str`](crate::as_str) undoes its escapes.
    Key(Span),
    /// By how many elements come before it in its array.
    At(usize),
}

impl Entry {
    fn new(number: usize, told: raw::Entry) -> Entry {
        // A key has quotes, so that none ends at 0.
        let label = match (number, told.key.end) {
            (0, _) => Label::Root,
            (_, 0) => Label::At(told.position),
            _ => Label::Key(told.key),
        };
        Entry {
            value: told.value,
            label,
            parent: told.parent,
            kind: Type::ALL[told.kind as usize],
        }
    }
}

/// Room for entries, at least one, of which each byte is 0. A large one takes no memory where it isn't written to.
fn room(count: usize) -> Result<Vec<raw::Entry>, Error> {
    let layout = Layout::array::<raw::Entry>(count).map_err(|_| Error::NoMemory)?;
    // SAFETY: no entry is without a size, and there is at least one.
    let start = unsafe { alloc_zeroed(layout) }.cast::<raw::Entry>();
    if start.is_null() {
        return Err(Error::NoMemory);
    }
    // SAFETY: the allocator of `Vec` gave it, for so many, and an entry may have each byte 0.
    Ok(unsafe { Vec::from_raw_parts(start, count, count) })
}

/// All values of the document, numbered from 0 in the order of the places where they begin: the root, and all
/// elements and members' values at any depth. A container comes before its items; keys are none.
///
/// They are told by their places alone, so they may be kept beside the text or without it. An entry takes 56
/// bytes.
///
/// It is an [`Error::Document`] where the text isn't one value in UTF-8 with nothing but white space round it, as
/// [`validate`](crate::validate) tells it, and an [`Error::NoMemory`] where it has 4 GiB or more.
///
/// ```
/// use jihluka::{index, Label, Type};
/// let json = r#"{"user": "ada", "tags": ["a", "b"]}"#;
/// let values = index(json)?;
/// let texts: Vec<_> = values.iter().map(|it| &json[it.value.range()]).collect();
/// assert_eq!(texts, [json, r#""ada""#, r#"["a", "b"]"#, r#""a""#, r#""b""#]);
///
/// let last = values[4];
/// assert_eq!((last.kind, last.label), (Type::String, Label::At(1)));
/// let tags = values[last.parent];
/// assert!(matches!(tags.label, Label::Key(key) if &json[key.range()] == r#""tags""#));
/// # Ok::<(), jihluka::Error>(())
/// ```
pub fn index<T: Text + ?Sized>(json: &T) -> Result<Vec<Entry>, Error> {
    let text = json.bytes();
    // Each value but the root comes after one of these, with nothing but its key between them.
    let most = 1 + count_bytes(text, |byte| matches!(byte, b'[' | b'{' | b','));
    let mut entries = room(most)?;
    let (mut wanted, mut fault) = (0, raw::Fault::default());
    // SAFETY: the slice is borrowed while the call runs, there are as many entries as is said, and they and the
    // two cells are this function's own.
    let status = unsafe {
        raw::jihluka_index(
            text.as_ptr(),
            text.len(),
            entries.as_mut_ptr(),
            entries.len(),
            &mut wanted,
            &mut fault,
        )
    };
    judge(status, fault)?;
    entries.truncate(wanted);
    Ok(entries
        .into_iter()
        .enumerate()
        .map(|(number, told)| Entry::new(number, told))
        .collect())
}
