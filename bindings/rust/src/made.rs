//! Texts that are made of a document.
use crate::error::{judge_text, Error};
use crate::{raw, Text};

/// The bytes that a call makes in a room of as many as are guessed, or in another where they are more. The call
/// writes to the room, to the length that it wants and to the fault, and gives a status, which is judged.
pub(crate) fn filled(
    guess: usize,
    judge: impl Fn(u32, raw::Fault) -> Result<(), Error>,
    call: impl Fn(&mut [u8], &mut usize, &mut raw::Fault) -> u32,
) -> Result<Vec<u8>, Error> {
    let (mut room, mut wanted) = (vec![0; guess], 0);
    loop {
        let mut fault = raw::Fault::default();
        let status = call(&mut room, &mut wanted, &mut fault);
        judge(status, fault)?;
        if wanted <= room.len() {
            break;
        }
        room = vec![0; wanted];
    }
    room.truncate(wanted);
    Ok(room)
}

/// The text that a call makes so.
fn made(
    guess: usize,
    call: impl Fn(&mut [u8], &mut usize, &mut raw::Fault) -> u32,
) -> Result<String, Error> {
    let text = filled(guess, judge_text, call)?;
    // SAFETY: what the call makes is UTF-8, and all of it found room.
    Ok(unsafe { String::from_utf8_unchecked(text) })
}

/// The text that a call makes of a document and another text, for which there is mostly room in the length of
/// both.
fn changed<T: Text + ?Sized, C: Text + ?Sized>(
    call: raw::Change,
    json: &T,
    change: &C,
) -> Result<String, Error> {
    let (text, change) = (json.bytes(), change.bytes());
    made(
        text.len() + change.len(),
        // SAFETY: the slices are borrowed while the call runs, the room is as long as is said, and it and the
        // two cells are no one else's.
        |room, wanted, fault| unsafe {
            call(
                text.as_ptr(),
                text.len(),
                change.as_ptr(),
                change.len(),
                room.as_mut_ptr(),
                room.len(),
                wanted,
                fault,
            )
        },
    )
}

/// The document without white space outside strings. All else keeps its bytes and its order.
///
/// It is an [`Error::Document`] where the text isn't one value in UTF-8 with nothing but white space round it.
///
/// ```
/// use jihluka::minify;
/// assert_eq!(minify(r#"[ 1.0, {"a b" : null} ]"#)?, r#"[1.0,{"a b":null}]"#);
/// # Ok::<(), jihluka::Error>(())
/// ```
pub fn minify<T: Text + ?Sized>(json: &T) -> Result<String, Error> {
    let text = json.bytes();
    // SAFETY: as in `changed`.
    made(text.len(), |room, wanted, fault| unsafe {
        raw::jihluka_minify(
            text.as_ptr(),
            text.len(),
            room.as_mut_ptr(),
            room.len(),
            wanted,
            fault,
        )
    })
}

/// The document over lines, with `width` blanks for each level of depth, from 0 to 8, and no line feed at its
/// end.
///
/// It may be much longer than the document: of `n` arrays in each other about `width` times the square of `n`.
/// It is an [`Error::BadWidth`] where the width is above 8, and an [`Error::Document`] as of [`minify`].
///
/// ```
/// use jihluka::indent;
/// let wanted = r#"{
///   "a": [
///     1,
///     []
///   ]
/// }"#;
/// assert_eq!(indent(r#"{"a":[1,[]]}"#, 2)?, wanted);
/// # Ok::<(), jihluka::Error>(())
/// ```
pub fn indent<T: Text + ?Sized>(json: &T, width: usize) -> Result<String, Error> {
    let text = json.bytes();
    made(
        2 * text.len(),
        // SAFETY: as in `changed`.
        |room, wanted, fault| unsafe {
            raw::jihluka_indent(
                text.as_ptr(),
                text.len(),
                width,
                room.as_mut_ptr(),
                room.len(),
                wanted,
                fault,
            )
        },
    )
}

/// The document with a JSON Patch (RFC 6902), of which all operations are made or none. What no operation
/// changes keeps its text; the arrays and objects on the way to a change are written without white space, and
/// their keys with as few escapes as may be.
///
/// A test compares numbers by their digits, so that `1` and `1.0` differ; to remove the whole document leaves
/// `null`; a pointer has at most 255 tokens.
///
/// It is an [`Error::BadPatch`] or [`Error::BadOperation`] where the patch is invalid; an [`Error::Missing`],
/// [`Error::TestFailed`] or [`Error::IntoChild`] where an operation isn't made; and an [`Error::Document`] as of
/// [`minify`].
///
/// ```
/// use jihluka::{patch, Error};
/// let json = r#"{"a": [1, 2]}"#;
/// assert_eq!(patch(json, r#"[{"op": "add", "path": "/a/-", "value": 3}]"#)?, r#"{"a":[1,2,3]}"#);
/// assert_eq!(patch(json, r#"[{"op": "remove", "path": "/b"}]"#), Err(Error::Missing(0)));
/// # Ok::<(), jihluka::Error>(())
/// ```
pub fn patch<T: Text + ?Sized, P: Text + ?Sized>(json: &T, patch: &P) -> Result<String, Error> {
    changed(raw::jihluka_patch, json, patch)
}

/// The document with edits, all of them or none, one on each line. What no edit changes keeps its text; the arrays
/// and objects on the way to a change are written without white space, and their keys with as few escapes as may be.
///
/// `["set",PATH,VALUE]` replaces the value at a [path](crate::Path), `["push",PATH,VALUE]` appends to the array
/// there, and `["pair",PATH,KEY,VALUE]` appends a member to the object there, also where it has the key already, of
/// which the first counts then. `["take",PATH]` replaces the value by `null`, and removes nothing.
///
/// It is an [`Error::BadEdit`] where a line says no edit, an [`Error::EditRefused`] where an edit isn't made, and
/// an [`Error::Document`] as of [`minify`].
///
/// ```
/// use jihluka::{edit, path, Error};
/// let edits = format!("[\"push\", {}, \"b\"]\n[\"take\", {}]", path!["tags"], path!["id"]);
/// assert_eq!(edit(r#"{"id": 7, "tags": ["a"]}"#, &edits)?, r#"{"id":null,"tags":["a","b"]}"#);
/// assert_eq!(edit("[1]", r#"["push", [0], 2]"#), Err(Error::EditRefused(1)));
/// # Ok::<(), jihluka::Error>(())
/// ```
pub fn edit<T: Text + ?Sized, E: Text + ?Sized>(json: &T, edits: &E) -> Result<String, Error> {
    changed(raw::jihluka_edit, json, edits)
}

/// The schema, an object, filled from the value that begins the document, whatever follows it.
///
/// Where the values of both are objects, and that of the schema has members, each of these is filled in the same
/// way from the member of its key, and kept where there is none; else the document's value takes the place.
/// Of equal keys of the schema the last counts. The schema, and each value that takes a place, has at most 255
/// containers open at once.
///
/// It is an [`Error::BadSchema`] where the schema isn't read, or is no object, and an [`Error::Document`] where the
/// document is broken before its value ends, or too deep.
///
/// ```
/// use jihluka::fill;
/// let json = r#"{"id": 7, "note": null}"#;
/// assert_eq!(fill(r#"{"id": 0, "currency": "EUR"}"#, json)?, r#"{"id":7,"currency":"EUR"}"#);
/// # Ok::<(), jihluka::Error>(())
/// ```
pub fn fill<S: Text + ?Sized, T: Text + ?Sized>(schema: &S, json: &T) -> Result<String, Error> {
    changed(raw::jihluka_fill, json, schema)
}
