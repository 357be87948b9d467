//! What one value is, by its text.
use crate::error::{judge, Error};
use crate::{raw, Text};
use std::borrow::Cow;
use std::fmt;

/// The type of a value.
#[derive(Clone, Copy, Debug, PartialEq, Eq, Hash)]
pub enum Type {
    /// `null`.
    Null,
    /// `true` or `false`.
    Boolean,
    /// A number.
    Number,
    /// A string.
    String,
    /// An object.
    Object,
    /// An array.
    Array,
}

impl Type {
    /// All of them, in the order of their numbers in `jihluka.h`.
    pub const ALL: [Type; 6] = [
        Type::Null,
        Type::Boolean,
        Type::Number,
        Type::String,
        Type::Object,
        Type::Array,
    ];
}

impl fmt::Display for Type {
    fn fmt(&self, f: &mut fmt::Formatter<'_>) -> fmt::Result {
        f.write_str(match self {
            Type::Null => "null",
            Type::Boolean => "boolean",
            Type::Number => "number",
            Type::String => "string",
            Type::Object => "object",
            Type::Array => "array",
        })
    }
}

/// What a call that reads one value comes to.
pub(crate) fn judge_value<T: Text + ?Sized>(
    status: u32,
    fault: raw::Fault,
    json: &T,
) -> Result<(), Error> {
    match status {
        raw::WRONG_TYPE => Err(Error::WrongType(type_of(json)?)),
        raw::NO_INTEGER => Err(Error::NotInteger),
        other => judge(other, fault),
    }
}

/// The one thing of a value that a call tells.
pub(crate) fn tell<T: Text + ?Sized, V: Default>(call: raw::Tell<V>, json: &T) -> Result<V, Error> {
    let (text, mut told, mut fault) = (json.bytes(), V::default(), raw::Fault::default());
    // SAFETY: the slice is borrowed while the call runs, and the two cells are this function's own.
    let status = unsafe { call(text.as_ptr(), text.len(), &mut told, &mut fault) };
    judge_value(status, fault, json)?;
    Ok(told)
}

/// The type of the value that begins the text. Its first byte says it, and nothing after that is looked at.
///
/// It is an [`Error::Document`] where no value begins the text.
///
/// ```
/// use jihluka::{type_of, Type};
/// assert_eq!(type_of("12.50")?, Type::Number);
/// assert_eq!(type_of(b" null")?, Type::Null);
/// # Ok::<(), jihluka::Error>(())
/// ```
pub fn type_of<T: Text + ?Sized>(json: &T) -> Result<Type, Error> {
    let number = tell(raw::jihluka_type, json)?;
    Ok(Type::ALL[number as usize])
}

/// The integer that a number is, from 0 to 2<sup>64</sup> - 1.
///
/// With a fraction, an exponent or a minus sign it is [`Error::NotInteger`] whatever its value is, as `1.0`,
/// `1e3` and `-0` are, and so it is above that. `parse` of its text reads any number as `f64`. It is an
/// [`Error::WrongType`] where the value is no number, and an [`Error::Document`] where the text isn't one value
/// in UTF-8 with nothing but white space round it.
///
/// ```
/// use jihluka::{as_u64, Error, Type};
/// assert_eq!(as_u64("18446744073709551615"), Ok(u64::MAX));
/// assert_eq!(as_u64("12.50"), Err(Error::NotInteger));
/// assert_eq!(as_u64(r#""12""#), Err(Error::WrongType(Type::String)));
/// ```
pub fn as_u64<T: Text + ?Sized>(json: &T) -> Result<u64, Error> {
    tell(raw::jihluka_u64, json)
}

/// As [`as_u64`], from -2<sup>63</sup> to 2<sup>63</sup> - 1; `-0` is 0.
///
/// ```
/// use jihluka::{as_i64, Error};
/// assert_eq!(as_i64(b"-2"), Ok(-2));
/// assert_eq!(as_i64("9223372036854775808"), Err(Error::NotInteger));
/// ```
pub fn as_i64<T: Text + ?Sized>(json: &T) -> Result<i64, Error> {
    tell(raw::jihluka_i64, json)
}

/// The text of a string, with its escapes undone. It is borrowed, and no memory is taken, where the string has
/// no backslash.
///
/// It is an [`Error::WrongType`] where the value is no string, and an [`Error::Document`] where the text isn't
/// one value in UTF-8 with nothing but white space round it.
///
/// ```
/// use jihluka::as_str;
/// use std::borrow::Cow;
/// assert_eq!(as_str(r#""Zo\u00eb""#)?, "Zoë");
/// assert!(matches!(as_str(b"\"ada\"")?, Cow::Borrowed("ada")));
/// # Ok::<(), jihluka::Error>(())
/// ```
pub fn as_str<T: Text + ?Sized>(json: &T) -> Result<Cow<'_, str>, Error> {
    let text = json.bytes();
    let quote = text
        .iter()
        .position(|byte| !b" \t\r\n".contains(byte))
        .unwrap_or(0);
    let is_escaped = text.get(quote) == Some(&b'"') && text.contains(&b'\\');
    // No text is longer than its string.
    let mut room = vec![0; if is_escaped { text.len() } else { 0 }];
    let (mut wanted, mut fault) = (0, raw::Fault::default());
    // SAFETY: the slice is borrowed while the call runs, the room is as long as is said, and it and the two
    // cells are this function's own.
    let status = unsafe {
        raw::jihluka_string_text(
            text.as_ptr(),
            text.len(),
            room.as_mut_ptr(),
            room.len(),
            &mut wanted,
            &mut fault,
        )
    };
    judge_value(status, fault, json)?;
    if is_escaped {
        room.truncate(wanted);
        // SAFETY: what the call writes is UTF-8, and all of it found room.
        return Ok(Cow::Owned(unsafe { String::from_utf8_unchecked(room) }));
    }
    let inside = &text[quote + 1..][..wanted];
    // SAFETY: what stands between the quotes of the one string is all of its text, which is UTF-8.
    let inside = unsafe { std::str::from_utf8_unchecked(inside) };
    Ok(Cow::Borrowed(inside))
}

/// How many elements an array has, or members an object, repeated keys counted each time.
///
/// It is an [`Error::WrongType`] where the value is neither, and an [`Error::Document`] where the text isn't
/// one value in UTF-8 with nothing but white space round it.
///
/// ```
/// use jihluka::count;
/// assert_eq!(count("[[], {}]"), Ok(2));
/// assert_eq!(count(r#"{"a": 1, "a": 2}"#), Ok(2));
/// ```
pub fn count<T: Text + ?Sized>(json: &T) -> Result<usize, Error> {
    tell(raw::jihluka_count, json)
}
