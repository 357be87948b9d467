//! Why there is no answer.
use crate::{raw, Type};
use std::fmt;

/// Why there is no answer.
#[derive(Clone, Copy, Debug, PartialEq, Eq)]
#[non_exhaustive]
pub enum Error {
    /// The text is invalid, or a path doesn't resolve in it.
    Document(Fault),
    /// A path is invalid, or doesn't go with those before it: its index among the paths that were given.
    BadPath(usize),
    /// The value is of another type than the call asks for: its type.
    WrongType(Type),
    /// The number is no integer, or none in the range of the call.
    NotInteger,
    /// The width is above 8.
    BadWidth,
    /// The patch is no JSON text, as the fault says; or it is one, but no array.
    BadPatch(Option<Fault>),
    /// An element of the patch is no operation: its index, from 0.
    BadOperation(usize),
    /// An operation of the patch isn't made, as a pointer of it leads to nothing: its index, from 0.
    Missing(usize),
    /// An operation of the patch isn't made, as the value is another one than it tests for: its index, from 0.
    TestFailed(usize),
    /// An operation of the patch isn't made, as it would move a value into itself: its index, from 0.
    IntoChild(usize),
    /// A line says no edit, or is blank with more after it: its number, from 1.
    BadEdit(usize),
    /// An edit isn't made, as its path leads to nothing or to a value of another type than it needs: the
    /// number of its line, from 1.
    EditRefused(usize),
    /// The schema isn't read, as the fault says; or it is no object.
    BadSchema(Option<Fault>),
    /// Too many lines are said to come before: with the bytes of the lines they are 2<sup>64</sup> - 1 or more.
    BadNumber,
    /// Memory ran out.
    NoMemory,
}

/// What is wrong in a text, and where.
#[derive(Clone, Copy, Debug, PartialEq, Eq)]
pub struct Fault {
    /// What is wrong.
    pub code: Code,
    /// The line, from 1.
    pub line: usize,
    /// The column, from 1, in bytes.
    pub column: usize,
    /// The offset, from 0, in bytes.
    pub offset: usize,
}

/// The number of what is wrong; `Display` has its words, and `Debug` its name where it has one.
///
/// A value of another type than the path asks for is `MISMATCH + 10 * found + wanted`, as `jihluka.h` says.
///
/// ```
/// use jihluka::Code;
/// assert_eq!(format!("{:?} {:?}", Code::INVALID_UTF8, Code(131)), "INVALID_UTF8 Code(131)");
/// ```
#[derive(Clone, Copy, PartialEq, Eq, PartialOrd, Ord, Hash)]
pub struct Code(pub u32);

impl fmt::Debug for Code {
    fn fmt(&self, to: &mut fmt::Formatter<'_>) -> fmt::Result {
        match Code::NAMED.iter().find(|(_, code)| code == self) {
            Some((name, _)) => to.write_str(name),
            None => to.debug_tuple("Code").field(&self.0).finish(),
        }
    }
}

/// What kind of error a code is.
#[derive(Clone, Copy, Debug, PartialEq, Eq, Hash)]
pub enum Category {
    /// The text isn't JSON in UTF-8, as far as it was needed; or it is deeper than [`fill`](crate::fill) reads, or
    /// has a key twice that a [`Finder`](crate::Finder) refuses.
    Syntax,
    /// The text ends inside a value, or before one that is expected.
    Eof,
    /// The value on the way of a path is neither the object nor the array that the path asks for.
    TypeUnmatched,
    /// The object or the array on the way of a path has no such key or index.
    NotFound,
}

macro_rules! codes {
    ($($name:ident = $number:literal),* $(,)?) => {
        #[allow(missing_docs)] // jihluka.h tells what each says
        impl Code {
            $(pub const $name: Code = Code($number);)*

            /// The names and their codes.
            pub const NAMED: &'static [(&'static str, Code)] = &[$((stringify!($name), Code($number))),*];
        }
    };
}

codes! {
    EOF_WHILE_PARSING = 3,
    EXPECTED_COLON = 4,
    EXPECTED_ARRAY_COMMA_OR_END = 5,
    EXPECTED_OBJECT_COMMA_OR_END = 6,
    INVALID_LITERAL = 7,
    INVALID_JSON_VALUE = 8,
    INVALID_ESCAPE = 11,
    INVALID_NUMBER = 12,
    INVALID_UNICODE_CODE_POINT = 14,
    INVALID_UTF8 = 15,
    CONTROL_CHARACTER_WHILE_PARSING_STRING = 16,
    EXPECT_OBJECT_KEY_OR_END = 17,
    TRAILING_CHARACTERS = 19,
    RECURSION_LIMIT_EXCEEDED = 20,
    GET_IN_EMPTY_OBJECT = 21,
    GET_UNKNOWN_KEY_IN_OBJECT = 22,
    GET_IN_EMPTY_ARRAY = 23,
    GET_INDEX_OUT_OF_ARRAY = 24,
    INVALID_SURROGATE_UNICODE_CODE_POINT = 26,
    DUPLICATE_KEY = 32,
    MISMATCH = 100,
}

impl Code {
    /// What kind of error this is.
    ///
    /// ```
    /// use jihluka::{Category, Code};
    /// assert_eq!(Code::GET_IN_EMPTY_ARRAY.category(), Category::NotFound);
    /// ```
    pub fn category(self) -> Category {
        match self {
            Code::EOF_WHILE_PARSING => Category::Eof,
            Code(21..=24) => Category::NotFound,
            Code(100..) => Category::TypeUnmatched,
            _ => Category::Syntax,
        }
    }
}

impl fmt::Display for Code {
    fn fmt(&self, f: &mut fmt::Formatter<'_>) -> fmt::Result {
        let mut room = [0; 128];
        // SAFETY: the room is this function's own, and initialised.
        let length = unsafe { raw::jihluka_code_text(self.0, room.as_mut_ptr(), room.len()) };
        f.write_str(&String::from_utf8_lossy(&room[..length.min(room.len())]))
    }
}

impl fmt::Display for Fault {
    fn fmt(&self, f: &mut fmt::Formatter<'_>) -> fmt::Result {
        let Fault {
            code,
            line,
            column,
            offset,
        } = self;
        write!(
            f,
            "{code}: line {line} column {column} (byte {offset}), code {}",
            code.0
        )
    }
}

impl fmt::Display for Error {
    fn fmt(&self, f: &mut fmt::Formatter<'_>) -> fmt::Result {
        match self {
            Error::Document(fault) => fault.fmt(f),
            Error::BadPath(index) => write!(
                f,
                "the path of index {index} is none, or doesn't go with those before it"
            ),
            Error::WrongType(found) => {
                write!(
                    f,
                    "the value is of the type {found}, which wasn't asked for"
                )
            }
            Error::NotInteger => f.write_str("the number is no integer in the range of the call"),
            Error::BadWidth => f.write_str("the width is above 8"),
            Error::BadPatch(Some(fault)) => write!(f, "the patch is no JSON text: {fault}"),
            Error::BadPatch(None) => f.write_str("the patch is no array"),
            Error::BadOperation(index)
            | Error::Missing(index)
            | Error::TestFailed(index)
            | Error::IntoChild(index) => {
                write!(
                    f,
                    "the element of index {index} of the patch {}",
                    self.why()
                )
            }
            Error::BadEdit(line) | Error::EditRefused(line) => {
                write!(f, "line {line} of the edits {}", self.why())
            }
            Error::BadSchema(Some(fault)) => write!(f, "the schema isn't read: {fault}"),
            Error::BadSchema(None) => f.write_str("the schema is no object"),
            Error::BadNumber => f.write_str("too many lines are said to come before"),
            Error::NoMemory => f.write_str("out of memory"),
        }
    }
}

impl std::error::Error for Error {}

impl Error {
    /// Why an operation of a patch, or an edit, isn't made.
    fn why(&self) -> &'static str {
        match self {
            Error::BadOperation(_) => "is no operation",
            Error::Missing(_) => "isn't made, as a pointer of it leads to nothing",
            Error::TestFailed(_) => "isn't made, as the value is another one than it tests for",
            Error::IntoChild(_) => "isn't made, as it would move a value into itself",
            Error::BadEdit(_) => "says no edit, or is blank",
            Error::EditRefused(_) => {
                "isn't made, as its path leads to nothing or to a value of another type than it needs"
            }
            _ => "",
        }
    }

    /// What is wrong in the text, where it is that.
    pub fn fault(&self) -> Option<Fault> {
        match self {
            Error::Document(fault) => Some(*fault),
            _ => None,
        }
    }

    /// Whether the text is right as far as it was needed, but has no such key or index.
    pub fn is_not_found(&self) -> bool {
        self.fault()
            .is_some_and(|fault| fault.code.category() == Category::NotFound)
    }
}

impl From<raw::Fault> for Fault {
    fn from(fault: raw::Fault) -> Self {
        let raw::Fault {
            code,
            line,
            column,
            offset,
        } = fault;
        Fault {
            code: Code(code),
            line,
            column,
            offset,
        }
    }
}

/// What a call comes to. Of many paths the fault has the number of the bad line, from 1.
pub(crate) fn judge(status: u32, fault: raw::Fault) -> Result<(), Error> {
    match status {
        raw::OK => Ok(()),
        raw::DOCUMENT_ERROR => Err(Error::Document(fault.into())),
        raw::BAD_LINES => Err(Error::BadPath(fault.line.saturating_sub(1))),
        raw::BAD_NUMBER => Err(Error::BadNumber),
        raw::NO_MEMORY => Err(Error::NoMemory),
        other => unreachable!("status {other}"),
    }
}

/// What a call comes to that makes a text. Of an operation the fault has the index as its line.
pub(crate) fn judge_text(status: u32, fault: raw::Fault) -> Result<(), Error> {
    let number = fault.line;
    let place = |fault: raw::Fault| (fault.code != 0).then(|| fault.into());
    Err(match status {
        raw::BAD_LINES => Error::BadEdit(number),
        raw::BAD_WIDTH => Error::BadWidth,
        raw::BAD_PATCH => Error::BadPatch(place(fault)),
        raw::BAD_OPERATION => Error::BadOperation(number),
        raw::MISSING => Error::Missing(number),
        raw::TEST_FAILED => Error::TestFailed(number),
        raw::INTO_CHILD => Error::IntoChild(number),
        raw::EDIT_REFUSED => Error::EditRefused(number),
        raw::BAD_SCHEMA => Error::BadSchema(place(fault)),
        other => return judge(other, fault),
    })
}
