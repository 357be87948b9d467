//! What a text may be, and what its parts are.
use std::ops::Range;

mod sealed {
    pub trait Sealed {}
    impl Sealed for str {}
    impl Sealed for String {}
    impl Sealed for [u8] {}
    impl Sealed for Vec<u8> {}
    impl<const N: usize> Sealed for [u8; N] {}
}

/// A text in which values are looked up, and what its parts are: of a `str` or `String` they are `str`, and
/// of bytes they are bytes.
pub trait Text: sealed::Sealed {
    /// What a part of it is.
    type Part: Text<Part = Self::Part> + ?Sized;
    /// Its bytes.
    fn bytes(&self) -> &[u8];
    /// The part of it between two of its places, which are no places inside a char.
    fn part(&self, at: Range<usize>) -> &Self::Part;
}

/// A part of a text, from the place `start` to before the place `end`, in bytes from 0.
///
/// ```
/// use jihluka::Span;
/// let user = Span { start: 9, end: 14 };
/// assert_eq!(&r#"{"user": "ada"}"#[user.range()], r#""ada""#);
/// ```
#[repr(C)]
#[derive(Clone, Copy, Debug, Default, PartialEq, Eq, Hash)]
pub struct Span {
    /// Where it begins.
    pub start: usize,
    /// Where it has ended.
    pub end: usize,
}

impl Span {
    /// The same as a range, by which a text is sliced.
    pub fn range(self) -> Range<usize> {
        self.start..self.end
    }
}

impl From<Span> for Range<usize> {
    fn from(span: Span) -> Self {
        span.range()
    }
}

/// The part of a text that one of many spans has: none where it is twice 0, as no value is empty.
pub(crate) fn part_of<T: Text + ?Sized>(json: &T, span: Span) -> Option<&T::Part> {
    (span.end > 0).then(|| json.part(span.range()))
}

/// How many bytes of a text are such ones. Each block of it is so short that a byte takes its count, as sums of
/// bytes are fast.
pub(crate) fn count_bytes(text: &[u8], is_one: impl Fn(u8) -> bool) -> usize {
    let in_block = |block: &[u8]| block.iter().map(|&byte| u8::from(is_one(byte))).sum::<u8>();
    text.chunks(u8::MAX.into())
        .map(|block| usize::from(in_block(block)))
        .sum()
}

macro_rules! text {
    ($part:ty: $(($($parameters:tt)*) $whole:ty),*) => {$(
        impl $($parameters)* Text for $whole {
            type Part = $part;
            fn bytes(&self) -> &[u8] {
                self.as_ref()
            }
            fn part(&self, at: Range<usize>) -> &$part {
                &self[at]
            }
        }
    )*};
}

text!(str: () str, () String);
text!([u8]: () [u8], () Vec<u8>, (<const N: usize>) [u8; N]);
