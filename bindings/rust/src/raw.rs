// The calls of libjihluka.a, as jihluka.h has them.
pub(crate) use crate::text::Span;
use std::ffi::c_void;
use std::ptr;

#[repr(C)]
#[derive(Default)]
pub(crate) struct Fault {
    pub code: u32,
    pub line: usize,
    pub column: usize,
    pub offset: usize,
}

/// `jihluka_outcome`.
#[repr(C)]
#[derive(Clone, Copy, Debug, Default)]
pub(crate) struct Outcome {
    pub status: u32,
    pub code: u32,
    pub span: Span,
    pub place: usize,
}

pub(crate) const PATH_MISSING: u32 = 1;
pub(crate) const PATH_FAILS: u32 = 2;

#[repr(C)]
#[derive(Clone, Copy, Debug, Default)]
pub(crate) struct Items {
    pub place: usize,
    pub state: u32,
}

#[repr(C)]
#[derive(Default)]
pub(crate) struct Item {
    pub key: Span,
    pub value: Span,
}

#[repr(C)]
pub(crate) struct Entry {
    pub value: Span,
    pub key: Span,
    pub parent: usize,
    pub position: usize,
    pub kind: u32,
}

/// `jihluka_paths`.
#[repr(C)]
pub(crate) struct Kept {
    kept: *mut c_void,
    held: usize,
    pub count: usize,
}

impl Kept {
    /// No paths.
    pub(crate) const NONE: Kept = Kept {
        kept: ptr::null_mut(),
        held: 0,
        count: 0,
    };
}

pub(crate) const OK: u32 = 0;
pub(crate) const DOCUMENT_ERROR: u32 = 1;
pub(crate) const BAD_LINES: u32 = 3;
pub(crate) const NO_MEMORY: u32 = 7;
pub(crate) const WRONG_TYPE: u32 = 8;
pub(crate) const NO_INTEGER: u32 = 9;
pub(crate) const END: u32 = 10;
pub(crate) const BAD_WIDTH: u32 = 11;
pub(crate) const BAD_PATCH: u32 = 12;
pub(crate) const BAD_OPERATION: u32 = 13;
pub(crate) const MISSING: u32 = 14;
pub(crate) const TEST_FAILED: u32 = 15;
pub(crate) const INTO_CHILD: u32 = 16;
pub(crate) const EDIT_REFUSED: u32 = 17;
pub(crate) const BAD_SCHEMA: u32 = 18;
pub(crate) const BAD_NUMBER: u32 = 19;

pub(crate) const KEYS_FIRST: u32 = 0;
pub(crate) const KEYS_LAST: u32 = 1;
pub(crate) const KEYS_REFUSE: u32 = 2;

/// Two calls that take the same, after a name for the type of both.
macro_rules! pairs {
    ($($(#[$doc:meta])* $kind:ident: $checked:ident, $unchecked:ident $arguments:tt;)*) => {$(
        $(#[$doc])*
        pub(crate) type $kind = unsafe extern "C" fn $arguments -> u32;
        extern "C" {
            pub(crate) fn $checked $arguments -> u32;
            pub(crate) fn $unchecked $arguments -> u32;
        }
    )*};
}

pairs! {
    /// What the two calls for one path take.
    Get: jihluka_get, jihluka_get_unchecked(
        json: *const u8,
        json_length: usize,
        path: *const u8,
        path_length: usize,
        span: *mut Span,
        error: *mut Fault,
    );
    /// What the two calls for many paths take.
    GetMany: jihluka_get_many, jihluka_get_many_unchecked(
        json: *const u8,
        json_length: usize,
        paths: *const u8,
        paths_length: usize,
        spans: *mut Span,
        span_count: usize,
        error: *mut Fault,
    );
    /// What the two calls take that tell each of many paths where it leads.
    GetEach: jihluka_get_each, jihluka_get_each_unchecked(
        json: *const u8,
        json_length: usize,
        paths: *const u8,
        paths_length: usize,
        outcomes: *mut Outcome,
        outcome_count: usize,
        error: *mut Fault,
    );
    /// The same of paths that are kept.
    GetEachWith: jihluka_get_each_with, jihluka_get_each_with_unchecked(
        json: *const u8,
        json_length: usize,
        paths: *mut Kept,
        outcomes: *mut Outcome,
        outcome_count: usize,
        error: *mut Fault,
    );
    /// What the two calls for paths that are kept take.
    GetManyWith: jihluka_get_many_with, jihluka_get_many_with_unchecked(
        json: *const u8,
        json_length: usize,
        paths: *mut Kept,
        spans: *mut Span,
        span_count: usize,
        error: *mut Fault,
    );
}

/// What a call takes that tells one thing of a value.
pub(crate) type Tell<V> = unsafe extern "C" fn(*const u8, usize, *mut V, *mut Fault) -> u32;

/// Calls that tell one thing of a value.
macro_rules! tells {
    ($($name:ident($told:ident: $kind:ty);)*) => {
        extern "C" {
            $(pub(crate) fn $name(
                json: *const u8,
                json_length: usize,
                $told: *mut $kind,
                error: *mut Fault,
            ) -> u32;)*
        }
    };
}

tells! {
    jihluka_type(kind: u32);
    jihluka_u64(value: u64);
    jihluka_i64(value: i64);
    jihluka_count(count: usize);
    jihluka_items_begin(items: Items);
}

/// Calls that write a text to a room, with what they take between the document, or the lines, and the room.
macro_rules! makes {
    ($($name:ident($($given:ident: $kind:ty),*);)*) => {
        extern "C" {
            $(pub(crate) fn $name(
                json: *const u8,
                json_length: usize,
                $($given: $kind,)*
                room: *mut u8,
                room_length: usize,
                wanted: *mut usize,
                error: *mut Fault,
            ) -> u32;)*
        }
    };
}

makes! {
    jihluka_string_text();
    jihluka_minify();
    jihluka_indent(width: usize);
    jihluka_patch(patch: *const u8, patch_length: usize);
    jihluka_edit(edits: *const u8, edits_length: usize);
    jihluka_fill(schema: *const u8, schema_length: usize);
    jihluka_rows(paths: *const u8, paths_length: usize, lines_before: u64);
}

/// What a call takes that makes a text of a document and another text.
pub(crate) type Change = unsafe extern "C" fn(
    *const u8,
    usize,
    *const u8,
    usize,
    *mut u8,
    usize,
    *mut usize,
    *mut Fault,
) -> u32;

extern "C" {
    pub(crate) fn jihluka_validate(json: *const u8, json_length: usize, error: *mut Fault) -> u32;
    pub(crate) fn jihluka_paths_new(
        lines: *const u8,
        lines_length: usize,
        rule: u32,
        paths: *mut Kept,
        error: *mut Fault,
    ) -> u32;
    pub(crate) fn jihluka_paths_free(paths: *mut Kept);
    pub(crate) fn jihluka_items_next(
        json: *const u8,
        json_length: usize,
        items: *mut Items,
        item: *mut Item,
        error: *mut Fault,
    ) -> u32;
    pub(crate) fn jihluka_index(
        json: *const u8,
        json_length: usize,
        entries: *mut Entry,
        entry_count: usize,
        wanted: *mut usize,
        error: *mut Fault,
    ) -> u32;
    pub(crate) fn jihluka_code_text(code: u32, room: *mut u8, room_length: usize) -> usize;
}
