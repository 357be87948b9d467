/* Look-ups in a JSON text (RFC 8259) that is in memory, without building a document: values at paths of keys
   and indexes, what these values are, and the items of containers. Texts that are made of a document: without
   white space or over lines, with edits or with a patch (RFC 6902), or a schema that is filled from it. An index
   of all values of a document, and rows for the lines of a log.

   Which call: to read some fields of one text, jihluka_get or jihluka_get_many. To ask many texts for the same fields,
   jihluka_paths_new once and jihluka_get_many_with for each text. What is found is a span of the text:
   jihluka_string_text, jihluka_u64 and jihluka_i64 read it, and jihluka_items_begin with jihluka_items_next goes
   through a container. jihluka_validate checks a whole document. jihluka(3) has an example.

   What this header says of a call is proved by its contract, in crates/sonic_c of the repository, but for this:
   - Tested: a null pointer with the length 0, how much memory a call takes where it takes some, and the greatest
     lengths of texts; that C means the same by each number, field and parameter.
   - Measured: speed, in docs/PERFORMANCE.md, and how much stack a call takes.
   Where a call departs from a standard, it is said with the call.

   Preconditions, which the library doesn't check:
   - A pointer that has a length with it may be null if the length is 0, which means "". All others aren't null.
   - A length is that of memory that is there, and is below 2^63.
   - Output parameters, as *span, spans, entries, *error and room, are initialised before the call. They overlap
     nothing else that is given.
   - Nobody writes to the text, the lines, the paths, the edits, the patch or the schema while a call runs.
   - jihluka_get_unchecked and the other calls that end with _unchecked are called only for a text
     that begins with a valid value in UTF-8, as one that jihluka_validate accepted does.
   - A jihluka_paths is JIHLUKA_NO_PATHS before the first call with it, and what the last call left before each other.
   - No call is made from a signal handler.

   Ownership: all memory that is given stays the caller's, and no call keeps a pointer to it. Spans are places in
   the caller's text. Only what jihluka_paths_new keeps has to be freed, by jihluka_paths_free.
   Memory: a call allocates by malloc, and frees that before it returns, but for what is kept in a jihluka_paths.
   With a call that never allocates it is said so.
   Threads: all calls may run at once. Threads may share a text; each needs outputs, a cursor and a jihluka_paths of
   its own. Nothing else is kept between calls.
   Stack: 128 KiB, which is what musl gives a thread, were enough for each call, with paths of 255 nodes, pointers
   of 255 tokens and deeply nested texts (measured).
   Limits: a path has at most 255 keys and indexes, a pointer 255 tokens, and an index is below 2^64. Memory alone
   limits how long or deep a text is, and how many paths, edits or operations there are. Only jihluka_fill has a
   limit of depth. */
#ifndef JIHLUKA_H
#define JIHLUKA_H

#include <stddef.h>
#include <stdint.h>

/* The version that this header is of. The name of the shared object, libjihluka.so.0, has its first
   number. */
#define JIHLUKA_VERSION_MAJOR 0
#define JIHLUKA_VERSION_MINOR 1
#define JIHLUKA_VERSION_PATCH 0
#define JIHLUKA_VERSION "0.1.0"

#ifdef __cplusplus
extern "C" {
#endif

/* A value: the bytes from json[start] to before json[end]. No value is empty, so {0, 0} means that there is none:
   jihluka_get_many writes it for a key that is missing. */
typedef struct jihluka_span {
  size_t start;
  size_t end;
} jihluka_span;

/* An error and its place, in bytes. The code is one of JIHLUKA_CODE_.., for which jihluka_code_text has the words. The
   line and the column count from 1, the offset from 0. Some statuses use line for a number of their own. */
typedef struct jihluka_error {
  uint32_t code;
  size_t line;
  size_t column;
  size_t offset;
} jihluka_error;

/* Status codes. Output parameters are written only on JIHLUKA_OK, but for a cursor that ends. *error is written only
   for the statuses that say so below. */
enum {
  /* The outputs are written. */
  JIHLUKA_OK = 0,
  /* The text is invalid, or a path doesn't resolve: *error has the error and its place. */
  JIHLUKA_DOCUMENT_ERROR = 1,
  /* There are more or fewer paths than spans: error->line is the number of paths, and the other fields are 0. */
  JIHLUKA_WRONG_COUNT = 2,
  /* A path or an edit line is invalid. Calls that take several lines set error->line to the number of the first
     invalid line, from 1, and the other fields to 0. Calls that take one path leave *error unchanged. */
  JIHLUKA_BAD_LINES = 3,
  /* Out of memory. Nothing was changed, so the call may be made again. */
  JIHLUKA_NO_MEMORY = 7,
  /* The value is of another type than the call reads. */
  JIHLUKA_WRONG_TYPE = 8,
  /* The number isn't an integer, or is out of the call's range. */
  JIHLUKA_NO_INTEGER = 9,
  /* There is no further item. */
  JIHLUKA_END = 10,
  /* The width is above 8. */
  JIHLUKA_BAD_WIDTH = 11,
  /* The patch isn't an array of JSON. If it is invalid JSON, *error has the error and its place in the patch;
     if it is another value, all fields of *error are 0. */
  JIHLUKA_BAD_PATCH = 12,
  /* An element of the patch isn't an operation: error->line is the number of the first one, from 0, and the other
     fields are 0. */
  JIHLUKA_BAD_OPERATION = 13,
  /* An operation of the patch fails, as a pointer of it doesn't resolve: error->line is the number of the
     operation, from 0, and the other fields are 0. */
  JIHLUKA_MISSING = 14,
  /* The same, as the value isn't the one that it tests for. */
  JIHLUKA_TEST_FAILED = 15,
  /* The same, as it would move a value into itself. */
  JIHLUKA_INTO_CHILD = 16,
  /* An edit fails, as its path doesn't resolve, or resolves to a value of another type than it needs: error->line
     is the number of its line, from 1, and the other fields are 0. */
  JIHLUKA_EDIT_REFUSED = 17,
  /* The schema isn't an object. If it can't be read as JSON, *error has the error and its place in the schema; if
     it is another value, all fields of *error are 0. */
  JIHLUKA_BAD_SCHEMA = 18,
  /* lines_before is too large. */
  JIHLUKA_BAD_NUMBER = 19,
  /* The number isn't that of a rule for duplicate keys. */
  JIHLUKA_BAD_RULE = 20
};

/* The types of values. */
enum {
  JIHLUKA_NULL = 0,
  JIHLUKA_BOOLEAN = 1,
  JIHLUKA_NUMBER = 2,
  JIHLUKA_STRING = 3,
  JIHLUKA_OBJECT = 4,
  JIHLUKA_ARRAY = 5
};

/* Validates a document: the text has to be one value in UTF-8, with nothing but white space before and after it. A
   string with half of a surrogate pair as an escape is invalid, as it denotes no text (RFC 7493, section 2.1).

   JIHLUKA_OK: the document is valid. The text then meets the precondition of the unchecked calls.
   JIHLUKA_DOCUMENT_ERROR: it isn't, and *error says why and where.
   JIHLUKA_NO_MEMORY. */
uint32_t jihluka_validate(const uint8_t *json, size_t json_length, jihluka_error *error);

/* Finds the value at a path. The path is a JSON array of object keys and array indexes, as ["a",1]; the empty path
   [] selects the whole value. If an object has the key twice, the first member counts. The text is validated up to
   the end of the value; what follows it may be anything.

   JIHLUKA_OK: *span has the value.
   JIHLUKA_DOCUMENT_ERROR: the text is invalid before the value ends, or the path doesn't resolve, also because an
   object has no such key; *error says which.
   JIHLUKA_BAD_LINES: the path is invalid, or has more than 255 keys and indexes.
   JIHLUKA_NO_MEMORY. */
uint32_t jihluka_get(const uint8_t *json, size_t json_length, const uint8_t *path, size_t path_length,
                     jihluka_span *span, jihluka_error *error);

/* jihluka_get for a text that begins with a valid value in UTF-8, with the same statuses. What is passed isn't
   validated: over 200 bytes it took 0.7 of the time, over 10 KB 0.3 (measured). */
uint32_t jihluka_get_unchecked(const uint8_t *json, size_t json_length, const uint8_t *path,
                               size_t path_length, jihluka_span *span, jihluka_error *error);

/* Finds the values at many paths. paths has a path on each line, as ["a",1]\n["b"]\n, and no blank line among them;
   spans has span_count elements, one for each path. A path may come twice. After the same keys and indexes one line
   can't go on with a key and another with an index: of ["a"] and [0] the second line is invalid.

   JIHLUKA_OK: spans has the values, in the order of the lines. A path whose key is missing in an object with members
   has the span {0, 0}.
   JIHLUKA_DOCUMENT_ERROR: the text is invalid as far as it is needed, which is to the end of its value if a key is
   missing. Or a path doesn't resolve for another reason, also because it has a key in an empty object. There is one
   error for all paths; jihluka_get_each tells which path it is.
   JIHLUKA_WRONG_COUNT: there are more or fewer paths than span_count.
   JIHLUKA_BAD_LINES: a line isn't a path, is blank with more after it, or can't go with a line before it.
   JIHLUKA_NO_MEMORY. */
uint32_t jihluka_get_many(const uint8_t *json, size_t json_length, const uint8_t *paths,
                          size_t paths_length, jihluka_span *spans, size_t span_count, jihluka_error *error);

/* jihluka_get_many for a text that begins with a valid value in UTF-8, with the same statuses. Each path is followed
   by itself, and what is passed isn't validated: with three paths it took 0.9 of the time over 200 bytes, and 0.3
   over 10 KB (measured). */
uint32_t jihluka_get_many_unchecked(const uint8_t *json, size_t json_length, const uint8_t *paths,
                                    size_t paths_length, jihluka_span *spans, size_t span_count,
                                    jihluka_error *error);

/* Where one path leads. */
typedef struct jihluka_outcome {
  /* One of JIHLUKA_PATH_FOUND, JIHLUKA_PATH_MISSING and JIHLUKA_PATH_FAILS. */
  uint32_t status;
  /* If the path fails, the code of the error, one of JIHLUKA_CODE_..; else 0. */
  uint32_t code;
  /* The value, or {0, 0}. */
  jihluka_span span;
  /* The offset of the closing brace of the object that lacks the key, or of the byte at which the path fails; or 0. */
  size_t place;
} jihluka_outcome;

/* What becomes of a path. */
enum {
  /* It leads to a value. */
  JIHLUKA_PATH_FOUND = 0,
  /* An object, which may be empty, lacks its key. */
  JIHLUKA_PATH_MISSING = 1,
  /* It leads nowhere else: into a value of another type, or past the end of an array. */
  JIHLUKA_PATH_FAILS = 2
};

/* Tells each path where it leads, whatever the others lead to: of ["level"] and ["http","status"] in
   {"level":"info","http":null} the first is found, and the second fails. paths is as for jihluka_get_many, and outcomes
   has outcome_count elements, one for each path.

   JIHLUKA_OK: outcomes has what became of each path, in the order of the lines.
   JIHLUKA_DOCUMENT_ERROR: the text is invalid before all paths are settled. If an object lacks a key, it has to be
   valid to the end of its value.
   JIHLUKA_WRONG_COUNT: there are more or fewer paths than outcome_count.
   JIHLUKA_BAD_LINES: as for jihluka_get_many.
   JIHLUKA_NO_MEMORY. */
uint32_t jihluka_get_each(const uint8_t *json, size_t json_length, const uint8_t *paths, size_t paths_length,
                          jihluka_outcome *outcomes, size_t outcome_count, jihluka_error *error);

/* jihluka_get_each for a text that begins with a valid value in UTF-8, with the same statuses but
   JIHLUKA_DOCUMENT_ERROR. */
uint32_t jihluka_get_each_unchecked(const uint8_t *json, size_t json_length, const uint8_t *paths,
                                    size_t paths_length, jihluka_outcome *outcomes, size_t outcome_count,
                                    jihluka_error *error);

/* Paths that are kept from call to call. Their lines are read once, and the memory that a look-up takes is used again
   by the next one. Initialise it with JIHLUKA_NO_PATHS. Only the six calls below write to it; count may be read. Don't
   copy it to use both copies. One call at a time uses a jihluka_paths, so each thread makes its own. That it may be
   handed to another thread is tested and not proved. */
typedef struct jihluka_paths {
  void *kept;
  size_t held;
  /* The number of paths, which is the number of spans that the calls need. */
  size_t count;
} jihluka_paths;

/* No paths, and no memory: jihluka_paths paths = JIHLUKA_NO_PATHS; */
#define JIHLUKA_NO_PATHS {NULL, 0, 0}

/* Which member counts if an object has a key of a path twice: the first, as for the calls above; the last; or none,
   so that the second one is an error, at the opening quotation mark of its key. Keys are compared with their escapes
   undone. Under the last two rules an object in which a key is looked up is read to its end, and a syntax error in it
   is reported before all else. Then a second key is reported before any error below the first one. */
enum {
  JIHLUKA_KEYS_FIRST = 0,
  JIHLUKA_KEYS_LAST = 1,
  JIHLUKA_KEYS_REFUSE = 2
};

/* Keeps the paths on the lines, which are as for jihluka_get_many, for look-ups under a rule, one of JIHLUKA_KEYS_...
   On JIHLUKA_OK the paths that were kept before are freed; else they stay.

   JIHLUKA_OK: the paths are kept, in memory that jihluka_paths_free frees.
   JIHLUKA_BAD_LINES: a line isn't a path, is blank with more after it, or can't go with a line before it.
   JIHLUKA_BAD_RULE: the number isn't that of a rule, whatever the lines are; *error is unchanged.
   JIHLUKA_NO_MEMORY. */
uint32_t jihluka_paths_new(const uint8_t *lines, size_t lines_length, uint32_t rule, jihluka_paths *paths,
                           jihluka_error *error);

/* Frees what is kept: held and count are 0 then, as in JIHLUKA_NO_PATHS. What is freed may be freed again, and used
   again. */
void jihluka_paths_free(jihluka_paths *paths);

/* Finds the values at the paths that are kept, under their rule: as jihluka_get_many for their lines, with its statuses
   but JIHLUKA_BAD_LINES. Without paths and without spans it is JIHLUKA_OK, and the text isn't read. If a path doesn't
   resolve, that is the one error for all paths; jihluka_get_each_with tells which path it is. The paths are kept
   whatever the status is, and no call changes what a later one answers.
   The memory of a look-up is kept with them until jihluka_paths_free: some 100 bytes for each path, and a byte for each
   level of the deepest text so far. Under another rule than JIHLUKA_KEYS_FIRST each call takes some more, for each
   prefix of a path, and frees that (measured). */
uint32_t jihluka_get_many_with(const uint8_t *json, size_t json_length, jihluka_paths *paths, jihluka_span *spans,
                               size_t span_count, jihluka_error *error);

/* jihluka_get_many_with for a text that begins with a valid value in UTF-8, with the same statuses. Under
   JIHLUKA_KEYS_FIRST each path is followed by itself, what is passed isn't validated, and the call takes no memory: it
   never returns JIHLUKA_NO_MEMORY. With three paths it took 0.7 of the time over 200 bytes, and 0.3 over 10 KB
   (measured). Under another rule it is jihluka_get_many_with. */
uint32_t jihluka_get_many_with_unchecked(const uint8_t *json, size_t json_length, jihluka_paths *paths,
                                         jihluka_span *spans, size_t span_count, jihluka_error *error);

/* Tells each of the paths that are kept where it leads, under their rule: as jihluka_get_each for their lines, with its
   statuses but JIHLUKA_BAD_LINES. Without paths and without outcomes it is JIHLUKA_OK, and the text isn't read. */
uint32_t jihluka_get_each_with(const uint8_t *json, size_t json_length, jihluka_paths *paths,
                               jihluka_outcome *outcomes, size_t outcome_count, jihluka_error *error);

/* jihluka_get_each_with for a text that begins with a valid value in UTF-8, with the same statuses. Under
   JIHLUKA_KEYS_FIRST it takes no memory: it never returns JIHLUKA_NO_MEMORY. Under another rule it is
   jihluka_get_each_with. */
uint32_t jihluka_get_each_with_unchecked(const uint8_t *json, size_t json_length, jihluka_paths *paths,
                                         jihluka_outcome *outcomes, size_t outcome_count,
                                         jihluka_error *error);

/* The calls from here to jihluka_items_next read one value: a span that was found, as json + span.start of the length
   span.end - span.start, or a whole document. White space before and after it is allowed.
   The first byte that isn't white space says the type. If that is another type than the call reads, the status is
   JIHLUKA_WRONG_TYPE, whatever follows. If no value begins with that byte, or the text is empty or blank, it is
   JIHLUKA_DOCUMENT_ERROR. If the type is right, but the text isn't one valid value in UTF-8, it is
   JIHLUKA_DOCUMENT_ERROR with the error of jihluka_validate. */

/* The type of a value, one of JIHLUKA_NULL .. JIHLUKA_ARRAY, by its first byte; nothing after that is read. The status
   is JIHLUKA_OK or JIHLUKA_DOCUMENT_ERROR. Never allocates. */
uint32_t jihluka_type(const uint8_t *json, size_t json_length, uint32_t *type, jihluka_error *error);

/* An integer from 0 to 2^64 - 1. Any number with a fraction, an exponent or a minus sign is JIHLUKA_NO_INTEGER, also
   1.0, 1e3 and -0, and so is a number above 2^64 - 1. Never allocates. */
uint32_t jihluka_u64(const uint8_t *json, size_t json_length, uint64_t *value, jihluka_error *error);

/* An integer from -2^63 to 2^63 - 1; -0 is 0. Never allocates. */
uint32_t jihluka_i64(const uint8_t *json, size_t json_length, int64_t *value, jihluka_error *error);

/* The text of a string, in UTF-8, with its escapes undone and with no NUL after it. As much of it as the room takes
   is written to the start of the room, which may cut a character; the rest of the room is unchanged. *wanted is the
   length of the whole text, in bytes: it was cut if that is above room_length. With room_length 0 the call gives the
   length alone. No text is longer than its string, quotation marks included. \u0000 makes a NUL byte in it. Only a
   string with a backslash takes memory. */
uint32_t jihluka_string_text(const uint8_t *json, size_t json_length, uint8_t *room, size_t room_length,
                             size_t *wanted, jihluka_error *error);

/* The number of elements of an array, or of members of an object; a repeated key counts each time. The whole text is
   validated. Takes memory only if more than 64 containers are open at once inside an item, or an item is invalid: a
   byte for each open container, in steps of 64 to 65,536 bytes (tested). */
uint32_t jihluka_count(const uint8_t *json, size_t json_length, size_t *count, jihluka_error *error);

/* A cursor over the items of an array or an object. Only the two calls below write to it. It may be copied, and needs
   no freeing. */
typedef struct jihluka_items {
  size_t place;
  uint32_t state;
} jihluka_items;

/* An item: its value, and the key of a member with its quotation marks, or {0, 0} for an element. Both are spans of
   the text, for jihluka_string_text and the other calls. */
typedef struct jihluka_item {
  jihluka_span key;
  jihluka_span value;
} jihluka_item;

/* Sets a cursor before the first item. Only the first byte and the UTF-8 of the text are checked, so here broken UTF-8
   is reported before all other errors. Never allocates. */
uint32_t jihluka_items_begin(const uint8_t *json, size_t json_length, jihluka_items *items, jihluka_error *error);

/* Reads the next item, in the order of the text, and moves the cursor; a key may come twice. The item is validated;
   what follows it doesn't change the answer.

   JIHLUKA_OK: *item is the item.
   JIHLUKA_END: no item follows, and nothing but white space follows the container. The cursor has ended.
   JIHLUKA_DOCUMENT_ERROR: there is no valid next item and no end. An error comes only in its turn, after all items
   before it. The cursor has ended.
   JIHLUKA_NO_MEMORY: nothing has changed, and the call may be made again.
   After JIHLUKA_END or JIHLUKA_DOCUMENT_ERROR each further call returns JIHLUKA_END and changes nothing.

   The text has to be the one that jihluka_items_begin was given. For another text, or a cursor that it didn't set, the
   result is unspecified, but the call reads only the text and writes only to its outputs. Takes memory only if more
   than 64 containers are open at once inside the item, or the item is invalid: a byte for each open container, in
   steps of 64 to 65,536 bytes (tested). */
uint32_t jihluka_items_next(const uint8_t *json, size_t json_length, jihluka_items *items, jihluka_item *item,
                            jihluka_error *error);

/* A value of a document, as jihluka_index writes it. */
typedef struct jihluka_entry {
  /* Its bytes. */
  jihluka_span value;
  /* The key of a member, with its quotation marks; {0, 0} for an element and for the root. */
  jihluka_span key;
  /* The number of the array or object that it is in; 0 for the root. */
  size_t parent;
  /* The index of an element in its array; 0 for a member and for the root. */
  size_t position;
  /* JIHLUKA_NULL .. JIHLUKA_ARRAY. */
  uint32_t type;
} jihluka_entry;

/* All values of a document, numbered from 0 in the order in which they begin, so that a container comes before its
   items. Keys aren't values. As many entries as there is room for are written to the start of entries; the rest is
   unchanged. *wanted is the number of all values, at most (json_length + 1) / 2 (tested). With entry_count 0 the call
   gives the number alone. Each call validates the whole document and makes the whole index. It takes 16 bytes of
   memory for each value. While the members of large objects are sorted it takes 28 bytes more for each of those, and
   a copy of each of their keys that has an escape (measured).

   JIHLUKA_OK: the entries and *wanted are written.
   JIHLUKA_DOCUMENT_ERROR: the document is invalid, with the error of jihluka_validate.
   JIHLUKA_NO_MEMORY: also for a text of 4 GiB or more. */
uint32_t jihluka_index(const uint8_t *json, size_t json_length, jihluka_entry *entries, size_t entry_count,
                       size_t *wanted, jihluka_error *error);

/* The calls from here to jihluka_fill make a text, which is a document in UTF-8. As much of it as the room takes is
   written to the start of the room, which may cut a character, with no NUL after it; the rest is unchanged. *wanted
   is the length of the whole text, in bytes: it was cut if that is above room_length. With room_length 0 the call
   gives the length alone. Each call makes the whole text, in memory that it frees, so asking for the length costs as
   much as the text. The greatest length given with each call is tested, not proved.
   If the document is invalid, the status is JIHLUKA_DOCUMENT_ERROR with the error of jihluka_validate; jihluka_fill
   differs. JIHLUKA_OK and JIHLUKA_NO_MEMORY leave *error unchanged. Further statuses are listed with each call. */

/* The document without white space outside strings: [1,"a b"] for [ 1 , "a b" ]. Scalars and keys keep their bytes,
   with escapes and digits; members keep their order and their repeats. It is no longer than the document. Takes as
   much memory as the document is long, and what jihluka_validate takes (measured). */
uint32_t jihluka_minify(const uint8_t *json, size_t json_length, uint8_t *room, size_t room_length,
                        size_t *wanted, jihluka_error *error);

/* The document over lines, with width blanks for each level of depth, from 0 to 8. An opening bracket ends its line,
   and a closing one has a line of its own; an empty container is [] or {}, and one blank follows the colon of a key.
   No line feed ends the text. All else is as in jihluka_minify. The text may be much longer than the document: for n
   nested arrays about width times the square of n.

   JIHLUKA_BAD_WIDTH: the width is above 8, whatever the document is; *error is unchanged. */
uint32_t jihluka_indent(const uint8_t *json, size_t json_length, size_t width, uint8_t *room,
                        size_t room_length, size_t *wanted, jihluka_error *error);

/* The document after a patch (RFC 6902): all operations are done in order, or none. Each array and object from the
   root to a change is written without white space, with as few escapes in its keys as possible; all else keeps its
   text. If an object has a key twice, the first member counts. A pointer has at most 255 tokens.
   A test compares the members of objects in any order, repeated ones too. It compares numbers by their text: 1 and 1.0
   differ, which are equal in RFC 6902. To remove the whole document leaves null.
   The text is no longer than the document, the patch and the values that are copied together. A copy may double the
   document, so a patch of n copies can make a text of 2^n times its length, in as much memory.

   JIHLUKA_BAD_PATCH, JIHLUKA_BAD_OPERATION: the patch is invalid, whatever the document is.
   JIHLUKA_DOCUMENT_ERROR: the patch is valid, and the document isn't.
   JIHLUKA_MISSING, JIHLUKA_TEST_FAILED, JIHLUKA_INTO_CHILD: the first operation that fails. */
uint32_t jihluka_patch(const uint8_t *json, size_t json_length, const uint8_t *patch, size_t patch_length,
                       uint8_t *room, size_t room_length, size_t *wanted, jihluka_error *error);

/* The document after edits: all are made in order, or none. There is an edit on each line, and no blank line among
   them. A path is as for jihluka_get.
   - ["set",PATH,VALUE] replaces the value at the path.
   - ["push",PATH,VALUE] appends to the array there.
   - ["pair",PATH,KEY,VALUE] appends a member to the object there. If the key is there already, it is there twice then,
     and paths still resolve to the first member.
   - ["take",PATH] replaces the value by null; nothing is removed.
   Each array and object from the root to a change, and one that is appended to, is written without white space, with
   as few escapes in its keys as possible; all else keeps its text. The text is no longer than the document and the
   edits together.

   JIHLUKA_BAD_LINES: a line isn't an edit, or is blank with more after it, whatever the document is.
   JIHLUKA_DOCUMENT_ERROR: all lines are edits, and the document is invalid.
   JIHLUKA_EDIT_REFUSED: the first edit that fails. To see what its path resolves to, make the text of the edits before
   it, and call jihluka_get. */
uint32_t jihluka_edit(const uint8_t *json, size_t json_length, const uint8_t *edits, size_t edits_length,
                      uint8_t *room, size_t room_length, size_t *wanted, jihluka_error *error);

/* A schema filled from the value that begins the text; what follows that may be anything. The schema is an object,
   whose members are the defaults:
   - a member of the text's object replaces the schema's value with that key;
   - if both values are objects, and the schema's has members, the one is filled from the other in the same way;
   - a key that the schema doesn't have is left out, and one that the text doesn't have keeps the schema's value.
   If the text is no object, it replaces the whole schema, as any value does an empty object. So a result isn't always
   an object. If the schema has a key twice, the last member is filled; members of the text with one key fill it one
   after the other. The result has no white space, and as few escapes as possible; it is no longer than the text and
   the schema together.

   JIHLUKA_BAD_SCHEMA: the schema is invalid, has more than 255 containers open at once, or isn't an object, whatever
   the text is.
   JIHLUKA_DOCUMENT_ERROR: the text is invalid before its value ends, or has more than 255 containers open at once in a
   value that replaces another. */
uint32_t jihluka_fill(const uint8_t *json, size_t json_length, const uint8_t *schema, size_t schema_length,
                      uint8_t *room, size_t room_length, size_t *wanted, jihluka_error *error);

/* Rows for the lines of a log, which has a JSON text on each line: the values at paths in it. A line ends with a line
   feed, and the last one also with the text. A stream may come in pieces that end with a line feed each: lines_before
   is the number of lines before the first of a piece. The paths are as for jihluka_get_many. The room and *wanted, the
   length of all rows in bytes, are as for the texts above.

   A line of white space alone counts, and has no row. Each other line has one row, which ends with a line feed:
   - for each path the length of the value's text in bytes, a blank and that text, or - for a key that is missing in an
     object with members. A tab is between two of them. The text of an array or an object may have tabs in it too, so
     go by the lengths.
   - or ! NUMBER WORD CODE OFFSET, if the line is invalid or a path doesn't resolve for another reason: the number of
     the line, from 1; the family of the error, syntax, eof, not-found or type; the name of its code; and the offset in
     the line, from 0. A JIHLUKA_CODE_MISMATCH has the family type and the name Message.
   With the path ["id"] the lines {"id":7} and { have the rows "1 7" and "! 2 eof EofWhileParsing 0". An error of a line
   isn't a status. A line is validated only as far as its paths need; jihluka_validate checks a whole line.

   JIHLUKA_BAD_LINES: a line of paths is invalid, as for jihluka_get_many.
   JIHLUKA_BAD_NUMBER: lines_before and lines_length together are 2^64 - 1 or more, whatever else is given; *error is
   unchanged. */
uint32_t jihluka_rows(const uint8_t *lines, size_t lines_length, const uint8_t *paths, size_t paths_length,
                      uint64_t lines_before, uint8_t *room, size_t room_length, size_t *wanted,
                      jihluka_error *error);

/* The words of a code, as "Invalid number" for JIHLUKA_CODE_INVALID_NUMBER, in UTF-8 and with no NUL after them. As
   much of them as the room takes is written to its start; the rest is unchanged. 128 bytes hold the words of each code
   (tested). The length of all of them is returned, as by snprintf: they were cut if it is above room_length. If no
   code has this number, or memory runs out, 0 is returned and the room is unchanged. That 0 comes only then is
   tested. */
size_t jihluka_code_text(uint32_t code, uint8_t *room, size_t room_length);

/* The codes of errors. A syntax error is placed at the first byte that doesn't fit, or at the last byte if the text
   ends too early. A text with both kinds of error has the error of the grammar reported before broken UTF-8; in
   jihluka_items_begin it is the reverse. If a path doesn't resolve, the error is placed at the last byte of the value
   at which it ends, and JIHLUKA_CODE_DUPLICATE_KEY at the opening quotation mark of the second key. A line ends with a
   line feed alone, and columns count bytes. */
enum {
  /* The text ends inside a value, or before one that is expected. */
  JIHLUKA_CODE_EOF_WHILE_PARSING = 3,
  /* No colon follows a key. */
  JIHLUKA_CODE_EXPECTED_COLON = 4,
  /* Neither a comma nor a closing bracket follows an element. */
  JIHLUKA_CODE_EXPECTED_ARRAY_COMMA_OR_END = 5,
  /* Neither a comma nor a closing brace follows a member. */
  JIHLUKA_CODE_EXPECTED_OBJECT_COMMA_OR_END = 6,
  /* A letter isn't the next one of true, false or null. */
  JIHLUKA_CODE_INVALID_LITERAL = 7,
  /* A value is expected, and no value begins with this byte. */
  JIHLUKA_CODE_INVALID_JSON_VALUE = 8,
  /* No escape has this byte after its backslash. */
  JIHLUKA_CODE_INVALID_ESCAPE = 11,
  /* A digit is expected and isn't there, or follows a first digit 0. */
  JIHLUKA_CODE_INVALID_NUMBER = 12,
  /* A byte after \u isn't a hexadecimal digit. */
  JIHLUKA_CODE_INVALID_UNICODE_CODE_POINT = 14,
  /* The bytes aren't UTF-8, up to the end of what the answer needs. */
  JIHLUKA_CODE_INVALID_UTF8 = 15,
  /* A byte below 0x20 is in a string. */
  JIHLUKA_CODE_CONTROL_CHARACTER_WHILE_PARSING_STRING = 16,
  /* A key or a closing brace is expected, and there is no quotation mark; after a comma, a key is expected. */
  JIHLUKA_CODE_EXPECT_OBJECT_KEY_OR_END = 17,
  /* Something follows the value that has to be the whole text: from jihluka_validate, the calls that read one value,
     and those that make a text. */
  JIHLUKA_CODE_TRAILING_CHARACTERS = 19,
  /* More than 255 containers are open at once: from jihluka_fill alone. */
  JIHLUKA_CODE_RECURSION_LIMIT_EXCEEDED = 20,
  /* A path has a key in an object without members. */
  JIHLUKA_CODE_GET_IN_EMPTY_OBJECT = 21,
  /* The object has no such key: from jihluka_get and jihluka_get_unchecked alone. */
  JIHLUKA_CODE_GET_UNKNOWN_KEY_IN_OBJECT = 22,
  /* A path has an index in an array without elements. */
  JIHLUKA_CODE_GET_IN_EMPTY_ARRAY = 23,
  /* The array has no element with this index. */
  JIHLUKA_CODE_GET_INDEX_OUT_OF_ARRAY = 24,
  /* A string has half of a surrogate pair. */
  JIHLUKA_CODE_INVALID_SURROGATE_UNICODE_CODE_POINT = 26,
  /* An object has a key of a path twice: from paths under JIHLUKA_KEYS_REFUSE alone. */
  JIHLUKA_CODE_DUPLICATE_KEY = 32,
  /* A path has a key or an index in a value of another type: 100 + 10 * found + wanted. found is 0 for null, 1 a
     boolean, 2 a number, 3 a string, 4 an object, 5 an array; wanted is 0 for an object, 1 an array, 2 a number. So an
     index in a string is 131. */
  JIHLUKA_CODE_MISMATCH = 100
};

#ifdef __cplusplus
}
#endif

#endif
