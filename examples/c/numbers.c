/* That each number means in C what the library means by it, read by the names of jihluka.h: the statuses,
   the codes with their words, and the fields of an error and of a span. The line, the column and the
   offset that are wanted are reckoned here, from the place of the fault in the text. It prints a line for
   each status and each code, which `run` compares with `expected_numbers`, and what is wrong. */
#include "jihluka.h"

#include <stdio.h>
#include <string.h>

static int wrong;

static const uint8_t *bytes(const char *text) { return (const uint8_t *)text; }

static void check(int holds, const char *what, const char *text) {
  if (!holds) {
    printf("WRONG: %s of %s\n", what, text);
    wrong = 1;
  }
}

/* A code by its name, its words (those of sonic-rs, but of a key that comes twice), a text with this fault, the path that comes to it or none, and where. */
typedef struct row {
  const char *name;
  uint32_t code;
  const char *words;
  const char *json;
  const char *path;
  size_t place;
} row;

#define CODE(name) #name, JIHLUKA_CODE_##name
#define MISMATCH(found, wanted) "MISMATCH", JIHLUKA_CODE_MISMATCH + 10 * (found) + (wanted)

static const row rows[] = {
    {CODE(EOF_WHILE_PARSING), "EOF while parsing", "\n\n  [1,", NULL, 6},
    {CODE(EXPECTED_COLON), "Expected this character to be a ':' while parsing", "\n {\"a\" 1}", NULL, 7},
    {CODE(EXPECTED_ARRAY_COMMA_OR_END), "Expected this character to be either a ',' or a ']' while parsing", "\n [1 2]", NULL, 5},
    {CODE(EXPECTED_OBJECT_COMMA_OR_END), "Expected this character to be either a ',' or a '}' while parsing", "\n {\"a\":1 2}", NULL, 9},
    {CODE(INVALID_LITERAL), "Invalid literal (`true`, `false`, or a `null`) while parsing", "\n [nil]", NULL, 4},
    {CODE(INVALID_JSON_VALUE), "Invalid JSON value", "\n [1,]", NULL, 5},
    {CODE(INVALID_ESCAPE), "Invalid escape chars", "\n \"\\x\"", NULL, 4},
    {CODE(INVALID_NUMBER), "Invalid number", "\n [1.x]", NULL, 5},
    {CODE(INVALID_UNICODE_CODE_POINT), "Invalid unicode code point", "\n \"\\u12g4\"", NULL, 7},
    {CODE(INVALID_UTF8), "Invalid UTF-8 characters in json", "\n \"\xff\"", NULL, 3},
    {CODE(CONTROL_CHARACTER_WHILE_PARSING_STRING), "Control character found while parsing a string", "\n \"a\tb\"", NULL, 4},
    {CODE(EXPECT_OBJECT_KEY_OR_END), "Expected this character to be '\"' or '}'", "\n {\"a\":1,}", NULL, 9},
    {CODE(TRAILING_CHARACTERS), "JSON has non-whitespace trailing characters after the value", "\n [1] 2", NULL, 6},
    /* That more than 255 containers are open is told of a schema alone, or of a value that fills one. */
    {CODE(RECURSION_LIMIT_EXCEEDED), "Encountered nesting of JSON maps and arrays more than 255 layers deep", NULL, NULL, 0},
    {CODE(GET_IN_EMPTY_OBJECT), "Get value from an empty object", "\n {}", "[\"a\"]", 3},
    {CODE(GET_UNKNOWN_KEY_IN_OBJECT), "Get unknown key from the object", "\n {\"a\":1}", "[\"b\"]", 8},
    {CODE(GET_IN_EMPTY_ARRAY), "Get value from an empty array", "\n []", "[0]", 3},
    {CODE(GET_INDEX_OUT_OF_ARRAY), "Get index out of the array", "\n [1]", "[1]", 4},
    {CODE(INVALID_SURROGATE_UNICODE_CODE_POINT), "Invalid surrogate Unicode code point", "\n \"\\ud800x\"", NULL, 9},
    /* Paths that are kept alone refuse a key that comes twice: `check_kept` comes to it. */
    {CODE(DUPLICATE_KEY), "Duplicate key in the object", NULL, NULL, 0},
    {MISMATCH(0, 0), "invalid type: null, expected a JSON object", "\n null", "[\"a\"]", 5},
    {MISMATCH(0, 1), "invalid type: null, expected a JSON array", "\n null", "[0]", 5},
    {MISMATCH(1, 0), "invalid type: boolean, expected a JSON object", "\n true", "[\"a\"]", 5},
    {MISMATCH(1, 1), "invalid type: boolean, expected a JSON array", "\n true", "[0]", 5},
    {MISMATCH(2, 0), "invalid type: number, expected a JSON object", "\n 12", "[\"a\"]", 3},
    {MISMATCH(2, 1), "invalid type: number, expected a JSON array", "\n 12", "[0]", 3},
    {MISMATCH(3, 0), "invalid type: string, expected a JSON object", "\n \"a\"", "[\"a\"]", 4},
    {MISMATCH(3, 1), "invalid type: string, expected a JSON array", "\n \"a\"", "[0]", 4},
    {MISMATCH(4, 1), "invalid type: map, expected a JSON array", "\n {}", "[0]", 3},
    {MISMATCH(5, 0), "invalid type: sequence, expected a JSON object", "\n []", "[\"a\"]", 3},
};

/* The fields are those of the fault at the place: its line and column from 1, its offset from 0. */
static void check_error(const row *r, const jihluka_error *error) {
  size_t line = 1, start = 0;
  for (size_t i = 0; i < r->place; i++) {
    if (r->json[i] == '\n') line++, start = i + 1;
  }
  check(error->code == r->code, "the code", r->name);
  check(error->line == line, "the line", r->name);
  check(error->column == r->place - start + 1, "the column", r->name);
  check(error->offset == r->place, "the offset", r->name);
}

static void check_row(const row *r) {
  uint8_t room[80] = {0};
  jihluka_span span = {91, 92};
  jihluka_error error = {93, 94, 95, 96};
  size_t length = jihluka_code_text(r->code, room, sizeof room);
  check(length == strlen(r->words) && memcmp(room, r->words, length) == 0, "the words", r->name);
  printf("code %u: %.*s\n", r->code, (int)length, (const char *)room);
  if (r->json == NULL) return;
  uint32_t status = r->path == NULL ? jihluka_validate(bytes(r->json), strlen(r->json), &error)
                                    : jihluka_get(bytes(r->json), strlen(r->json), bytes(r->path), strlen(r->path), &span, &error);
  check(status == JIHLUKA_DOCUMENT_ERROR, "the status", r->name);
  check(span.start == 91 && span.end == 92, "the span", r->name);
  check_error(r, &error);
}

/* A number has words exactly where a code has it, as memory is ample. */
static void check_texts(void) {
  unsigned with = 0;
  for (uint32_t number = 0; number < 1000; number++) {
    int has = (number >= 1 && number <= 32) || (number >= 100 && number <= 152 && number % 10 <= 2);
    uint8_t room[1] = {0};
    int told = jihluka_code_text(number, room, sizeof room) > 0;
    check(told == has, "the words", "a number");
    with += told;
  }
  printf("%u numbers have words\n", with);
}

static int is_error(const jihluka_error *error, uint32_t code, size_t line, size_t column, size_t offset) {
  return error->code == code && error->line == line && error->column == column && error->offset == offset;
}

/* Each status but that for want of memory, which `refused` comes to. */
static void check_statuses(void) {
  static const char json[] = "{\"a\": [10, 200], \"b\": \"x\"}";
  const size_t length = strlen(json);
  jihluka_span span = {91, 92}, spans[2] = {{91, 92}, {91, 92}};
  jihluka_error error = {93, 94, 95, 96};
  uint32_t status = jihluka_get(bytes(json), length, bytes("[\"a\",1]"), 7, &span, &error);
  check(status == JIHLUKA_OK && span.start == 11 && span.end == 14 && is_error(&error, 93, 94, 95, 96), "OK", "jihluka_get");
  printf("status %u: the value from %zu to %zu\n", status, span.start, span.end);
  status = jihluka_get_many(bytes(json), length, bytes("[\"b\"]\n[\"c\"]\n"), 12, spans, 2, &error);
  check(status == JIHLUKA_OK && spans[0].start == 22 && spans[0].end == 25 && spans[1].start == 0 && spans[1].end == 0,
        "OK", "jihluka_get_many");
  status = jihluka_validate(bytes(json), length, &error);
  check(status == JIHLUKA_OK && is_error(&error, 93, 94, 95, 96), "OK", "jihluka_validate");
  status = jihluka_validate(bytes(json), length - 1, &error);
  check(status == JIHLUKA_DOCUMENT_ERROR && error.code == JIHLUKA_CODE_EOF_WHILE_PARSING, "DOCUMENT_ERROR", "jihluka_validate");
  printf("status %u: code %u, line %zu, column %zu, offset %zu\n", status, error.code, error.line, error.column, error.offset);
  spans[0].start = spans[1].end = 90;
  status = jihluka_get_many(bytes(json), length, bytes("[]\n[]\n[]\n"), 9, spans, 2, &error);
  check(status == JIHLUKA_WRONG_COUNT && is_error(&error, 0, 3, 0, 0) && spans[0].start == 90 && spans[1].end == 90,
        "WRONG_COUNT", "jihluka_get_many");
  printf("status %u: line %zu\n", status, error.line);
  status = jihluka_get_many(bytes(json), length, bytes("[]\n[0"), 5, spans, 2, &error);
  check(status == JIHLUKA_BAD_LINES && is_error(&error, 0, 2, 0, 0), "BAD_LINES", "jihluka_get_many");
  printf("status %u: line %zu\n", status, error.line);
  status = jihluka_get(bytes(json), length, bytes("[0"), 2, &span, &error);
  check(status == JIHLUKA_BAD_LINES && is_error(&error, 0, 2, 0, 0) && span.start == 11, "BAD_LINES", "jihluka_get");
}

/* Each status of the calls that read one value, and the types. */
static void check_values(void) {
  static const char *const texts[] = {"null", "true", "1", "\"a\"", "{}", "[]"};
  static const uint32_t types[] = {JIHLUKA_NULL, JIHLUKA_BOOLEAN, JIHLUKA_NUMBER, JIHLUKA_STRING, JIHLUKA_OBJECT, JIHLUKA_ARRAY};
  jihluka_error error = {93, 94, 95, 96};
  for (size_t i = 0; i < sizeof types / sizeof types[0]; i++) {
    uint32_t type = 99;
    check(jihluka_type(bytes(texts[i]), strlen(texts[i]), &type, &error) == JIHLUKA_OK && type == types[i], "the type", texts[i]);
    printf("type %u: %s\n", type, texts[i]);
  }
  uint64_t natural = 92;
  int64_t integer = 92;
  check(jihluka_u64(bytes("18446744073709551615"), 20, &natural, &error) == JIHLUKA_OK && natural == UINT64_MAX, "OK", "jihluka_u64");
  check(jihluka_i64(bytes("-9223372036854775808"), 20, &integer, &error) == JIHLUKA_OK && integer == INT64_MIN, "OK", "jihluka_i64");
  natural = 92;
  uint32_t status = jihluka_u64(bytes("\"1\""), 3, &natural, &error);
  check(status == JIHLUKA_WRONG_TYPE && natural == 92, "WRONG_TYPE", "jihluka_u64");
  printf("status %u: a string\n", status);
  status = jihluka_u64(bytes("-1"), 2, &natural, &error);
  check(status == JIHLUKA_NO_INTEGER && natural == 92, "NO_INTEGER", "jihluka_u64");
  printf("status %u: a minus sign\n", status);
  size_t wanted = 91, count = 91;
  uint8_t room[4] = {'.', '.', '.', '.'};
  check(jihluka_string_text(bytes("\"a\\tb\""), 6, room, 2, &wanted, &error) == JIHLUKA_OK && wanted == 3 && memcmp(room, "a\t..", 4) == 0,
        "OK", "jihluka_string_text");
  check(jihluka_count(bytes("[1,2,3]"), 7, &count, &error) == JIHLUKA_OK && count == 3, "OK", "jihluka_count");
  jihluka_items items = {91, 92};
  jihluka_item item = {{91, 92}, {93, 94}};
  check(jihluka_items_begin(bytes("{\"a\":[1]}"), 9, &items, &error) == JIHLUKA_OK, "OK", "jihluka_items_begin");
  check(jihluka_items_next(bytes("{\"a\":[1]}"), 9, &items, &item, &error) == JIHLUKA_OK && item.key.start == 1 && item.key.end == 4
            && item.value.start == 5 && item.value.end == 8,
        "OK", "jihluka_items_next");
  status = jihluka_items_next(bytes("{\"a\":[1]}"), 9, &items, &item, &error);
  check(status == JIHLUKA_END && item.key.start == 1 && is_error(&error, 93, 94, 95, 96), "END", "jihluka_items_next");
  printf("status %u: after the last item\n", status);
}

/* Each status of the calls that make a text. */
static void check_made(void) {
  static const char removal[] = "[{\"op\":\"remove\",\"path\":\"/1\"}]", test[] = "[{\"op\":\"remove\",\"path\":\"\"},{\"op\":\"test\"}]";
  size_t wanted = 91;
  uint8_t room[4] = {'.', '.', '.', '.'};
  jihluka_error error = {93, 94, 95, 96};
  check(jihluka_minify(bytes("[ 1 ]"), 5, room, 4, &wanted, &error) == JIHLUKA_OK && wanted == 3 && memcmp(room, "[1].", 4) == 0
            && is_error(&error, 93, 94, 95, 96),
        "OK", "jihluka_minify");
  check(jihluka_indent(bytes("[1]"), 3, 2, room, 4, &wanted, &error) == JIHLUKA_OK && wanted == 7 && memcmp(room, "[\n  ", 4) == 0,
        "OK", "jihluka_indent");
  uint32_t status = jihluka_indent(bytes("[1]"), 3, 9, room, 4, &wanted, &error);
  check(status == JIHLUKA_BAD_WIDTH && wanted == 7 && is_error(&error, 93, 94, 95, 96), "BAD_WIDTH", "jihluka_indent");
  printf("status %u: a width of 9\n", status);
  check(jihluka_patch(bytes("[7,8]"), 5, bytes(removal), strlen(removal), room, 4, &wanted, &error) == JIHLUKA_OK && wanted == 3
            && memcmp(room, "[7] ", 4) == 0,
        "OK", "jihluka_patch");
  status = jihluka_patch(bytes("[7]"), 3, bytes("[\n,]"), 4, room, 4, &wanted, &error);
  check(status == JIHLUKA_BAD_PATCH && is_error(&error, JIHLUKA_CODE_INVALID_JSON_VALUE, 2, 1, 2), "BAD_PATCH", "jihluka_patch");
  printf("status %u: code %u, line %zu, column %zu, offset %zu\n", status, error.code, error.line, error.column, error.offset);
  status = jihluka_patch(bytes("[7]"), 3, bytes("{}"), 2, room, 4, &wanted, &error);
  check(status == JIHLUKA_BAD_PATCH && is_error(&error, 0, 0, 0, 0), "BAD_PATCH", "jihluka_patch");
  status = jihluka_patch(bytes("[7]"), 3, bytes(test), strlen(test), room, 4, &wanted, &error);
  check(status == JIHLUKA_BAD_OPERATION && is_error(&error, 0, 1, 0, 0), "BAD_OPERATION", "jihluka_patch");
  printf("status %u: line %zu\n", status, error.line);
  status = jihluka_patch(bytes("[7]"), 3, bytes(removal), strlen(removal), room, 4, &wanted, &error);
  check(status == JIHLUKA_MISSING && is_error(&error, 0, 0, 0, 0), "MISSING", "jihluka_patch");
  printf("status %u: line %zu\n", status, error.line);
  static const char tests[] = "[{\"op\":\"test\",\"path\":\"\",\"value\":1},{\"op\":\"test\",\"path\":\"\",\"value\":2}]";
  status = jihluka_patch(bytes("1"), 1, bytes(tests), strlen(tests), room, 4, &wanted, &error);
  check(status == JIHLUKA_TEST_FAILED && is_error(&error, 0, 1, 0, 0), "TEST_FAILED", "jihluka_patch");
  printf("status %u: line %zu\n", status, error.line);
  static const char moves[] = "[{\"op\":\"move\",\"from\":\"/0\",\"path\":\"/0/0\"}]";
  status = jihluka_patch(bytes("[[]]"), 4, bytes(moves), strlen(moves), room, 4, &wanted, &error);
  check(status == JIHLUKA_INTO_CHILD && is_error(&error, 0, 0, 0, 0), "INTO_CHILD", "jihluka_patch");
  printf("status %u: line %zu\n", status, error.line);
  status = jihluka_edit(bytes("[7]"), 3, bytes("[\"take\",[]]\n[]\n"), 15, room, 4, &wanted, &error);
  check(status == JIHLUKA_BAD_LINES && is_error(&error, 0, 2, 0, 0), "BAD_LINES", "jihluka_edit");
  status = jihluka_edit(bytes("[7]"), 3, bytes("[\"take\",[1]]\n"), 13, room, 4, &wanted, &error);
  check(status == JIHLUKA_EDIT_REFUSED && is_error(&error, 0, 1, 0, 0), "EDIT_REFUSED", "jihluka_edit");
  printf("status %u: line %zu\n", status, error.line);
  status = jihluka_fill(bytes("{}"), 2, bytes("{\"a\"}"), 5, room, 4, &wanted, &error);
  check(status == JIHLUKA_BAD_SCHEMA && is_error(&error, JIHLUKA_CODE_EXPECTED_COLON, 1, 5, 4), "BAD_SCHEMA", "jihluka_fill");
  printf("status %u: code %u, line %zu, column %zu, offset %zu\n", status, error.code, error.line, error.column, error.offset);
  check(wanted == 3 && memcmp(room, "[7] ", 4) == 0, "a refusal", "a text");
  check(jihluka_edit(bytes("[7]"), 3, bytes("[\"take\",[]]"), 11, room, 4, &wanted, &error) == JIHLUKA_OK && wanted == 4
            && memcmp(room, "null", 4) == 0,
        "OK", "jihluka_edit");
  check(jihluka_fill(bytes("{\"a\":5}"), 7, bytes("{}"), 2, room, 4, &wanted, &error) == JIHLUKA_OK && wanted == 7, "OK", "jihluka_fill");
}

/* Each field of an entry, and the status of a number that is too high. */
static void check_lists(void) {
  static const char json[] = "{\"k\":[null,7]}";
  size_t wanted = 91;
  uint8_t room[6] = {'.', '.', '.', '.', '.', '.'};
  jihluka_entry entries[5];
  memset(entries, 0xA5, sizeof entries);
  jihluka_error error = {93, 94, 95, 96};
  check(jihluka_index(bytes(json), strlen(json), entries, 5, &wanted, &error) == JIHLUKA_OK && wanted == 4, "OK", "jihluka_index");
  const jihluka_entry *member = &entries[1], *element = &entries[3];
  check(member->value.start == 5 && member->value.end == 13 && member->key.start == 1 && member->key.end == 4 && member->parent == 0
            && member->position == 0 && member->type == JIHLUKA_ARRAY,
        "a member", "jihluka_index");
  check(element->value.start == 11 && element->value.end == 12 && element->key.start == 0 && element->key.end == 0
            && element->parent == 1 && element->position == 1 && element->type == JIHLUKA_NUMBER,
        "an element", "jihluka_index");
  check(entries[4].type == 0xA5A5A5A5 && is_error(&error, 93, 94, 95, 96), "the rest", "jihluka_index");
  check(jihluka_rows(bytes("\n[7]"), 4, bytes("[0]"), 3, 8, room, 6, &wanted, &error) == JIHLUKA_OK && wanted == 4
            && memcmp(room, "1 7\n..", 6) == 0,
        "OK", "jihluka_rows");
  check(jihluka_rows(bytes("[7]"), 3, bytes("[0"), 2, 8, room, 6, &wanted, &error) == JIHLUKA_BAD_LINES && is_error(&error, 0, 1, 0, 0),
        "BAD_LINES", "jihluka_rows");
  uint32_t status = jihluka_rows(bytes("[7]"), 3, bytes("[0"), 2, UINT64_MAX - 3, room, 6, &wanted, &error);
  check(status == JIHLUKA_BAD_NUMBER && wanted == 4 && is_error(&error, 0, 1, 0, 0), "BAD_NUMBER", "jihluka_rows");
  printf("status %u: 2^64 - 4 lines before\n", status);
}

/* Each rule for equal keys, and what only paths that are kept come to. */
static void check_kept(void) {
  static const char json[] = "{\"k\":1,\"k\":2}";
  static const struct { uint32_t rule, status; size_t start; } rules[] = {
      {JIHLUKA_KEYS_FIRST, JIHLUKA_OK, 5}, {JIHLUKA_KEYS_LAST, JIHLUKA_OK, 11}, {JIHLUKA_KEYS_REFUSE, JIHLUKA_DOCUMENT_ERROR, 91}};
  jihluka_paths paths = JIHLUKA_NO_PATHS;
  jihluka_error error = {93, 94, 95, 96};
  for (size_t i = 0; i < sizeof rules / sizeof *rules; i++) {
    jihluka_span span = {91, 92};
    check(jihluka_paths_new(bytes("[\"k\"]"), 5, rules[i].rule, &paths, &error) == JIHLUKA_OK && paths.count == 1, "OK", "jihluka_paths_new");
    check(is_error(&error, 93, 94, 95, 96), "the error", "jihluka_paths_new");
    check(jihluka_get_many_with(bytes(json), strlen(json), &paths, &span, 1, &error) == rules[i].status && span.start == rules[i].start,
          "a rule", "jihluka_get_many_with");
  }
  check(is_error(&error, JIHLUKA_CODE_DUPLICATE_KEY, 1, 8, 7), "DUPLICATE_KEY", "jihluka_get_many_with");
  check(jihluka_get_many_with(bytes("1"), 1, &paths, NULL, 0, &error) == JIHLUKA_WRONG_COUNT && is_error(&error, 0, 1, 0, 0), "WRONG_COUNT",
        "jihluka_get_many_with");
  check(jihluka_paths_new(bytes("[]\n["), 4, 0, &paths, &error) == JIHLUKA_BAD_LINES && is_error(&error, 0, 2, 0, 0), "BAD_LINES",
        "jihluka_paths_new");
  uint32_t status = jihluka_paths_new(bytes("[]\n["), 4, 3, &paths, &error);
  check(status == JIHLUKA_BAD_RULE && is_error(&error, 0, 2, 0, 0) && paths.count == 1, "BAD_RULE", "jihluka_paths_new");
  printf("status %u: a rule that is none\n", status);
  jihluka_paths_free(&paths);
  check(paths.count == 0, "the count", "jihluka_paths_free");
}

/* Where a length is 0, null is as good as "". */
static void check_null(void) {
  jihluka_span span = {91, 92};
  jihluka_error error = {93, 94, 95, 96};
  check(jihluka_validate(NULL, 0, &error) == JIHLUKA_DOCUMENT_ERROR && is_error(&error, JIHLUKA_CODE_EOF_WHILE_PARSING, 1, 1, 0),
        "null", "jihluka_validate");
  error.code = 93;
  check(jihluka_get(NULL, 0, bytes("[]"), 2, &span, &error) == JIHLUKA_DOCUMENT_ERROR
            && is_error(&error, JIHLUKA_CODE_EOF_WHILE_PARSING, 1, 1, 0),
        "null", "jihluka_get");
  check(jihluka_get(bytes("1"), 1, NULL, 0, &span, &error) == JIHLUKA_BAD_LINES, "null", "the path of jihluka_get");
  check(jihluka_get_unchecked(bytes("1"), 1, NULL, 0, &span, &error) == JIHLUKA_BAD_LINES, "null", "the path of jihluka_get_unchecked");
  check(span.start == 91 && span.end == 92, "null", "the span");
  check(jihluka_get_many(NULL, 0, NULL, 0, NULL, 0, &error) == JIHLUKA_OK, "null", "jihluka_get_many");
  check(jihluka_get_many_unchecked(bytes("1"), 1, NULL, 0, NULL, 0, &error) == JIHLUKA_OK, "null", "jihluka_get_many_unchecked");
  jihluka_paths paths = JIHLUKA_NO_PATHS;
  check(jihluka_paths_new(NULL, 0, JIHLUKA_KEYS_FIRST, &paths, &error) == JIHLUKA_OK && paths.count == 0, "null", "jihluka_paths_new");
  check(jihluka_get_many_with(NULL, 0, &paths, NULL, 0, &error) == JIHLUKA_OK, "null", "jihluka_get_many_with");
  check(jihluka_get_many_with_unchecked(bytes("1"), 1, &paths, NULL, 0, &error) == JIHLUKA_OK, "null", "jihluka_get_many_with_unchecked");
  jihluka_paths_free(&paths);
  size_t wanted = 91;
  check(jihluka_minify(bytes("[ 1 ]"), 5, NULL, 0, &wanted, &error) == JIHLUKA_OK && wanted == 3, "null", "jihluka_minify");
  check(jihluka_edit(bytes("1"), 1, NULL, 0, NULL, 0, &wanted, &error) == JIHLUKA_OK && wanted == 1, "null", "jihluka_edit");
  check(jihluka_patch(bytes("1"), 1, NULL, 0, NULL, 0, &wanted, &error) == JIHLUKA_BAD_PATCH, "null", "jihluka_patch");
  check(jihluka_fill(NULL, 0, bytes("{}"), 2, NULL, 0, &wanted, &error) == JIHLUKA_DOCUMENT_ERROR, "null", "jihluka_fill");
  check(jihluka_index(bytes("1"), 1, NULL, 0, &wanted, &error) == JIHLUKA_OK && wanted == 1, "null", "jihluka_index");
  check(jihluka_rows(NULL, 0, NULL, 0, 0, NULL, 0, &wanted, &error) == JIHLUKA_OK && wanted == 0, "null", "jihluka_rows");
  check(jihluka_code_text(JIHLUKA_CODE_INVALID_NUMBER, NULL, 0) == strlen("Invalid number"), "null", "jihluka_code_text");
  printf("null with length 0 is taken as \"\"\n");
}

/* The version is said twice. */
static void check_version(void) {
  char version[40];
  snprintf(version, sizeof version, "%d.%d.%d", JIHLUKA_VERSION_MAJOR, JIHLUKA_VERSION_MINOR, JIHLUKA_VERSION_PATCH);
  check(strcmp(version, JIHLUKA_VERSION) == 0, "the numbers", "JIHLUKA_VERSION");
}

int main(void) {
  check_version();
  check_statuses();
  check_values();
  check_made();
  check_lists();
  check_kept();
  for (size_t i = 0; i < sizeof rows / sizeof *rows; i++) check_row(&rows[i]);
  check_texts();
  check_null();
  return wrong;
}
