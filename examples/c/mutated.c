/* Answers of all calls over 100,000 mutated documents, as one number: the program is run over each of the two
   shared objects, which have to answer the same. Each text ends where its page of memory does, and the next page
   can't be read, so that a look past the end is seen. */
#define _DEFAULT_SOURCE
#include <stdint.h>
#include <stdio.h>
#include <stdlib.h>
#include <string.h>
#include <sys/mman.h>
#include <unistd.h>

#include "jihluka.h"

#define DOCUMENTS 100000
#define LONGEST 4096
#define ENTRIES 512

static const char *const TEXTS[] = {
    "{\"id\":\"a1\",\"user\":{\"name\":\"ada\",\"level\":7,\"tags\":[\"a\",\"b\\n\",\"\\ud83d\\ude00\"]},\"items\":[{\"sku\":\"77\",\"count\":3}],\"total\":12.50}",
    "[[[[[[[[1,2,[3,[4,[5,{}]]]],null],true],false],-0.5e-10],[]],{\"a\":{\"a\":{\"a\":[0]}}}]]",
    "  {\"text\" : \"a long string without an escape, over more than sixty-four bytes of a block, and then a little more of it\", \"id\": 1 } ",
    "{\"id\":[0,1,12,123,1234,12345,123456,1234567,12345678,123456789,1234567890,0.1,1.25,-3,1e9,18446744073709551615],\"k\":\"\\u0041\\\\\\\"\\/\"}",
    "{\"caf\xc3\xa9\":\"\xe6\x97\xa5\xe6\x9c\xac\xe8\xaa\x9e\xf0\x9f\x98\x80 \\\\\\\\\\\\\\\\\\\\\\\\\\\\\\\\\\\\\\\\\\\"\",\"id\":{\"id\":{}},\"id\":2}",
    "{\"level\":\"info\",\"ms\":12,\"user\":null,\"http\":{\"status\":200,\"path\":\"/a/b\"},\"total\":0}\n{\"level\":\"warn\"}\n\n{\"ms\":[1,",
};

static const char PATHS[] = "[\"id\"]\n[\"user\",\"level\"]\n[\"total\"]\n";
static const char PATCH[] = "[{\"op\":\"add\",\"path\":\"/id\",\"value\":[1]},{\"op\":\"remove\",\"path\":\"/user\"}]";
static const char EDITS[] = "[\"set\",[\"id\"],{\"a\":[]}]\n[\"pair\",[],\"new\",1]\n";
static const char SCHEMA[] = "{\"id\":null,\"user\":{\"level\":0},\"more\":1}";

static uint64_t sum = 14695981039346656037u;

static void add(uint64_t number) {
  for (int i = 0; i < 8; i++) {
    sum = (sum ^ (number & 255)) * 1099511628211u;
    number >>= 8;
  }
}

static void add_bytes(const uint8_t *bytes, size_t length) {
  for (size_t i = 0; i < length; i++) sum = (sum ^ bytes[i]) * 1099511628211u;
}

static uint64_t state = 88172645463325252u;

static uint64_t below(uint64_t most) {
  state ^= state << 13;
  state ^= state >> 7;
  state ^= state << 17;
  return state % most;
}

static const uint8_t *bytes_of(const char *text) { return (const uint8_t *)text; }

static void add_error(uint32_t status, const jihluka_error *error) {
  add(status);
  add(error->code);
  add(error->line);
  add(error->column);
  add(error->offset);
}

static void add_span(jihluka_span span) {
  add(span.start);
  add(span.end);
}

/* What the items of a container are, and what each of them holds. */
static void add_items(const uint8_t *text, size_t length) {
  jihluka_error error = {0, 0, 0, 0};
  jihluka_items items = {0, 0};
  jihluka_item item = {{0, 0}, {0, 0}};
  uint32_t status = jihluka_items_begin(text, length, &items, &error);
  while (status == JIHLUKA_OK && (status = jihluka_items_next(text, length, &items, &item, &error)) == JIHLUKA_OK) {
    const uint8_t *value = text + item.value.start;
    size_t value_length = item.value.end - item.value.start, wanted = 0;
    uint64_t whole = 0;
    int64_t integer = 0;
    uint8_t room[64] = {0};
    add_span(item.key);
    add_span(item.value);
    add(jihluka_u64(value, value_length, &whole, &error) + whole);
    add(jihluka_i64(value, value_length, &integer, &error) + (uint64_t)integer);
    add(jihluka_string_text(value, value_length, room, sizeof room, &wanted, &error) + wanted);
    add_bytes(room, sizeof room);
  }
  add_error(status, &error);
}

/* A text that a call made, of which the room takes a part. */
static void add_made(uint32_t status, const jihluka_error *error, uint8_t *room, size_t wanted) {
  add_error(status, error);
  add(wanted);
  add_bytes(room, LONGEST);
  memset(room, 0, LONGEST);
}

static void ask(const uint8_t *text, size_t length, jihluka_paths *paths) {
  static uint8_t room[LONGEST];
  static jihluka_entry entries[ENTRIES];
  jihluka_error error = {0, 0, 0, 0};
  jihluka_span span = {0, 0}, spans[3] = {{0, 0}, {0, 0}, {0, 0}};
  const uint8_t *path = bytes_of("[\"user\",\"level\"]");
  size_t wanted = 0, count = 0;
  uint32_t type = 0;
  uint32_t valid = jihluka_validate(text, length, &error);
  add_error(valid, &error);
  add_error(jihluka_get(text, length, path, 16, &span, &error), &error);
  add_span(span);
  add_error(jihluka_get_many(text, length, bytes_of(PATHS), sizeof PATHS - 1, spans, 3, &error), &error);
  add_error(jihluka_get_many_with(text, length, paths, spans, 3, &error), &error);
  for (int i = 0; i < 3; i++) add_span(spans[i]);
  if (valid == JIHLUKA_OK) {
    add_error(jihluka_get_unchecked(text, length, path, 16, &span, &error), &error);
    add_span(span);
    add_error(jihluka_get_many_unchecked(text, length, bytes_of(PATHS), sizeof PATHS - 1, spans, 3, &error), &error);
    add_error(jihluka_get_many_with_unchecked(text, length, paths, spans, 3, &error), &error);
    for (int i = 0; i < 3; i++) add_span(spans[i]);
  }
  add_error(jihluka_type(text, length, &type, &error), &error);
  add_error(jihluka_count(text, length, &count, &error), &error);
  add(type);
  add(count);
  add_items(text, length);
  add_error(jihluka_index(text, length, entries, ENTRIES, &wanted, &error), &error);
  for (size_t i = 0; i < (wanted < ENTRIES ? wanted : ENTRIES); i++) {
    add_span(entries[i].value);
    add_span(entries[i].key);
    add(entries[i].parent + entries[i].position + entries[i].type);
  }
  add_made(jihluka_minify(text, length, room, LONGEST, &wanted, &error), &error, room, wanted);
  add_made(jihluka_indent(text, length, 2, room, LONGEST, &wanted, &error), &error, room, wanted);
  add_made(jihluka_patch(text, length, bytes_of(PATCH), sizeof PATCH - 1, room, LONGEST, &wanted, &error), &error, room, wanted);
  add_made(jihluka_edit(text, length, bytes_of(EDITS), sizeof EDITS - 1, room, LONGEST, &wanted, &error), &error, room, wanted);
  add_made(jihluka_fill(text, length, bytes_of(SCHEMA), sizeof SCHEMA - 1, room, LONGEST, &wanted, &error), &error, room, wanted);
  add_made(jihluka_rows(text, length, bytes_of(PATHS), sizeof PATHS - 1, 0, room, LONGEST, &wanted, &error), &error, room, wanted);
}

/* A text, with some of its bytes changed, and one part of it twice or left out. */
static size_t mutate(uint8_t *text) {
  static const char SPECIAL[] = "\"\\{}[]:,0123456789-+.eEtfnu \t\n\r\x01\x7f\x80\xc3\xe6\xf0\xff";
  size_t length = 0, parts = 1 + below(4);
  for (size_t i = 0; i < parts; i++) {
    const char *more = TEXTS[below(sizeof TEXTS / sizeof TEXTS[0])];
    size_t from = i > 0 ? below(strlen(more)) : 0, n = strlen(more) - from;
    if (length + n > LONGEST) break;
    memcpy(text + length, more + from, n);
    length += n;
    if (below(2)) break;
  }
  for (size_t n = below(3); n > 0; n--) text[below(length)] = (uint8_t)SPECIAL[below(sizeof SPECIAL - 1)];
  if (below(3) == 0) {
    size_t from = below(length), n = below(length - from);
    memmove(text + from, text + from + n, length - from - n);
    length -= n;
  }
  return length;
}

int main(void) {
  static uint8_t text[LONGEST];
  size_t page = (size_t)sysconf(_SC_PAGESIZE), pages = (LONGEST + page - 1) / page;
  uint8_t *memory = mmap(NULL, (pages + 1) * page, PROT_READ | PROT_WRITE, MAP_PRIVATE | MAP_ANONYMOUS, -1, 0);
  jihluka_paths paths = JIHLUKA_NO_PATHS;
  jihluka_error error = {0, 0, 0, 0};
  uint8_t *end = memory + pages * page;
  size_t valid = 0;
  if (memory == MAP_FAILED || mprotect(end, page, PROT_NONE) != 0) return 1;
  if (jihluka_paths_new(bytes_of(PATHS), sizeof PATHS - 1, JIHLUKA_KEYS_FIRST, &paths, &error) != JIHLUKA_OK) return 1;
  for (int i = 0; i < DOCUMENTS; i++) {
    size_t length = mutate(text);
    memcpy(end - length, text, length);
    ask(end - length, length, &paths);
    valid += jihluka_validate(end - length, length, &error) == JIHLUKA_OK;
  }
  jihluka_paths_free(&paths);
  printf("%d documents, %zu of them valid: %016llx\n", DOCUMENTS, valid, (unsigned long long)sum);
  return 0;
}
