/* What is seen of a log that comes in pieces: the rows of its lines, by paths; and, of a line that is of
   interest, the value at a place and what is around it, by an index of all values. It prints them, which `run`
   compares with `expected_log`. */
#include "jihluka.h"

#include <stdio.h>
#include <stdlib.h>
#include <string.h>

static const uint8_t *bytes(const char *text) { return (const uint8_t *)text; }

static int wrong;

static void check(int holds, const char *what) {
  if (!holds) printf("WRONG: %s\n", what);
  wrong |= !holds;
}

static const char *const types[] = {"null", "boolean", "number", "string", "object", "array"};

/* A log whose lines have a JSON text each: one is blank, one is cut, one lacks a key, and the last has no line feed. */
static const char log_text[] =
    "{\"at\":1,\"who\":\"ada\",\"rows\":[[7,8],{}]}\n"
    "\n"
    "{\"at\":2,\"who\":\"\\u0062\"}\r\n"
    "{\"at\":3,\"who\":\n"
    "{\"at\":4}\n"
    "[5]";

/* The lines that are there, as a stream is read: what follows the last line feed waits for more. */
typedef struct stream {
  char held[sizeof log_text];
  size_t length;
  uint64_t lines;
} stream;

static void show_rows(stream *from, size_t length) {
  static const char paths[] = "[\"at\"]\n[\"who\"]\n";
  uint8_t room[256];
  size_t wanted = 0;
  jihluka_error error = {0, 0, 0, 0};
  uint32_t status = jihluka_rows(bytes(from->held), length, bytes(paths), strlen(paths), from->lines, room, sizeof room, &wanted, &error);
  check(status == JIHLUKA_OK && wanted <= sizeof room, "rows");
  printf("%.*s", (int)wanted, (const char *)room);
  for (size_t i = 0; i < length; i++) from->lines += from->held[i] == '\n';
  from->length -= length;
  memmove(from->held, from->held + length, from->length);
}

/* The rows of the log, in pieces of so many bytes. */
static void show_log(size_t piece) {
  static stream from;
  from.length = from.lines = 0;
  printf("in pieces of %zu:\n", piece);
  for (size_t at = 0; at < strlen(log_text); at += piece) {
    size_t left = strlen(log_text) - at, count = left < piece ? left : piece;
    memcpy(from.held + from.length, log_text + at, count);
    from.length += count;
    size_t end = from.length;
    while (end > 0 && from.held[end - 1] != '\n') end--;
    if (end > 0) show_rows(&from, end);
  }
  show_rows(&from, from.length);
}

/* All values of a document, as far as there is room for them. */
static void show_values(const char *json, size_t room) {
  jihluka_entry entries[8];
  memset(entries, 0xA5, sizeof entries);
  size_t wanted = 0;
  jihluka_error error = {93, 94, 95, 96};
  uint32_t status = jihluka_index(bytes(json), strlen(json), room == 0 ? NULL : entries, room, &wanted, &error);
  if (status != JIHLUKA_OK) {
    printf("no index: status %u, code %u at %zu\n", (unsigned)status, (unsigned)error.code, error.offset);
    check(wanted == 0, "the number after a refusal");
    return;
  }
  printf("%zu of %zu values of %s\n", wanted < room ? wanted : room, wanted, json);
  for (size_t i = 0; i < wanted && i < room; i++) {
    const jihluka_entry *one = &entries[i];
    printf("  %zu: %s %.*s in %zu", i, types[one->type], (int)(one->value.end - one->value.start), json + one->value.start, one->parent);
    if (i > 0 && entries[one->parent].type == JIHLUKA_OBJECT) printf(" by %.*s", (int)(one->key.end - one->key.start), json + one->key.start);
    if (i > 0 && entries[one->parent].type == JIHLUKA_ARRAY) printf(" at %zu", one->position);
    printf("\n");
  }
  for (size_t i = wanted < room ? wanted : room; i < sizeof entries / sizeof entries[0]; i++) {
    check(entries[i].parent == entries[i].value.start && entries[i].key.end == entries[i].value.end, "the rest of the room");
  }
}

/* The innermost value at a place of a document, and those around it: the last one that begins at it or before, or one around that. */
static void show_place(const char *json, size_t place) {
  size_t wanted = 0, again = 0;
  jihluka_error error = {0, 0, 0, 0};
  if (jihluka_index(bytes(json), strlen(json), NULL, 0, &wanted, &error) != JIHLUKA_OK) exit(2);
  jihluka_entry *entries = calloc(wanted, sizeof *entries);
  if (entries == NULL || jihluka_index(bytes(json), strlen(json), entries, wanted, &again, &error) != JIHLUKA_OK) exit(2);
  check(again == wanted, "the number of values");
  size_t at = wanted - 1;
  while (at > 0 && entries[at].value.start > place) at--;
  while (at > 0 && entries[at].value.end <= place) at = entries[at].parent;
  printf("at %zu:", place);
  for (; at > 0; at = entries[at].parent) {
    printf(" %.*s in", (int)(entries[at].value.end - entries[at].value.start), json + entries[at].value.start);
  }
  printf(" the root\n");
  free(entries);
}

/* Many values, and how many there are at most. */
static void show_many(void) {
  enum { COUNT = 100000 };
  char *json = malloc(2 * COUNT + 1);
  jihluka_entry *entries = calloc(COUNT, sizeof *entries);
  if (json == NULL || entries == NULL) exit(2);
  memset(json, '[', COUNT);
  memset(json + COUNT, ']', COUNT);
  size_t wanted = 0;
  jihluka_error error = {0, 0, 0, 0};
  uint32_t status = jihluka_index((const uint8_t *)json, 2 * COUNT, entries, COUNT, &wanted, &error);
  check(status == JIHLUKA_OK && wanted == COUNT, "many values");
  for (size_t i = 0; i < COUNT; i++) {
    check(entries[i].value.start == i && entries[i].value.end == 2 * COUNT - i && entries[i].parent == (i == 0 ? 0 : i - 1), "an array");
  }
  printf("arrays in each other: %zu\n", wanted);
  free(entries);
  free(json);
}

int main(void) {
  static const char line[] = "{\"at\":1,\"who\":\"ada\",\"rows\":[[7,8],{}]}";
  show_log(1000);
  show_log(7);
  show_log(1);
  show_values(line, 8);
  show_values(line, 3);
  show_values(line, 0);
  show_values(" [ ] ", 8);
  show_values("\"\\n\"", 8);
  show_values("[1,]", 8);
  show_values("", 8);
  show_values("\"\xff\"", 8);
  const size_t places[] = {0, 6, 16, 30, 31, 35, 37};
  for (size_t i = 0; i < sizeof places / sizeof places[0]; i++) show_place(line, places[i]);
  show_many();
  return wrong;
}
