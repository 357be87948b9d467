/* What the values of an order are: types, integers, texts, and items one after the other, of orders that
   are broken too. It prints a line for each answer, which `run` compares with `expected_values`. */
#include "jihluka.h"

#include <stdio.h>
#include <stdlib.h>
#include <string.h>

static const uint8_t *bytes(const char *text) { return (const uint8_t *)text; }

static const char *const types[] = {"null", "boolean", "number", "string", "object", "array"};

static void print_status(const char *call, uint32_t status, const jihluka_error *error) {
  printf("%s: status %u", call, (unsigned)status);
  if (status == JIHLUKA_DOCUMENT_ERROR) printf(", code %u at %zu", (unsigned)error->code, error->offset);
  printf("\n");
}

/* The text of a string in memory of its own size: the length first, then the text. */
static void show_text(const uint8_t *json, size_t length) {
  jihluka_error error = {0, 0, 0, 0};
  size_t wanted = 0, again = 0;
  uint32_t status = jihluka_string_text(json, length, NULL, 0, &wanted, &error);
  if (status != JIHLUKA_OK) {
    print_status("string_text", status, &error);
    return;
  }
  uint8_t *room = malloc(wanted + 1);
  if (room == NULL) exit(2);
  room[wanted] = '!';
  status = jihluka_string_text(json, length, room, wanted, &again, &error);
  printf("string_text: %zu bytes", again);
  for (size_t i = 0; i <= wanted; i++) printf(room[i] >= 32 && room[i] < 127 ? " %c" : " %02x", room[i]);
  printf(", status %u\n", (unsigned)status);
  free(room);
}

static void show_integers(const char *json) {
  jihluka_error error = {0, 0, 0, 0};
  uint64_t natural = 7;
  int64_t integer = 7;
  uint32_t first = jihluka_u64(bytes(json), strlen(json), &natural, &error);
  uint32_t second = jihluka_i64(bytes(json), strlen(json), &integer, &error);
  printf("%s: %llu (%u), %lld (%u)\n", json, (unsigned long long)natural, (unsigned)first, (long long)integer,
         (unsigned)second);
}

static void show_type(const char *json) {
  jihluka_error error = {0, 0, 0, 0};
  uint32_t type = 9;
  uint32_t status = jihluka_type(bytes(json), strlen(json), &type, &error);
  if (status == JIHLUKA_OK) {
    printf("type: %s\n", types[type]);
  } else {
    print_status("type", status, &error);
  }
}

static void show_count(const char *json) {
  jihluka_error error = {0, 0, 0, 0};
  size_t count = 99;
  uint32_t status = jihluka_count(bytes(json), strlen(json), &count, &error);
  if (status == JIHLUKA_OK) {
    printf("count: %zu\n", count);
  } else {
    print_status("count", status, &error);
  }
}

/* Goes through all that is in a container, however deep, by a cursor for each level. */
static void show_items(const uint8_t *json, size_t length, int depth) {
  jihluka_error error = {0, 0, 0, 0};
  jihluka_items items = {0, 0};
  jihluka_item item = {{0, 0}, {0, 0}};
  uint32_t status = jihluka_items_begin(json, length, &items, &error);
  if (status != JIHLUKA_OK) print_status("items_begin", status, &error);
  if (status != JIHLUKA_OK) return;
  while ((status = jihluka_items_next(json, length, &items, &item, &error)) == JIHLUKA_OK) {
    uint32_t type = 9;
    jihluka_type(json + item.value.start, item.value.end - item.value.start, &type, &error);
    printf("%*s%.*s %.*s: %s\n", 2 * depth, "", (int)(item.key.end - item.key.start), (const char *)json + item.key.start,
           (int)(item.value.end - item.value.start), (const char *)json + item.value.start, types[type]);
    if (type == JIHLUKA_ARRAY || type == JIHLUKA_OBJECT) {
      show_items(json + item.value.start, item.value.end - item.value.start, depth + 1);
    }
  }
  printf("%*s", 2 * depth, "");
  print_status("items_next", status, &error);
  /* It has ended for good. */
  status = jihluka_items_next(json, length, &items, &item, &error);
  if (status != JIHLUKA_END) print_status("WRONG", status, &error);
}

static void show(const char *json) { show_items(bytes(json), strlen(json), 0); }

/* A cursor that no call wrote, at any place: nothing is read past the text. */
static void show_stray(void) {
  const char text[] = {'[', '1', ',', '2', ']'};
  uint8_t *json = malloc(sizeof text);
  if (json == NULL) exit(2);
  memcpy(json, text, sizeof text);
  unsigned told = 0;
  for (uint32_t state = 0; state < 6; state++) {
    for (size_t place = 0; place < 8; place++) {
      jihluka_items items = {place == 7 ? (size_t)-1 : place, state};
      jihluka_item item = {{0, 0}, {0, 0}};
      jihluka_error error = {0, 0, 0, 0};
      told += jihluka_items_next(json, sizeof text, &items, &item, &error) == JIHLUKA_OK;
    }
  }
  printf("stray cursors: %s\n", told > 0 ? "some tell an item" : "WRONG");
  free(json);
}

/* Many items, in one way through the text. */
static void show_many(void) {
  enum { COUNT = 200000 };
  char *json = malloc(2 * COUNT + 1);
  if (json == NULL) exit(2);
  for (size_t i = 0; i < COUNT; i++) json[2 * i] = i == 0 ? '[' : ',', json[2 * i + 1] = '7';
  json[2 * COUNT] = ']';
  jihluka_error error = {0, 0, 0, 0};
  jihluka_items items = {0, 0};
  jihluka_item item = {{0, 0}, {0, 0}};
  uint64_t sum = 0, value = 0;
  uint32_t status = jihluka_items_begin(bytes(json), 2 * COUNT + 1, &items, &error);
  while (status == JIHLUKA_OK && (status = jihluka_items_next(bytes(json), 2 * COUNT + 1, &items, &item, &error)) == JIHLUKA_OK) {
    if (jihluka_u64(bytes(json) + item.value.start, item.value.end - item.value.start, &value, &error) == JIHLUKA_OK) sum += value;
  }
  printf("sum: %llu, status %u\n", (unsigned long long)sum, (unsigned)status);
  free(json);
}

int main(void) {
  static const char order[] = " {\"id\": 4711, \"who\": \"Zo\\u00eb\\n\", \"paid\": true, \"rows\": [[\"nut\", -2], {}], \"x\": null} ";
  const size_t length = strlen(order);
  jihluka_error error = {0, 0, 0, 0};
  jihluka_span span = {0, 0};
  show(order);
  show_count(order);
  if (jihluka_get(bytes(order), length, bytes("[\"who\"]"), 7, &span, &error) != JIHLUKA_OK) return 1;
  show_text(bytes(order) + span.start, span.end - span.start);
  show_text(bytes("\"\""), 2);
  show_text(bytes(" \"a\" "), 5);
  show_text(bytes("\"a\" 1"), 5);
  show_text(bytes("\"\xff\""), 3);
  show_text(bytes("7"), 1);
  const char *const numbers[] = {"0", "-0", "18446744073709551615", "18446744073709551616", "-9223372036854775808", "-9223372036854775809",
                                 "1.0", "1e3", "\"1\"", "01", " 12 ", "12 x", ""};
  for (size_t i = 0; i < sizeof numbers / sizeof numbers[0]; i++) show_integers(numbers[i]);
  const char *const texts[] = {"null", "\n false", "-", "\"", "{", "[", "", " \t", "x", ",1"};
  for (size_t i = 0; i < sizeof texts / sizeof texts[0]; i++) show_type(texts[i]);
  const char *const containers[] = {"[]", "[ ] ", "{}", "[[], {}]", "{\"a\":1,\"a\":2}", "[1,]", "[1] 2", "{\"a\":1", "[\"\xff\"]", "1", ""};
  for (size_t i = 0; i < sizeof containers / sizeof containers[0]; i++) show_count(containers[i]);
  show("[]");
  show("[1, 2,]");
  show("{\"a\":1,\"a\":[2],3}");
  show("[1] 2");
  show("[1, \"\xff\"]");
  show("true");
  show(" ");
  show_stray();
  show_many();
  return 0;
}
