/* What texts are made of a document: without white space, over lines, with a patch, with edits, and of a
   schema that is filled from it; and why none is made. It prints each text and each refusal, which `run`
   compares with `expected_texts`. */
#include "jihluka.h"

#include <stdio.h>
#include <stdlib.h>
#include <string.h>

static const uint8_t *bytes(const char *text) { return (const uint8_t *)text; }

/* A call that makes a text, with what is to be made of the document, and how far its lines are indented. */
typedef uint32_t call(const char *json, const char *change, size_t width, uint8_t *room, size_t room_length, size_t *wanted,
                      jihluka_error *error);

static uint32_t minify(const char *json, const char *change, size_t width, uint8_t *room, size_t room_length, size_t *wanted,
                       jihluka_error *error) {
  (void)change, (void)width;
  return jihluka_minify(bytes(json), strlen(json), room, room_length, wanted, error);
}

static uint32_t indent(const char *json, const char *change, size_t width, uint8_t *room, size_t room_length, size_t *wanted,
                       jihluka_error *error) {
  (void)change;
  return jihluka_indent(bytes(json), strlen(json), width, room, room_length, wanted, error);
}

static uint32_t patch(const char *json, const char *change, size_t width, uint8_t *room, size_t room_length, size_t *wanted,
                      jihluka_error *error) {
  (void)width;
  return jihluka_patch(bytes(json), strlen(json), bytes(change), strlen(change), room, room_length, wanted, error);
}

static uint32_t edit(const char *json, const char *change, size_t width, uint8_t *room, size_t room_length, size_t *wanted,
                     jihluka_error *error) {
  (void)width;
  return jihluka_edit(bytes(json), strlen(json), bytes(change), strlen(change), room, room_length, wanted, error);
}

static uint32_t fill(const char *json, const char *change, size_t width, uint8_t *room, size_t room_length, size_t *wanted,
                     jihluka_error *error) {
  (void)width;
  return jihluka_fill(bytes(json), strlen(json), bytes(change), strlen(change), room, room_length, wanted, error);
}

static int wrong;

static void check(int holds, const char *what) {
  if (!holds) printf("WRONG: %s\n", what);
  wrong |= !holds;
}

/* The text, by a room that is long enough, and again by each shorter one, whose start alone is written to. */
static void show(const char *name, call *one, const char *json, const char *change, size_t width) {
  enum { LONG = 400 };
  uint8_t room[LONG];
  memset(room, '.', sizeof room);
  size_t wanted = 0;
  jihluka_error error = {93, 94, 95, 96};
  uint32_t status = one(json, change, width, room, sizeof room, &wanted, &error);
  if (status != JIHLUKA_OK) {
    printf("%s: status %u, code %u, line %zu, column %zu, offset %zu\n", name, (unsigned)status, (unsigned)error.code, error.line,
           error.column, error.offset);
    check(wanted == 0 && room[0] == '.' && memcmp(room, room + 1, sizeof room - 1) == 0, "a room after a refusal");
    return;
  }
  printf("%s: %zu bytes: %.*s\n", name, wanted, (int)wanted, (const char *)room);
  check(error.code == 93 && error.line == 94 && error.column == 95 && error.offset == 96, "the error after a text");
  check(wanted < LONG && room[wanted] == '.', "the rest of the room");
  for (size_t length = 0; length < wanted; length++) {
    uint8_t *part = malloc(length + 1);
    if (part == NULL) exit(2);
    part[length] = '!';
    size_t again = 0;
    status = one(json, change, width, length == 0 ? NULL : part, length, &again, &error);
    check(status == JIHLUKA_OK && again == wanted && memcmp(part, room, length) == 0 && part[length] == '!', "a shorter room");
    free(part);
  }
}

static const char order[] = "{ \"id\" : 7, \"items\" : [ {\"sku\": \"a-1\", \"count\": 2}, {\"sku\": \"b\\u002d2\", \"count\": 1.50} ],\n  \"note\" : null }";

static void show_order(void) {
  show("minify", minify, order, NULL, 0);
  show("indent by 2", indent, order, NULL, 2);
  show("indent by 0", indent, "[1,[],{\"a\":{}}]", NULL, 0);
  show("patch", patch, order,
       "[{\"op\":\"test\",\"path\":\"/id\",\"value\":7}, {\"op\":\"replace\",\"path\":\"/items/0/count\",\"value\":3},"
       " {\"op\":\"add\",\"path\":\"/items/-\",\"value\":{ \"sku\": \"c\" }}, {\"op\":\"remove\",\"path\":\"/note\"},"
       " {\"op\":\"copy\",\"from\":\"/items/1\",\"path\":\"/first\"}, {\"op\":\"move\",\"from\":\"/first\",\"path\":\"/last\"}]",
       0);
  show("patch with nothing", patch, order, "[]", 0);
  show("edit", edit, order,
       "[\"set\",[\"items\",0,\"count\"],3]\n[\"push\",[\"items\"],{ \"sku\": \"c\" }]\n[\"pair\",[],\"paid\",true]\n[\"take\",[\"id\"]]\n", 0);
  show("fill", fill, order, "{\"id\": 0, \"currency\": \"EUR\", \"items\": []}", 0);
}

static void show_refusals(void) {
  show("minify a cut text", minify, "[1,", NULL, 0);
  show("minify no text", minify, "", NULL, 0);
  show("minify broken UTF-8", minify, "[\"\xff\"]", NULL, 0);
  show("indent by 9", indent, "[1", NULL, 9);
  show("patch a cut text", patch, "[1,", "[]", 0);
  show("patch by a cut patch", patch, "[1,", "[{\"op\"", 0);
  show("patch by an object", patch, "[1]", "{}", 0);
  show("patch by no operation", patch, "[1]", "[{\"op\":\"remove\",\"path\":\"/0\"}, {\"op\":\"replace\",\"path\":\"/0\"}]", 0);
  show("patch by no pointer", patch, "[1]", "[{\"op\":\"remove\",\"path\":\"0\"}]", 0);
  show("patch what isn't there", patch, "[1]", "[{\"op\":\"remove\",\"path\":\"/0\"}, {\"op\":\"remove\",\"path\":\"/0\"}]", 0);
  show("patch after a test", patch, "[1]", "[{\"op\":\"test\",\"path\":\"/0\",\"value\":1.0}]", 0);
  show("patch into itself", patch, "{\"a\":{}}", "[{\"op\":\"move\",\"from\":\"/a\",\"path\":\"/a/b\"}]", 0);
  show("edit a cut text", edit, "[1,", "[\"take\",[]]", 0);
  show("edit by no line", edit, "[1]", "[\"take\",[]]\n[\"take\"]", 0);
  show("edit what isn't there", edit, "[1]", "[\"take\",[0]]\n[\"push\",[0],1]", 0);
  show("fill from a cut text", fill, "{\"a\":", "{\"a\":1}", 0);
  show("fill a cut schema", fill, "{}", "{\"a\":", 0);
  show("fill an array", fill, "{}", "[]", 0);
}

/* A text of many values that is made once, in a room of the document's length. */
static void show_many(void) {
  enum { COUNT = 100000 };
  char *json = malloc(3 * COUNT + 1);
  uint8_t *room = malloc(3 * COUNT);
  if (json == NULL || room == NULL) exit(2);
  for (size_t i = 0; i < COUNT; i++) memcpy(json + 3 * i, i == 0 ? "[ 7" : ", 7", 3);
  json[3 * COUNT] = ']';
  size_t wanted = 0;
  jihluka_error error = {0, 0, 0, 0};
  uint32_t status = jihluka_minify((const uint8_t *)json, 3 * COUNT + 1, room, 3 * COUNT, &wanted, &error);
  check(status == JIHLUKA_OK && wanted == 2 * COUNT + 1 && memcmp(room, "[7,7", 4) == 0 && room[2 * COUNT] == ']', "many values");
  printf("many values: %zu bytes\n", wanted);
  free(room);
  free(json);
}

int main(void) {
  show_order();
  show_refusals();
  show_many();
  return wrong;
}
