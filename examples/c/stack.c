/* How little stack the calls need: each is made on a thread of 128 KiB, as musl gives it where nothing else is
   asked for, with paths of 255 nodes and pointers of 255 tokens, over a text that goes deeper. It prints what
   each came to, which `run` compares with `expected_stack`. */
#include "jihluka.h"

#include <pthread.h>
#include <stdio.h>
#include <stdlib.h>
#include <string.h>

enum { STACK = 128 * 1024, NODES = 255, LEVELS = 1000, LONG = 1 << 17 };

/* What is asked of a text, in memory that the thread doesn't hold itself. */
static char arrays[LONG], objects[LONG], path[LONG], keys[LONG], paths[LONG], edit[LONG], patch[LONG], schema[LONG], data[LONG];
static uint8_t room[LONG];
static jihluka_span spans[NODES];

static const uint8_t *bytes(const char *text) { return (const uint8_t *)text; }

/* The text so many times, after what is there. */
static void repeat(char *to, const char *text, size_t count) {
  char *end = to + strlen(to);
  for (size_t i = 0; i < count; i++) end += sprintf(end, "%s", text);
}

/* A path of so many zeros and a last node. */
static void add_path(char *to, size_t zeros, const char *last) {
  repeat(to, "[", 1);
  repeat(to, "0,", zeros);
  repeat(to, last, 1);
  repeat(to, "]", 1);
}

/* An edit at the end of the path. */
static void add_edit(const char *word) {
  repeat(edit, "[\"", 1);
  repeat(edit, word, 1);
  repeat(edit, "\",", 1);
  repeat(edit, path, 1);
  repeat(edit, ",[7]]\n", 1);
}

static void prepare(void) {
  repeat(arrays, "[", LEVELS);
  repeat(arrays, "1", 1);
  /* Each of the outer arrays has a second element, so that a path may branch off at each of them. */
  repeat(arrays, "]", LEVELS - NODES);
  repeat(arrays, ",2]", NODES);
  repeat(objects, "{\"k\":", LEVELS);
  repeat(objects, "1", 1);
  repeat(objects, "}", LEVELS);
  add_path(path, NODES - 1, "0");
  strcpy(keys, "[");
  repeat(keys, "\"k\",", NODES - 1);
  repeat(keys, "\"k\"]", 1);
  for (size_t i = 0; i < NODES; i++) {
    add_path(paths, i, "1");
    repeat(paths, "\n", 1);
  }
  add_edit("push");
  add_edit("set");
  strcpy(patch, "[{\"op\":\"move\",\"from\":\"");
  repeat(patch, "/0", NODES);
  repeat(patch, "\",\"path\":\"/1\"},{\"op\":\"add\",\"path\":\"", 1);
  repeat(patch, "/0", NODES - 1);
  repeat(patch, "/-\",\"value\":[7]}]", 1);
  strcpy(schema, "{\"k\":1}");
  strcpy(data, "{\"k\":");
  repeat(data, "[", NODES - 1);
  repeat(data, "1", 1);
  repeat(data, "]", NODES - 1);
  repeat(data, "}", 1);
}

static jihluka_error error;
static size_t wanted;

static uint32_t validate(void) { return jihluka_validate(bytes(arrays), strlen(arrays), &error); }
static uint32_t get(void) { return jihluka_get(bytes(objects), strlen(objects), bytes(keys), strlen(keys), spans, &error); }
static uint32_t get_unchecked(void) {
  return jihluka_get_unchecked(bytes(objects), strlen(objects), bytes(keys), strlen(keys), spans, &error);
}
static uint32_t get_many(void) {
  return jihluka_get_many(bytes(arrays), strlen(arrays), bytes(paths), strlen(paths), spans, NODES, &error);
}
static uint32_t get_many_unchecked(void) {
  return jihluka_get_many_unchecked(bytes(arrays), strlen(arrays), bytes(paths), strlen(paths), spans, NODES, &error);
}
static uint32_t keep_and_ask(uint32_t rule, int judged) {
  jihluka_paths kept = JIHLUKA_NO_PATHS;
  uint32_t status = jihluka_paths_new(bytes(paths), strlen(paths), rule, &kept, &error);
  if (status == JIHLUKA_OK && judged) status = jihluka_get_many_with_unchecked(bytes(arrays), strlen(arrays), &kept, spans, NODES, &error);
  if (status == JIHLUKA_OK && !judged) status = jihluka_get_many_with(bytes(arrays), strlen(arrays), &kept, spans, NODES, &error);
  jihluka_paths_free(&kept);
  return status;
}
static uint32_t get_many_with(void) { return keep_and_ask(JIHLUKA_KEYS_LAST, 0); }
static uint32_t get_many_with_unchecked(void) { return keep_and_ask(JIHLUKA_KEYS_FIRST, 1); }
static jihluka_outcome outcomes[NODES];
static uint32_t keep_and_tell(uint32_t rule, int judged) {
  jihluka_paths kept = JIHLUKA_NO_PATHS;
  uint32_t status = jihluka_paths_new(bytes(paths), strlen(paths), rule, &kept, &error);
  if (status == JIHLUKA_OK && judged) status = jihluka_get_each_with_unchecked(bytes(arrays), strlen(arrays), &kept, outcomes, NODES, &error);
  if (status == JIHLUKA_OK && !judged) status = jihluka_get_each_with(bytes(arrays), strlen(arrays), &kept, outcomes, NODES, &error);
  jihluka_paths_free(&kept);
  spans[0] = outcomes[0].span;
  spans[NODES - 1] = outcomes[NODES - 1].span;
  return status;
}
static uint32_t get_each_with(void) { return keep_and_tell(JIHLUKA_KEYS_FIRST, 0); }
static uint32_t get_each_with_last(void) { return keep_and_tell(JIHLUKA_KEYS_LAST, 0); }
static uint32_t get_each_with_unchecked(void) { return keep_and_tell(JIHLUKA_KEYS_FIRST, 1); }
static uint32_t count(void) { return jihluka_count(bytes(arrays), strlen(arrays), &wanted, &error); }
static uint32_t walk(void) {
  jihluka_items items = {0, 0};
  jihluka_item item = {{0, 0}, {0, 0}};
  uint32_t status = jihluka_items_begin(bytes(arrays), strlen(arrays), &items, &error);
  for (wanted = 0; status == JIHLUKA_OK; wanted++) status = jihluka_items_next(bytes(arrays), strlen(arrays), &items, &item, &error);
  return status;
}
static uint32_t minify(void) { return jihluka_minify(bytes(arrays), strlen(arrays), room, sizeof room, &wanted, &error); }
static uint32_t indent(void) { return jihluka_indent(bytes(arrays), strlen(arrays), 1, room, sizeof room, &wanted, &error); }
static uint32_t make_edit(void) {
  return jihluka_edit(bytes(arrays), strlen(arrays), bytes(edit), strlen(edit), room, sizeof room, &wanted, &error);
}
static uint32_t make_patch(void) {
  return jihluka_patch(bytes(arrays), strlen(arrays), bytes(patch), strlen(patch), room, sizeof room, &wanted, &error);
}
static uint32_t fill(void) {
  return jihluka_fill(bytes(data), strlen(data), bytes(schema), strlen(schema), room, sizeof room, &wanted, &error);
}

static uint32_t all_values(void) { return jihluka_index(bytes(arrays), strlen(arrays), NULL, 0, &wanted, &error); }
static uint32_t rows(void) {
  return jihluka_rows(bytes(arrays), strlen(arrays), bytes(paths), strlen(paths), 0, room, sizeof room, &wanted, &error);
}

typedef struct {
  const char *name;
  uint32_t (*make)(void);
  uint32_t status;
} call;

static void *run(void *given) {
  call *one = given;
  one->status = one->make();
  return NULL;
}

int main(void) {
  static call calls[] = {
      {"validate", validate, 99},
      {"get", get, 99},
      {"get_unchecked", get_unchecked, 99},
      {"get_many", get_many, 99},
      {"get_many_unchecked", get_many_unchecked, 99},
      {"get_many_with", get_many_with, 99},
      {"get_many_with_unchecked", get_many_with_unchecked, 99},
      {"get_each_with", get_each_with, 99},
      {"get_each_with, the last key", get_each_with_last, 99},
      {"get_each_with_unchecked", get_each_with_unchecked, 99},
      {"count", count, 99},
      {"items", walk, 99},
      {"minify", minify, 99},
      {"indent", indent, 99},
      {"edit", make_edit, 99},
      {"patch", make_patch, 99},
      {"fill", fill, 99},
      {"index", all_values, 99},
      {"rows", rows, 99},
  };
  prepare();
  pthread_attr_t small;
  if (pthread_attr_init(&small) != 0 || pthread_attr_setstacksize(&small, STACK) != 0) return 2;
  for (size_t i = 0; i < sizeof calls / sizeof calls[0]; i++) {
    pthread_t thread;
    wanted = 0;
    memset(spans, 0, sizeof spans);
    if (pthread_create(&thread, &small, run, &calls[i]) != 0 || pthread_join(thread, NULL) != 0) return 2;
    printf("%s: status %u, %zu bytes", calls[i].name, (unsigned)calls[i].status, wanted);
    printf(", spans %zu to %zu and %zu to %zu\n", spans[0].start, spans[0].end, spans[NODES - 1].start, spans[NODES - 1].end);
  }
  return pthread_attr_destroy(&small);
}
