/* That memory may run out at each allocation of each call: the call says so, leaves what it is given as
   it was, and gives back all that it took. Where an allocation only serves speed, the call may do
   without, and answers as ever. It prints a line for each call, which `run` compares with
   `expected_refused`; `run` also links the allocator's calls to those here. */
#include "jihluka.h"

#include <stdio.h>
#include <string.h>

void *__real_malloc(size_t size);
void *__real_realloc(void *block, size_t size);
void __real_free(void *block);
void *__wrap_malloc(size_t size);
void *__wrap_realloc(void *block, size_t size);
void __wrap_free(void *block);

/* How many allocations there were, which of them is refused, whether all after it are too, and how many
   blocks are not given back. */
static unsigned asked, refused;
static int onwards;
static long live;

static int is_refused(void) {
  asked++;
  return asked == refused || (onwards && asked > refused);
}

void *__wrap_malloc(size_t size) {
  void *block = is_refused() ? NULL : __real_malloc(size);
  if (block != NULL) live++;
  return block;
}

void *__wrap_realloc(void *block, size_t size) {
  void *moved = is_refused() ? NULL : __real_realloc(block, size);
  if (block == NULL && moved != NULL) live++;
  return moved;
}

void __wrap_free(void *block) {
  if (block != NULL) live--;
  __real_free(block);
}

/* What a call may write to. */
typedef struct cells {
  jihluka_span spans[3];
  jihluka_outcome outcomes[3];
  jihluka_error error;
  uint8_t room[64];
  size_t wanted;
  jihluka_items items;
  jihluka_item item;
  jihluka_entry entries[4];
} cells;

static int same(const cells *a, const cells *b) {
  return memcmp(a->spans, b->spans, sizeof a->spans) == 0 &&
         memcmp(a->outcomes, b->outcomes, sizeof a->outcomes) == 0 && a->error.code == b->error.code &&
         a->error.line == b->error.line && a->error.column == b->error.column &&
         a->error.offset == b->error.offset && memcmp(a->room, b->room, sizeof a->room) == 0 && a->wanted == b->wanted &&
         a->items.place == b->items.place && a->items.state == b->items.state &&
         memcmp(&a->item, &b->item, sizeof a->item) == 0 && memcmp(a->entries, b->entries, sizeof a->entries) == 0;
}

/* Keys with escapes, brackets in brackets, and the same cut short. */
static const char json[] =
    "{\"k\\u0065y\": {\"b\\n\": [[[[[[[[1, {\"x\": \"y\\u0020z\"}]]]]]]]]}, \"list\": [1, \"two\", [3]], \"end\": null}";
static const char path[] = "[\"key\", \"b\\n\", 0, 0, 0, 0, 0, 0, 0, 1, \"\\u0078\"]";
static const char paths[] =
    "[\"key\", \"b\\n\", 0, 0, 0, 0, 0, 0, 0, 1, \"\\u0078\"]\n[\"list\", 2, 0]\n[\"none\"]\n";

/* Arrays in arrays, more than a call has room for in its frame, and two items in the innermost. */
static const char *deep(void) {
  enum { depth = 100 };
  static char text[2 * depth + 4];
  memset(text, '[', depth);
  memcpy(text + depth, "1,2", 3);
  memset(text + depth + 3, ']', depth);
  return text;
}

static const uint8_t *bytes(const char *text) { return (const uint8_t *)text; }

typedef size_t call(cells *told);

static size_t validate(cells *told) { return jihluka_validate(bytes(json), strlen(json), &told->error); }

static size_t validate_cut(cells *told) { return jihluka_validate(bytes(json), strlen(json) - 1, &told->error); }

static size_t validate_deep(cells *told) { return jihluka_validate(bytes(deep()), strlen(deep()), &told->error); }

static size_t validate_deep_cut(cells *told) { return jihluka_validate(bytes(deep()), strlen(deep()) - 1, &told->error); }

static size_t validate_broken(cells *told) { return jihluka_validate(bytes("[[tru]]"), 7, &told->error); }

static size_t get(cells *told) {
  return jihluka_get(bytes(json), strlen(json), bytes(path), strlen(path), told->spans, &told->error);
}

static size_t get_cut(cells *told) {
  return jihluka_get(bytes(json), 40, bytes(path), strlen(path), told->spans, &told->error);
}

static size_t get_unchecked(cells *told) {
  return jihluka_get_unchecked(bytes(json), strlen(json), bytes(path), strlen(path), told->spans, &told->error);
}

static size_t get_many(cells *told) {
  return jihluka_get_many(bytes(json), strlen(json), bytes(paths), strlen(paths), told->spans, 3, &told->error);
}

static size_t get_many_cut(cells *told) {
  return jihluka_get_many(bytes(json), 40, bytes(paths), strlen(paths), told->spans, 3, &told->error);
}

static size_t get_many_for_two(cells *told) {
  return jihluka_get_many(bytes(json), strlen(json), bytes(paths), strlen(paths), told->spans, 2, &told->error);
}

static size_t get_many_unchecked(cells *told) {
  return jihluka_get_many_unchecked(bytes(json), strlen(json), bytes(paths), strlen(paths), told->spans, 3,
                                    &told->error);
}

static size_t get_each(cells *told) {
  return jihluka_get_each(bytes(json), strlen(json), bytes(paths), strlen(paths), told->outcomes, 3, &told->error);
}

static size_t get_each_cut(cells *told) {
  return jihluka_get_each(bytes(json), 40, bytes(paths), strlen(paths), told->outcomes, 3, &told->error);
}

static size_t get_each_unchecked(cells *told) {
  return jihluka_get_each_unchecked(bytes(json), strlen(json), bytes(paths), strlen(paths), told->outcomes, 3,
                                    &told->error);
}

/* Paths are kept, asked for each by itself, and given back. */
static size_t keep_and_tell(cells *told, uint32_t rule) {
  jihluka_paths kept = JIHLUKA_NO_PATHS;
  size_t status = jihluka_paths_new(bytes(paths), strlen(paths), rule, &kept, &told->error);
  if (status == JIHLUKA_OK) status = jihluka_get_each_with(bytes(json), strlen(json), &kept, told->outcomes, 3, &told->error);
  jihluka_paths_free(&kept);
  return status;
}

static size_t get_each_with(cells *told) { return keep_and_tell(told, JIHLUKA_KEYS_FIRST); }

static size_t get_each_with_last(cells *told) { return keep_and_tell(told, JIHLUKA_KEYS_LAST); }

/* Paths are kept, asked for in a text of some length and given back. */
static size_t keep_and_ask(cells *told, uint32_t rule, size_t length) {
  jihluka_paths kept = JIHLUKA_NO_PATHS;
  size_t status = jihluka_paths_new(bytes(paths), strlen(paths), rule, &kept, &told->error);
  if (status == JIHLUKA_OK) status = jihluka_get_many_with(bytes(json), length, &kept, told->spans, 3, &told->error);
  jihluka_paths_free(&kept);
  return status;
}

static size_t get_many_with(cells *told) { return keep_and_ask(told, JIHLUKA_KEYS_FIRST, strlen(json)); }

static size_t get_many_with_cut(cells *told) { return keep_and_ask(told, JIHLUKA_KEYS_FIRST, 40); }

static size_t get_many_with_last(cells *told) { return keep_and_ask(told, JIHLUKA_KEYS_LAST, strlen(json)); }

/* What was kept is kept on where other paths find no memory, and then asked without a second look. */
static size_t keep_again(cells *told) {
  jihluka_paths kept = JIHLUKA_NO_PATHS;
  size_t status = jihluka_paths_new(bytes(paths), strlen(paths), JIHLUKA_KEYS_REFUSE, &kept, &told->error);
  if (status == JIHLUKA_OK) status = jihluka_paths_new(bytes(paths), strlen(paths), JIHLUKA_KEYS_FIRST, &kept, &told->error);
  if (status == JIHLUKA_OK) status = jihluka_get_many_with_unchecked(bytes(json), strlen(json), &kept, told->spans, 3, &told->error);
  jihluka_paths_free(&kept);
  return status;
}

static size_t code_text(cells *told) { return jihluka_code_text(JIHLUKA_CODE_MISMATCH, told->room, sizeof told->room); }

static size_t string_text(cells *told) {
  return jihluka_string_text(bytes("\"a\\n\\u00e9\""), 11, told->room, sizeof told->room, &told->wanted, &told->error);
}

static size_t plain_text(cells *told) {
  return jihluka_string_text(bytes("\"abc\""), 5, told->room, sizeof told->room, &told->wanted, &told->error);
}

static size_t count(cells *told) { return jihluka_count(bytes(json), strlen(json), &told->wanted, &told->error); }

static size_t count_cut(cells *told) { return jihluka_count(bytes(json), strlen(json) - 1, &told->wanted, &told->error); }

static size_t count_deep(cells *told) { return jihluka_count(bytes(deep()), strlen(deep()), &told->wanted, &told->error); }

static size_t items_next(cells *told) {
  return jihluka_items_next(bytes(json), strlen(json), &told->items, &told->item, &told->error);
}

static size_t minify(cells *told) {
  return jihluka_minify(bytes(json), strlen(json), told->room, sizeof told->room, &told->wanted, &told->error);
}

static size_t minify_cut(cells *told) {
  return jihluka_minify(bytes(json), strlen(json) - 1, told->room, sizeof told->room, &told->wanted, &told->error);
}

static size_t minify_deep(cells *told) {
  return jihluka_minify(bytes(deep()), strlen(deep()), told->room, sizeof told->room, &told->wanted, &told->error);
}

static size_t indent(cells *told) {
  return jihluka_indent(bytes(json), strlen(json), 2, told->room, sizeof told->room, &told->wanted, &told->error);
}

static size_t patch_by(cells *told, const char *patch) {
  return jihluka_patch(bytes(json), strlen(json), bytes(patch), strlen(patch), told->room, sizeof told->room, &told->wanted,
                       &told->error);
}

static size_t patch(cells *told) {
  return patch_by(told, "[{\"op\":\"add\",\"path\":\"/list/0\",\"value\":{\"\\u0061\":[1]}},"
                        "{\"op\":\"test\",\"path\":\"/list/2\",\"value\":\"t\\u0077o\"},"
                        "{\"op\":\"move\",\"from\":\"/key/b\\n\",\"path\":\"/end\"}]");
}

static size_t patch_that_fails(cells *told) {
  return patch_by(told, "[{\"op\":\"copy\",\"from\":\"/list\",\"path\":\"/new\"},"
                        "{\"op\":\"test\",\"path\":\"/new\",\"value\":{\"a\":[1,2]}}]");
}

static size_t patch_cut(cells *told) { return patch_by(told, "[{\"op\":\"remove\",\"path\":\"/\\u0061\"},{"); }

static size_t edit_by(cells *told, const char *edits) {
  return jihluka_edit(bytes(json), strlen(json), bytes(edits), strlen(edits), told->room, sizeof told->room, &told->wanted,
                      &told->error);
}

static size_t edit(cells *told) {
  return edit_by(told, "[\"set\",[\"list\",0],{\"a\":1}]\n[\"push\",[\"list\"],\"x\\n\"]\n[\"pair\",[],\"\\u0061\",[]]\n");
}

static size_t edit_that_fails(cells *told) { return edit_by(told, "[\"take\",[\"list\",2]]\n[\"push\",[\"end\"],1]\n"); }

static size_t fill(cells *told) {
  const char *schema = "{\"l\\u0069st\": 0, \"end\": {\"a\": 1}, \"more\": [\"y\\n\", 2.5]}";
  return jihluka_fill(bytes(json), strlen(json), bytes(schema), strlen(schema), told->room, sizeof told->room, &told->wanted,
                      &told->error);
}

static size_t fill_from_cut(cells *told) {
  return jihluka_fill(bytes(json), strlen(json) - 1, bytes("{\"list\":0}"), 10, told->room, sizeof told->room, &told->wanted,
                      &told->error);
}

static size_t index_of(cells *told, const char *text, size_t length) {
  return jihluka_index(bytes(text), length, told->entries, 4, &told->wanted, &told->error);
}

static size_t index_all(cells *told) { return index_of(told, json, strlen(json)); }

static size_t index_cut(cells *told) { return index_of(told, json, strlen(json) - 1); }

/* An object so wide that its members are put in order, each with an escape in its key. */
static size_t index_wide(cells *told) {
  static char wide[2048];
  size_t length = 0;
  for (int i = 0; i < 70; i++) length += (size_t)sprintf(wide + length, "%c\"\\u0061%d\":%d", i == 0 ? '{' : ',', i, i);
  length += (size_t)sprintf(wide + length, "}");
  return index_of(told, wide, length);
}

static size_t rows(cells *told) {
  static const char lines[] = "{\"a\":[1,{\"b\":2}]}\n[\n\n{\"b\":3}";
  static const char two[] = "[\"a\",1,\"b\"]\n[\"b\"]\n";
  return jihluka_rows(bytes(lines), strlen(lines), bytes(two), strlen(two), 7, told->room, sizeof told->room, &told->wanted,
                      &told->error);
}

/* What a call is to answer and to leave, unrefused and refused. */
typedef struct answers {
  size_t plain, refused;
  cells before, after;
} answers;

/* One run of a call: 0 where it is as it should be and nothing was refused, 1 where it says so, 2 where it
   did without, and 3 where it is wrong. */
static int run_once(call *one, const answers *want) {
  cells now;
  memcpy(&now, &want->before, sizeof now);
  asked = 0;
  size_t told = one(&now);
  int plain = live == 0 && told == want->plain && same(&now, &want->after);
  if (asked < refused) return plain ? 0 : 3;
  if (live == 0 && told == want->refused && same(&now, &want->before)) return 1;
  return plain ? 2 : 3;
}

/* Refuses each allocation of the call in turn, until there is none to refuse: that one alone, and then all
   from it on. */
static int refuse_each(const char *name, call *one, size_t no_memory) {
  answers want;
  memset(&want.before, 0xA5, sizeof want.before);
  /* The cursor is one that has begun, which takes no memory. */
  if (jihluka_items_begin(bytes(json), strlen(json), &want.before.items, &want.before.error) != JIHLUKA_OK) return 1;
  memcpy(&want.after, &want.before, sizeof want.after);
  refused = onwards = 0;
  want.plain = one(&want.after);
  want.refused = no_memory;
  unsigned counts[4] = {0, 0, 0, 0};
  for (onwards = 0; onwards < 2; onwards++) {
    int ran;
    for (refused = 1; (ran = run_once(one, &want)) != 0 && ran != 3; refused++) counts[ran] += !onwards;
    counts[3] += ran == 3;
  }
  if (counts[3] > 0) printf("%s: WRONG\n", name);
  printf("%s: %zu, takes memory %u times and can do without %u of them\n", name, want.plain, counts[1] + counts[2],
         counts[2]);
  return counts[3] > 0;
}

int main(void) {
  int wrong = refuse_each("validate", validate, JIHLUKA_NO_MEMORY);
  wrong |= refuse_each("validate, cut", validate_cut, JIHLUKA_NO_MEMORY);
  wrong |= refuse_each("validate, broken", validate_broken, JIHLUKA_NO_MEMORY);
  wrong |= refuse_each("validate, deep", validate_deep, JIHLUKA_NO_MEMORY);
  wrong |= refuse_each("validate, deep and cut", validate_deep_cut, JIHLUKA_NO_MEMORY);
  wrong |= refuse_each("get", get, JIHLUKA_NO_MEMORY);
  wrong |= refuse_each("get, cut", get_cut, JIHLUKA_NO_MEMORY);
  wrong |= refuse_each("get_unchecked", get_unchecked, JIHLUKA_NO_MEMORY);
  wrong |= refuse_each("get_many", get_many, JIHLUKA_NO_MEMORY);
  wrong |= refuse_each("get_many, cut", get_many_cut, JIHLUKA_NO_MEMORY);
  wrong |= refuse_each("get_many, for two", get_many_for_two, JIHLUKA_NO_MEMORY);
  wrong |= refuse_each("get_many_unchecked", get_many_unchecked, JIHLUKA_NO_MEMORY);
  wrong |= refuse_each("get_many_with", get_many_with, JIHLUKA_NO_MEMORY);
  wrong |= refuse_each("get_many_with, cut", get_many_with_cut, JIHLUKA_NO_MEMORY);
  wrong |= refuse_each("get_many_with, the last key", get_many_with_last, JIHLUKA_NO_MEMORY);
  wrong |= refuse_each("get_many_with_unchecked, kept again", keep_again, JIHLUKA_NO_MEMORY);
  wrong |= refuse_each("get_each", get_each, JIHLUKA_NO_MEMORY);
  wrong |= refuse_each("get_each, cut", get_each_cut, JIHLUKA_NO_MEMORY);
  wrong |= refuse_each("get_each_unchecked", get_each_unchecked, JIHLUKA_NO_MEMORY);
  wrong |= refuse_each("get_each_with", get_each_with, JIHLUKA_NO_MEMORY);
  wrong |= refuse_each("get_each_with, the last key", get_each_with_last, JIHLUKA_NO_MEMORY);
  wrong |= refuse_each("code_text", code_text, 0);
  wrong |= refuse_each("string_text", string_text, JIHLUKA_NO_MEMORY);
  wrong |= refuse_each("string_text, plain", plain_text, JIHLUKA_NO_MEMORY);
  wrong |= refuse_each("count", count, JIHLUKA_NO_MEMORY);
  wrong |= refuse_each("count, cut", count_cut, JIHLUKA_NO_MEMORY);
  wrong |= refuse_each("count, deep", count_deep, JIHLUKA_NO_MEMORY);
  wrong |= refuse_each("items_next", items_next, JIHLUKA_NO_MEMORY);
  wrong |= refuse_each("minify", minify, JIHLUKA_NO_MEMORY);
  wrong |= refuse_each("minify, cut", minify_cut, JIHLUKA_NO_MEMORY);
  wrong |= refuse_each("minify, deep", minify_deep, JIHLUKA_NO_MEMORY);
  wrong |= refuse_each("indent", indent, JIHLUKA_NO_MEMORY);
  wrong |= refuse_each("patch", patch, JIHLUKA_NO_MEMORY);
  wrong |= refuse_each("patch, that fails", patch_that_fails, JIHLUKA_NO_MEMORY);
  wrong |= refuse_each("patch, cut", patch_cut, JIHLUKA_NO_MEMORY);
  wrong |= refuse_each("edit", edit, JIHLUKA_NO_MEMORY);
  wrong |= refuse_each("edit, that fails", edit_that_fails, JIHLUKA_NO_MEMORY);
  wrong |= refuse_each("fill", fill, JIHLUKA_NO_MEMORY);
  wrong |= refuse_each("fill, from a cut text", fill_from_cut, JIHLUKA_NO_MEMORY);
  wrong |= refuse_each("index", index_all, JIHLUKA_NO_MEMORY);
  wrong |= refuse_each("index, cut", index_cut, JIHLUKA_NO_MEMORY);
  wrong |= refuse_each("index, wide", index_wide, JIHLUKA_NO_MEMORY);
  wrong |= refuse_each("rows", rows, JIHLUKA_NO_MEMORY);
  return wrong;
}
