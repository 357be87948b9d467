/* A gateway that checks fields of a request's body before it lets the request pass, and what the calls
   tell of input that is broken. It prints a line for each case, which `run` compares with `expected`. */
#define _DEFAULT_SOURCE
#include "jihluka.h"

#include <stdio.h>
#include <string.h>
#include <sys/mman.h>
#include <unistd.h>

static const uint8_t *bytes(const char *text) { return (const uint8_t *)text; }

static void print_span(const char *json, jihluka_span span) {
  if (span.end == 0) {
    printf(" -");
  } else {
    printf(" %.*s", (int)(span.end - span.start), json + span.start);
  }
}

/* Code 0 has no words. */
static void print_error(uint32_t status, jihluka_error error) {
  uint8_t room[128] = {0};
  size_t length = jihluka_code_text(error.code, room, sizeof room);
  printf(" status %u code %u at %zu:%zu (%zu)", (unsigned)status, (unsigned)error.code, error.line, error.column,
         error.offset);
  if (length > sizeof room) length = sizeof room;
  if (length > 0) printf(": %.*s", (int)length, (const char *)room);
}

/* The words of some codes, in a room that is smaller than most. */
static void show_words(void) {
  const uint32_t codes[] = {JIHLUKA_CODE_INVALID_NUMBER, JIHLUKA_CODE_MISMATCH + 10 * 5 + 0, 99};
  for (size_t i = 0; i < sizeof codes / sizeof codes[0]; i++) {
    char room[] = "....................";
    size_t length = jihluka_code_text(codes[i], (uint8_t *)room, sizeof room - 1);
    printf("code_text %u: %zu %s\n", (unsigned)codes[i], length, room);
  }
}

/* One field, looked up in a body that may be broken anywhere after it. */
static void show_field(const char *json, const char *path) {
  jihluka_span span = {0, 0};
  jihluka_error error = {0, 0, 0, 0};
  uint32_t status = jihluka_get(bytes(json), strlen(json), bytes(path), strlen(path), &span, &error);
  printf("get");
  if (status == JIHLUKA_OK) {
    print_span(json, span);
  } else {
    print_error(status, error);
  }
  printf("\n");
}

/* Three fields by one walk. */
static void show_fields(const char *json, const char *paths) {
  jihluka_span spans[3] = {{9, 9}, {9, 9}, {9, 9}};
  jihluka_error error = {0, 0, 0, 0};
  uint32_t status = jihluka_get_many(bytes(json), strlen(json), bytes(paths), strlen(paths), spans, 3, &error);
  printf("get_many");
  for (int i = 0; status == JIHLUKA_OK && i < 3; i++) print_span(json, spans[i]);
  if (status != JIHLUKA_OK) print_error(status, error);
  printf("\n");
}

/* A body that is judged once, and then looked into without a second look at what is passed. */
static void show_judged(const char *json, const char *paths) {
  jihluka_span spans[3] = {{9, 9}, {9, 9}, {9, 9}}, one = {0, 0};
  jihluka_error error = {0, 0, 0, 0};
  uint32_t status = jihluka_validate(bytes(json), strlen(json), &error);
  printf("validate");
  if (status == JIHLUKA_OK)
    status = jihluka_get_many_unchecked(bytes(json), strlen(json), bytes(paths), strlen(paths), spans, 3, &error);
  for (int i = 0; status == JIHLUKA_OK && i < 3; i++) print_span(json, spans[i]);
  if (status == JIHLUKA_OK)
    status = jihluka_get_unchecked(bytes(json), strlen(json), bytes("[\"iss\"]"), 7, &one, &error);
  if (status == JIHLUKA_OK) {
    print_span(json, one);
  } else {
    print_error(status, error);
  }
  printf("\n");
}

/* A text whose last byte is the last one before memory that may not be read. */
static void show_at_a_guard_page(const char *json) {
  size_t page = (size_t)sysconf(_SC_PAGESIZE), length = strlen(json);
  uint8_t *pages = mmap(NULL, 2 * page, PROT_READ | PROT_WRITE, MAP_PRIVATE | MAP_ANONYMOUS, -1, 0);
  if (pages == MAP_FAILED || mprotect(pages + page, page, PROT_NONE) != 0) {
    printf("no guard page\n");
    return;
  }
  uint8_t *text = pages + page - length;
  memcpy(text, json, length);
  jihluka_span span = {0, 0};
  jihluka_error error = {0, 0, 0, 0};
  uint32_t status = jihluka_get(text, length, bytes("[1]"), 3, &span, &error);
  if (status == JIHLUKA_OK) status = jihluka_validate(text, length, &error);
  if (status == JIHLUKA_OK) status = jihluka_get_unchecked(text, length, bytes("[1]"), 3, &span, &error);
  printf("at a guard page");
  if (status == JIHLUKA_OK) {
    print_span((const char *)text, span);
  } else {
    print_error(status, error);
  }
  printf("\n");
  munmap(pages, 2 * page);
}

/* A path of so many nodes, [0,0,..]. */
static void show_long_path(int nodes) {
  static char path[1024];
  char *end = path;
  *end++ = '[';
  for (int i = 0; i < nodes; i++) {
    if (i > 0) *end++ = ',';
    *end++ = '0';
  }
  *end++ = ']';
  *end = '\0';
  show_field("[0]", path);
}

int main(void) {
  const char *body = "{\"iss\": \"https://id.example\", \"sub\": \"u-17\",\n \"roles\": [\"reader\", \"editor\"]}";
  const char *fields = "[\"sub\"]\n[\"roles\", 1]\n[\"exp\"]\n";

  show_field(body, "[\"sub\"]");
  show_fields(body, fields);
  show_judged(body, fields);

  /* What leads nowhere, and what is broken. */
  show_field(body, "[\"exp\"]");
  show_field(body, "[\"sub\", 0]");
  show_field("", "[]");
  show_field("{\"sub\": \"u", "[\"sub\"]");
  show_field("{\"sub\": nil}", "[\"sub\"]");
  show_field("{\"sub\": \"\xff\"}", "[\"sub\"]");
  show_judged("[1] 2", fields);
  show_judged("{\"a\": \"\xff\"}", fields);

  /* Paths that are none, and of which there are too few. */
  show_field(body, "");
  show_field(body, "\"sub\"");
  show_field(body, "[\"sub\"");
  show_long_path(255);
  show_long_path(256);
  show_fields(body, "[\"sub\"]\n[0]\n[]\n");
  show_fields(body, "[\"sub\"]\n\n[\"iss\"]\n[]\n");
  show_fields(body, "[\"sub\"]\n[\"iss\"]\n");

  show_words();
  show_at_a_guard_page("[\"\\\\\\\"]\", [\"the last one\"]]");
  return 0;
}
