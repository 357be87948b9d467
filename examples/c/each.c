/* A log reader that loses no field for another: each path is told where it leads, so a line whose "http" is null
   still has its level. It prints a line for each text, which `run` compares with `expected_each`. */
#include "jihluka.h"

#include <stdio.h>
#include <stdlib.h>
#include <string.h>

enum { PATHS = 3 };

static const char LINES[] = "[\"level\"]\n[\"http\",\"status\"]\n[\"tags\",1]\n";

static const uint8_t *bytes(const char *text) { return (const uint8_t *)text; }

/* What one path is told: the value, a dash where its key is missing, or the words of the code and the place. */
static void show(const char *text, const jihluka_outcome *outcome) {
  switch (outcome->status) {
    case JIHLUKA_PATH_FOUND:
      printf("  %.*s", (int)(outcome->span.end - outcome->span.start), text + outcome->span.start);
      break;
    case JIHLUKA_PATH_MISSING:
      printf("  - (at %zu)", outcome->place);
      break;
    default: {
      uint8_t room[128];
      size_t length = jihluka_code_text(outcome->code, room, sizeof room);
      printf("  %.*s (at %zu)", (int)length, (const char *)room, outcome->place);
    }
  }
}

/* Asks one text by the paths that are kept and by their lines, and where it is a document without a check. All
   tell the same. */
static void ask(jihluka_paths *paths, const char *text) {
  jihluka_outcome outcomes[PATHS], again[PATHS];
  jihluka_error error = {0, 0, 0, 0};
  size_t length = strlen(text);
  memset(outcomes, 0, sizeof outcomes);
  uint32_t status = jihluka_get_each_with(bytes(text), length, paths, outcomes, PATHS, &error);
  printf("%s\n", text);
  if (status != JIHLUKA_OK) printf("  status %u, code %u at %zu", (unsigned)status, (unsigned)error.code, error.offset);
  for (size_t i = 0; status == JIHLUKA_OK && i < PATHS; i++) show(text, &outcomes[i]);
  memset(again, 0, sizeof again);
  if (jihluka_get_each(bytes(text), length, bytes(LINES), strlen(LINES), again, PATHS, &error) != status ||
      memcmp(again, outcomes, sizeof again) != 0)
    printf("  WRONG by lines");
  if (jihluka_validate(bytes(text), length, &error) == JIHLUKA_OK) {
    memset(again, 0, sizeof again);
    if (jihluka_get_each_with_unchecked(bytes(text), length, paths, again, PATHS, &error) != status ||
        memcmp(again, outcomes, sizeof again) != 0)
      printf("  WRONG without a check");
    memset(again, 0, sizeof again);
    if (jihluka_get_each_unchecked(bytes(text), length, bytes(LINES), strlen(LINES), again, PATHS, &error) != status ||
        memcmp(again, outcomes, sizeof again) != 0)
      printf("  WRONG by lines without a check");
  }
  printf("\n");
}

int main(void) {
  static const char *const TEXTS[] = {
      "{\"level\":\"info\",\"http\":{\"status\":200},\"tags\":[\"a\",\"b\"]}",
      "{\"level\":\"info\",\"http\":null,\"tags\":[\"a\"]}",
      "{\"http\":{},\"tags\":7}",
      "{}",
      "null",
      "{\"level\":\"info\",\"http\":{\"status\":200},\"tags\":[0,1] then what follows",
      "{\"level\":\"info\",\"http\":{\"status\":200},\"tags\":[0",
  };
  jihluka_paths paths = JIHLUKA_NO_PATHS;
  jihluka_error error = {0, 0, 0, 0};
  if (jihluka_paths_new(bytes(LINES), strlen(LINES), JIHLUKA_KEYS_FIRST, &paths, &error) != JIHLUKA_OK) return 1;
  for (size_t i = 0; i < sizeof TEXTS / sizeof *TEXTS; i++) ask(&paths, TEXTS[i]);
  jihluka_outcome one;
  printf("one outcome for three paths: status %u", (unsigned)jihluka_get_each_with(bytes("{}"), 2, &paths, &one, 1, &error));
  printf(", %zu paths\n", error.line);
  jihluka_paths_free(&paths);
  return 0;
}
