/* A gateway that asks many requests for the same fields: the paths are read once, and each thread keeps a list of
   its own. Beside it what the rules for equal keys find, and what a list goes through: it is refused, kept anew,
   given back twice. It prints a line for each case, which `run` compares with `expected_kept`. */
#include "jihluka.h"

#include <pthread.h>
#include <stdio.h>
#include <stdlib.h>
#include <string.h>

static const char LINES[] = "[\"id\"]\n[\"user\",\"level\"]\n[\"total\"]\n";

static const uint8_t *bytes(const char *text) { return (const uint8_t *)text; }

/* A text in a block of its own length, so that a byte read beyond it is seen. */
static char *copy(const char *text) {
  size_t length = strlen(text);
  char *block = malloc(length > 0 ? length : 1);
  if (block == NULL) abort();
  memcpy(block, text, length);
  return block;
}

static void keep(jihluka_paths *paths, const char *lines, uint32_t rule) {
  jihluka_error error = {0, 0, 0, 0};
  char *given = copy(lines);
  uint32_t status = jihluka_paths_new(bytes(given), strlen(lines), rule, paths, &error);
  /* The lines are not needed any more. */
  free(given);
  printf("keep %u: status %u, line %zu, %zu paths\n", (unsigned)rule, (unsigned)status, error.line, paths->count);
}

/* What one request comes to, by the call that looks at all it passes, and where that finds a document, by the
   one that doesn't. */
static void ask(jihluka_paths *paths, const char *json) {
  jihluka_span spans[3] = {{9, 9}, {9, 9}, {9, 9}}, again[3];
  jihluka_error error = {0, 0, 0, 0};
  char *text = copy(json);
  uint32_t status = jihluka_get_many_with(bytes(text), strlen(json), paths, spans, paths->count, &error);
  printf("ask: status %u", (unsigned)status);
  for (size_t i = 0; status == JIHLUKA_OK && i < paths->count; i++) {
    printf(spans[i].end > 0 ? " %.*s" : " -", (int)(spans[i].end - spans[i].start), text + spans[i].start);
  }
  if (status != JIHLUKA_OK) printf(" code %u at %zu:%zu (%zu)", (unsigned)error.code, error.line, error.column, error.offset);
  if (jihluka_validate(bytes(text), strlen(json), &error) == JIHLUKA_OK) {
    memcpy(again, spans, sizeof again);
    uint32_t same = jihluka_get_many_with_unchecked(bytes(text), strlen(json), paths, again, paths->count, &error);
    if (same != status || memcmp(again, spans, sizeof again) != 0) printf(" WRONG");
  }
  printf("\n");
  free(text);
}

enum { THREADS = 8, REQUESTS = 2000 };

/* A request, or one that is cut or asks for too little. */
static size_t request(char *room, size_t size, unsigned number) {
  int length = snprintf(room, size, "{\"id\":%u,\"user\":{\"name\":\"ada\",\"level\":%u},\"tags\":[%u,[]],\"total\":%u.5}", number, number % 9, number,
                        number / 3);
  if (number % 5 == 4) return (size_t)length - 1 - number % 40;
  return (size_t)length;
}

/* One thread asks all requests, and counts where the answer is another than that of `jihluka_get_many`. */
static void *serve(void *given) {
  size_t *wrong = given;
  jihluka_paths paths = JIHLUKA_NO_PATHS;
  jihluka_error error = {0, 0, 0, 0};
  if (jihluka_paths_new(bytes(LINES), strlen(LINES), JIHLUKA_KEYS_FIRST, &paths, &error) != JIHLUKA_OK) return NULL;
  for (unsigned i = 0; i < REQUESTS; i++) {
    char room[160];
    jihluka_span spans[3] = {{0, 0}, {0, 0}, {0, 0}}, want[3] = {{0, 0}, {0, 0}, {0, 0}};
    jihluka_error one = {0, 0, 0, 0}, other = {0, 0, 0, 0};
    size_t length = request(room, sizeof room, i);
    uint32_t status = jihluka_get_many_with(bytes(room), length, &paths, spans, 3, &one);
    uint32_t wanted = jihluka_get_many(bytes(room), length, bytes(LINES), strlen(LINES), want, 3, &other);
    *wrong += status != wanted || memcmp(spans, want, sizeof spans) != 0 || one.code != other.code || one.offset != other.offset;
  }
  jihluka_paths_free(&paths);
  return NULL;
}

int main(void) {
  jihluka_paths paths = JIHLUKA_NO_PATHS;
  jihluka_span span = {9, 9};
  jihluka_error error = {0, 0, 0, 0};

  keep(&paths, LINES, JIHLUKA_KEYS_FIRST);
  ask(&paths, "{\"total\":7,\"user\":{\"level\":3},\"id\":\"x\"}");
  ask(&paths, "{\"user\":{\"level\":[]}}");
  ask(&paths, "{\"user\":5}");
  ask(&paths, "{\"id\":1,\"user\":{\"level\":2},\"total\":3} and more");
  ask(&paths, "{\"id\":1,\"user\":{\"level\":2},\"total\":tru}");
  ask(&paths, "");

  /* Which of equal keys counts. */
  const char *twice = "{\"id\":1,\"id\":2,\"user\":{\"level\":3,\"l\\u0065vel\":4},\"total\":0}";
  ask(&paths, twice);
  keep(&paths, LINES, JIHLUKA_KEYS_LAST);
  ask(&paths, twice);
  keep(&paths, LINES, JIHLUKA_KEYS_REFUSE);
  ask(&paths, twice);
  ask(&paths, "{\"id\":1}");

  /* What is refused leaves what was kept. */
  keep(&paths, "[\"id\"]\n[1]\n", JIHLUKA_KEYS_FIRST);
  keep(&paths, "[]", 3);
  ask(&paths, twice);
  uint32_t status = jihluka_get_many_with(bytes("{}"), 2, &paths, &span, 1, &error);
  printf("one span: status %u, %zu paths\n", (unsigned)status, error.line);

  /* Given back twice, and kept in again. */
  jihluka_paths_free(&paths);
  jihluka_paths_free(&paths);
  printf("freed: %zu paths\n", paths.count);
  ask(&paths, "[");
  keep(&paths, "[0]\n[0]", JIHLUKA_KEYS_FIRST);
  ask(&paths, "[[1,2]]");
  keep(&paths, "", JIHLUKA_KEYS_LAST);
  ask(&paths, "[");
  jihluka_paths_free(&paths);

  pthread_t threads[THREADS];
  size_t wrong[THREADS] = {0}, sum = 0;
  for (int i = 0; i < THREADS; i++) {
    if (pthread_create(&threads[i], NULL, serve, &wrong[i]) != 0) return 2;
  }
  for (int i = 0; i < THREADS; i++) {
    if (pthread_join(threads[i], NULL) != 0) return 2;
    sum += wrong[i];
  }
  printf("%d threads, %d requests each: %zu wrong\n", THREADS, REQUESTS, sum);
  return 0;
}
