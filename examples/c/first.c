#include <jihluka.h>

#include <stdio.h>
#include <string.h>

int main(void) {
  const char *json = "{\"user\": \"ada\", \"tags\": [\"a\", \"b\"]}";
  const char *path = "[\"tags\",1]";
  jihluka_span span = {0, 0};
  jihluka_error error = {0, 0, 0, 0};
  uint32_t status = jihluka_get((const uint8_t *)json, strlen(json), (const uint8_t *)path,
                                strlen(path), &span, &error);
  if (status == JIHLUKA_DOCUMENT_ERROR) {
    uint8_t words[128] = {0};
    size_t length = jihluka_code_text(error.code, words, sizeof words);
    printf("line %zu, column %zu: %.*s\n", error.line, error.column, (int)length, (const char *)words);
    return 1;
  }
  if (status != JIHLUKA_OK) return 2;
  printf("%.*s\n", (int)(span.end - span.start), json + span.start);
  return 0;
}
