/* What yyjson takes to read a document from standard input whole (`read`), and to write it without
   white space (`small`) or over lines with two blanks for each level (`wide`). */
#include <stdio.h>
#include <stdlib.h>
#include <string.h>
#include <unistd.h>

#include "yyjson.h"

/* All of standard input, with the room behind it that yyjson wants to read in place. */
static char *read_all(size_t *size) {
  size_t room = 1 << 20;
  char *bytes = malloc(room + YYJSON_PADDING_SIZE);
  *size = 0;
  for (ssize_t got; bytes && (got = read(STDIN_FILENO, bytes + *size, room - *size)) > 0;) {
    *size += got;
    if (*size == room) bytes = realloc(bytes, (room *= 2) + YYJSON_PADDING_SIZE);
  }
  if (bytes) memset(bytes + *size, 0, YYJSON_PADDING_SIZE);
  return bytes;
}

int main(int count, char **words) {
  size_t size, length;
  char *bytes = read_all(&size);
  if (!bytes || count < 2) return 7;
  yyjson_doc *document = yyjson_read_opts(bytes, size, YYJSON_READ_INSITU, NULL, NULL);
  if (!document) return 1;
  if (strcmp(words[1], "read") == 0) return 0;
  char *text = yyjson_write(document, strcmp(words[1], "wide") ? 0 : YYJSON_WRITE_PRETTY_TWO_SPACES, &length);
  if (!text) return 7;
  return fwrite(text, 1, length, stdout) == length ? 0 : 6;
}
