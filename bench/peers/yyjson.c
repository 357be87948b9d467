/* The program's contract by yyjson: path lines, an empty line and a document come in, and `LEN TEXT`
   or `-` goes out for each path. yyjson keeps no text: it writes a value anew, without the blanks.
   The status is 1 where the document is refused; then the reason goes to standard error. */
#define _GNU_SOURCE /* memmem */
#include <stdbool.h>
#include <stdio.h>
#include <stdlib.h>
#include <string.h>
#include <unistd.h>

#include "yyjson.h"

/* All of standard input, with the room behind it that yyjson wants to read in place. */
static char *read_all(size_t *size) {
    size_t room = 1 << 20;
    char *bytes = NULL;
    *size = 0;
    for (;;) {
        bytes = realloc(bytes, room + YYJSON_PADDING_SIZE);
        if (!bytes) return NULL;
        while (*size < room) {
            ssize_t got = read(STDIN_FILENO, bytes + *size, room - *size);
            if (got < 0) return NULL;
            if (got == 0) {
                memset(bytes + *size, 0, YYJSON_PADDING_SIZE);
                return bytes;
            }
            *size += got;
        }
        room *= 2;
    }
}

/* The elements of the root, where it is an array: yyjson goes from the first one for each index. */
static yyjson_val **elements_of(yyjson_val *root) {
    yyjson_val **elements = malloc((yyjson_arr_size(root) + 1) * sizeof *elements);
    yyjson_val *element;
    size_t index, count;
    if (!elements) exit(7);
    yyjson_arr_foreach(root, index, count, element) elements[index] = element;
    return elements;
}

/* The value where a path leads, or NULL where an object lacks a key of it. */
static bool follow(yyjson_val *root, yyjson_val **elements, yyjson_val *path, yyjson_val **found) {
    yyjson_val *value = root, *step;
    yyjson_arr_iter steps = yyjson_arr_iter_with(path);
    while (value && (step = yyjson_arr_iter_next(&steps))) {
        if (yyjson_is_str(step) && yyjson_is_obj(value)) {
            value = yyjson_obj_getn(value, yyjson_get_str(step), yyjson_get_len(step));
        } else if (yyjson_is_uint(step) && yyjson_get_uint(step) < yyjson_arr_size(value)) {
            size_t index = yyjson_get_uint(step);
            value = value == root ? elements[index] : yyjson_arr_get(value, index);
        } else {
            return false;
        }
    }
    *found = value;
    return true;
}

static void report(yyjson_val *value) {
    size_t length;
    char *text = value ? yyjson_val_write(value, 0, &length) : NULL;
    if (text) {
        printf("%zu ", length);
        fwrite(text, 1, length, stdout);
        putchar('\n');
        free(text);
    } else {
        puts("-");
    }
}

int main(void) {
    size_t size;
    char *input = read_all(&size);
    if (!input) return 5;
    char *blank = memmem(input, size, "\n\n", 2);
    if (!blank) return 3;
    char *document = blank + 2;

    /* Numbers keep their text, as in the other readers. */
    yyjson_read_flag flags = YYJSON_READ_INSITU | YYJSON_READ_NUMBER_AS_RAW;
    yyjson_read_err error;
    yyjson_doc *read = yyjson_read_opts(document, input + size - document, flags, NULL, &error);
    if (!read) {
        fprintf(stderr, "%s\n", error.msg);
        return 1;
    }
    yyjson_val *root = yyjson_doc_get_root(read), **elements = elements_of(root);
    for (char *line = input; line <= blank;) {
        char *end = memchr(line, '\n', document - line);
        yyjson_doc *path = yyjson_read(line, end - line, 0);
        yyjson_val *found;
        if (!path) return 3;
        if (!follow(root, elements, yyjson_doc_get_root(path), &found)) return 1;
        report(found);
        yyjson_doc_free(path);
        line = end + 1;
    }
    return fflush(stdout) == 0 ? 0 : 6;
}
