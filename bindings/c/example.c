/* Reads Starlark from standard input and writes the tree, or the error, as JSON: see README.md. */
#include "starlark.h"
#include <stdio.h>
#include <stdlib.h>

/* Returns standard input and its length, or null if an allocation fails. */
static uint8_t *input(size_t *length)
{
    size_t room = 1 << 16, count = 0;
    uint8_t *text = malloc(room);
    while (text) {
        size_t read = fread(text + count, 1, room - count, stdin);
        if (read == 0) {
            break;
        }
        count += read;
        if (count == room) {
            uint8_t *more = realloc(text, room *= 2);
            if (!more) {
                free(text);
            }
            text = more;
        }
    }
    *length = count;
    return text;
}

int main(void)
{
    size_t text_len, len = 0;
    uint8_t *text = input(&text_len);
    if (!text) {
        return 3;
    }
    size_t out_len = 40 * text_len + 512;
    uint8_t *out = calloc(out_len, 1);
    uint32_t status = STARLARK_TOO_SMALL;
    while (out && (status = starlark_parse(text, text_len, STARLARK_ALL, STARLARK_JSON, out, out_len, &len)) == STARLARK_TOO_SMALL) {
        free(out);
        out_len = len;
        out = calloc(out_len, 1);
    }
    int failed = !out || status != STARLARK_DONE;
    if (failed) {
        fprintf(stderr, "no result: status %u\n", out ? (unsigned)status : STARLARK_NO_MEMORY);
    } else {
        failed = fwrite(out, 1, len, stdout) != len || putchar('\n') == EOF;
    }
    free(out);
    free(text);
    return failed;
}
