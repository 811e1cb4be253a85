/* Tests of the library: each status, what is written, and the failure of each allocation in turn. The test has its own allocator. */
#include "starlark.h"
#include <stdbool.h>
#include <stdio.h>
#include <stdlib.h>
#include <string.h>

struct tried {
    bool ok;
    void *block;
};

static char nothing;
static long requests, refused = -1, live;

static struct tried tried(void *old, size_t size)
{
    if (requests++ == refused) {
        return (struct tried){false, &nothing};
    }
    live += old == NULL;
    return (struct tried){true, realloc(old, size ? size : 1)};
}

struct tried rattle_alloc(size_t size, size_t align)
{
    (void)align;
    return tried(NULL, size);
}

struct tried rattle_realloc(void *block, size_t kept, size_t size, size_t align)
{
    (void)kept, (void)align;
    return tried(block, size);
}

void rattle_dealloc(void *block)
{
    live--;
    free(block);
}

static uint8_t out[1 << 16];
static size_t len;

static void expect(bool holds, const char *what)
{
    if (!holds) {
        printf("not so: %s\n", what);
        exit(1);
    }
}

/* Whether the call of `parsed` left all bytes of out from this one on unchanged. */
static bool is_kept_from(size_t begin)
{
    while (begin < sizeof out && out[begin] == 0xaa) {
        begin++;
    }
    return begin == sizeof out;
}

static uint32_t parsed(const char *text, uint32_t dialect, uint32_t format, size_t room)
{
    memset(out, 0xaa, sizeof out);
    len = 12345;
    requests = 0;
    uint32_t status = starlark_parse((const uint8_t *)text, strlen(text), dialect, format, out, room, &len);
    expect(live == 0, "all memory is freed");
    expect(is_kept_from(status == STARLARK_DONE ? len : 0), "nothing else is written");
    return status;
}

struct bytes {
    const void *begin;
    size_t len;
};

static bool begins(struct bytes answer)
{
    return len >= answer.len && memcmp(out, answer.begin, answer.len) == 0;
}

static struct bytes text(const char *begin)
{
    return (struct bytes){begin, strlen(begin)};
}

/* Tests that the result for a text in a format begins so, and fits in exactly its length. If an allocation fails the result is the same
 * (some are optional), or there is none. */
static void test_format(const char *source, uint32_t format, struct bytes answer)
{
    expect(parsed(source, STARLARK_ALL, format, sizeof out) == STARLARK_DONE && begins(answer), source);
    size_t needed = len;
    long all = requests;
    expect(parsed(source, STARLARK_ALL, format, needed) == STARLARK_DONE && len == needed, "the room is enough");
    expect(parsed(source, STARLARK_ALL, format, needed - 1) == STARLARK_TOO_SMALL && len == needed, "one byte less is not");
    expect(parsed(source, STARLARK_ALL, format, 0) == STARLARK_TOO_SMALL && len == needed, "no room is not");
    for (refused = 0; refused < all; refused++) {
        uint32_t status = parsed(source, STARLARK_ALL, format, sizeof out);
        bool is_none = status == STARLARK_NO_MEMORY && len == 0;
        expect(is_none || (status == STARLARK_DONE && len == needed && begins(answer)), "an allocation fails");
    }
    refused = -1;
}

static void test_answer(const char *source, const char *json, struct bytes compact)
{
    test_format(source, STARLARK_JSON, text(json));
    test_format(source, STARLARK_COMPACT, compact);
}

/* The sample of docs/COMPACT.md, which is whole. */
#define N(n) n, 0, 0, 0
#define COUNT(n) N(n), N(0)
static const uint8_t sample[] = {
    N(1), N(0), COUNT(1), N(10), N(13), N(44), N(0), N(1), COUNT(1), 'x', N(28), N(9), N(4), N(5), N(1), N(7), N(8), N(9), COUNT(1), 'y',
    N(19), N(4), N(9), N(11), N(50), N(0), N(9),
};
static const uint8_t nothing_there[] = {N(1), N(0), COUNT(0), N(52), N(0), N(0), COUNT(0)};
static const uint8_t loads[] = {N(1), N(0), COUNT(1), N(31), N(34), N(57), N(0), N(14), N(5), N(8), COUNT(1), 'm', COUNT(1)};
static const uint8_t unexpected[] = {N(1), N(4), COUNT(29), 'P', 'a', 'r', 's', 'e'};
static const uint8_t of_lexer[] = {N(1), N(3), COUNT(16), 'U', 'n', 'f'};

int main(void)
{
    expect(starlark_version() == 1, "the version is that of the header");
    test_answer("", "{\"version\":1,\"file\":\"input\",\"comments\":[],\"statement\":{\"stmt\":\"Statements\",",
                (struct bytes){nothing_there, sizeof nothing_there});
    test_answer("x = 1 + y # c", "{\"version\":1,\"file\":\"input\",\"comments\":[[10,13]],", (struct bytes){sample, sizeof sample});
    expect(parsed("x = 1 + y # c", STARLARK_ALL, STARLARK_COMPACT, sizeof out) == STARLARK_DONE && len == sizeof sample, "no more");
    test_answer("load('m', 'a')\ndef f(x, *y):\n  # c\n  return [z for z in x if f\"{z}\"]\n", "{\"version\":1,\"file\":\"input\",\"comments\":[[",
                (struct bytes){loads, sizeof loads});
    test_answer("x = = 1\n", "{\"version\":1,\"error\":\"UnexpectedToken\",", (struct bytes){unexpected, sizeof unexpected});
    test_answer("x = '\n", "{\"version\":1,\"error\":\"Lexer\",", (struct bytes){of_lexer, sizeof of_lexer});
    expect(parsed("def f(): pass\n", STARLARK_BARE, STARLARK_JSON, sizeof out) == STARLARK_DONE
               && begins(text("{\"version\":1,\"error\":\"Dialect\",")), "a dialect has an error for a part that it lacks");
    expect(parsed("def f(): pass\n", STARLARK_STANDARD, STARLARK_JSON, sizeof out) == STARLARK_DONE && begins(text("{\"version\":1,\"file\"")),
           "another has it");
    expect(parsed("x = '\xff'\n", STARLARK_ALL, STARLARK_JSON, sizeof out) == STARLARK_NOT_UTF8 && len == 0, "no UTF-8");
    expect(parsed("x", 384, STARLARK_JSON, sizeof out) == STARLARK_UNKNOWN && len == 0, "no dialect has both kinds of types");
    expect(parsed("x", STARLARK_ALL, 0, sizeof out) == STARLARK_UNKNOWN && len == 0, "no format is 0");
    expect(parsed("x", STARLARK_ALL, 3, sizeof out) == STARLARK_UNKNOWN && len == 0, "nor 3");
    return 0;
}
