/* The parser of Starlark that is proved in Rattle, for C and its callers: link libstarlark_c.a (crates/starlark_c), and three
 * functions that allocate memory (bindings/c/heap.c, over malloc). The library has no state of its own, so any thread may call it at
 * any time. When a call returns, it has freed all memory that it allocated. */
#ifndef STARLARK_H
#define STARLARK_H

#include <stddef.h>
#include <stdint.h>

#ifdef __cplusplus
extern "C" {
#endif

/* A dialect: the sum of the parts that a text may use. It has at most one of the two on types. */
#define STARLARK_DEF 1u
#define STARLARK_LAMBDA 2u
#define STARLARK_LOAD 4u
#define STARLARK_KEYWORD_ONLY_ARGUMENTS 8u
#define STARLARK_POSITIONAL_ONLY_ARGUMENTS 16u
#define STARLARK_TOP_LEVEL_STMT 32u
#define STARLARK_F_STRINGS 64u
#define STARLARK_TYPES_PARSE_ONLY 128u
#define STARLARK_TYPES 256u

#define STARLARK_BARE 0u
#define STARLARK_STANDARD (STARLARK_DEF | STARLARK_LAMBDA | STARLARK_LOAD)
#define STARLARK_ALL (127u | STARLARK_TYPES)

/* The format of the result: the JSON of docs/JSON.md, or the compact format of docs/COMPACT.md, which is shorter and can be read
 * without recursion. */
#define STARLARK_JSON 1u
#define STARLARK_COMPACT 2u

/* The status that a call returns. */
#define STARLARK_DONE 0u      /* out[0] .. out[*len - 1] is the result: a module, or the error of the text and its position */
#define STARLARK_TOO_SMALL 1u /* the result has *len bytes, more than out_len; out is unchanged */
#define STARLARK_NO_MEMORY 2u /* an allocation failed; out is unchanged */
#define STARLARK_NOT_UTF8 3u  /* the text is not UTF-8; out is unchanged */
#define STARLARK_UNKNOWN 4u   /* this version has no such dialect or format; out is unchanged */

/* The limit on how deep tokens nest in starlark_parse. */
#define STARLARK_DEPTH 250u

/* The version of the formats. This header is of version 1. */
uint32_t starlark_version(void);

/* Parses the text of text_len bytes, and writes the result to out, which has out_len bytes. It sets *len to the length of the result
 * if it returns STARLARK_DONE or STARLARK_TOO_SMALL, and to 0 otherwise. The file's name in a result is "input".
 *
 * No pointer may be null, even if a length is 0. The memory that text, out and len point to must not overlap, and out must be
 * initialised (as by calloc). Most results have less than 40 bytes for each byte of the text, or 20 in the compact format, and 512
 * more.
 *
 * If a token nests deeper than STARLARK_DEPTH, the text is refused at that token: the status is STARLARK_DONE, and the result is the
 * error "Lexer" with the message "TooDeep". Delimiters, f-strings, blocks and lambdas count, and the operators, dots and keywords
 * beside each other up to the next comma or the end of the line; hand-written files nest less than 100 deep. The call recurses no
 * deeper than that, on the stack of its thread: less than 384 KB were measured, and twice as much if the library is built without
 * proof. It is proved that the tree is at most six nodes higher than the limit; the bytes of stack are only measured. */
uint32_t starlark_parse(const uint8_t *text, size_t text_len, uint32_t dialect, uint32_t format, uint8_t *out, size_t out_len,
                        size_t *len);

/* The same with the limit `depth`. The stack that was measured is at most 64 KB, and 1.35 KB for each level of the limit or for each
 * byte of the text, whichever are fewer; 3 KB instead if the library is built without proof. A stack that is made for a call should
 * have 2 KB for each of them, or 4 KB without proof: pages that are not touched take no memory. */
uint32_t starlark_parse_limited(const uint8_t *text, size_t text_len, uint32_t dialect, uint32_t format, uint32_t depth, uint8_t *out,
                                size_t out_len, size_t *len);

#ifdef __cplusplus
}
#endif

#endif
