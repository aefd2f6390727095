/* miniserde.h: canonical texts of JSON documents (RFC 8259).
 *
 * The canonical text of a document has no whitespace. Each object has its names in the order of their UTF-8 bytes, and
 * each name once, with its last value. Strings have their shortest spelling. An integer from -2^63 to 2^64-1 is written
 * in decimal, -0 as 0, and any other number keeps its text. No text of a document with the same canonical text is
 * shorter than that text. It is not RFC 8785 (JCS).
 *
 * What each function says here of MINISERDE_OK, MINISERDE_INVALID, MINISERDE_ROOM and MINISERDE_DIFFERENT, of `out` and
 * of `*written` is proved of its code, for the calls that this page allows: the clauses are in
 * share/doc/miniserde/contract.rt. Only tested are that MINISERDE_MEMORY is returned only if an allocation failed, what a
 * call allocates and frees, and the stack that it takes. Not proved are the code of malloc and memcpy, the compiler, and
 * the caller.
 *
 * The library needs a processor with SSE4.2 (x86-64-v2) and does not check for it.
 *
 * What every call requires of its caller:
 *
 * - No pointer is null, also if the length beside it is 0. An empty std::string_view, std::span or std::vector may have
 *   a null pointer: pass "" instead. `text`, `a` and `b` point to that many initialized bytes, which need no zero behind
 *   them, and `out` to that many bytes. `*out` and `*written` may be uninitialized. No
 *   length is above PTRDIFF_MAX.
 * - Until the call returns, no thread writes the bytes of `text`, `a` or `b`, and none reads or writes those of `out`
 *   and `*written`. `out`, `*written` and the texts do not overlap, except that `a` and `b` may.
 * - malloc, realloc and free come from one allocator, which aligns each block to every power of two up to 16 that
 *   divides its size. Every C library's does.
 * - It is not made from a signal handler, nor in the forked child of a process with threads before it calls exec.
 *
 * There is no other state: any threads may call at the same time. A call frees all that it allocates before it returns.
 * It does not call back, print or end the process, and malloc may set errno. Documents may nest to any depth: the stack
 * that a call takes does not depend on the text.
 */
#ifndef MINISERDE_H
#define MINISERDE_H

#include <stddef.h>
#include <stdint.h>

#define MINISERDE_VERSION "0.1.0"

#ifdef __cplusplus
extern "C" {
#endif

/* The status of a call. A later version may add statuses. */
enum miniserde_status {
    /* The call did what it says. For miniserde_equal: the documents are equal. */
    MINISERDE_OK = 0,
    /* The bytes are not a JSON text in UTF-8. */
    MINISERDE_INVALID = 1,
    /* An allocation failed. */
    MINISERDE_MEMORY = 2,
    /* `out` is too short. */
    MINISERDE_ROOM = 3,
    /* Only of miniserde_equal: both texts are JSON, and the documents differ. */
    MINISERDE_DIFFERENT = 4
};
typedef enum miniserde_status miniserde_status;

/* The library returns 32 bits: with -fshort-enums the calls below would be wrong. */
#if defined(__cplusplus) && __cplusplus >= 201103L
static_assert(sizeof(miniserde_status) == 4, "miniserde_status has 32 bits");
#elif defined(__STDC_VERSION__) && __STDC_VERSION__ >= 201112L
_Static_assert(sizeof(miniserde_status) == 4, "miniserde_status has 32 bits");
#endif

#if defined(__GNUC__) && __GNUC__ >= 11 && !defined(__clang__)
#define MINISERDE_ACCESS(mode, at, size) __attribute__((access(mode, at, size)))
#else
#define MINISERDE_ACCESS(mode, at, size)
#endif
#if defined(__GNUC__)
#define MINISERDE_CALL __attribute__((warn_unused_result, nonnull, nothrow))
#else
#define MINISERDE_CALL
#endif

/* Writes the canonical text of the `text_len` bytes at `text` to the front of the `out_len` bytes at `out`, without a
 * zero behind it, and its length to `*written`. The bytes of `out` behind it stay as they were.
 *
 * An `out` as long as the text is long enough: then the status is never MINISERDE_ROOM.
 * With an `out_len` of 0 the status is never MINISERDE_OK. For a JSON text it is MINISERDE_ROOM, unless an allocation
 * fails, and `*written` is the length of the canonical text: `out` may be any pointer that is not null.
 *
 * MINISERDE_INVALID  the bytes are not JSON in UTF-8. `*written` is 0.
 * MINISERDE_MEMORY   an allocation failed. `*written` is 0.
 * MINISERDE_ROOM     `out_len` is less than the length of the canonical text, which `*written` has.
 *
 * With each of these `out` stays as it was. */
MINISERDE_CALL MINISERDE_ACCESS(read_only, 1, 2)
miniserde_status miniserde_canonical(const char *text, size_t text_len, char *out, size_t out_len, size_t *written);

/* Does the same for a text in which no object has a duplicate name, whatever its spelling, and returns
 * MINISERDE_INVALID for every other text. */
MINISERDE_CALL MINISERDE_ACCESS(read_only, 1, 2)
miniserde_status miniserde_canonical_unique(const char *text, size_t text_len, char *out, size_t out_len,
                                            size_t *written);

/* Returns MINISERDE_OK if two JSON texts have one canonical text, and MINISERDE_DIFFERENT if they have two. Returns
 * MINISERDE_INVALID if one of them is not JSON in UTF-8, and MINISERDE_MEMORY if an allocation failed. */
MINISERDE_CALL MINISERDE_ACCESS(read_only, 1, 2) MINISERDE_ACCESS(read_only, 3, 4)
miniserde_status miniserde_equal(const char *a, size_t a_len, const char *b, size_t b_len);

/* Returns MINISERDE_OK if the bytes are JSON in UTF-8, MINISERDE_INVALID if they are not, and MINISERDE_MEMORY if an
 * allocation failed. It allocates 32 bytes for up to 256 levels of depth, and at most two bits a level beyond that
 * (three while they grow). */
MINISERDE_CALL MINISERDE_ACCESS(read_only, 1, 2)
miniserde_status miniserde_is_json(const char *text, size_t text_len);

#undef MINISERDE_CALL
#undef MINISERDE_ACCESS

#ifdef __cplusplus
}
#endif

#endif
