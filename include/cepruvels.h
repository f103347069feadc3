/* Cepruvels for C: the calls of the crates `swift_demangle` (reading) and `swift_shape` (shape
 * check), as `capi` and `capi_check` export them.
 *
 * `rt lib` in crates/capi proves the four calls of the reading and writes out/libcapi.a there
 * (x86-64 Linux). `rt lib` in crates/capi_check proves those of the shape check and writes
 * out/libcapi_check.a there. Link the archive that has your calls, or both. They need memcpy and
 * memset of the C library and nothing else. They export the functions below and no other
 * name, so that they can be linked together with Swift's own runtime, whose libswiftCore.so exports
 * a `swift_demangle` with another signature.
 *
 * The calls allocate nothing, keep nothing from one call to the next and write only where this
 * comment says so. Any number of threads may call at the same time, each with its own memory. The
 * answer of each call is proved equal to the definition (crates/definition/specs).
 *
 * What every call takes
 *
 *   text, text_length       The name, in UTF-8, with no NUL after it. A symbol begins with $s, _$s,
 *                           $S or _$S; a type has no prefix.
 *   ceiling                 N, 1 to 65,536: how many nodes may be charged. 256 is enough for nearly
 *                           all names of shipped binaries, and 65,536 for every name that any call
 *                           reads.
 *   workspace, .._length    Scratch memory in numbers of 32 bits: 64 x N of them for a reading,
 *                           8 x N for a shape check (the macros below). It need not be cleared. The
 *                           contents of the first 64 x N (8 x N) numbers are unspecified
 *                           afterwards. The numbers after them are unchanged, and all numbers are
 *                           unchanged if the answer is 1 to 5.
 *   out, out_length         Where the text (bytes) or the stack (numbers of 32 bits) is written;
 *                           its length counts elements. Only the first `length` elements are
 *                           written, no NUL after them, and none if the call refuses.
 *   answer                  Six numbers, all written by every call; their indices are the
 *                           enumeration below.
 *
 * No pointer may be NULL, not even with a length of 0, and each must be aligned for its type.
 * workspace, out and answer must not overlap each other or the text. The lengths must be true: the
 * calls trust them.
 *
 * The answer
 *
 *   number   0 accepted, or the refusal, 1 to 12
 *   place    0 if accepted; otherwise the offset in the text that the list below gives
 *   steps    operators read          \
 *   total    nodes charged            > all 0 if the call refuses
 *   wraps    types wrapped in others /
 *   length   the number of elements of out that were written; 0 if the call refuses, and for a
 *            whole shape check
 *
 * The refusals; the first one that applies is returned
 *
 *    1  the ceiling is 0 or above 65,536                                 place 0
 *    2  the workspace has fewer than 64 x N (shape check: 8 x N)         place 0
 *       numbers
 *    3  the text has more than 65,535 bytes                              place 0
 *    4  the text is not UTF-8                                            place: its first
 *                                                                        ill-formed sequence
 *    5  a symbol has no prefix, or nothing after it (never for a type)   place 0
 *    6  a 4,097th operator                                               \
 *    7  more than N nodes charged                                         |
 *    8  a 257th wrap, or a 257th count after `r`                          |  place: the operator's
 *    9  a letter, number, index, word or literal that breaks a rule, or   |  first byte
 *       a text that ends inside an operator                               |
 *   10  a node missing from the stack, or of the wrong kind              /
 *   11  not exactly one node left, or a bare identifier; for a type, a   place: the body's end
 *       node that is not a type
 *   12  the text (stopped: the stack) has more elements than out         place 0
 *
 * A shape check gives the same answer as the reading, for every text and ceiling, except for 12,
 * which a whole shape check never gives, and for the length of a whole shape check.
 *
 * A stopped call ends after k operators, or at the end of the body if that comes first. Instead of
 * a text it writes the stack, bottom first, three numbers for each entry: kind (0 to 34), size and
 * count. It never answers 11.
 */
#ifndef CEPRUVELS_H
#define CEPRUVELS_H

#include <stddef.h>
#include <stdint.h>

#ifdef __cplusplus
extern "C" {
#endif

/* The indices of the numbers of an answer, and their count. */
enum {
    CEPRUVELS_ANSWER_NUMBER,
    CEPRUVELS_ANSWER_PLACE,
    CEPRUVELS_ANSWER_STEPS,
    CEPRUVELS_ANSWER_TOTAL,
    CEPRUVELS_ANSWER_WRAPS,
    CEPRUVELS_ANSWER_LENGTH,
    CEPRUVELS_ANSWER_SIZE
};

/* The values of CEPRUVELS_ANSWER_NUMBER. */
enum {
    CEPRUVELS_ACCEPTED,
    CEPRUVELS_REFUSED_CEILING,
    CEPRUVELS_REFUSED_WORKSPACE,
    CEPRUVELS_REFUSED_LENGTH,
    CEPRUVELS_REFUSED_ENCODING,
    CEPRUVELS_REFUSED_PREFIX,
    CEPRUVELS_REFUSED_STEPS,
    CEPRUVELS_REFUSED_CHARGE,
    CEPRUVELS_REFUSED_NESTING,
    CEPRUVELS_REFUSED_SPELLING,
    CEPRUVELS_REFUSED_STACK,
    CEPRUVELS_REFUSED_LEFTOVER,
    CEPRUVELS_REFUSED_OUTPUT
};

#define CEPRUVELS_MOST_CEILING 65536
#define CEPRUVELS_MOST_TEXT 65535
#define CEPRUVELS_READING_NUMBERS(N) (64 * (size_t)(N))
#define CEPRUVELS_SHAPE_NUMBERS(N) (8 * (size_t)(N))

/* Reads a symbol and writes its text, with the suffix. */
void cepruvels_demangle(const uint8_t *text, size_t text_length, size_t ceiling,
                        uint32_t *workspace, size_t workspace_length, uint8_t *out,
                        size_t out_length, uint64_t answer[CEPRUVELS_ANSWER_SIZE]);

/* Reads a type and writes its text. */
void cepruvels_demangle_type(const uint8_t *text, size_t text_length, size_t ceiling,
                             uint32_t *workspace, size_t workspace_length, uint8_t *out,
                             size_t out_length, uint64_t answer[CEPRUVELS_ANSWER_SIZE]);

/* Checks the shape of a symbol: the same number, place and counts as the reading, with an eighth of
 * the workspace, and no text. */
void cepruvels_shape(const uint8_t *text, size_t text_length, size_t ceiling, uint32_t *workspace,
                     size_t workspace_length, uint64_t answer[CEPRUVELS_ANSWER_SIZE]);

/* Checks the shape of a type. */
void cepruvels_shape_type(const uint8_t *text, size_t text_length, size_t ceiling,
                          uint32_t *workspace, size_t workspace_length,
                          uint64_t answer[CEPRUVELS_ANSWER_SIZE]);

/* The four calls above, stopped after k operators. */
void cepruvels_demangle_stopped(const uint8_t *text, size_t text_length, size_t ceiling, size_t k,
                                uint32_t *workspace, size_t workspace_length, uint32_t *out,
                                size_t out_length, uint64_t answer[CEPRUVELS_ANSWER_SIZE]);
void cepruvels_demangle_type_stopped(const uint8_t *text, size_t text_length, size_t ceiling,
                                     size_t k, uint32_t *workspace, size_t workspace_length,
                                     uint32_t *out, size_t out_length,
                                     uint64_t answer[CEPRUVELS_ANSWER_SIZE]);
void cepruvels_shape_stopped(const uint8_t *text, size_t text_length, size_t ceiling, size_t k,
                             uint32_t *workspace, size_t workspace_length, uint32_t *out,
                             size_t out_length, uint64_t answer[CEPRUVELS_ANSWER_SIZE]);
void cepruvels_shape_type_stopped(const uint8_t *text, size_t text_length, size_t ceiling, size_t k,
                                  uint32_t *workspace, size_t workspace_length, uint32_t *out,
                                  size_t out_length, uint64_t answer[CEPRUVELS_ANSWER_SIZE]);

#ifdef __cplusplus
}
#endif

#endif
