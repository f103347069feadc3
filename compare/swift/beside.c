/* A program that contains both our calls, linked from the archives, and Swift's own runtime
 * library, which exports a function `swift_demangle`. It calls all of ours, each through a pointer
 * of the type that it must have, reads some names with both and compares the texts. ./beside builds
 * and runs it. */
#include "cepruvels.h"

#include <stdio.h>
#include <string.h>

/* libswiftCore.so has no header for it. */
char *swift_demangle(const char *name, size_t length, char *out, size_t *out_size, uint32_t flags);

typedef void reading(const uint8_t *text, size_t text_length, size_t ceiling, uint32_t *workspace,
                     size_t workspace_length, uint8_t *out, size_t out_length, uint64_t *answer);
typedef void check(const uint8_t *text, size_t text_length, size_t ceiling, uint32_t *workspace,
                   size_t workspace_length, uint64_t *answer);
typedef void stopped(const uint8_t *text, size_t text_length, size_t ceiling, size_t k, uint32_t *workspace,
                     size_t workspace_length, uint32_t *out, size_t out_length, uint64_t *answer);

/* The four calls of a symbol, and those of a type. */
struct calls {
    reading *reading;
    check *check;
    stopped *reading_stopped, *check_stopped;
};
static const struct calls symbol = {cepruvels_demangle, cepruvels_shape, cepruvels_demangle_stopped, cepruvels_shape_stopped};
static const struct calls type = {cepruvels_demangle_type, cepruvels_shape_type, cepruvels_demangle_type_stopped,
                                  cepruvels_shape_type_stopped};

enum { CEILING = 256, ROOM = 4096 };

static uint32_t workspace[CEPRUVELS_READING_NUMBERS(CEILING)];

/* Whether an answer is accepted with these numbers. */
static int is(const uint64_t *answer, uint64_t steps, uint64_t total, uint64_t wraps, uint64_t length) {
    return answer[CEPRUVELS_ANSWER_NUMBER] == CEPRUVELS_ACCEPTED && answer[CEPRUVELS_ANSWER_PLACE] == 0 &&
           answer[CEPRUVELS_ANSWER_STEPS] == steps && answer[CEPRUVELS_ANSWER_TOTAL] == total &&
           answer[CEPRUVELS_ANSWER_WRAPS] == wraps && answer[CEPRUVELS_ANSWER_LENGTH] == length;
}

/* The text from our reading. The check must give the same counts, and both, stopped at the end, the
 * same stack of one entry. */
static const char *ours(struct calls calls, const char *name) {
    static uint8_t out[ROOM];
    const uint8_t *text = (const uint8_t *)name;
    const size_t n = strlen(name), most = CEPRUVELS_READING_NUMBERS(CEILING), few = CEPRUVELS_SHAPE_NUMBERS(CEILING);
    uint64_t a[CEPRUVELS_ANSWER_SIZE], b[CEPRUVELS_ANSWER_SIZE];
    uint32_t stack[3], entries[3];
    calls.reading(text, n, CEILING, workspace, most, out, ROOM - 1, a);
    if (a[CEPRUVELS_ANSWER_NUMBER] != CEPRUVELS_ACCEPTED)
        return "(refused)";
    const uint64_t steps = a[CEPRUVELS_ANSWER_STEPS], total = a[CEPRUVELS_ANSWER_TOTAL], wraps = a[CEPRUVELS_ANSWER_WRAPS];
    out[a[CEPRUVELS_ANSWER_LENGTH]] = 0;
    calls.check(text, n, CEILING, workspace, few, b);
    if (!is(b, steps, total, wraps, 0))
        return "(the check answers otherwise)";
    calls.reading_stopped(text, n, CEILING, SIZE_MAX, workspace, most, stack, 3, a);
    calls.check_stopped(text, n, CEILING, SIZE_MAX, workspace, few, entries, 3, b);
    if (!is(a, steps, total, wraps, 3) || !is(b, steps, total, wraps, 3) || memcmp(stack, entries, sizeof stack))
        return "(stopped at the end, a call answers otherwise)";
    return (const char *)out;
}

static const char *swifts(const char *name) {
    static char out[ROOM];
    size_t room = ROOM;
    return swift_demangle(name, strlen(name), out, &room, 0) ? out : "(none)";
}

/* Prints a name and its text. Returns whether the text is the expected one. */
static int as(const char *name, const char *text, const char *must) {
    int same = strcmp(text, must) == 0;
    printf("%s: %s%s%s\n", name, text, same ? "" : ", and it must be ", same ? "" : must);
    return same;
}

int main(void) {
    static const char *names[] = {"$s4main3fooyyF", "$s4main3FooV1aACvp", "_$s4main3foo3barySi_tF"};
    int good = as("SiSg", ours(type, "SiSg"), "Swift.Int?");
    for (size_t i = 0; i < sizeof names / sizeof names[0]; i++)
        good &= as(names[i], ours(symbol, names[i]), swifts(names[i]));
    return !good;
}
