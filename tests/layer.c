/*
 * The header's calls without the library: in place of its functions stand ones that note what they
 * are handed. Every term, number and buffer is handed on as it is, but for null with length 0:
 * that becomes an aligned address. The answer is handed back, and the version's function is called.
 * It is C11 and C++17, and prints one line.
 */
#include <stdbool.h>
#include <stdio.h>
#include <stdlib.h>
#include <string.h>

#include "relief.h"

enum { TERMS = 7, BUFFERS = 5, NUMBERS = 10 };

/* The arguments of a call, each kind in its order; 0 and null where a call has no more of them. */
struct arguments {
    uint32_t terms[TERMS];
    const void *buffers[BUFFERS];
    size_t lengths[BUFFERS];
    const void *numbers[NUMBERS];
};

static struct arguments handed;
static int versions;

/* What the functions in place of the library's give. */
enum { ANSWER = 1234 };

static uint32_t note(struct arguments arguments)
{
    handed = arguments;
    return ANSWER;
}

uint32_t RELIEF_VERSION_FUNCTION(void)
{
    versions++;
    return RELIEF_VERSION_PATCH;
}

uint32_t relief_call_price(
    uint32_t width, uint32_t height, uint32_t weight, uint8_t low, uint8_t high,
    const uint8_t *samples, size_t samples_len, const int32_t *weights, size_t weights_len,
    const int32_t *image, size_t image_len, uint64_t *place, uint32_t *outcome, uint32_t *moved,
    uint64_t *price, int64_t *floor, uint64_t *slack)
{
    struct arguments a = {
        {width, height, weight, low, high},
        {samples, weights, image},
        {samples_len, weights_len, image_len},
        {place, outcome, moved, price, floor, slack},
    };
    return note(a);
}

uint32_t relief_call_check(
    uint32_t width, uint32_t height, uint32_t weight, uint8_t low, uint8_t high,
    const uint8_t *samples, size_t samples_len, const int32_t *weights, size_t weights_len,
    const int32_t *flow, size_t flow_len, int32_t *image, size_t image_len, uint64_t *place,
    uint32_t *outcome, uint32_t *moved, uint64_t *price, int64_t *floor, uint64_t *slack)
{
    struct arguments a = {
        {width, height, weight, low, high},
        {samples, weights, flow, image},
        {samples_len, weights_len, flow_len, image_len},
        {place, outcome, moved, price, floor, slack},
    };
    return note(a);
}

uint32_t relief_call_run(
    uint32_t width, uint32_t height, uint32_t weight, uint8_t low, uint8_t high, uint32_t quick,
    uint16_t allowance, const uint8_t *samples, size_t samples_len, const int32_t *weights,
    size_t weights_len, int32_t *flow, size_t flow_len, int32_t *image, size_t image_len,
    int32_t *work, size_t work_len, uint64_t *place, uint32_t *outcome, uint32_t *moved,
    uint64_t *price, int64_t *floor, uint64_t *slack)
{
    struct arguments a = {
        {width, height, weight, low, high, quick, allowance},
        {samples, weights, flow, image, work},
        {samples_len, weights_len, flow_len, image_len, work_len},
        {place, outcome, moved, price, floor, slack},
    };
    return note(a);
}

uint32_t relief_call_read(
    const uint8_t *tape, size_t tape_len, uint8_t *samples, size_t samples_len, int32_t *weights,
    size_t weights_len, int32_t *flow, size_t flow_len, uint64_t *place, uint32_t *width,
    uint32_t *height, uint32_t *weight, uint8_t *low, uint8_t *high, uint32_t *quick,
    uint16_t *allowance, uint32_t *weighted, uint32_t *flowed)
{
    struct arguments a = {
        {0},
        {tape, samples, weights, flow},
        {tape_len, samples_len, weights_len, flow_len},
        {place, width, height, weight, low, high, quick, allowance, weighted, flowed},
    };
    return note(a);
}

uint32_t relief_call_write(
    uint32_t width, uint32_t height, uint32_t weight, uint8_t low, uint8_t high, uint32_t quick,
    uint16_t allowance, const uint8_t *samples, size_t samples_len, const int32_t *weights,
    size_t weights_len, const int32_t *flow, size_t flow_len, uint8_t *output, size_t output_len,
    uint64_t *place, uint64_t *count)
{
    struct arguments a = {
        {width, height, weight, low, high, quick, allowance},
        {samples, weights, flow, output},
        {samples_len, weights_len, flow_len, output_len},
        {place, count},
    };
    return note(a);
}

/* What the calls are lent: nothing reads or writes it. */
static uint64_t buffers[BUFFERS], numbers[NUMBERS];

struct lent {
    void *buffers[BUFFERS];
    size_t lengths[BUFFERS];
};

#define ALL_TERMS 11, 12, 13, 14, 15
#define ALL_ROUNDS 16, 17
#define BYTES(i) (uint8_t *)lent->buffers[i], lent->lengths[i]
#define VALUES(i) (int32_t *)lent->buffers[i], lent->lengths[i]
#define NUMBER(type, i) (type *)&numbers[i]
#define FIGURES                                                                                    \
    NUMBER(uint64_t, 0), NUMBER(uint32_t, 1), NUMBER(uint32_t, 2), NUMBER(uint64_t, 3),            \
        NUMBER(int64_t, 4), NUMBER(uint64_t, 5)

static uint32_t make_price(const struct lent *lent)
{
    return relief_price(ALL_TERMS, BYTES(0), VALUES(1), VALUES(2), FIGURES);
}

static uint32_t make_check(const struct lent *lent)
{
    return relief_check(ALL_TERMS, BYTES(0), VALUES(1), VALUES(2), VALUES(3), FIGURES);
}

static uint32_t make_run(const struct lent *lent)
{
    return relief_run(
        ALL_TERMS, ALL_ROUNDS, BYTES(0), VALUES(1), VALUES(2), VALUES(3), VALUES(4), FIGURES);
}

static uint32_t make_read(const struct lent *lent)
{
    return relief_read(
        BYTES(0), BYTES(1), VALUES(2), VALUES(3), NUMBER(uint64_t, 0), NUMBER(uint32_t, 1),
        NUMBER(uint32_t, 2), NUMBER(uint32_t, 3), NUMBER(uint8_t, 4), NUMBER(uint8_t, 5),
        NUMBER(uint32_t, 6), NUMBER(uint16_t, 7), NUMBER(uint32_t, 8), NUMBER(uint32_t, 9));
}

static uint32_t make_write(const struct lent *lent)
{
    return relief_write(
        ALL_TERMS, ALL_ROUNDS, BYTES(0), VALUES(1), VALUES(2), BYTES(3), NUMBER(uint64_t, 0),
        NUMBER(uint64_t, 1));
}

/* A call, with the size in bytes of each buffer's values, and its numbers of terms, buffers and
   numbers. */
static const struct call {
    const char *name;
    uint32_t (*make)(const struct lent *);
    size_t sizes[BUFFERS];
    int terms, buffers, numbers;
} CALLS[] = {
    {"price", make_price, {1, 4, 4}, 5, 3, 6},
    {"check", make_check, {1, 4, 4, 4}, 5, 4, 6},
    {"run", make_run, {1, 4, 4, 4, 4}, 7, 5, 6},
    {"read", make_read, {1, 1, 4, 4}, 0, 4, 10},
    {"write", make_write, {1, 4, 4, 1}, 7, 4, 2},
};

static int calls, failures;

static void expect(bool holds, const struct call *call, const char *what, int which)
{
    if (holds)
        return;
    printf("FAILED %s: %s %d\n", call->name, what, which);
    failures++;
}

static void expect_handed(const struct call *call, const struct lent *lent)
{
    int before = versions;
    calls++;
    memset(&handed, 0, sizeof handed);
    expect(call->make(lent) == ANSWER, call, "the answer", 0);
    expect(versions == before + 1, call, "the version's function", 0);
    for (int i = 0; i < TERMS; i++)
        expect(handed.terms[i] == (i < call->terms ? 11u + (unsigned)i : 0), call, "term", i);
    for (int i = 0; i < NUMBERS; i++)
        expect(handed.numbers[i] == (i < call->numbers ? &numbers[i] : NULL), call, "number", i);
    for (int i = 0; i < call->buffers; i++) {
        expect(handed.lengths[i] == lent->lengths[i], call, "length", i);
        if (lent->buffers[i] || lent->lengths[i] != 0)
            expect(handed.buffers[i] == lent->buffers[i], call, "buffer", i);
        else
            expect(
                handed.buffers[i] && (uintptr_t)handed.buffers[i] % call->sizes[i] == 0, call,
                "null with length 0 for buffer", i);
    }
}

/* Each buffer as it is, with length 0, null with length 0, and null with a length, which is a
   caller's mistake and must not become a buffer of that length; then all null with length 0. */
static void test(const struct call *call)
{
    struct lent whole, none;
    for (int i = 0; i < BUFFERS; i++) {
        whole.buffers[i] = &buffers[i];
        whole.lengths[i] = 100 + (size_t)i;
        none.buffers[i] = NULL;
        none.lengths[i] = 0;
    }
    expect_handed(call, &whole);
    for (int i = 0; i < call->buffers; i++) {
        struct lent lent = whole;
        lent.lengths[i] = 0;
        expect_handed(call, &lent);
        lent.buffers[i] = NULL;
        expect_handed(call, &lent);
        lent.lengths[i] = 1;
        expect_handed(call, &lent);
    }
    expect_handed(call, &none);
}

int main(void)
{
    for (size_t c = 0; c < sizeof CALLS / sizeof *CALLS; c++)
        test(&CALLS[c]);
    printf("layer: %d calls, %d failures\n", calls, failures);
    return failures == 0 ? EXIT_SUCCESS : EXIT_FAILURE;
}
