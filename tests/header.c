/*
 * The header alone: its counts at the ends of what is allowed and beyond, and the texts of
 * refusals. It is C11 and C++17, and links no library. It prints one line.
 */
#include <assert.h>
#include <stdio.h>
#include <stdlib.h>
#include <string.h>

#include "relief.h"

static_assert(RELIEF_PIXELS(1, 1) == 1 && RELIEF_PAIRS(1, 1) == 0, "the smallest size");
static_assert(RELIEF_PIXELS(4096, 256) == RELIEF_MAX_PIXELS, "the longest rows");
static_assert(RELIEF_PIXELS(256, 4096) == RELIEF_MAX_PIXELS, "the longest columns");
static_assert(RELIEF_PAIRS(1024, 1024) == RELIEF_MAX_PAIRS, "the most pairs");
static_assert(RELIEF_PAIRS(4096, 1) == 4095 && RELIEF_PAIRS(3, 2) == 7, "some pairs");

static_assert(RELIEF_PIXELS(0, 1) == 0 && RELIEF_PAIRS(0, 1) == 0, "no width");
static_assert(RELIEF_PIXELS(1, 0) == 0 && RELIEF_PAIRS(1, 0) == 0, "no height");
static_assert(RELIEF_PIXELS(4097, 1) == 0 && RELIEF_PAIRS(4097, 1) == 0, "too wide");
static_assert(RELIEF_PIXELS(1, 4097) == 0 && RELIEF_PAIRS(1, 4097) == 0, "too high");
static_assert(RELIEF_PIXELS(4096, 257) == 0 && RELIEF_PAIRS(4096, 257) == 0, "too many pixels");
static_assert(RELIEF_PIXELS(UINT32_MAX, UINT32_MAX) == 0, "the largest numbers");
static_assert(RELIEF_PAIRS(UINT32_MAX, UINT32_MAX) == 0, "the largest numbers");
static_assert(RELIEF_PIXELS(-1, 1) == 0 && RELIEF_PAIRS(-1, -1) == 0, "negative numbers");

static_assert(RELIEF_TAPE_BYTES(1, 0, 0) == 18 && RELIEF_TAPE_BYTES(2, 0, 1) == 25, "small tapes");
static_assert(RELIEF_TAPE_BYTES(2, 1, 0) == 23 && RELIEF_TAPE_BYTES(2, 1, 1) == 28, "with weights");
static_assert(
    RELIEF_TAPE_BYTES(RELIEF_MAX_PIXELS, RELIEF_MAX_PAIRS, RELIEF_MAX_PAIRS) ==
        RELIEF_MAX_TAPE_BYTES,
    "the longest tape");
static_assert(RELIEF_TAPE_BYTES(0, 0, 0) == 0, "no samples");
static_assert(RELIEF_TAPE_BYTES(RELIEF_MAX_PIXELS + 1, 0, 0) == 0, "too many samples");
static_assert(RELIEF_TAPE_BYTES(1, RELIEF_MAX_PAIRS + 1, 0) == 0, "too many weights");
static_assert(RELIEF_TAPE_BYTES(1, 0, RELIEF_MAX_PAIRS + 1) == 0, "too many flow numbers");
static_assert(RELIEF_TAPE_BYTES(SIZE_MAX, 0, 0) == 0, "the largest length");
static_assert(RELIEF_TAPE_BYTES(1, SIZE_MAX, 0) == 0, "the largest length");
static_assert(RELIEF_TAPE_BYTES(1, 0, SIZE_MAX) == 0, "the largest length");

static_assert(RELIEF_READ_SAMPLES(0) == 0 && RELIEF_READ_FLOW(0) == 0, "an empty tape");
static_assert(RELIEF_READ_SAMPLES(17) == 0 && RELIEF_READ_FLOW(17) == 0, "too short for a pixel");
static_assert(RELIEF_READ_SAMPLES(18) == 1 && RELIEF_READ_FLOW(18) == 0, "one pixel");
static_assert(RELIEF_READ_SAMPLES(21) == 2 && RELIEF_READ_FLOW(21) == 2, "two pixels");
static_assert(RELIEF_READ_SAMPLES(SIZE_MAX) == RELIEF_MAX_PIXELS, "the largest length");
static_assert(RELIEF_READ_FLOW(SIZE_MAX) == RELIEF_MAX_PAIRS, "the largest length");
static_assert(RELIEF_READ_WEIGHTS(17) == 0 && RELIEF_READ_WEIGHTS(21) == 2, "weights as the flow");
static_assert(RELIEF_READ_WEIGHTS(SIZE_MAX) == RELIEF_MAX_PAIRS, "weights as the flow");

static int failures;

static void expect(int holds, const char *what, uint32_t first, uint32_t second)
{
    if (holds)
        return;
    printf("FAILED %s: %u %u\n", what, (unsigned)first, (unsigned)second);
    failures++;
}

/* The lengths for read are enough for the tapes of a size, with and without weights and a flow. */
static void expect_enough(uint32_t width, uint32_t height)
{
    size_t pixels = RELIEF_PIXELS(width, height), pairs = RELIEF_PAIRS(width, height);
    for (int with = 0; with <= 3; with++) {
        size_t tape_len = RELIEF_TAPE_BYTES(pixels, with & 1 ? pairs : 0, with & 2 ? pairs : 0);
        expect(RELIEF_READ_SAMPLES(tape_len) >= pixels, "samples for", width, height);
        expect(RELIEF_READ_WEIGHTS(tape_len) >= pairs, "weights for", width, height);
        expect(RELIEF_READ_FLOW(tape_len) >= pairs, "flow for", width, height);
    }
}

/* Every refusal has a text of its own, and other numbers have the text that none of them has. */
static void expect_texts(void)
{
    const char *unknown = relief_refusal_text(UINT32_MAX);
    for (uint32_t number = 0; number <= 20; number++) {
        const char *text = relief_refusal_text(number);
        /* there is no 11, and 17 is the programs' */
        int named = number <= RELIEF_REFUSED_WEIGHTS_LENGTH && number != 11 && number != 17;
        expect((strcmp(text, unknown) != 0) == named, "named", number, number);
        for (uint32_t other = 0; named && other < number; other++)
            expect(strcmp(text, relief_refusal_text(other)) != 0, "same text", other, number);
    }
}

int main(void)
{
    char version[20];
    snprintf(
        version, sizeof version, "%d.%d.%d", RELIEF_VERSION_MAJOR, RELIEF_VERSION_MINOR,
        RELIEF_VERSION_PATCH);
    expect(strcmp(version, RELIEF_VERSION_STRING) == 0, "version", 0, 0);
    for (uint32_t width = 1; width <= 64; width++)
        for (uint32_t height = 1; height <= 64; height++)
            expect_enough(width, height);
    expect_enough(4096, 256);
    expect_enough(256, 4096);
    expect_enough(1024, 1024);
    expect_enough(1, 4096);
    expect_enough(4096, 1);
    expect_texts();
    printf("header: %d failures\n", failures);
    return failures == 0 ? EXIT_SUCCESS : EXIT_FAILURE;
}
