/*
 * A worked example: makes a scan of 1,024 x 1,024 pixels, cleans it with relief_run, with weights
 * that keep the joints, and prints the figures and a small excerpt before and after.
 * tools/example.sh compiles and runs it.
 */
#include <inttypes.h>
#include <stdbool.h>
#include <stdio.h>
#include <stdlib.h>

#include "relief.h"

enum {
    WIDTH = 1024,
    HEIGHT = 1024,
    COURSE = 64, /* pixels from one course of stones to the next */
    STONE = 160, /* pixels from one stone of a course to the next */
    JOINT = 4,   /* pixels across a joint */
    NOISE = 12   /* levels at most that the scanner is off */
};

/* The next of a sequence of pseudo-random numbers (xorshift). */
static uint64_t next_random(uint64_t *state)
{
    *state ^= *state << 13;
    *state ^= *state >> 7;
    *state ^= *state << 17;
    return *state;
}

/* How far along its course a pixel lies: every second course is moved by half a stone. */
static int along(int x, int y)
{
    return x + y / COURSE % 2 * STONE / 2;
}

static bool joint(int x, int y)
{
    return y % COURSE < JOINT || along(x, y) % STONE < JOINT;
}

/* The height of a wall in codes: stones that stick out differently, with joints between them. */
static int wall(int x, int y)
{
    return joint(x, y) ? 110 : 140 + (along(x, y) / STONE * 7 + y / COURSE * 5) % 17;
}

static void scan(uint8_t *samples)
{
    uint64_t state = 1;
    for (int y = 0; y < HEIGHT; y++)
        for (int x = 0; x < WIDTH; x++) {
            int noise = (int)(next_random(&state) % (2 * NOISE + 1)) - NOISE;
            samples[y * WIDTH + x] = (uint8_t)(wall(x, y) + noise);
        }
}

/* A weight for each pair, first of every pixel with the one below, then of every pixel with the one
   to its right: 0 between a joint and a stone. Each is then smoothed, but not into the other. */
static void weigh(int32_t *weights, int32_t weight)
{
    for (int y = 0; y + 1 < HEIGHT; y++)
        for (int x = 0; x < WIDTH; x++)
            *weights++ = joint(x, y) == joint(x, y + 1) ? weight : 0;
    for (int y = 0; y < HEIGHT; y++)
        for (int x = 0; x + 1 < WIDTH; x++)
            *weights++ = joint(x, y) == joint(x + 1, y) ? weight : 0;
}

/* Prints the codes about the crossing of two joints, before and after: an image value becomes the
   code whose level it lies in. */
static void print_excerpt(const uint8_t *samples, const int32_t *image)
{
    int left = STONE - 6, top = 2 * COURSE - 4;
    printf("samples and image as codes, from column %d and row %d:\n", left, top);
    for (int y = top; y < top + 12; y++) {
        for (int x = left; x < left + 14; x++)
            printf("%4d", samples[y * WIDTH + x]);
        printf("   |");
        for (int x = left; x < left + 14; x++)
            printf("%4d", (int)(image[y * WIDTH + x] / 256));
        printf("\n");
    }
}

int main(void)
{
    static const char *const outcomes[] = {"refused", "checked", "settled", "spent"};
    const size_t pixels = RELIEF_PIXELS(WIDTH, HEIGHT), pairs = RELIEF_PAIRS(WIDTH, HEIGHT);
    uint8_t *samples = malloc(pixels * sizeof *samples);
    int32_t *weights = malloc(pairs * sizeof *weights);
    int32_t *flow = malloc(pairs * sizeof *flow);
    int32_t *image = malloc(pixels * sizeof *image);
    int32_t *work = malloc(2 * pairs * sizeof *work);
    if (!samples || !weights || !flow || !image || !work) {
        fprintf(stderr, "no memory\n");
        return EXIT_FAILURE;
    }
    const uint32_t weight = 12 * 256, quick = 60;
    scan(samples);
    weigh(weights, weight);

    const uint16_t allowance = 20;
    const uint8_t low = 0, high = 255;
    uint64_t place, price, slack;
    int64_t floor;
    uint32_t outcome, moved;
    uint32_t number = relief_run(
        WIDTH, HEIGHT, weight, low, high, quick, allowance, samples, pixels, weights, pairs, flow,
        pairs, image, pixels, work, 2 * pairs, &place, &outcome, &moved, &price, &floor, &slack);
    if (number != RELIEF_ACCEPTED) {
        printf(
            "refused %" PRIu32 " at %" PRIu64 ": %s\n", number, place, relief_refusal_text(number));
        return EXIT_FAILURE;
    }
    printf("outcome moved price floor slack\n");
    printf(
        "%s %" PRIu32 " %" PRIu64 " %" PRId64 " %" PRIu64 "\n", outcomes[outcome], moved, price,
        floor, slack);
    print_excerpt(samples, image);

    free(samples);
    free(weights);
    free(flow);
    free(image);
    free(work);
    return EXIT_SUCCESS;
}
