/*
 * The library with null for buffers of length 0: every call, on two sizes, with every choice of its
 * buffers lent with length 0, answers and leaves the other buffers as it does where these point to
 * something. And the library's patch is the header's. It is C11 and C++17, and prints one line;
 * tools/link.sh links and runs it.
 */
#include <inttypes.h>
#include <stdio.h>
#include <stdlib.h>
#include <string.h>

#include "relief.h"

/* The buffers, as bits. */
enum { SAMPLES = 1, WEIGHTS = 2, FLOW = 4, IMAGE = 8, WORK = 16, TAPE = 32, ALL = 63 };

/* What is lent, in the lengths of 2 by 1 pixels, or of 1 by 1. */
struct room {
    uint8_t samples[2], tape[RELIEF_TAPE_BYTES(2, 1, 1)];
    int32_t weights[1], flow[1], image[2], work[2];
};

/* Every number that a call gives; 0 where it has no such number. */
struct answer {
    uint64_t place, price, slack, count;
    int64_t floor;
    uint32_t number, outcome, moved, width, height, weight, quick, weighted, flowed;
    uint16_t allowance;
    uint8_t low, high;
};

struct job {
    uint32_t width;
    uint8_t *samples, *tape;
    int32_t *weights, *flow, *image, *work;
    size_t samples_len, tape_len, weights_len, flow_len, image_len, work_len;
};

/* A job of width by 1 pixels in a room. The buffers in none have length 0: they are null, or at
   somewhere where that is not null. */
static struct job lend(struct room *room, uint32_t width, unsigned none, int32_t *somewhere)
{
    size_t pixels = RELIEF_PIXELS(width, 1), pairs = RELIEF_PAIRS(width, 1);
    struct job j;
    j.width = width;
    j.samples = none & SAMPLES ? (uint8_t *)somewhere : room->samples;
    j.samples_len = none & SAMPLES ? 0 : pixels;
    j.weights = none & WEIGHTS ? somewhere : room->weights;
    j.weights_len = none & WEIGHTS ? 0 : pairs;
    j.flow = none & FLOW ? somewhere : room->flow;
    j.flow_len = none & FLOW ? 0 : pairs;
    j.image = none & IMAGE ? somewhere : room->image;
    j.image_len = none & IMAGE ? 0 : pixels;
    j.work = none & WORK ? somewhere : room->work;
    j.work_len = none & WORK ? 0 : 2 * pairs;
    j.tape = none & TAPE ? (uint8_t *)somewhere : room->tape;
    j.tape_len = none & TAPE ? 0 : RELIEF_TAPE_BYTES(pixels, pairs, pairs);
    return j;
}

static void price(const struct job *j, struct answer *a)
{
    a->number = relief_price(
        j->width, 1, 256, 0, 255, j->samples, j->samples_len, j->weights, j->weights_len, j->image,
        j->image_len, &a->place, &a->outcome, &a->moved, &a->price, &a->floor, &a->slack);
}

static void check(const struct job *j, struct answer *a)
{
    a->number = relief_check(
        j->width, 1, 256, 0, 255, j->samples, j->samples_len, j->weights, j->weights_len, j->flow,
        j->flow_len, j->image, j->image_len, &a->place, &a->outcome, &a->moved, &a->price,
        &a->floor, &a->slack);
}

static void run(const struct job *j, struct answer *a)
{
    a->number = relief_run(
        j->width, 1, 256, 0, 255, 3, 100, j->samples, j->samples_len, j->weights, j->weights_len,
        j->flow, j->flow_len, j->image, j->image_len, j->work, j->work_len, &a->place, &a->outcome,
        &a->moved, &a->price, &a->floor, &a->slack);
}

static void read_tape(const struct job *j, struct answer *a)
{
    a->number = relief_read(
        j->tape, j->tape_len, j->samples, j->samples_len, j->weights, j->weights_len, j->flow,
        j->flow_len, &a->place, &a->width, &a->height, &a->weight, &a->low, &a->high, &a->quick,
        &a->allowance, &a->weighted, &a->flowed);
}

static void write_tape(const struct job *j, struct answer *a)
{
    a->number = relief_write(
        j->width, 1, 256, 0, 255, 3, 100, j->samples, j->samples_len, j->weights, j->weights_len,
        j->flow, j->flow_len, j->tape, j->tape_len, &a->place, &a->count);
}

/* A call, with the buffers that it must be lent for 2 by 1 pixels, and those that it need not. For
   1 by 1 it needs none of those with a value for each pair. */
static const struct call {
    const char *name;
    void (*make)(const struct job *, struct answer *);
    unsigned needs, takes;
} CALLS[] = {
    {"price", price, SAMPLES | IMAGE, WEIGHTS},
    {"check", check, SAMPLES | FLOW | IMAGE, WEIGHTS},
    {"run", run, SAMPLES | FLOW | IMAGE | WORK, WEIGHTS},
    {"read", read_tape, SAMPLES | WEIGHTS | FLOW | TAPE, 0},
    {"write", write_tape, SAMPLES | TAPE, WEIGHTS | FLOW},
};

static unsigned needed(const struct call *call, uint32_t width)
{
    return width == 1 ? call->needs & ~(unsigned)(WEIGHTS | FLOW | WORK) : call->needs;
}

static int calls, failures;

static void fail(const char *name, uint32_t width, unsigned none, const char *how)
{
    printf("FAILED %s, %" PRIu32 " by 1, no buffers %#x: %s\n", name, width, none, how);
    failures++;
}

static struct answer made(
    const struct call *call, struct room *room, uint32_t width, unsigned none, int32_t *somewhere)
{
    struct answer a;
    memset(&a, 0, sizeof a);
    struct job j = lend(room, width, none, somewhere);
    call->make(&j, &a);
    return a;
}

/* A room that every call accepts: samples 0 and 2, the weight 300, the flow -100, an image, and the
   tape of that. */
static struct room full(uint32_t width)
{
    struct room room;
    memset(&room, 0, sizeof room);
    room.samples[1] = 2;
    room.weights[0] = 300;
    room.flow[0] = -100;
    room.image[0] = room.image[1] = 384;
    room.work[0] = room.work[1] = 7;
    struct job j = lend(&room, width, 0, NULL);
    struct answer a;
    memset(&a, 0, sizeof a);
    write_tape(&j, &a);
    if (a.number != RELIEF_ACCEPTED || a.count != j.tape_len)
        fail("write", width, 0, "refused");
    return room;
}

static void compare(const struct call *call, uint32_t width, unsigned none)
{
    int32_t somewhere = 5;
    struct room with = full(width), without;
    memcpy(&without, &with, sizeof with);
    struct answer due = made(call, &with, width, none, &somewhere);
    struct answer is = made(call, &without, width, none, NULL);
    calls++;
    if ((is.number == RELIEF_ACCEPTED) != ((none & needed(call, width)) == 0))
        fail(call->name, width, none, "accepted without what it needs, or refused with it");
    if (memcmp(&is, &due, sizeof is) != 0)
        fail(call->name, width, none, "null has another answer");
    if (memcmp(&without, &with, sizeof with) != 0)
        fail(call->name, width, none, "null leaves other buffers");
    if (somewhere != 5)
        fail(call->name, width, none, "a buffer of length 0 is written to");
}

int main(void)
{
    if (RELIEF_VERSION_FUNCTION() != RELIEF_VERSION_PATCH)
        fail("version", 0, 0, "the library has another patch than the header");
    for (size_t c = 0; c < sizeof CALLS / sizeof *CALLS; c++)
        for (uint32_t width = 1; width <= 2; width++)
            for (unsigned none = 0; none <= ALL; none++)
                if ((none & ~(CALLS[c].needs | CALLS[c].takes)) == 0)
                    compare(&CALLS[c], width, none);
    printf("null: %d calls, %d failures\n", calls, failures);
    return failures == 0 ? EXIT_SUCCESS : EXIT_FAILURE;
}
