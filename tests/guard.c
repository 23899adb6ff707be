/*
 * The calls with a guard page behind every buffer: a page that can be neither read nor written.
 * tools/guard.sh compiles and runs it.
 *
 * - Price, check, run and write, refused for terms or lengths (1, 2 for weight, 3 to 7, 10, 16,
 *   19): no buffer is touched, also where a stated length reaches past a buffer's end. Each call is
 *   made twice: with a quarter of the stated values before the guard page, as when bytes are
 *   counted as values, and with none; and both with a weight for each pair and without weights.
 * - Price, check, run and write, refused for contents (2 for a pair's weight, 8, 9), read, refused
 *   for a tape that is cut short at any byte or damaged, or for buffers too short, and all five,
 *   accepted: in buffers that end at the guard page, reads and writes stay inside.
 * - In every call, what it does not fill holds what it did: refused, every buffer; accepted, the
 *   weights, too, for all but read.
 *
 * Each call is made in a process of its own, which a touch of a guard page ends with SIGSEGV.
 */
#define _DEFAULT_SOURCE

#include <inttypes.h>
#include <signal.h>
#include <stdbool.h>
#include <stdio.h>
#include <stdlib.h>
#include <string.h>
#include <sys/mman.h>
#include <sys/resource.h>
#include <sys/wait.h>
#include <unistd.h>

#include "relief.h"

/* How much of each stated length a buffer holds. */
enum lent { NOTHING, QUARTER, ALL };

/* Everything that the calls are lent, with the lengths as stated, whatever the buffers hold. */
struct job {
    uint32_t width, height, weight;
    uint8_t low, high;
    uint32_t quick;
    uint16_t allowance;
    size_t samples_len, weights_len, flow_len, image_len, work_len, tape_len;
    enum lent lent;
    uint8_t *samples;
    int32_t *weights, *flow, *image, *work;
    uint8_t *tape; /* what read takes, and write's output */
};

/* Every number that the calls give; 0 where a call has no such number. */
struct answer {
    uint32_t number;
    uint64_t place;
    uint32_t outcome, moved;
    uint64_t price;
    int64_t floor;
    uint64_t slack, count;
    uint32_t width, height, weight;
    uint8_t low, high;
    uint32_t quick;
    uint16_t allowance;
    uint32_t weighted, flowed;
};

/* The numbers of price, check and run, before a call has set them. */
static const struct answer UNSET = {
    .place = UINT64_MAX,
    .outcome = UINT32_MAX,
    .moved = UINT32_MAX,
    .price = UINT64_MAX,
    .floor = INT64_MAX,
    .slack = UINT64_MAX,
};

static struct answer price(const struct job *j)
{
    struct answer a = UNSET;
    a.number = relief_price(
        j->width, j->height, j->weight, j->low, j->high, j->samples, j->samples_len, j->weights,
        j->weights_len, j->image, j->image_len, &a.place, &a.outcome, &a.moved, &a.price, &a.floor,
        &a.slack);
    return a;
}

static struct answer check(const struct job *j)
{
    struct answer a = UNSET;
    a.number = relief_check(
        j->width, j->height, j->weight, j->low, j->high, j->samples, j->samples_len, j->weights,
        j->weights_len, j->flow, j->flow_len, j->image, j->image_len, &a.place, &a.outcome,
        &a.moved, &a.price, &a.floor, &a.slack);
    return a;
}

static struct answer run(const struct job *j)
{
    struct answer a = UNSET;
    a.number = relief_run(
        j->width, j->height, j->weight, j->low, j->high, j->quick, j->allowance, j->samples,
        j->samples_len, j->weights, j->weights_len, j->flow, j->flow_len, j->image, j->image_len,
        j->work, j->work_len, &a.place, &a.outcome, &a.moved, &a.price, &a.floor, &a.slack);
    return a;
}

static struct answer write_tape(const struct job *j)
{
    struct answer a = {.place = UINT64_MAX, .count = UINT64_MAX};
    a.number = relief_write(
        j->width, j->height, j->weight, j->low, j->high, j->quick, j->allowance, j->samples,
        j->samples_len, j->weights, j->weights_len, j->flow, j->flow_len, j->tape, j->tape_len,
        &a.place, &a.count);
    return a;
}

static struct answer read_tape(const struct job *j)
{
    struct answer a = {
        .place = UINT64_MAX,
        .width = UINT32_MAX,
        .height = UINT32_MAX,
        .weight = UINT32_MAX,
        .low = UINT8_MAX,
        .high = UINT8_MAX,
        .quick = UINT32_MAX,
        .allowance = UINT16_MAX,
        .weighted = UINT32_MAX,
        .flowed = UINT32_MAX,
    };
    a.number = relief_read(
        j->tape, j->tape_len, j->samples, j->samples_len, j->weights, j->weights_len, j->flow,
        j->flow_len, &a.place, &a.width, &a.height, &a.weight, &a.low, &a.high, &a.quick,
        &a.allowance, &a.weighted, &a.flowed);
    return a;
}

/* The buffers of a job, as bits. */
enum { SAMPLES = 1, WEIGHTS = 2, FLOW = 4, IMAGE = 8, WORK = 16, TAPED = 32 };

/* A call, with the buffers that it fills, and with the numbers of its terms and lengths as relief.h
   lists them (read: none). */
struct call {
    const char *name;
    struct answer (*make)(const struct job *);
    unsigned fills;
    uint32_t numbers[10];
};

static const struct call PRICE = {"price", price, 0, {1, 2, 3, 4, 19, 6}};
static const struct call CHECK = {"check", check, IMAGE, {1, 2, 3, 4, 5, 19, 6}};
static const struct call RUN = {"run", run, FLOW | IMAGE | WORK, {1, 2, 3, 10, 4, 5, 19, 6, 7}};
static const struct call WRITE = {"write", write_tape, TAPED, {1, 2, 3, 10, 4, 5, 19, 16}};
static const struct call READ = {"read", read_tape, SAMPLES | WEIGHTS | FLOW, {0}};

/* Zeros that end where a guard page begins. Other processes of this test see what one writes. */
static void *guarded(size_t bytes)
{
    size_t page = (size_t)sysconf(_SC_PAGESIZE);
    size_t before = (bytes + page - 1) / page * page;
    char *start = mmap(
        NULL, before + page, PROT_READ | PROT_WRITE, MAP_SHARED | MAP_ANONYMOUS, -1, 0);
    if (start == MAP_FAILED || mprotect(start + before, page, PROT_NONE) != 0) {
        perror("guard");
        exit(EXIT_FAILURE);
    }
    return start + before - bytes;
}

static size_t held(size_t length, enum lent lent)
{
    return lent == ALL ? length : lent == QUARTER ? length / 4 : 0;
}

static void lend(struct job *j, enum lent lent)
{
    j->lent = lent;
    j->samples = guarded(held(j->samples_len, lent));
    j->weights = guarded(held(j->weights_len, lent) * sizeof *j->weights);
    j->flow = guarded(held(j->flow_len, lent) * sizeof *j->flow);
    j->image = guarded(held(j->image_len, lent) * sizeof *j->image);
    j->work = guarded(held(j->work_len, lent) * sizeof *j->work);
    j->tape = guarded(held(j->tape_len, lent));
}

/* What a buffer of a job holds. */
struct buffer {
    const char *name;
    unsigned bit;
    void *start;
    size_t bytes;
};

enum { BUFFERS = 6 };

static void list_buffers(const struct job *j, struct buffer list[BUFFERS])
{
    const struct buffer all[BUFFERS] = {
        {"samples", SAMPLES, j->samples, held(j->samples_len, j->lent)},
        {"weights", WEIGHTS, j->weights, held(j->weights_len, j->lent) * sizeof *j->weights},
        {"flow", FLOW, j->flow, held(j->flow_len, j->lent) * sizeof *j->flow},
        {"image", IMAGE, j->image, held(j->image_len, j->lent) * sizeof *j->image},
        {"work", WORK, j->work, held(j->work_len, j->lent) * sizeof *j->work},
        {"tape", TAPED, j->tape, held(j->tape_len, j->lent)},
    };
    memcpy(list, all, sizeof all);
}

/* Fills buffers with marks: what a call must not write to still holds them. */
enum { MARK = 90 };

static void mark(const struct job *j, unsigned which)
{
    struct buffer list[BUFFERS];
    list_buffers(j, list);
    for (size_t b = 0; b < BUFFERS; b++)
        if (list[b].bit & which)
            memset(list[b].start, MARK, list[b].bytes);
}

/* A job that every call accepts, with a weight for each pair or without weights. It has the lengths
   that are due and no buffers yet. */
static struct job job(uint32_t width, uint32_t height, bool weighted)
{
    size_t pixels = RELIEF_PIXELS(width, height), pairs = RELIEF_PAIRS(width, height);
    size_t weights = weighted ? pairs : 0;
    return (struct job){
        .width = width,
        .height = height,
        .weight = 256,
        .high = 255,
        .allowance = 100,
        .samples_len = pixels,
        .weights_len = weights,
        .flow_len = pairs,
        .image_len = pixels,
        .work_len = 2 * pairs,
        .tape_len = RELIEF_TAPE_BYTES(pixels, weights, pairs),
    };
}

/* Counts of the group at hand, and of all groups that have ended. */
static int calls, failures, all_calls, all_failures;

static void fail(const char *call, const char *input, const char *how)
{
    printf("FAILED %s, %s: %s\n", call, input, how);
    failures++;
}

static void end_group(const char *title)
{
    printf("%s: %d calls, %d failures\n", title, calls, failures);
    all_calls += calls;
    all_failures += failures;
    calls = failures = 0;
}

/* A copy of what the buffers hold, one behind the other. */
static uint8_t *copied(const struct buffer list[BUFFERS])
{
    size_t bytes = 0;
    for (size_t b = 0; b < BUFFERS; b++)
        bytes += list[b].bytes;
    uint8_t *copy = malloc(bytes + 1), *next = copy;
    if (!copy) {
        perror("guard");
        exit(EXIT_FAILURE);
    }
    for (size_t b = 0; b < BUFFERS; next += list[b].bytes, b++)
        memcpy(next, list[b].start, list[b].bytes);
    return copy;
}

/* Makes a call in a process of its own; false where it touched a guard page. What it does not fill
   must hold what it did, and so must every buffer where it is refused. */
static bool made(const struct call *call, const struct job *j, const char *input, struct answer *a)
{
    static struct answer *shared;
    if (!shared)
        shared = guarded(sizeof *shared);
    struct buffer list[BUFFERS];
    list_buffers(j, list);
    uint8_t *before = copied(list);
    calls++;
    pid_t child = fork();
    if (child == 0) {
        *shared = call->make(j);
        _exit(EXIT_SUCCESS);
    }
    int status;
    if (child < 0 || waitpid(child, &status, 0) != child) {
        perror("guard");
        exit(EXIT_FAILURE);
    }
    if (WIFSIGNALED(status) && WTERMSIG(status) == SIGSEGV)
        fail(call->name, input, "touched a guard page");
    else if (status != 0)
        fail(call->name, input, "did not return");
    *a = *shared;
    unsigned fills = a->number == RELIEF_ACCEPTED ? call->fills : 0;
    const uint8_t *was = before;
    for (size_t b = 0; status == 0 && b < BUFFERS; was += list[b].bytes, b++)
        if (!(list[b].bit & fills) && memcmp(list[b].start, was, list[b].bytes) != 0) {
            char how[50];
            snprintf(how, sizeof how, "wrote to %s", list[b].name);
            fail(call->name, input, how);
        }
    free(before);
    return status == 0;
}

/* All of an answer's numbers as text, in the order of its fields. */
struct text {
    char chars[240];
};

static struct text text_of(struct answer a)
{
    struct text text;
    snprintf(
        text.chars, sizeof text.chars,
        "%" PRIu32 " at %" PRIu64 " with %" PRIu32 " %" PRIu32 " %" PRIu64 " %" PRId64 " %" PRIu64
        " %" PRIu64 " %" PRIu32 " %" PRIu32 " %" PRIu32 " %d %d %" PRIu32 " %d %" PRIu32
        " %" PRIu32,
        a.number, a.place, a.outcome, a.moved, a.price, a.floor, a.slack, a.count, a.width,
        a.height, a.weight, a.low, a.high, a.quick, a.allowance, a.weighted, a.flowed);
    return text;
}

static void expect(
    const struct call *call, const struct job *j, const char *input, struct answer expected)
{
    struct answer a;
    if (!made(call, j, input, &a))
        return;
    struct text is = text_of(a), due = text_of(expected);
    if (strcmp(is.chars, due.chars) == 0)
        return;
    char how[500];
    snprintf(how, sizeof how, "answers %s, not %s", is.chars, due.chars);
    fail(call->name, input, how);
}

static void no_width(struct job *j) { j->width = 0; }
static void too_high(struct job *j) { j->height = 4097; }
static void too_heavy(struct job *j) { j->weight = 65281; }
static void crossed(struct job *j) { j->low = 1; j->high = 0; }
static void too_quick(struct job *j) { j->quick = 4097; }
static void sample_bytes(struct job *j) { j->samples_len *= 4; }
static void flow_bytes(struct job *j) { j->flow_len *= 4; }
static void weight_bytes(struct job *j) { j->weights_len = 4 * j->flow_len; }
static void one_weight(struct job *j) { j->weights_len = 1; }
static void image_bytes(struct job *j) { j->image_len *= 4; }
static void work_bytes(struct job *j) { j->work_len *= 4; }
static void short_output(struct job *j) { j->tape_len--; }

/* What makes a call turn back before it reads contents. */
static const struct fault {
    uint32_t number;
    const char *name;
    void (*spoil)(struct job *);
} FAULTS[] = {
    {RELIEF_REFUSED_SIZE, "width 0", no_width},
    {RELIEF_REFUSED_SIZE, "height 4,097", too_high},
    {RELIEF_REFUSED_WEIGHT, "weight 65,281", too_heavy},
    {RELIEF_REFUSED_BOX, "low above high", crossed},
    {RELIEF_REFUSED_QUICK_ROUNDS, "4,097 quick rounds", too_quick},
    {RELIEF_REFUSED_SAMPLES_LENGTH, "samples_len 4 times as large", sample_bytes},
    {RELIEF_REFUSED_FLOW_LENGTH, "flow_len in bytes", flow_bytes},
    {RELIEF_REFUSED_WEIGHTS_LENGTH, "weights_len in bytes", weight_bytes},
    {RELIEF_REFUSED_WEIGHTS_LENGTH, "weights_len 1", one_weight},
    {RELIEF_REFUSED_IMAGE_LENGTH, "image_len in bytes", image_bytes},
    {RELIEF_REFUSED_WORK_LENGTH, "work_len in bytes", work_bytes},
    {RELIEF_REFUSED_BUFFER_TOO_SHORT, "output_len one too small", short_output},
};

static void expect_refusal(
    const struct call *call, const struct fault *fault, bool weighted, enum lent lent)
{
    struct job j = job(6, 5, weighted);
    fault->spoil(&j);
    lend(&j, lent);
    mark(&j, ~0u);
    char input[100];
    snprintf(
        input, sizeof input, "%s, %s weights, %s lent", fault->name, weighted ? "with" : "without",
        lent == QUARTER ? "a quarter" : "nothing");
    expect(call, &j, input, (struct answer){.number = fault->number});
}

static void refused(const struct call *call)
{
    for (const uint32_t *number = call->numbers; *number != 0; number++)
        for (size_t f = 0; f < sizeof FAULTS / sizeof *FAULTS; f++)
            if (FAULTS[f].number == *number)
                for (int weighted = 0; weighted <= 1; weighted++) {
                    expect_refusal(call, &FAULTS[f], weighted, QUARTER);
                    expect_refusal(call, &FAULTS[f], weighted, NOTHING);
                }
    char title[50];
    snprintf(title, sizeof title, "%s, refused for terms or lengths", call->name);
    end_group(title);
}

/* The last weight is not allowed, or the last flow number or image value; with faults of both, the
   weight's comes first. */
static void refused_contents(void)
{
    static const struct call *const all[] = {&PRICE, &CHECK, &RUN, &WRITE};
    struct job j = job(6, 5, true);
    lend(&j, ALL);
    mark(&j, WORK | TAPED);
    int32_t *weight = &j.weights[j.weights_len - 1];
    j.flow[j.flow_len - 1] = 1;
    j.image[j.image_len - 1] = -1;
    static const int32_t outside[] = {-1, 65281, INT32_MIN, INT32_MAX};
    const struct answer refusal = {.number = RELIEF_REFUSED_WEIGHT, .place = j.weights_len - 1};
    for (size_t w = 0; w < sizeof outside / sizeof *outside; w++) {
        *weight = outside[w];
        char input[50];
        snprintf(input, sizeof input, "weight %" PRId32 " of a pair", outside[w]);
        for (size_t c = 0; c < sizeof all / sizeof *all; c++)
            expect(all[c], &j, input, refusal);
    }
    *weight = 0;
    const struct answer beyond = {.number = RELIEF_REFUSED_FLOW_VALUE, .place = j.flow_len - 1};
    expect(&CHECK, &j, "flow 1 at weight 0", beyond);
    expect(&WRITE, &j, "flow 1 at weight 0", beyond);
    expect(
        &PRICE, &j, "image value -1",
        (struct answer){.number = RELIEF_REFUSED_IMAGE_VALUE, .place = j.image_len - 1});
    end_group("price, check, run and write, refused for contents");
}

static void expect_values(
    const char *call, const char *buffer, const int32_t *values, const int32_t *expected,
    size_t length)
{
    if (memcmp(values, expected, length * sizeof *values) != 0)
        fail(call, buffer, "not the values that are due");
}

static void expect_marks(const char *input, const void *buffer, size_t bytes)
{
    const uint8_t *byte = buffer;
    for (size_t i = 0; i < bytes; i++)
        if (byte[i] != MARK) {
            fail("read", input, "wrote to a buffer that is to stay as it was");
            return;
        }
}

/* What read leaves in weights or flow: the numbers of their records, or without these what was
   there. */
static void expect_read(
    const char *input, const int32_t *read, const int32_t *numbers, size_t length, size_t pairs)
{
    if (length == 0)
        expect_marks(input, read, pairs * sizeof *read);
    else
        expect_values("read", input, read, numbers, length);
}

/* Read gives the job of a written tape again, in other buffers of the exact lengths. */
static void expect_job(const struct job *j, const char *input)
{
    size_t pairs = RELIEF_PAIRS(j->width, j->height);
    struct job again = *j;
    again.weights_len = again.flow_len = pairs;
    again.samples = guarded(j->samples_len);
    again.weights = guarded(pairs * sizeof *again.weights);
    again.flow = guarded(pairs * sizeof *again.flow);
    mark(&again, SAMPLES | WEIGHTS | FLOW);
    expect(
        &READ, &again, input,
        (struct answer){
            .width = j->width,
            .height = j->height,
            .weight = j->weight,
            .low = j->low,
            .high = j->high,
            .quick = j->quick,
            .allowance = j->allowance,
            .weighted = j->weights_len != 0,
            .flowed = j->flow_len != 0});
    if (memcmp(again.samples, j->samples, j->samples_len) != 0)
        fail("read", input, "other samples");
    expect_read(input, again.weights, j->weights, j->weights_len, pairs);
    expect_read(input, again.flow, j->flow, j->flow_len, pairs);
}

/* A tape of document 01's job of 2 by 1 pixels, and where its records begin. */
struct tape {
    const char *name;
    uint8_t bytes[28];
    size_t length, starts[8];
};

static const struct tape PLAIN = {
    "flow -256",
    {1, 2, 0, 1, 0, 2, 0, 1, 0, 255, 3, 0, 0, 100, 0, 4, 0, 4, 2, 5, 0, 255, 255, 255, 0},
    25,
    {0, 5, 10, 15, 17, 19, 24}};

static const struct tape WEIGHTED = {
    "weight 300 and flow -300",
    {1, 2, 0, 1, 0, 2, 0, 1, 0, 255, 3, 0, 0, 100, 0, 4, 0, 4, 2, 6, 44, 1, 5, 212, 254, 255, 255,
     0},
    28,
    {0, 5, 10, 15, 17, 19, 22, 27}};

/* Where the last of a tape's records begins that begins at this offset or before. */
static size_t record_start(const struct tape *tape, size_t offset)
{
    size_t start = 0;
    for (size_t r = 0; r < sizeof tape->starts / sizeof *tape->starts; r++)
        if (tape->starts[r] > start && tape->starts[r] <= offset)
            start = tape->starts[r];
    return start;
}

/* A tape cut to a length, or with zeros behind it, and buffers of these lengths. */
static struct job taped(
    const struct tape *tape, size_t length, size_t samples_len, size_t weights_len, size_t flow_len)
{
    struct job j = job(2, 1, true);
    j.tape_len = length;
    j.samples_len = samples_len;
    j.weights_len = weights_len;
    j.flow_len = flow_len;
    lend(&j, ALL);
    mark(&j, SAMPLES | WEIGHTS | FLOW);
    memcpy(j.tape, tape->bytes, length < tape->length ? length : tape->length);
    return j;
}

static void expect_unread(struct job j, const char *input, uint32_t number, uint64_t place)
{
    expect(&READ, &j, input, (struct answer){.number = number, .place = place});
}

/* A tape of a length with one byte changed, and its refusal. */
static const struct damage {
    const char *name;
    const struct tape *tape;
    size_t length, offset;
    uint8_t byte;
    uint32_t number;
    uint64_t place;
} DAMAGES[] = {
    {"width 0, no more records", &PLAIN, 5, 1, 0, RELIEF_REFUSED_SIZE, 0},
    {"4,352 quick rounds, no more records", &PLAIN, 15, 12, 17, RELIEF_REFUSED_QUICK_ROUNDS, 10},
    {"kind 7 as the last byte", &PLAIN, 20, 19, 7, RELIEF_REFUSED_UNKNOWN_KIND, 19},
    {"a third sample's kind as the last byte", &PLAIN, 20, 19, 4, RELIEF_REFUSED_KIND_NOT_ALLOWED,
     19},
    {"a byte after the end", &PLAIN, 26, 25, 0, RELIEF_REFUSED_BYTE_AFTER_END, 25},
    {"flow -512", &PLAIN, 25, 21, 254, RELIEF_REFUSED_FLOW_VALUE, 0},
    {"a pair's weight 65,324, no more records", &WEIGHTED, 22, 21, 255, RELIEF_REFUSED_WEIGHT, 19},
    {"a second weight's kind as the last byte", &WEIGHTED, 23, 22, 6,
     RELIEF_REFUSED_KIND_NOT_ALLOWED, 22},
    {"a weight's kind behind the flow", &WEIGHTED, 28, 27, 6, RELIEF_REFUSED_KIND_NOT_ALLOWED, 27},
    {"a byte after the end, with weights", &WEIGHTED, 29, 28, 0, RELIEF_REFUSED_BYTE_AFTER_END, 28},
    {"flow -300 at weight 44", &WEIGHTED, 28, 21, 0, RELIEF_REFUSED_FLOW_VALUE, 0},
};

static void cut_short(const struct tape *tape)
{
    for (size_t length = 0; length < tape->length; length++) {
        size_t start = record_start(tape, length);
        uint32_t number =
            start == length ? RELIEF_REFUSED_TAPE_UNFINISHED : RELIEF_REFUSED_TAPE_CUT;
        char input[100];
        snprintf(input, sizeof input, "the first %zu bytes of a tape, %s", length, tape->name);
        expect_unread(taped(tape, length, 2, 1, 1), input, number, start);
    }
}

static void refused_read(void)
{
    cut_short(&PLAIN);
    cut_short(&WEIGHTED);
    for (size_t d = 0; d < sizeof DAMAGES / sizeof *DAMAGES; d++) {
        const struct damage *damage = &DAMAGES[d];
        struct job j = taped(damage->tape, damage->length, 2, 1, 1);
        j.tape[damage->offset] = damage->byte;
        expect_unread(j, damage->name, damage->number, damage->place);
    }
    /* 16 comes right after the first record, which here is the last one, too */
    const uint32_t short_one = RELIEF_REFUSED_BUFFER_TOO_SHORT;
    expect_unread(taped(&PLAIN, 5, 1, 1, 1), "samples_len one too small", short_one, 0);
    expect_unread(taped(&PLAIN, 5, 2, 0, 1), "weights_len one too small", short_one, 0);
    expect_unread(taped(&PLAIN, 5, 2, 1, 0), "flow_len one too small", short_one, 0);
    expect_unread(taped(&PLAIN, 25, 2, 0, 1), "no weights, and no such records", short_one, 0);
    expect_unread(taped(&WEIGHTED, 28, 0, 0, 0), "no buffers", short_one, 0);
    end_group("read, refused");
}

static void expect_tape(const struct job *j, const struct tape *tape)
{
    expect(&WRITE, j, tape->name, (struct answer){.count = tape->length});
    if (memcmp(j->tape, tape->bytes, tape->length) != 0)
        fail("write", tape->name, "another tape");
    expect_job(j, tape->name);
}

/* Document 01's job of 2 by 1 pixels. */
static void two_by_one(void)
{
    struct job j = job(2, 1, false);
    lend(&j, ALL);
    j.samples[1] = 2;
    j.flow[0] = -256;
    expect(
        &CHECK, &j, "flow -256",
        (struct answer){.outcome = RELIEF_CHECKED, .price = 131072, .floor = 131072});
    expect_values("check", "image", j.image, (int32_t[]){384, 384}, 2);
    expect(&PRICE, &j, "384 384", (struct answer){.outcome = RELIEF_CHECKED, .price = 131072});
    expect_tape(&j, &PLAIN);
    j.work[0] = j.work[1] = -1;
    expect(
        &RUN, &j, "allowance 100",
        (struct answer){
            .outcome = RELIEF_SETTLED, .moved = 17, .price = 131080, .floor = 131064, .slack = 16});
    expect_values("run", "flow", j.flow, (int32_t[]){-254}, 1);
    expect_values("run", "image", j.image, (int32_t[]){382, 386}, 2);
    expect_values("run", "work", j.work, (int32_t[]){0, 0}, 2);
    end_group("accepted, 2 by 1");
}

/* That job with a weight of its pair, which is over the terms' weight, then below it. */
static void own_weight(void)
{
    struct job j = job(2, 1, true);
    lend(&j, ALL);
    j.samples[1] = 2;
    j.weights[0] = 300;
    j.flow[0] = -300;
    expect(
        &CHECK, &j, "flow -300",
        (struct answer){
            .outcome = RELIEF_CHECKED, .price = 232800, .floor = 127200, .slack = 105600});
    expect_values("check", "image", j.image, (int32_t[]){428, 340}, 2);
    expect(&PRICE, &j, "428 340", (struct answer){.outcome = RELIEF_CHECKED, .price = 232800});
    expect_tape(&j, &WEIGHTED);
    j.weights[0] = 100;
    expect(
        &RUN, &j, "weight 100",
        (struct answer){.outcome = RELIEF_SETTLED, .moved = 2, .price = 82400, .floor = 82400});
    expect_values("run", "flow", j.flow, (int32_t[]){-100}, 1);
    expect_values("run", "image", j.image, (int32_t[]){228, 540}, 2);
    end_group("accepted, 2 by 1 with a weight of its pair");
}

/* Tapes with and without weights and flow: write is lent none of those that it leaves out, and read
   leaves their buffers as they were. */
static void records(void)
{
    for (int with = 0; with <= 3; with++) {
        struct job j = job(2, 1, with & 1);
        j.flow_len = with & 2 ? 1 : 0;
        j.tape_len = RELIEF_TAPE_BYTES(2, j.weights_len, j.flow_len);
        lend(&j, ALL);
        j.samples[1] = 2;
        if (with & 1)
            j.weights[0] = 65280;
        if (with & 2)
            j.flow[0] = -200;
        char input[50];
        snprintf(
            input, sizeof input, "%zu weights and %zu flow numbers", j.weights_len, j.flow_len);
        expect(&WRITE, &j, input, (struct answer){.count = j.tape_len});
        expect_job(&j, input);
    }
    end_group("accepted, 2 by 1 with and without weights and flow records");
}

/* Without pairs: weights, flow and work have length 0 and lie at the guard page. */
static void one_by_one(void)
{
    struct job j = job(1, 1, true);
    lend(&j, ALL);
    j.samples[0] = 7;
    expect(&CHECK, &j, "no pairs", (struct answer){.outcome = RELIEF_CHECKED});
    expect_values("check", "image", j.image, (int32_t[]){1920}, 1);
    expect(&PRICE, &j, "1920", (struct answer){.outcome = RELIEF_CHECKED});
    expect(&WRITE, &j, "no pairs", (struct answer){.count = RELIEF_TAPE_BYTES(1, 0, 0)});
    expect_job(&j, "no pairs");
    expect(&RUN, &j, "no pairs", (struct answer){.outcome = RELIEF_SETTLED});
    end_group("accepted, 1 by 1");
}

/* Some pages of each buffer: what run leaves, check, price, write and read find again. */
static void some_pages(bool weighted)
{
    struct job j = job(61, 37, weighted);
    j.quick = 3;
    j.allowance = 5;
    lend(&j, ALL);
    for (size_t i = 0; i < j.samples_len; i++)
        j.samples[i] = (uint8_t)(i * i);
    for (size_t i = 0; i < j.weights_len; i++)
        j.weights[i] = (int32_t)(i * i % 1024);
    struct answer figures;
    if (made(&RUN, &j, "61 by 37", &figures)) {
        if (figures.number != RELIEF_ACCEPTED)
            fail("run", "61 by 37", "refused");
        struct job again = j;
        again.image = guarded(j.image_len * sizeof *j.image);
        figures.outcome = RELIEF_CHECKED;
        figures.moved = 0;
        expect(&CHECK, &again, "run's flow", figures);
        expect_values("check", "image", again.image, j.image, j.image_len);
        figures.floor = 0;
        figures.slack = 0;
        expect(&PRICE, &j, "run's image", figures);
        expect(&WRITE, &j, "run's flow", (struct answer){.count = j.tape_len});
        expect_job(&j, "run's flow");
    }
    end_group(weighted ? "accepted, 61 by 37 with weights" : "accepted, 61 by 37");
}

int main(void)
{
    setrlimit(RLIMIT_CORE, &(struct rlimit){0, 0});
    refused(&PRICE);
    refused(&CHECK);
    refused(&RUN);
    refused(&WRITE);
    refused_contents();
    refused_read();
    two_by_one();
    own_weight();
    records();
    one_by_one();
    some_pages(false);
    some_pages(true);
    if (all_failures != 0) {
        printf("guard: %d calls, %d failures\n", all_calls, all_failures);
        return EXIT_FAILURE;
    }
    printf("guard: %d calls, none touched the guard page\n", all_calls);
    return EXIT_SUCCESS;
}
