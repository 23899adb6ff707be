/*
 * The relief cleaner as a library: the calls price, check, run, read and write.
 *
 * Link target/staticlib/librelief_c.a, which `bash tools/build.sh relief_c` writes (x86-64 Linux).
 * Of the C library it uses memset alone. This header is C11 and C++.
 *
 * TERMS
 *
 * - width, height: size of the raster in pixels, each 1 to 4,096, their product at most 1,048,576.
 *   Pixels run row by row.
 * - sample: one byte, a code from 0 to 255. A code covers a whole level, 256 sub-units, and is read
 *   at its centre: the reading of a sample s is 256 * s + 128 sub-units.
 * - weight: 0 to 65,280 sub-units.
 * - low, high: the lowest and the highest level of the box, 0 to 255, low at most high. Image
 *   values run over these levels, from 256 * low to 256 * high + 255. Samples may lie outside the
 *   box.
 * - image value: in sub-units. It becomes a code again as value / 256 in whole numbers, the code
 *   whose level it lies in; value / 256.0 is its depth in levels (the reading of s has s + 0.5).
 * - pairs: neighbours. First every (pixel, pixel below) in row order of the upper pixel, then every
 *   (pixel, pixel to its right) in row order of the left one. So with the pixel in column x of row
 *   y, both from 0, the pixel below makes pair y * width + x, and that to its right
 *   width * (height - 1) + y * (width - 1) + x.
 * - weights: a weight for each pair, in the order of pairs, each 0 to 65,280 sub-units. Length 0 is
 *   none lent: each pair's own weight is then weight. With weights lent, weight must be allowed all
 *   the same, but nothing except a tape's record depends on it.
 * - fall of a pair: its first pixel's image value minus its second's.
 * - flow: one number for each pair, from -w to w, where w is the pair's own weight. Its pull on a
 *   pixel is the sum of the numbers where the pixel is first minus those where it is second; its
 *   image is the sample's reading minus pull at each pixel, clamped to the box.
 * - quick: the number of quick rounds, 0 to 4,096. allowance: the most steady rounds, 0 to 65,535.
 *
 * low, high and allowance are as narrow as their types: C cuts a larger number without a word, and
 * no call can refuse it.
 *
 * ROUNDS
 *
 * A step on a flow takes the flow's image and adds to each number fall / 8, rounded; the result is
 * clamped to -w .. w, where w is the pair's own weight. Quick rounds round toward zero, steady
 * rounds to the nearest whole number, an exact half toward zero. A pair would move if a steady
 * round's step changes its number.
 *
 * Quick rounds (Beck and Teboulle's FGP) start from P[0] = R[1] = 0 at every pair and
 * T[1] = 65,536. Round k makes
 *   P[k] = the step on R[k] (R[k] itself may pass the weights);
 *   T[k + 1] = (65,536 + root) / 2, rounded down, where root is the largest whole number whose
 *     square is at most 65,536^2 + 4 * T[k]^2;
 *   R[k + 1] = P[k] + (T[k] - 65,536) * (P[k] - P[k - 1]) / T[k + 1], this quotient alone rounded
 *     toward zero.
 *
 * Steady rounds go on from the last P (P[0] without quick rounds): each replaces the flow by its
 * step. A test comes before each of them, and once more when the allowance is used up. If no pair
 * would move, the run has settled. If the allowance is used up and some pair would still move, it
 * is spent. Nothing else ends a run.
 *
 * A WEIGHT FOR EACH PAIR
 *
 * The larger a pair's weight, the more it draws its two pixels together. With 0 it does not at all,
 * so that a joint between them stays; other pairs still may, round the end of the joint. A pixel
 * all of whose pairs have weight 0 keeps its reading, clamped to the box. examples/facade.c sets 0
 * across the edges of joints.
 *
 * Example: samples 0, 2 and 100, width 3, height 1, weight 256, low 0, high 255, no quick rounds,
 * allowance 100. Without weights a run leaves the image 384 640 25472. With the weights 256 and 0
 * it leaves 382 386 25728: the third pixel keeps its reading.
 *
 * BUFFERS
 *
 * Every buffer is a pointer and then its length in values. Lengths must be exact, but for those of
 * relief_read and for relief_write's output; weights, and relief_write's flow, may have length 0.
 * - Alignment: every pointer, to a buffer or to a number, has the natural alignment of its type.
 * - Null: a buffer of length 0 may be null, such as NULL, 0 for no weights, or what malloc(0) gave.
 *   No other pointer is ever null.
 * - Overlap: what a call writes to, buffers and numbers, overlaps nothing else that it is lent.
 *   Buffers that are const may overlap each other.
 *
 * Contents are read only after terms and lengths have passed: price, check, run and write touch no
 * buffer when they are refused with 1, 3 to 7, 10, 16 or 19, or with 2 for weight. 2 is tested
 * twice: of weight with the terms, at place 0; of the values of weights after the lengths, before 8
 * and 9, at the first index. (2 at 0 is weight's where that is over 65,280, else weights[0]'s.)
 *
 * THREADS
 *
 * Every call is thread-safe and reentrant: it works in what it is lent, has no global state,
 * allocates nothing, makes no system call and keeps nothing after it returns. Calls may be made at
 * the same time, as long as nothing that one of them writes to is lent to another. (Not proved, but
 * seen in the compiled library: it has no data that can be written and names no function but
 * memset.)
 *
 * ANSWERS
 *
 * Each call returns the number of its refusal, or 0 when it is accepted.
 * - Accepted: *place is 0, and the other numbers and the buffers are set as each call says.
 * - Refused: *place says where, every other number is 0, and every buffer is as it was.
 *
 * A call tests its input in the order in which each lists its refusals, and the first one wins.
 *
 * TWO FLOWS OF ONE JOB
 *
 * Of two accepted calls with the same samples, size, box and weight of each pair, each call a
 * relief_check or a relief_run (whatever its rounds), with the images that they fill and the slacks
 * that they give:
 *
 *   2 * squared distance of the two images <= slack + other slack
 *
 * the squared distance being the sum over pixels of the square of the difference of their values;
 * and where both slacks are 0, the images are equal. On a grid divided k times as finely (readings,
 * each pair's weight, box and flows times k), both sides are k * k times as large.
 *
 * Example: samples 0 and 2, width 2, height 1, weight 256, low 0, high 255. Flow -254 has the image
 * 382 386 and slack 16, flow -256 the image 384 384 and slack 0: the squared distance is 8, and
 * 2 * 8 <= 16 + 0.
 *
 * It says nothing of two jobs, with another scan, box or weight of a pair, however small the
 * slacks; nor that the images are near the best one, which each slack says by itself
 * (relief_check).
 */
#ifndef RELIEF_H
#define RELIEF_H

#include <stddef.h>
#include <stdint.h>

#ifdef __cplusplus
extern "C" {
#endif

/*
 * The version. Before 1.0.0 a change that callers must follow raises MINOR. What makes a call by
 * this header links only with a library of the same MAJOR and MINOR: any other lacks the function
 * that is named after these (THE LIBRARY ITSELF, below).
 */
#define RELIEF_VERSION_MAJOR 0
#define RELIEF_VERSION_MINOR 5
#define RELIEF_VERSION_PATCH 0
#define RELIEF_VERSION_STRING "0.5.0"

/* The limits: the largest number of each kind that is allowed. */
#define RELIEF_MAX_SIDE 4096           /* width and height; the smallest is 1 */
#define RELIEF_MAX_PIXELS 1048576      /* width * height */
#define RELIEF_MAX_PAIRS 2095104       /* those of 1,024 by 1,024 pixels */
#define RELIEF_MAX_LEVEL 255           /* low and high, by their type */
#define RELIEF_MAX_WEIGHT 65280        /* weight and each pair's own, in sub-units */
#define RELIEF_MAX_QUICK 4096
#define RELIEF_MAX_ALLOWANCE 65535     /* by its type */
#define RELIEF_MAX_TAPE_BYTES 18858000 /* a tape of that many samples, weights and flow numbers */

/*
 * Counts, of type size_t, and constant where the arguments are. An argument may be evaluated more
 * than once. Beyond the limits each gives what it says, and never a number that has wrapped.
 */

/* Whether a size is allowed. The calls refuse any other with RELIEF_REFUSED_SIZE, whatever is
   lent. */
#define RELIEF_SIZE_ALLOWED(width, height) \
    ((size_t)(width) - 1 < RELIEF_MAX_SIDE && (size_t)(height) - 1 < RELIEF_MAX_SIDE && \
     (size_t)(width) * (size_t)(height) <= RELIEF_MAX_PIXELS)

/* The number of pixels: the length of samples and image. 0 for a size that is not allowed. */
#define RELIEF_PIXELS(width, height) \
    (RELIEF_SIZE_ALLOWED(width, height) ? (size_t)(width) * (size_t)(height) : (size_t)0)

/* The number of pairs: the length of flow and of weights (or 0 for these), and half that of work. 0
   when width and height are 1, and for a size that is not allowed. */
#define RELIEF_PAIRS(width, height) \
    (RELIEF_SIZE_ALLOWED(width, height) \
         ? 2 * (size_t)(width) * (size_t)(height) - (size_t)(width) - (size_t)(height) \
         : (size_t)0)

/* The bytes of a tape with so many samples, weights and flow numbers (0: no such records). 0 for no
   samples, and for more than RELIEF_MAX_PIXELS of them or than RELIEF_MAX_PAIRS of the others. */
#define RELIEF_TAPE_BYTES(samples_len, weights_len, flow_len) \
    ((size_t)(samples_len) - 1 < RELIEF_MAX_PIXELS && \
             RELIEF_MAX_PAIRS - (size_t)(weights_len) <= RELIEF_MAX_PAIRS && \
             RELIEF_MAX_PAIRS - (size_t)(flow_len) <= RELIEF_MAX_PAIRS \
         ? 16 + 2 * (size_t)(samples_len) + 3 * (size_t)(weights_len) + 5 * (size_t)(flow_len) \
         : (size_t)0)

/* Lengths of samples, weights and flow that are enough to read any tape of so many bytes;
   relief_read says in what sense. A tape has at least 16 bytes and 2 for each sample, and there are
   at most 2 * (pixels - 1) pairs. */
#define RELIEF_READ_SAMPLES(tape_len) \
    ((size_t)(tape_len) < 18 \
         ? (size_t)0 \
         : ((size_t)(tape_len) - 16) / 2 < RELIEF_MAX_PIXELS ? ((size_t)(tape_len) - 16) / 2 \
                                                             : (size_t)RELIEF_MAX_PIXELS)
#define RELIEF_READ_FLOW(tape_len) \
    ((size_t)(tape_len) < 18 \
         ? (size_t)0 \
         : 2 * (RELIEF_READ_SAMPLES(tape_len) - 1) < RELIEF_MAX_PAIRS \
               ? 2 * (RELIEF_READ_SAMPLES(tape_len) - 1) \
               : (size_t)RELIEF_MAX_PAIRS)
#define RELIEF_READ_WEIGHTS(tape_len) RELIEF_READ_FLOW(tape_len)

/* What the calls return. The place is 0 unless named. */
enum relief_refusal {
    RELIEF_ACCEPTED = 0,
    RELIEF_REFUSED_SIZE = 1,             /* width or height not 1 to 4,096, or over 1,048,576
                                            pixels */
    RELIEF_REFUSED_WEIGHT = 2,           /* weight over 65,280; or a pair's weight not 0 to 65,280,
                                            place: the first index, in a tape its record's offset */
    RELIEF_REFUSED_BOX = 3,              /* low above high */
    RELIEF_REFUSED_SAMPLES_LENGTH = 4,   /* samples_len is not the number of pixels */
    RELIEF_REFUSED_FLOW_LENGTH = 5,      /* flow_len is not the number of pairs */
    RELIEF_REFUSED_IMAGE_LENGTH = 6,     /* image_len is not the number of pixels */
    RELIEF_REFUSED_WORK_LENGTH = 7,      /* work_len is not 2 * the number of pairs */
    RELIEF_REFUSED_FLOW_VALUE = 8,       /* flow number beyond -w to w, w being its pair's weight;
                                            place: the first index */
    RELIEF_REFUSED_IMAGE_VALUE = 9,      /* image value outside the box; place: the first index */
    RELIEF_REFUSED_QUICK_ROUNDS = 10,    /* more than 4,096 quick rounds */
    RELIEF_REFUSED_UNKNOWN_KIND = 12,    /* unknown kind of record; place: the record's offset */
    RELIEF_REFUSED_TAPE_CUT = 13,        /* the tape ends inside a record; place: that record's
                                            offset */
    RELIEF_REFUSED_KIND_NOT_ALLOWED = 14, /* kind not allowed here; place: the record's offset */
    RELIEF_REFUSED_BYTE_AFTER_END = 15,  /* a byte after the end record; place: its offset */
    RELIEF_REFUSED_BUFFER_TOO_SHORT = 16, /* a buffer that a tape is read into or written to is too
                                            short */
    RELIEF_REFUSED_TAPE_UNFINISHED = 18, /* the tape ends where a record is due; place: the tape's
                                            length */
    RELIEF_REFUSED_WEIGHTS_LENGTH = 19   /* weights_len is neither 0 nor the number of pairs */
};

/* What a call returned, in words: one line without an end, never null. */
static inline const char *relief_refusal_text(uint32_t refusal)
{
    switch (refusal) {
    case RELIEF_ACCEPTED:
        return "accepted";
    case RELIEF_REFUSED_SIZE:
        return "width or height is not 1 to 4,096, or there are over 1,048,576 pixels";
    case RELIEF_REFUSED_WEIGHT:
        return "a weight is not 0 to 65,280";
    case RELIEF_REFUSED_BOX:
        return "low is above high";
    case RELIEF_REFUSED_SAMPLES_LENGTH:
        return "the length of samples is not the number of pixels";
    case RELIEF_REFUSED_FLOW_LENGTH:
        return "the length of flow is not the number of pairs";
    case RELIEF_REFUSED_IMAGE_LENGTH:
        return "the length of image is not the number of pixels";
    case RELIEF_REFUSED_WORK_LENGTH:
        return "the length of work is not twice the number of pairs";
    case RELIEF_REFUSED_FLOW_VALUE:
        return "a flow number is beyond its pair's weight";
    case RELIEF_REFUSED_IMAGE_VALUE:
        return "an image value is outside the box";
    case RELIEF_REFUSED_QUICK_ROUNDS:
        return "there are over 4,096 quick rounds";
    case RELIEF_REFUSED_UNKNOWN_KIND:
        return "the record's kind is unknown";
    case RELIEF_REFUSED_TAPE_CUT:
        return "the tape ends inside a record";
    case RELIEF_REFUSED_KIND_NOT_ALLOWED:
        return "the record's kind is not allowed here";
    case RELIEF_REFUSED_BYTE_AFTER_END:
        return "a byte follows the end record";
    case RELIEF_REFUSED_BUFFER_TOO_SHORT:
        return "a buffer that the tape is read into or written to is too short";
    case RELIEF_REFUSED_TAPE_UNFINISHED:
        return "the tape ends where a record is due";
    case RELIEF_REFUSED_WEIGHTS_LENGTH:
        return "the length of weights is neither 0 nor the number of pairs";
    default:
        return "not a refusal of this library";
    }
}

/* How an accepted call ended; 0 when refused. The outcome of price and check is checked. */
enum relief_outcome {
    RELIEF_CHECKED = 1, /* a given image or flow was judged */
    RELIEF_SETTLED = 2, /* no pair would move any more */
    RELIEF_SPENT = 3    /* the allowance is used up and some pair would still move */
};

/*
 * THE LIBRARY ITSELF
 *
 * The functions that it defines. From C and C++ make the calls that follow them, relief_price to
 * relief_write: inline functions with the same arguments, which allow null for a buffer of length 0
 * and refer to the function that is named after the version.
 *
 * A language that does not compile this header calls relief_call_price to relief_call_write. It
 * lends no null pointer, also where a length is 0 (any aligned pointer does there), and refers to
 * the version's function itself: without that it would link with a library of any version.
 */

/* The version's function: relief_version_0_5 for 0.5, and so on. It gives PATCH. To see what a
   library has: nm librelief_c.a | grep relief_version. */
#define RELIEF_VERSION_JOINED(major, minor) relief_version_##major##_##minor
#define RELIEF_VERSION_NAMED(major, minor) RELIEF_VERSION_JOINED(major, minor)
#define RELIEF_VERSION_FUNCTION RELIEF_VERSION_NAMED(RELIEF_VERSION_MAJOR, RELIEF_VERSION_MINOR)
uint32_t RELIEF_VERSION_FUNCTION(void);

uint32_t relief_call_price(
    uint32_t width, uint32_t height, uint32_t weight, uint8_t low, uint8_t high,
    const uint8_t *samples, size_t samples_len,
    const int32_t *weights, size_t weights_len,
    const int32_t *image, size_t image_len,
    uint64_t *place, uint32_t *outcome, uint32_t *moved,
    uint64_t *price, int64_t *floor, uint64_t *slack);

uint32_t relief_call_check(
    uint32_t width, uint32_t height, uint32_t weight, uint8_t low, uint8_t high,
    const uint8_t *samples, size_t samples_len,
    const int32_t *weights, size_t weights_len,
    const int32_t *flow, size_t flow_len,
    int32_t *image, size_t image_len,
    uint64_t *place, uint32_t *outcome, uint32_t *moved,
    uint64_t *price, int64_t *floor, uint64_t *slack);

uint32_t relief_call_run(
    uint32_t width, uint32_t height, uint32_t weight, uint8_t low, uint8_t high,
    uint32_t quick, uint16_t allowance,
    const uint8_t *samples, size_t samples_len,
    const int32_t *weights, size_t weights_len,
    int32_t *flow, size_t flow_len,
    int32_t *image, size_t image_len,
    int32_t *work, size_t work_len,
    uint64_t *place, uint32_t *outcome, uint32_t *moved,
    uint64_t *price, int64_t *floor, uint64_t *slack);

uint32_t relief_call_read(
    const uint8_t *tape, size_t tape_len,
    uint8_t *samples, size_t samples_len,
    int32_t *weights, size_t weights_len,
    int32_t *flow, size_t flow_len,
    uint64_t *place, uint32_t *width, uint32_t *height, uint32_t *weight, uint8_t *low,
    uint8_t *high, uint32_t *quick, uint16_t *allowance, uint32_t *weighted, uint32_t *flowed);

uint32_t relief_call_write(
    uint32_t width, uint32_t height, uint32_t weight, uint8_t low, uint8_t high,
    uint32_t quick, uint16_t allowance,
    const uint8_t *samples, size_t samples_len,
    const int32_t *weights, size_t weights_len,
    const int32_t *flow, size_t flow_len,
    uint8_t *output, size_t output_len,
    uint64_t *place, uint64_t *count);

/* A buffer and its length as the library takes them: for null and 0 the address of none, which is
   neither read nor written. */
#define RELIEF_LENT(buffer, none) (buffer || buffer##_len != 0 ? buffer : &none), buffer##_len

/*
 * Price judges a given image.
 *
 * samples  one for each pixel
 * weights  one for each pair, or none; never written to
 * image    one value for each pixel, in sub-units, each within the box
 * *outcome, *moved   RELIEF_CHECKED and 0
 * *price   the sum of (value - reading)^2 over pixels, plus 2 * the sum of weight * |fall| over
 *          pairs, with each pair's own weight
 * *floor, *slack   0: no flow is given
 *
 * Refusals: 1, 2, 3; 4, 19, 6; 2 (weights); 9.
 */
static inline uint32_t relief_price(
    uint32_t width, uint32_t height, uint32_t weight, uint8_t low, uint8_t high,
    const uint8_t *samples, size_t samples_len,
    const int32_t *weights, size_t weights_len,
    const int32_t *image, size_t image_len,
    uint64_t *place, uint32_t *outcome, uint32_t *moved,
    uint64_t *price, int64_t *floor, uint64_t *slack)
{
    uint8_t no_byte = 0;
    int32_t no_value = 0;
    RELIEF_VERSION_FUNCTION();
    return relief_call_price(
        width, height, weight, low, high, RELIEF_LENT(samples, no_byte),
        RELIEF_LENT(weights, no_value), RELIEF_LENT(image, no_value), place, outcome, moved, price,
        floor, slack);
}

/*
 * Check judges a given flow and fills the image.
 *
 * samples  one for each pixel
 * weights  one for each pair, or none; never written to
 * flow     one number for each pair, each within its pair's weight
 * image    one value for each pixel; filled with the flow's image, in sub-units
 * *outcome, *moved   RELIEF_CHECKED and 0
 * *price   the price of that image, as relief_price gives it
 * *floor   the sum of (value - reading)^2 over pixels of that image, plus 2 * the sum of
 *          flow * fall over pairs. No image of the box has a lower price. It may be negative
 * *slack   price minus floor. For every image of the box, *price plus the squared distance of the
 *          two images is at most the other image's price plus *slack. Two flows of one job: see
 *          above
 *
 * Refusals: 1, 2, 3; 4, 5, 19, 6; 2 (weights); 8.
 */
static inline uint32_t relief_check(
    uint32_t width, uint32_t height, uint32_t weight, uint8_t low, uint8_t high,
    const uint8_t *samples, size_t samples_len,
    const int32_t *weights, size_t weights_len,
    const int32_t *flow, size_t flow_len,
    int32_t *image, size_t image_len,
    uint64_t *place, uint32_t *outcome, uint32_t *moved,
    uint64_t *price, int64_t *floor, uint64_t *slack)
{
    uint8_t no_byte = 0;
    int32_t no_value = 0;
    RELIEF_VERSION_FUNCTION();
    return relief_call_check(
        width, height, weight, low, high, RELIEF_LENT(samples, no_byte),
        RELIEF_LENT(weights, no_value), RELIEF_LENT(flow, no_value), RELIEF_LENT(image, no_value),
        place, outcome, moved, price, floor, slack);
}

/*
 * Run does the quick rounds from flow 0, then steady rounds until no pair would move or the
 * allowance is used up (ROUNDS, above), and fills flow and image. It settles whenever
 * 2 * (allowance + 1) is more than the slack after the quick rounds, and already when
 * 8 * (allowance + 1) is; 8 * moved is at most that slack. A settled run's slack is at most
 * 16 * the sum of the pairs' weights, which is 16 * weight * pairs without weights.
 *
 * quick      the number of quick rounds, at most RELIEF_MAX_QUICK
 * allowance  the most steady rounds
 * samples    one for each pixel
 * weights    one for each pair, or none; never written to
 * flow       one number for each pair; what it holds before does not matter; filled with the last
 *            flow
 * image      one value for each pixel; filled with that flow's image
 * work       2 * pairs values; what it holds before does not matter; filled with zeros
 * *outcome   RELIEF_SETTLED or RELIEF_SPENT
 * *moved     the number of steady rounds that changed a value
 * *price, *floor, *slack   of the flow and its image, as relief_check gives them
 *
 * Refusals: 1, 2, 3, 10; 4, 5, 19, 6, 7; 2 (weights).
 */
static inline uint32_t relief_run(
    uint32_t width, uint32_t height, uint32_t weight, uint8_t low, uint8_t high,
    uint32_t quick, uint16_t allowance,
    const uint8_t *samples, size_t samples_len,
    const int32_t *weights, size_t weights_len,
    int32_t *flow, size_t flow_len,
    int32_t *image, size_t image_len,
    int32_t *work, size_t work_len,
    uint64_t *place, uint32_t *outcome, uint32_t *moved,
    uint64_t *price, int64_t *floor, uint64_t *slack)
{
    uint8_t no_byte = 0;
    int32_t no_value = 0;
    RELIEF_VERSION_FUNCTION();
    return relief_call_run(
        width, height, weight, low, high, quick, allowance, RELIEF_LENT(samples, no_byte),
        RELIEF_LENT(weights, no_value), RELIEF_LENT(flow, no_value), RELIEF_LENT(image, no_value),
        RELIEF_LENT(work, no_value), place, outcome, moved, price, floor, slack);
}

/*
 * Read takes a tape of one job and gives the job's terms.
 *
 * A tape is records: a byte of kind, then a body, lowest byte first.
 *   1  width 2 bytes, height 2
 *   2  weight 2, low 1, high 1
 *   3  quick rounds 2, steady allowance 2
 *   4  one sample, for each pixel
 *   6  one weight, 2 bytes, for each pair or none at all
 *   5  one flow number, 4 bytes, two's complement, for each pair or none at all
 *   0  the end, without a body
 * They come in this order, and nothing follows the end.
 *
 * tape     the bytes of the tape
 * samples  at least one for each pixel; the front is filled, the rest left as it was
 * weights  at least one for each pair, with or without weight records; the front is filled and the
 *          rest left, and all of it is left without weight records
 * flow     at least one number for each pair, in the same way
 * *width, *height, *weight, *low, *high, *quick, *allowance   the job's terms and rounds
 * *weighted   1 when there were weight records, else 0 (so also where there are no pairs): lend the
 *          other calls one weight for each pair where it is 1, and length 0 where it is 0
 * *flowed  1 when there were flow records, else 0 (so also where there are no pairs)
 *
 * Lengths before the tape is read: RELIEF_READ_SAMPLES, RELIEF_READ_WEIGHTS and RELIEF_READ_FLOW of
 * tape_len. A tape that is refused in these with 16 is accepted in none: it names a size with more
 * samples than its bytes can hold, as a tape does that ends among its samples. To be told 13 or 18
 * of such a tape, lend buffers for the size in its bytes 1 to 4, or RELIEF_MAX_PIXELS samples and
 * RELIEF_MAX_PAIRS of the others: in these no tape is refused with 16.
 *
 * Refusals: at each record 18, 12, 14, 13, then its numbers (1, 2, 3 or 10, and 2 for a pair's
 * weight; place: the record's offset), and 16 right after 1; then 15; then 8. The first faulty
 * record wins. With 13 the tape was cut: fetch it again. With 18 it was never finished, or was cut
 * right behind a record: send it back, unless the sender's is longer.
 */
static inline uint32_t relief_read(
    const uint8_t *tape, size_t tape_len,
    uint8_t *samples, size_t samples_len,
    int32_t *weights, size_t weights_len,
    int32_t *flow, size_t flow_len,
    uint64_t *place, uint32_t *width, uint32_t *height, uint32_t *weight, uint8_t *low,
    uint8_t *high, uint32_t *quick, uint16_t *allowance, uint32_t *weighted, uint32_t *flowed)
{
    uint8_t no_byte = 0;
    int32_t no_value = 0;
    RELIEF_VERSION_FUNCTION();
    return relief_call_read(
        RELIEF_LENT(tape, no_byte), RELIEF_LENT(samples, no_byte), RELIEF_LENT(weights, no_value),
        RELIEF_LENT(flow, no_value), place, width, height, weight, low, high, quick, allowance,
        weighted, flowed);
}

/*
 * Write makes the tape of a job.
 *
 * samples  one for each pixel
 * weights  one for each pair, never written to; length 0 is none: no weight records
 * flow     one number for each pair, each within its pair's weight; length 0 is none: no flow
 *          records
 * output   at least RELIEF_TAPE_BYTES(samples_len, weights_len, flow_len); the front is filled with
 *          the tape, the rest left as it was
 * *count   the number of bytes of the tape
 *
 * Refusals: 1, 2, 3, 10; 4, 5, 19, 16; 2 (weights); 8.
 */
static inline uint32_t relief_write(
    uint32_t width, uint32_t height, uint32_t weight, uint8_t low, uint8_t high,
    uint32_t quick, uint16_t allowance,
    const uint8_t *samples, size_t samples_len,
    const int32_t *weights, size_t weights_len,
    const int32_t *flow, size_t flow_len,
    uint8_t *output, size_t output_len,
    uint64_t *place, uint64_t *count)
{
    uint8_t no_byte = 0;
    int32_t no_value = 0;
    RELIEF_VERSION_FUNCTION();
    return relief_call_write(
        width, height, weight, low, high, quick, allowance, RELIEF_LENT(samples, no_byte),
        RELIEF_LENT(weights, no_value), RELIEF_LENT(flow, no_value), RELIEF_LENT(output, no_byte),
        place, count);
}

#undef RELIEF_LENT

#ifdef __cplusplus
}
#endif

#endif
