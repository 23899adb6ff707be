/*
 * What include/relief.h has as macros and as texts, as functions of the shared library, so that the
 * Python package takes versions, counts and texts from the header and repeats none. Its calls are
 * the library's own functions, relief_call_price to relief_call_write. tools/python.sh links this
 * with librelief_c.a into python/relief/librelief.so.
 */
#include "relief.h"

const char *relief_boundary_version(void);
const char *relief_boundary_text(uint32_t refusal);
uint32_t relief_boundary_max_weight(void);
size_t relief_boundary_pixels(size_t width, size_t height);
size_t relief_boundary_pairs(size_t width, size_t height);
size_t relief_boundary_tape_bytes(size_t samples, size_t weights, size_t flow);
size_t relief_boundary_read_samples(size_t tape);
size_t relief_boundary_read_flow(size_t tape);

/* The header's version. The library has the same MAJOR and MINOR, or this would not link. */
const char *relief_boundary_version(void)
{
    RELIEF_VERSION_FUNCTION();
    return RELIEF_VERSION_STRING;
}

const char *relief_boundary_text(uint32_t refusal)
{
    return relief_refusal_text(refusal);
}

uint32_t relief_boundary_max_weight(void)
{
    return RELIEF_MAX_WEIGHT;
}

size_t relief_boundary_pixels(size_t width, size_t height)
{
    return RELIEF_PIXELS(width, height);
}

size_t relief_boundary_pairs(size_t width, size_t height)
{
    return RELIEF_PAIRS(width, height);
}

size_t relief_boundary_tape_bytes(size_t samples, size_t weights, size_t flow)
{
    return RELIEF_TAPE_BYTES(samples, weights, flow);
}

/* Enough samples for any tape of so many bytes. */
size_t relief_boundary_read_samples(size_t tape)
{
    return RELIEF_READ_SAMPLES(tape);
}

/* Enough flow numbers, or weights. */
size_t relief_boundary_read_flow(size_t tape)
{
    return RELIEF_READ_FLOW(tape);
}
