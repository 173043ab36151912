/*
 * Measures the separation of wires that are a list of records, and prints it as
 * a number. From the project's root, once tools/build-port has made the library:
 *
 *   cc -Iinclude examples/c/records.c target/staticlib/libexports.a -o target/records
 *   target/records
 */
#include <inttypes.h>
#include <stdio.h>

#include "readability.h"

enum { WIRES = 2, SCRATCH_WORDS = READABILITY_SCRATCH_WORDS(WIRES, 0) };

static const struct readability_segment wires[WIRES] = {
    {.net = 1, .horizontal = true, .fixed = 0, .start = 0, .end = 10},
    {.net = 2, .horizontal = true, .fixed = 4, .start = 5, .end = 15},
};

static uint64_t scratch[SCRATCH_WORDS];

int main(void)
{
    uint64_t out[READABILITY_SEPARATION_WORDS];
    uint32_t status = readability_separation_by_records(
        wires, WIRES, SIZE_MAX, scratch, SCRATCH_WORDS, out);
    if (status != READABILITY_ACCEPTED)
        printf("separation refused %" PRIu32 "\n", status);
    else if (out[READABILITY_SEPARATION_PRESENT] == 1)
        printf("least separation %g\n", readability_float(out[READABILITY_SEPARATION_LEAST]));
    else
        printf("no wires of different nets run beside each other\n");
    return 0;
}
