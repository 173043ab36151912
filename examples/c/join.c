/*
 * Joins wires of one net that touch on one line, and prints the pieces. From the
 * project's root, once tools/build-port has made the library:
 *
 *   cc -Iinclude examples/c/join.c target/staticlib/libexports.a -o target/join
 *   target/join
 */
#include <inttypes.h>
#include <stdio.h>

#include "readability.h"

enum { WIRES = 3 };

/* Horizontal wires. The first and the last are of net 1 and meet at x = 5. */
static const uint32_t net[WIRES] = {1, 2, 1};
static const uint8_t orientation[WIRES] = {1, 1, 1};
static const double fixed[WIRES] = {0, 4, 0};
static const double start[WIRES] = {9, 5, 0};
static const double end[WIRES] = {5, 15, 5};

/* As many entries as there are wires are always enough. */
static uint32_t to_net[WIRES];
static uint8_t to_orientation[WIRES];
static double to_fixed[WIRES], to_start[WIRES], to_end[WIRES];

int main(void)
{
    uint64_t out[READABILITY_JOIN_WORDS];
    uint32_t status = readability_join(
        net, WIRES, orientation, WIRES, fixed, WIRES, start, WIRES, end, WIRES,
        to_net, WIRES, to_orientation, WIRES, to_fixed, WIRES, to_start, WIRES, to_end, WIRES, out);
    if (status != READABILITY_ACCEPTED) {
        printf("join refused %" PRIu32 "\n", status);
        return 0;
    }
    for (uint64_t i = 0; i < out[READABILITY_JOIN_PIECES]; i++)
        printf("net %" PRIu32 ": y = %g, x = %g to %g\n",
               to_net[i], to_fixed[i], to_start[i], to_end[i]);
    printf("%" PRIu64 " gone\n", out[READABILITY_JOIN_GONE]);
    return 0;
}
