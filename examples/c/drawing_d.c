/*
 * Measures a small drawing, D, and prints the three lines of its sheet. From
 * the project's root, once tools/build-port has made the library:
 *
 *   cc -Iinclude examples/c/drawing_d.c target/staticlib/libexports.a -o target/drawing_d
 *   target/drawing_d
 */
#include <inttypes.h>
#include <stdio.h>

#include "readability.h"

enum { SEGMENTS = 2, NODES = 1, EXEMPTIONS = 1, ALLOWANCE = 1000 };

/* Two horizontal wires, of nets 1 and 2. */
static const uint32_t net[SEGMENTS] = {1, 2};
static const uint8_t orientation[SEGMENTS] = {1, 1};
static const double fixed[SEGMENTS] = {0, 4};
static const double start[SEGMENTS] = {0, 5};
static const double end[SEGMENTS] = {10, 15};

/* One node, which net 2 may come near to. */
static const uint32_t id[NODES] = {7};
static const double x[NODES] = {2};
static const double y[NODES] = {1};
static const double width[NODES] = {3};
static const double height[NODES] = {2};
static const uint32_t exempt_net[EXEMPTIONS] = {2};
static const uint32_t exempt_node[EXEMPTIONS] = {7};

static const double threshold = 2;
static const double cutoff = 6;

/* Enough for every call. */
enum { SCRATCH_WORDS = READABILITY_SCRATCH_WORDS(SEGMENTS, NODES) };
static uint64_t scratch[SCRATCH_WORDS];

static void print_refusal(const char *measure, uint32_t status)
{
    printf("%s refused %" PRIu32 "\n", measure, status);
}

static void print_float(uint64_t bits)
{
    printf(" %016" PRIx64, bits);
}

/* A gap's two words. */
static void print_gap(const uint64_t *gap)
{
    if (gap[0] == 1)
        print_float(gap[1]);
    else
        printf(" none");
}

static void print_count(uint64_t count)
{
    printf(" %" PRIu64, count);
}

static void print_clearance(void)
{
    uint64_t out[READABILITY_CLEARANCE_WORDS];
    uint32_t status = readability_clearance(
        net, SEGMENTS, orientation, SEGMENTS, fixed, SEGMENTS, start, SEGMENTS, end, SEGMENTS,
        id, NODES, x, NODES, y, NODES, width, NODES, height, NODES,
        exempt_net, EXEMPTIONS, exempt_node, EXEMPTIONS,
        threshold, ALLOWANCE, scratch, SCRATCH_WORDS, out);
    if (status != READABILITY_ACCEPTED) {
        print_refusal("clearance", status);
        return;
    }
    printf("clearance");
    print_gap(out + READABILITY_CLEARANCE_PRESENT);
    print_count(out[READABILITY_CLEARANCE_VIOLATIONS]);
    print_count(out[READABILITY_CLEARANCE_VISITS]);
    printf("\n");
}

static void print_separation(void)
{
    uint64_t out[READABILITY_SEPARATION_WORDS];
    uint32_t status = readability_separation(
        net, SEGMENTS, orientation, SEGMENTS, fixed, SEGMENTS, start, SEGMENTS, end, SEGMENTS,
        ALLOWANCE, scratch, SCRATCH_WORDS, out);
    if (status != READABILITY_ACCEPTED) {
        print_refusal("separation", status);
        return;
    }
    printf("separation");
    print_gap(out + READABILITY_SEPARATION_PRESENT);
    print_gap(out + READABILITY_SEPARATION_NONZERO_PRESENT);
    print_count(out[READABILITY_SEPARATION_VISITS]);
    printf("\n");
}

static void print_congestion(void)
{
    uint64_t out[READABILITY_CONGESTION_WORDS];
    uint32_t status = readability_density_profile(
        net, SEGMENTS, orientation, SEGMENTS, fixed, SEGMENTS, start, SEGMENTS, end, SEGMENTS,
        cutoff, ALLOWANCE, scratch, SCRATCH_WORDS, out);
    if (status != READABILITY_ACCEPTED) {
        print_refusal("congestion", status);
        return;
    }
    printf("congestion");
    print_float(out[READABILITY_CONGESTION_TOTAL]);
    print_float(out[READABILITY_CONGESTION_CONGESTED]);
    print_float(out[READABILITY_CONGESTION_PAIR_OVERLAP]);
    print_count(out[READABILITY_CONGESTION_PEAK]);
    print_gap(out + READABILITY_CONGESTION_NONZERO_PRESENT);
    print_count(out[READABILITY_CONGESTION_VISITS]);
    printf("\n");
}

int main(void)
{
    print_clearance();
    print_separation();
    print_congestion();
    return 0;
}
