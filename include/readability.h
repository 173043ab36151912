/*
 * Readability figures of a routed schematic: the functions that crates/exports_c
 * exports, for C99 and C++. Link target/staticlib/libexports.a (x86-64-v2; no
 * other library is needed but C's own). docs/CALLING.md shows how.
 *
 * VERSION. While the major number is 0, the minor number rises whenever a caller
 * has to change something: a signature, the meaning of a word or of a status. The
 * patch number rises otherwise. CHANGELOG.md says what to change. A program that
 * includes this header refers to readability_version_0_3, so that it does not
 * link with a library of another major or minor number: the linker names that
 * symbol as undefined.
 *
 * COLUMNS. A list passes by columns of equal length, each as a pointer and its
 * number of entries.
 *
 *   segments    net, orientation (1 horizontal, 0 vertical), fixed, start, end.
 *               A horizontal segment lies at y = fixed from x = start to
 *               x = end, a vertical one at x = fixed from y = start to y = end.
 *               Either end may be the greater: a segment with start above end is
 *               taken as if the two had been exchanged. Equal ends are unfit.
 *   nodes       id, x, y, width, height. Ids need not differ.
 *   exemptions  net and node id: segments of that net and nodes of that id are
 *               not measured against each other.
 *
 * These columns are only read. The order of a list decides nothing in a report or
 * in the pieces of readability_join. That call writes to output columns, one for
 * each field of a segment, which need not be equally long.
 *
 * POINTERS. A pointer is to as many entries as its length says, or as the array
 * has. It is aligned for its type and not null, for a length of 0 too, where
 * nothing is read or written through it. What a call writes (scratch, words
 * of the report, output columns, text) overlaps nothing else that it is given;
 * columns that are only read may overlap each other. The bool of a record holds 0
 * or 1, as C keeps it; take care where records are read from a file as bytes. The
 * thread rounds floats as IEEE 754 does by default, to nearest and with subnormal
 * numbers: code built with -ffast-math may have turned these off. No other
 * condition is laid on the caller: a call ends for all lengths and all numbers,
 * and answers unfit ones by a status.
 *
 * STATUS. A call returns 0 where it is accepted, or else the number of the
 * first refusal that applies. They are listed in checking order. A number is a
 * name and not a place in that order: 8 is checked before 7.
 *
 *   0  accepted
 *   2  the columns of one list differ in length
 *   3  a list holds more than 4,096 entries
 *   4  the scratch is shorter than readability_scratch_words gives
 *   5  unfit: an orientation above 1, a number that is NaN or infinite (the
 *      threshold and the cutoff included), start equal to end (+0 and -0 are
 *      equal), width or height not above 0, x + width or y + height that is not
 *      finite, or a threshold below 0 (-0 passes)
 *   6  congestion only: a coordinate or the cutoff is off the grid, that is, no
 *      whole multiple of 1/64 or above 1,048,576 in absolute value
 *   8  join only: the shortest output column holds fewer entries than there are
 *      pieces to write
 *   7  the drawing's visit count is above the allowance
 *
 * (1 belongs to the drawing file, see readability_sheet.) A call checks only what
 * it is given.
 *
 * REPORT. Every call writes all its words, on a refusal zeros. A float passes
 * as its 64 bits, which readability_float turns back. A gap takes two words: 1
 * and its bits where it is present, 0 and 0 where it is absent. A present gap
 * is never NaN or -0; it may be +infinity in clearance and separation.
 *
 *   function, less 'readability_'         words, in order
 *   clearance                             least clearance (2), violations,
 *                                         visits
 *   separation                            least gap (2), least nonzero gap (2),
 *                                         visits
 *   density_profile, congestion_profile,  total length, congested length, pair
 *   congestion                            overlap, peak, least nonzero close
 *                                         gap (2), visits
 *   tight_pair                            1 or 0, segment position, node
 *                                         position
 *   join                                  pieces written, segments gone
 *
 * readability_ratio returns a float, readability_sheet a length and
 * readability_version_0_3 a number; none of them has a status or words.
 *
 * ALLOWANCE. A drawing has one visit count for each measure, which depends
 * neither on the allowance nor on the scratch nor on the order of the lists. An
 * allowance that reaches it is accepted and changes nothing in the report;
 * SIZE_MAX always reaches.
 *
 * SCRATCH. Whatever it holds before decides nothing. Afterwards all of it, words
 * past the need included, is zero where the status is 0 or 7, and untouched
 * where it is another. The measures take one; the other calls take none.
 *
 * THREADS AND STACK. Nothing is kept from one call to the next, so that threads
 * may call at the same time, each with memory of its own for what is written. A
 * call takes at most 64 KiB of stack, join 192, one by records 512, the sheet 256
 * (the macros below). No proof says so: tools/stack measures each call, and fails
 * where one takes more.
 */
#ifndef READABILITY_H
#define READABILITY_H

#include <stdbool.h>
#include <stddef.h>
#include <stdint.h>
#include <string.h>

#ifdef __cplusplus
extern "C" {
#endif

/* The version of this header. */
#define READABILITY_VERSION_MAJOR 0
#define READABILITY_VERSION_MINOR 3
#define READABILITY_VERSION_PATCH 1

/* The same as one number. */
#define READABILITY_VERSION                                                    \
    (READABILITY_VERSION_MAJOR * 1000000 + READABILITY_VERSION_MINOR * 1000 +  \
     READABILITY_VERSION_PATCH)

/* The library's version, as that number; it may differ in the patch alone. */
uint32_t readability_version_0_3(void);

/*
 * Makes each file that includes the header refer to the function above. The
 * compiler keeps the pointer though nothing reads it (used), and the linker's
 * --gc-sections keeps it too (retain: GCC 11, clang 13).
 */
#if defined(__has_attribute)
#if __has_attribute(retain)
#define READABILITY_KEPT __attribute__((used, retain))
#endif
#endif
#if !defined(READABILITY_KEPT) && defined(__GNUC__)
#define READABILITY_KEPT __attribute__((used))
#elif !defined(READABILITY_KEPT)
#define READABILITY_KEPT
#endif

static uint32_t (*const readability_version_needed)(void) READABILITY_KEPT =
    readability_version_0_3;

/* The most entries that a list may hold. */
#define READABILITY_MOST_ENTRIES 4096

/* The most bytes of stack that a call takes. */
#define READABILITY_STACK_BYTES (64 * 1024)
#define READABILITY_STACK_BYTES_OF_JOIN (192 * 1024)
#define READABILITY_STACK_BYTES_BY_RECORDS (512 * 1024)
#define READABILITY_STACK_BYTES_OF_SHEET (256 * 1024)

/* What a call returns, in checking order. */
enum readability_status {
    READABILITY_ACCEPTED = 0,
    READABILITY_COLUMNS_DIFFER = 2,
    READABILITY_TOO_MANY_ENTRIES = 3,
    READABILITY_SHORT_SCRATCH = 4,
    READABILITY_INVALID_INPUT = 5,
    READABILITY_OFF_GRID = 6,
    READABILITY_SHORT_OUTPUT = 8,
    READABILITY_WORK_LIMIT_EXCEEDED = 7
};

/* The words of clearance. */
enum readability_clearance_word {
    READABILITY_CLEARANCE_PRESENT,
    READABILITY_CLEARANCE_LEAST,
    READABILITY_CLEARANCE_VIOLATIONS,
    READABILITY_CLEARANCE_VISITS,
    READABILITY_CLEARANCE_WORDS
};

/* The words of separation. */
enum readability_separation_word {
    READABILITY_SEPARATION_PRESENT,
    READABILITY_SEPARATION_LEAST,
    READABILITY_SEPARATION_NONZERO_PRESENT,
    READABILITY_SEPARATION_LEAST_NONZERO,
    READABILITY_SEPARATION_VISITS,
    READABILITY_SEPARATION_WORDS
};

/* The words of density_profile, congestion_profile and congestion. */
enum readability_congestion_word {
    READABILITY_CONGESTION_TOTAL,
    READABILITY_CONGESTION_CONGESTED,
    READABILITY_CONGESTION_PAIR_OVERLAP,
    READABILITY_CONGESTION_PEAK,
    READABILITY_CONGESTION_NONZERO_PRESENT,
    READABILITY_CONGESTION_LEAST_NONZERO,
    READABILITY_CONGESTION_VISITS,
    READABILITY_CONGESTION_WORDS
};

/* The words of tight_pair. */
enum readability_tight_pair_word {
    READABILITY_TIGHT_PAIR_PRESENT,
    READABILITY_TIGHT_PAIR_SEGMENT,
    READABILITY_TIGHT_PAIR_NODE,
    READABILITY_TIGHT_PAIR_WORDS
};

/* The words of join. */
enum readability_join_word {
    READABILITY_JOIN_PIECES,
    READABILITY_JOIN_GONE,
    READABILITY_JOIN_WORDS
};

/*
 * The words of scratch that a call needs; more may be lent. The calls that take
 * no nodes count 0 of them. For an array of fixed size there is the macro.
 */
#define READABILITY_SCRATCH_WORDS(segments, nodes) (32 * ((segments) + (nodes)) + 64)

static inline size_t readability_scratch_words(size_t segments, size_t nodes)
{
    return READABILITY_SCRATCH_WORDS(segments, nodes);
}

/* The float whose bits a word holds. */
static inline double readability_float(uint64_t bits)
{
    double value;
    memcpy(&value, &bits, sizeof value);
    return value;
}

/*
 * Least distance of a segment and a node over all pairs that are not exempt,
 * and how many of them are nearer than the threshold. Distance is the larger of
 * the gaps along x and y. The visit count is at most segments times nodes.
 */
uint32_t readability_clearance(
    const uint32_t *net, size_t net_length,
    const uint8_t *orientation, size_t orientation_length,
    const double *fixed, size_t fixed_length,
    const double *start, size_t start_length,
    const double *end, size_t end_length,
    const uint32_t *id, size_t id_length,
    const double *x, size_t x_length,
    const double *y, size_t y_length,
    const double *width, size_t width_length,
    const double *height, size_t height_length,
    const uint32_t *exempt_net, size_t exempt_net_length,
    const uint32_t *exempt_node, size_t exempt_node_length,
    double threshold,
    size_t allowance,
    uint64_t *scratch, size_t scratch_length,
    uint64_t out[READABILITY_CLEARANCE_WORDS]);

/*
 * Least gap, and least nonzero gap, over the pairs of segments with the same
 * orientation, different nets and an overlap of positive length.
 */
uint32_t readability_separation(
    const uint32_t *net, size_t net_length,
    const uint8_t *orientation, size_t orientation_length,
    const double *fixed, size_t fixed_length,
    const double *start, size_t start_length,
    const double *end, size_t end_length,
    size_t allowance,
    uint64_t *scratch, size_t scratch_length,
    uint64_t out[READABILITY_SEPARATION_WORDS]);

/*
 * Two segments are close where they have the same orientation, an overlap of
 * positive length and a gap below the cutoff. Over segments of different nets:
 * the length of each segment's stretches beside a close one, summed; the
 * overlap of close pairs, summed; the most segments close to one segment on one
 * stretch; the least nonzero gap of a close pair. All is exact. A cutoff of 0
 * or less gives the total length, zeros and an absent gap. The visit count is
 * the number of segments in orientations that hold two or more, plus twice the
 * close pairs, equal nets included; 0 where the cutoff is 0 or less.
 */
uint32_t readability_density_profile(
    const uint32_t *net, size_t net_length,
    const uint8_t *orientation, size_t orientation_length,
    const double *fixed, size_t fixed_length,
    const double *start, size_t start_length,
    const double *end, size_t end_length,
    double cutoff,
    size_t allowance,
    uint64_t *scratch, size_t scratch_length,
    uint64_t out[READABILITY_CONGESTION_WORDS]);

/* The same with pair overlap and peak zero. */
uint32_t readability_congestion_profile(
    const uint32_t *net, size_t net_length,
    const uint8_t *orientation, size_t orientation_length,
    const double *fixed, size_t fixed_length,
    const double *start, size_t start_length,
    const double *end, size_t end_length,
    double cutoff,
    size_t allowance,
    uint64_t *scratch, size_t scratch_length,
    uint64_t out[READABILITY_CONGESTION_WORDS]);

/* What readability_density_profile gives, with no allowance, so that 7 is never returned. */
uint32_t readability_congestion(
    const uint32_t *net, size_t net_length,
    const uint8_t *orientation, size_t orientation_length,
    const double *fixed, size_t fixed_length,
    const double *start, size_t start_length,
    const double *end, size_t end_length,
    double cutoff,
    uint64_t *scratch, size_t scratch_length,
    uint64_t out[READABILITY_CONGESTION_WORDS]);

/*
 * The same measures of a list of records: each has the words, the checks and the
 * visit count of the call by columns without _by_records, and 2 is only for the
 * columns of nodes and exemptions. A list above 4,096 records is refused
 * with 3 as there. Start may be above or below end as there, and only equal ends
 * are refused; the records are only read.
 */
struct readability_segment {
    uint32_t net;
    bool horizontal;
    double fixed;
    double start;
    double end;
};

uint32_t readability_clearance_by_records(
    const struct readability_segment *segments, size_t segments_length,
    const uint32_t *id, size_t id_length,
    const double *x, size_t x_length,
    const double *y, size_t y_length,
    const double *width, size_t width_length,
    const double *height, size_t height_length,
    const uint32_t *exempt_net, size_t exempt_net_length,
    const uint32_t *exempt_node, size_t exempt_node_length,
    double threshold,
    size_t allowance,
    uint64_t *scratch, size_t scratch_length,
    uint64_t out[READABILITY_CLEARANCE_WORDS]);

uint32_t readability_separation_by_records(
    const struct readability_segment *segments, size_t segments_length,
    size_t allowance,
    uint64_t *scratch, size_t scratch_length,
    uint64_t out[READABILITY_SEPARATION_WORDS]);

uint32_t readability_density_profile_by_records(
    const struct readability_segment *segments, size_t segments_length,
    double cutoff,
    size_t allowance,
    uint64_t *scratch, size_t scratch_length,
    uint64_t out[READABILITY_CONGESTION_WORDS]);

uint32_t readability_congestion_profile_by_records(
    const struct readability_segment *segments, size_t segments_length,
    double cutoff,
    size_t allowance,
    uint64_t *scratch, size_t scratch_length,
    uint64_t out[READABILITY_CONGESTION_WORDS]);

uint32_t readability_congestion_by_records(
    const struct readability_segment *segments, size_t segments_length,
    double cutoff,
    uint64_t *scratch, size_t scratch_length,
    uint64_t out[READABILITY_CONGESTION_WORDS]);

/*
 * Congested over total length, rounded once and held to 0 and 1; 0 unless the
 * total is above 0, so for a NaN as well. NaN where the quotient is one: a
 * total above 0 with a congested length of NaN, or both infinite.
 */
double readability_ratio(double total, double congested);

/*
 * A pair that is not exempt and whose distance is the least clearance, by the
 * positions of its segment and node from 0 on; where several are that near, any
 * of them. The first word is 0 where every pair is exempt or there is none.
 * Only 2, 3 and 5 are checked; there is no threshold, allowance or scratch.
 */
uint32_t readability_tight_pair(
    const uint32_t *net, size_t net_length,
    const uint8_t *orientation, size_t orientation_length,
    const double *fixed, size_t fixed_length,
    const double *start, size_t start_length,
    const double *end, size_t end_length,
    const uint32_t *id, size_t id_length,
    const double *x, size_t x_length,
    const double *y, size_t y_length,
    const double *width, size_t width_length,
    const double *height, size_t height_length,
    const uint32_t *exempt_net, size_t exempt_net_length,
    const uint32_t *exempt_node, size_t exempt_node_length,
    uint64_t out[READABILITY_TIGHT_PAIR_WORDS]);

/*
 * Makes one piece of segments of one net that touch or overlap on one line: writes
 * to the output columns the fewest pieces of each net, orientation and fixed
 * coordinate that cover the same points of the real line as the segments. Where one
 * ends at a float and the next starts at the next greater float, they do not touch.
 * Each piece has its start below its end. The pieces are in the order net,
 * horizontal before vertical, fixed, start, end, floats by totalOrder. -0 and +0
 * are one coordinate, written as +0. Joining the pieces again gives them back, and
 * two lists that cover the same points have equal pieces, bit by bit. Nothing is
 * rounded.
 *
 * The words are the number of pieces, and how many went away: the segments less
 * the pieces. Output entries past the last piece keep their contents, and after a
 * refusal all of them do. Only 2, 3, 5 and 8 are checked. 2 and 3 speak of the
 * segments alone: output columns may differ in length and hold more than 4,096
 * entries. As many entries as there are segments are always enough.
 */
uint32_t readability_join(
    const uint32_t *net, size_t net_length,
    const uint8_t *orientation, size_t orientation_length,
    const double *fixed, size_t fixed_length,
    const double *start, size_t start_length,
    const double *end, size_t end_length,
    uint32_t *to_net, size_t to_net_length,
    uint8_t *to_orientation, size_t to_orientation_length,
    double *to_fixed, size_t to_fixed_length,
    double *to_start, size_t to_start_length,
    double *to_end, size_t to_end_length,
    uint64_t out[READABILITY_JOIN_WORDS]);

/* The bytes of the buffer for a sheet's text. */
#define READABILITY_SHEET_BYTES 256

/*
 * The sheet of a drawing file: writes its text to the front of the buffer, with
 * no zero byte after it, and returns the text's length; the rest of the buffer
 * is untouched. The text has three lines, each closed by a line feed, or the one
 * line 'file refused' with the number 1 or 3.
 *
 * The file is big-endian: the byte 1; a 32-bit count of segments and for each
 * net (32 bits), orientation (a byte), fixed, start, end (in either direction); a
 * 32-bit count of nodes and for each id (32 bits), x, y, width, height; a 32-bit
 * count of exemptions and for each net and node (32 bits each); threshold, cutoff;
 * the allowances of clearance, separation and congestion (64 bits each). Floats are
 * their 64 bits. It holds at most 120 segments, 120 nodes and 240 exemptions (else
 * 3); 1 is a wrong first byte, an orientation above 1, bytes missing or left over.
 */
size_t readability_sheet(
    const uint8_t *bytes, size_t bytes_length,
    uint8_t text[READABILITY_SHEET_BYTES]);

#ifdef __cplusplus
}
#endif

#endif
