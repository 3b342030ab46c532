/* Calls of the part that a maker may get wrong, and what they answer: tables that are stale, unfilled, short or long, kernels without room, NULL with a length
 * of 0, memory that holds NaNs, cells that are just enough and one fewer, peaks of every content, bases without a quality, each CIGAR operation, sets of piles. part/examples.sh runs it. Prints each answer that is not the one that part/region_picker.h promises, and then how many are. */
#include "region_picker.h"
#include <stdio.h>
#include <string.h>

#define KERNEL 101
#define LONGEST 53043 /* the table of ploidy 100 */

static int right, wrong;

static void check(const char *what, bool is_so) {
    if (is_so) {
        right++;
    } else {
        wrong++;
        printf("not so: %s\n", what);
    }
}

/* three alternate bases of quality 36 and one reference base: an active locus */
static const uint32_t pile[4] = {0x49100000, 0x49100000, 0x49100000, 0x49000000};

/* a score's three numbers, the probability as its bits */
typedef struct {
    uint32_t answer;
    double activity[2];
    uint32_t evidence[2];
} score;

static score scored(const double *table, size_t n, const double *priors, size_t m, uint8_t ploidy, double heterozygosity, double deviation, double multiplier) {
    score s;
    memset(&s, 0, sizeof s);
    s.answer = region_picker_score(1, pile, 4, table, n, priors, m, 10, ploidy, heterozygosity, deviation, 30, multiplier, false, s.activity, s.evidence);
    return s;
}

static bool same(score a, score b) { return memcmp(&a, &b, sizeof a) == 0; }

static double table[LONGEST], priors[104], before[LONGEST];

static uint32_t fill(size_t n, size_t m, uint8_t ploidy, double heterozygosity, double deviation, double multiplier) {
    return region_picker_fill_tables(table, n, priors, m, 10, ploidy, heterozygosity, deviation, 30, multiplier, false);
}

static void tables(void) {
    const size_t n2 = region_picker_table_length(2), m2 = region_picker_priors_length(2), n4 = region_picker_table_length(4), m4 = region_picker_priors_length(4);
    const score plain = scored(NULL, 0, NULL, 0, 2, 0.001, 0.01, 1.0);
    check("the locus is active", plain.answer == 0 && plain.activity[0] > 0.9);
    check("the lengths of ploidy 2", n2 == 2043 && m2 == 6);
    check("the longest table", region_picker_table_length(100) == LONGEST && region_picker_priors_length(100) == 104);
    check("zeros are not read", same(plain, scored(table, n2, priors, m2, 2, 0.001, 0.01, 1.0)));
    check("filling is granted", fill(n2, m2, 2, 0.001, 0.01, 1.0) == 0);
    check("by the tables", same(plain, scored(table, n2, priors, m2, 2, 0.001, 0.01, 1.0)));
    check("by the table alone", same(plain, scored(table, n2, NULL, 0, 2, 0.001, 0.01, 1.0)));
    check("by the priors alone", same(plain, scored(NULL, 0, priors, m2, 2, 0.001, 0.01, 1.0)));
    check("a longer table", same(plain, scored(table, n4, priors, m4, 2, 0.001, 0.01, 1.0)));
    check("another ploidy", same(scored(NULL, 0, NULL, 0, 3, 0.001, 0.01, 1.0), scored(table, n2, priors, m2 + 1, 3, 0.001, 0.01, 1.0)));
    check("another heterozygosity", same(scored(NULL, 0, NULL, 0, 2, 0.1, 0.01, 1.0), scored(table, n2, priors, m2, 2, 0.1, 0.01, 1.0)));
    check("another deviation", same(scored(NULL, 0, NULL, 0, 2, 0.001, 0.1, 1.0), scored(table, n2, priors, m2, 2, 0.001, 0.1, 1.0)));
    check("another multiplier", same(scored(NULL, 0, NULL, 0, 2, 0.001, 0.01, 0.125), scored(table, n2, priors, m2, 2, 0.001, 0.01, 0.125)));
    check("filled for ploidy 4", fill(n4, m4, 4, 0.001, 0.01, 1.0) == 0);
    check("read at ploidy 2, whole", same(plain, scored(table, n4, priors, m4, 2, 0.001, 0.01, 1.0)));
    check("read at ploidy 2, the front", same(plain, scored(table, n2, priors, m2, 2, 0.001, 0.01, 1.0)));
    memcpy(before, table, sizeof table);
    check("a ploidy of 0 is refused 1", fill(LONGEST, 104, 0, 0.001, 0.01, 1.0) == 1);
    check("a short table is refused 2", fill(n2 - 1, m2, 2, 0.5, 0.5, 2.0) == 2);
    check("short priors are refused 2", fill(n2, m2 - 1, 2, 0.5, 0.5, 2.0) == 2);
    check("no tables are refused 2", region_picker_fill_tables(NULL, 0, NULL, 0, 10, 2, 0.001, 0.01, 30, 1.0, false) == 2);
    check("a refused filling writes nothing", memcmp(before, table, sizeof table) == 0);
    check("a longer slice is filled in front", fill(LONGEST, 104, 2, 0.001, 0.01, 1.0) == 0 && same(plain, scored(table, n2, priors, m2, 2, 0.001, 0.01, 1.0)));
}

static void kernels(void) {
    static double full[KERNEL], narrow[KERNEL], kernel[KERNEL];
    uint32_t profile[REGION_PICKER_PROFILE];
    uint64_t clips = 7;
    check("a making", region_picker_make(profile, 0, 1000, 50, 0.002, 50, 17.0, false, full, KERNEL, narrow, KERNEL) == 0 && profile[REGION_PICKER_FILTER_SIZE] == 50);
    kernel[0] = 7.5;
    check("a short target", region_picker_kernel(kernel, KERNEL - 1, 50, 50, full, KERNEL, narrow, KERNEL) == 2 && kernel[0] == 7.5);
    check("a short full buffer", region_picker_kernel(kernel, KERNEL, 50, 50, full, 3, narrow, KERNEL) == 2 && kernel[0] == 7.5);
    check("a short narrow buffer", region_picker_kernel(kernel, KERNEL, 50, 50, full, KERNEL, NULL, 0) == 2 && kernel[0] == 7.5);
    check("a kernel", region_picker_kernel(kernel, KERNEL, 50, 50, full, KERNEL, narrow, KERNEL) == 0 && memcmp(kernel, full, sizeof kernel) == 0);
    check("an add without cells", region_picker_add(profile, 0.002, 0, 1, 0.0, 0.0, false, 0, kernel, KERNEL, NULL, 0) == 10 && profile[REGION_PICKER_COUNT] == 0);
    check("an add without a kernel", region_picker_add(profile, 0.002, 0, 1, 0.0, 0.0, false, 0, NULL, 0, full, KERNEL) == 5);
    check("no CIGAR words", region_picker_count_clips(NULL, 0, NULL, 0, &clips) == 0 && clips == 0);
    check("an empty pile", region_picker_score(1, NULL, 0, NULL, 0, NULL, 0, 10, 2, 0.001, 0.01, 30, 1.0, false, full, profile) == 0 && full[0] == 0.0);
}

/* Refused calls on NaNs of several payloads, which the proofs do not tell apart. */
static void payloads(void) {
    static const uint64_t patterns[4] = {0x7ff8000000000000u, 0x7ff8deadbeef0001u, 0xfff8000000000007u, 0x7ff0000000000001u};
    double cells[4], kernel[4];
    uint32_t profile[REGION_PICKER_PROFILE] = {0, 100, 1, 0, 1, 4, 4}, region[REGION_PICKER_REGION] = {7, 7, 7, 7, 7, 7, 7, 7};
    double peak = 0.0;
    memcpy(cells, patterns, sizeof cells);
    memcpy(kernel, patterns, sizeof kernel);
    memcpy(&peak, &patterns[1], sizeof peak);
    check("an add off the contig", region_picker_add(profile, 0.002, 0, 101, 0.5, 0.0, true, 3, kernel, 1, cells, 4) == 7);
    check("an add without room", region_picker_add(profile, 0.002, 0, 5, 0.5, 0.0, false, 0, kernel, 1, cells, 4) == 10);
    check("a pop of size 0", region_picker_pop(profile, 0.002, 0, 0, 4, true, cells, 4, region, &peak) == 11);
    check("a held pop", region_picker_pop(profile, 0.002, 0, 1, 9, false, cells, 4, region, &peak) == REGION_PICKER_HELD);
    profile[REGION_PICKER_COUNT] = 0;
    check("a broken record", region_picker_pop(profile, 0.002, 0, 1, 9, true, cells, 4, region, &peak) == 5);
    profile[REGION_PICKER_REGION_START] = profile[REGION_PICKER_LAST_INPUT] = 0;
    check("an empty profile", region_picker_pop(profile, 0.002, 0, 1, 9, true, cells, 4, region, &peak) == REGION_PICKER_EMPTY);
    profile[REGION_PICKER_COUNT] = profile[REGION_PICKER_LAST_INPUT] = 4;
    profile[REGION_PICKER_REGION_START] = 1;
    check("a refused making", region_picker_make(profile, 0, 100, 1, 2.0, 1, 17.0, false, cells, 4, kernel, 4) == 1);
    check("a refused filling", region_picker_fill_tables(cells, 4, kernel, 4, 10, 2, 0.001, 0.01, 30, 1.0, false) == 2);
    check("the payloads stay", memcmp(cells, patterns, sizeof cells) == 0 && memcmp(kernel, patterns, sizeof kernel) == 0);
    check("nothing else is written", profile[REGION_PICKER_COUNT] == 4 && region[0] == 7 && region[6] == 7 && region[7] == 7);
    check("the peak's place stays", memcmp(&peak, &patterns[1], sizeof peak) == 0);
}

/* a number below `below`, the same in every run */
static uint32_t draw(uint32_t below) {
    static uint64_t state = 5;
    state = state * 6364136223846793005u + 1442695040888963407u;
    return (uint32_t)(state >> 33) % below;
}

#define WIDEST 1001
#define MOST_CELLS 1001300 /* max 300, the longest distance and the widest filter */

static double lent[MOST_CELLS], kernel_buffers[2][WIDEST], maker_kernel[WIDEST];

/* a maker: pops unforced after every add, with one max, until held or empty */
typedef struct {
    uint32_t profile[REGION_PICKER_PROFILE], max, cells;
} maker;

/* a fresh profile with this many cells, of NaNs */
static maker made(uint32_t max, uint32_t distance, uint32_t max_filter, double sigma, bool adaptive, uint32_t length, uint32_t cells) {
    static const uint64_t nan = 0x7ff8000000000000u;
    maker m;
    uint32_t i;
    m.max = max;
    m.cells = cells;
    region_picker_make(m.profile, 3, length, distance, 0.002, max_filter, sigma, adaptive, kernel_buffers[0], WIDEST, kernel_buffers[1], WIDEST);
    region_picker_kernel(maker_kernel, WIDEST, m.profile[REGION_PICKER_FILTER_SIZE], max_filter, kernel_buffers[0], WIDEST, kernel_buffers[1], WIDEST);
    for (i = 0; i < cells; i++) memcpy(&lent[i], &nan, sizeof nan);
    return m;
}

static uint32_t add(maker *m, uint32_t position, double probability, bool clips) {
    const size_t n = 2 * (size_t)m->profile[REGION_PICKER_FILTER_SIZE] + 1;
    const uint32_t answer = region_picker_add(m->profile, 0.002, 3, position, probability, probability, clips, 9, maker_kernel, n, lent, m->cells);
    uint32_t region[REGION_PICKER_REGION];
    double peak;
    if (answer == 10)
        return answer;
    while (region_picker_pop(m->profile, 0.002, draw(200), 1 + draw(2 * m->max), m->max, false, lent, m->cells, region, &peak) == 0) {
    }
    return answer;
}

/* whether none of these adds is refused 10: the next locus, now and then another, of every activity, with forced pops and pops of other sizes between */
static bool is_enough(maker m, uint32_t adds) {
    uint32_t region[REGION_PICKER_REGION], position = 1 + draw(4);
    double peak;
    for (; adds > 0; adds--) {
        const uint32_t next = m.profile[REGION_PICKER_COUNT] == 0 ? position : m.profile[REGION_PICKER_LAST_INPUT] + 1;
        if (add(&m, draw(20) == 0 ? draw(300) : next, draw(4) == 0 ? 1.0 : draw(3) / 4.0, draw(3) == 0) == 10)
            return false;
        position = m.profile[REGION_PICKER_LAST_INPUT] + 1 + draw(3);
        if (draw(50) == 0)
            region_picker_pop(m.profile, 0.002, 0, 1, 1 + draw(9), draw(2), lent, m.cells, region, &peak);
    }
    return true;
}

/* what 1.0 at locus k answers, behind 0.0 at each before it; 99 where one of those is refused */
static uint32_t zeros_and_one(maker *m, uint32_t k) {
    uint32_t position;
    for (position = 1; position < k; position++)
        if (add(m, position, 0.0, false) != 0)
            return 99;
    return add(m, k, 1.0, false);
}

static uint32_t smaller(uint32_t a, uint32_t b) { return a < b ? a : b; }

/* the cells of one choice of settings: enough, all of them taken by the zeros and the one, and one fewer too few */
static void cells_of(uint32_t max, uint32_t distance, uint32_t max_filter, double sigma, bool adaptive, uint32_t length, uint32_t adds) {
    const uint32_t filter = made(max, distance, max_filter, sigma, adaptive, length, 0).profile[REGION_PICKER_FILTER_SIZE];
    const uint32_t k = smaller(length, max + distance + filter);
    uint32_t cells = 7, by_max_filter = 7;
    maker m;
    check("the cells needed", region_picker_cells_needed(max, distance, filter, length, &cells) == 0 && cells == smaller(length, max + distance + 2 * filter));
    check("by max filter as many or more", region_picker_cells_needed(max, distance, max_filter, length, &by_max_filter) == 0 && by_max_filter >= cells);
    check("they are enough", is_enough(made(max, distance, max_filter, sigma, adaptive, length, cells), adds));
    m = made(max, distance, max_filter, sigma, adaptive, length, cells);
    check("the list that takes them all", zeros_and_one(&m, k) == 0);
    m = made(max, distance, max_filter, sigma, adaptive, length, cells - 1);
    check("one cell fewer is refused 10", zeros_and_one(&m, k) == 10 && m.profile[REGION_PICKER_LAST_INPUT] == k - 1);
}

/* The number of cells, its refusals, and hundreds of makers who lend just so many. */
static void cells_needed(void) {
    uint32_t cells = 7, i;
    check("max 0", region_picker_cells_needed(0, 50, 50, 1000, &cells) == 11 && cells == 7);
    check("a distance too far", region_picker_cells_needed(300, 1000001, 50, 1000, &cells) == 1 && cells == 7);
    check("a filter too wide", region_picker_cells_needed(300, 50, 501, 1000, &cells) == 1 && cells == 7);
    check("a contig without loci", region_picker_cells_needed(300, 50, 50, 0, &cells) == 1 && cells == 7);
    check("a contig too long", region_picker_cells_needed(300, 50, 50, 1073741824, &cells) == 1 && cells == 7);
    check("1 comes before 11", region_picker_cells_needed(0, 1000001, 50, 1000, &cells) == 1 && cells == 7);
    check("the defaults", region_picker_cells_needed(300, 50, 50, 1073741823, &cells) == 0 && cells == 450);
    check("sums do not wrap", region_picker_cells_needed(UINT32_MAX, 1000000, 500, 1073741823, &cells) == 0 && cells == 1073741823);
    cells_of(300, 50, 50, 17.0, true, 1073741823, 3000);
    cells_of(1, 0, 0, 17.0, true, 1073741823, 300);
    cells_of(1, 0, 0, 17.0, true, 1, 300);
    cells_of(300, 1000000, 500, 4096.0, false, 1073741823, 3000);
    for (i = 0; i < 400; i++) {
        const uint32_t max = 1 + draw(40), distance = draw(30), max_filter = draw(25), sum = max + distance + 2 * max_filter;
        const uint32_t lengths[6] = {1, 1 + draw(sum), sum, sum + 1, 1000, 1073741823};
        cells_of(max, distance, max_filter, draw(3) == 0 ? 17.0 : draw(40) / 8.0 + 0.1, draw(3) != 0, lengths[draw(6)], 300);
    }
}

/* whether a forced pop of these patterns hands out the first `size` of them, with its peak at index `at`, to the byte */
static bool has_peak(const uint64_t *patterns, uint32_t count, uint32_t last, uint32_t max, uint32_t size, uint32_t at) {
    double cells[9], peak = 0.0;
    uint32_t profile[REGION_PICKER_PROFILE] = {0, 100, 1, 8, 11, last, 0}, region[REGION_PICKER_REGION];
    profile[REGION_PICKER_COUNT] = count;
    memcpy(cells, patterns, count * sizeof *cells);
    return region_picker_pop(profile, 0.05, 0, 1, max, true, cells, count, region, &peak) == 0 && region[REGION_PICKER_START] == 11 &&
           region[REGION_PICKER_END] == 10 + size && region[REGION_PICKER_PEAK_POSITION] == 11 + at && memcmp(&peak, &patterns[at], sizeof peak) == 0;
}

/* Peaks are copies, payload and sign included: the first cell leads, even a NaN, and a later one only if strictly above. */
static void peaks(void) {
    enum { MOST = 9 };
    const uint64_t low = 0x3f847ae147ae147bu /* 0.01 */, high = 0x3fe0000000000000u /* 0.5 */, higher = 0x3fe8000000000000u /* 0.75 */;
    const uint64_t quiet = 0x7ff8deadbeef0001u, negative = 0xfff8000000000007u, signalling = 0x7ff0000000000001u, infinite = 0x7ff0000000000000u;
    uint64_t cells[MOST];
    uint32_t i, n;
    cells[0] = signalling, cells[1] = low, cells[2] = quiet;
    check("a NaN in front is the peak", has_peak(cells, 3, 13, 9, 3, 0));
    cells[0] = low, cells[1] = negative, cells[2] = 0x3f90000000000000u;
    check("a NaN further on is not", has_peak(cells, 3, 13, 9, 3, 2));
    cells[0] = 0x8000000000000000u, cells[1] = 0, cells[2] = 0x8000000000000000u;
    check("0.0 does not overtake -0.0", has_peak(cells, 3, 13, 9, 3, 0));
    cells[0] = high, cells[1] = infinite, cells[2] = infinite;
    check("infinities", has_peak(cells, 3, 13, 9, 3, 1));
    cells[0] = high, cells[1] = low, cells[2] = higher;
    check("not behind the region's end", has_peak(cells, 3, 13, 9, 1, 0));
    cells[0] = high, cells[1] = high, cells[2] = higher;
    check("not among trimmed cells", has_peak(cells, 3, 12, 9, 2, 0));
    check("not behind max", has_peak(cells, 3, 13, 2, 2, 0));
    for (n = 1; n <= MOST; n++) {
        for (i = 0; i < n; i++) {
            uint32_t k;
            for (k = 0; k < MOST; k++) cells[k] = k < i ? high : higher;
            check("the first of the highest, at every place", has_peak(cells, n, 10 + n, 9, n, i));
            for (k = 0; k < MOST; k++) cells[k] = k == i ? low : 0;
            check("the only one, in a region that is not active", has_peak(cells, n, 10 + n, 9, n, i));
        }
    }
}

/* an observation word */
static uint32_t observation(uint32_t quality, bool deletion, bool alternate, bool clipped, uint32_t clips) {
    return 1u << 30 | quality << 22 | (uint32_t)deletion << 21 | (uint32_t)alternate << 20 | (uint32_t)clipped << 19 | clips;
}

/* the score of words, by the tables or without, at a minimum, with the flow model or without */
static score scored_words(const uint32_t *words, size_t n, bool by_tables, uint8_t minimum, bool flow) {
    score s;
    memset(&s, 0, sizeof s);
    s.answer = region_picker_score(1, words, n, table, by_tables ? region_picker_table_length(2) : 0, priors, by_tables ? region_picker_priors_length(2) : 0, minimum, 2,
                                   0.001, 0.01, 30, 1.0, flow, s.activity, s.evidence);
    return s;
}

/* Quality 255 is none: such a base counts nowhere, and a deletion has the deletion quality. */
static void blanks(void) {
    enum { MOST = 16385 };
    static const uint8_t minima[4] = {1, 10, 30, 254};
    static uint32_t many[MOST];
    const uint32_t blank = observation(255, false, true, true, 40), reference = observation(255, false, false, false, 0);
    const uint32_t near = observation(254, false, true, true, 7), deletion = observation(255, true, true, false, 0), other = observation(9, true, true, false, 0);
    const uint32_t one[2] = {blank, reference}, mixed[5] = {blank, near, reference, near, blank}, without[2] = {near, near};
    const uint32_t deletions[3] = {blank, deletion, deletion}, others[2] = {other, other};
    score nothing;
    size_t i;
    memset(&nothing, 0, sizeof nothing);
    for (i = 0; i < MOST; i++) many[i] = i % 2 ? blank : reference;
    check("tables for bases without a quality", fill(LONGEST, 104, 2, 0.001, 0.01, 1.0) == 0);
    for (i = 0; i < 16; i++) {
        const bool by_tables = i & 1, flow = i & 2;
        const uint8_t minimum = minima[i >> 2];
        check("two of them score nothing", same(nothing, scored_words(one, 2, by_tables, minimum, flow)));
        check("nor do as many as a pile has", same(nothing, scored_words(many, MOST - 1, by_tables, minimum, flow)));
        check("one more is refused 4", scored_words(many, MOST, by_tables, minimum, flow).answer == 4);
        check("among others they settle nothing", same(scored_words(without, 2, by_tables, minimum, flow), scored_words(mixed, 5, by_tables, minimum, flow)));
        check("and these are active and clipped", scored_words(mixed, 5, by_tables, minimum, flow).activity[0] > 0.9 && scored_words(mixed, 5, by_tables, minimum, flow).evidence[1] == 7);
        check("a deletion of 255 is any deletion", same(scored_words(others, 2, by_tables, minimum, flow), scored_words(deletions, 3, by_tables, minimum, flow)));
        check("which counts but under the flow model below the minimum", (scored_words(deletions, 3, by_tables, minimum, flow).activity[0] > 0.9) == !(flow && minimum > 30));
    }
    for (i = 0; i < 6; i++) {
        const uint32_t cigar[3] = {2 << 4 | 4, 2 << 4, 2 << 4 | 4};
        uint8_t qualities[6] = {40, 29, 40, 40, 254, 30};
        uint64_t clips = 0;
        qualities[i] = 255;
        check("a clipped base of 255 does not count", region_picker_count_clips(cigar, 3, qualities, 6, &clips) == 0 && clips == (i == 2 || i == 3 ? 4 : 3));
    }
}

/* Each operation, in the order of the SAM specification's table, M I D N S H P = X, and those that it does not have, of two bases and of as many as a word can say. */
static void operations(void) {
    static const uint8_t qualities[3] = {40, 40, 20};
    /* what the operation, and then a clip of one base, count: the clip is the base of 20, or none, behind one that consumes the query, and the first base else */
    static const uint64_t counts[9] = {0, 0, 1, 1, 2, 1, 1, 0, 0};
    static const uint32_t lengths[2] = {2, 0xfffffff};
    uint32_t op;
    int i;
    for (op = 0; op < 16; op++) {
        const uint32_t clip = 1 << 4 | 4, none[2] = {op, clip}, refused = op < 9 ? 0 : 3;
        uint64_t clips = 7;
        for (i = 0; i < 2; i++) {
            const uint32_t first[2] = {lengths[i] << 4 | op, clip}, last[2] = {clip, lengths[i] << 4 | op};
            clips = 7;
            check("an operation in front", region_picker_count_clips(first, 2, qualities, 3, &clips) == refused && clips == (op < 9 ? counts[op] : 7));
            clips = 7;
            check("an operation at the end", region_picker_count_clips(last, 2, qualities, 3, &clips) == refused && clips == (op < 9 ? op == 4 ? 2 : 1 : 7));
        }
        clips = 7;
        check("an operation of no bases", region_picker_count_clips(none, 2, qualities, 3, &clips) == refused && clips == (op < 9 ? 1 : 7));
        clips = 7;
        check("an operation and no qualities", region_picker_count_clips(none, 2, NULL, 0, &clips) == refused && clips == (op < 9 ? 0 : 7));
    }
}

#define MOST_PILES 64
#define DEEPEST 16384

static uint32_t run[MOST_PILES * DEEPEST + 1];

/* the score of a set, by the tables or without; what a refused call leaves is -7.5, -7.5, 7 and 7 */
static score scored_set(size_t n, const uint32_t *lengths, size_t m, bool by_tables, uint8_t ploidy) {
    score s;
    memset(&s, 0, sizeof s);
    s.activity[0] = s.activity[1] = -7.5;
    s.evidence[0] = s.evidence[1] = 7;
    s.answer = region_picker_score_set(1, run, n, lengths, m, table, by_tables ? region_picker_table_length(ploidy) : 0, priors,
                                       by_tables ? region_picker_priors_length(ploidy) : 0, 10, ploidy, 0.001, 0.01, 30, 1.0, false, s.activity, s.evidence);
    return s;
}

/* the same made of the scores of each pile alone; the evidence is that of the run as one pile, where it is not too deep for one */
static score by_members(size_t n, const uint32_t *lengths, size_t m, uint8_t ploidy) {
    score s, one;
    size_t i, at = 0, left = 0;
    double inactive = 1.0;
    memset(&s, 0, sizeof s);
    for (i = 0; i < m; at += lengths[i], i++) {
        if (lengths[i] == 0) continue;
        memset(&one, 0, sizeof one);
        one.answer = region_picker_score(1, run + at, lengths[i], NULL, 0, NULL, 0, 10, ploidy, 0.001, 0.01, 30, 1.0, false, one.activity, one.evidence);
        check("a pile of the set is accepted alone", one.answer == 0);
        inactive *= 1.0 - one.activity[0];
        left++;
    }
    if (left == 1) return one;
    if (left > 1) {
        region_picker_score(1, run, n <= DEEPEST ? n : 0, NULL, 0, NULL, 0, 10, ploidy, 0.001, 0.01, 30, 1.0, false, s.activity, s.evidence);
        s.activity[0] = 1.0 - inactive;
        s.activity[1] = 0.0;
    }
    return s;
}

/* whether a call was refused with this number, and wrote nothing */
static bool is_refused(score s, uint32_t number) {
    return s.answer == number && s.activity[0] == -7.5 && s.activity[1] == -7.5 && s.evidence[0] == 7 && s.evidence[1] == 7;
}

/* Sets of piles: made of their members' scores, by the tables and without, up to the largest, and refused in their order. */
static void sets(void) {
    static const uint8_t ploidies[3] = {1, 2, 10};
    uint32_t lengths[MOST_PILES + 1];
    uint32_t k, i, n, m;
    for (k = 0; k < 3; k++) {
        check("tables for sets", fill(LONGEST, 104, ploidies[k], 0.001, 0.01, 1.0) == 0);
        for (m = 0; m <= MOST_PILES; m++) {
            score members;
            for (i = 0, n = 0; i < m; n += lengths[i++]) lengths[i] = draw(3) ? 1 + draw(5) : 0;
            for (i = 0; i < n; i++) run[i] = observation(draw(5) ? 8 + draw(30) : 255, draw(9) == 0, draw(3) == 0, draw(3) == 0, draw(14));
            members = by_members(n, lengths, m, ploidies[k]);
            check("a set without tables", same(members, scored_set(n, lengths, m, false, ploidies[k])));
            check("a set by the tables", same(members, scored_set(n, lengths, m, true, ploidies[k])));
        }
    }
    for (i = 0; i <= MOST_PILES * DEEPEST; i++) run[i] = observation(20 + i % 20, false, i % 7 == 0, false, 0);
    for (i = 0; i <= MOST_PILES; i++) lengths[i] = DEEPEST;
    check("tables for the largest set", fill(LONGEST, 104, 2, 0.001, 0.01, 1.0) == 0);
    check("the largest set", same(by_members(MOST_PILES * DEEPEST, lengths, MOST_PILES, 2), scored_set(MOST_PILES * DEEPEST, lengths, MOST_PILES, true, 2)));
    check("a word more than the lengths", is_refused(scored_set(MOST_PILES * DEEPEST + 1, lengths, MOST_PILES, true, 2), 3));
    check("a word fewer", is_refused(scored_set(MOST_PILES * DEEPEST - 1, lengths, MOST_PILES, true, 2), 3));
    check("a pile more", is_refused(scored_set(MOST_PILES * DEEPEST, lengths, MOST_PILES + 1, true, 2), 12));
    run[0] = 7;
    check("a word that is none, in the first pile", is_refused(scored_set(MOST_PILES * DEEPEST, lengths, MOST_PILES, true, 2), 3));
    lengths[MOST_PILES - 1] = DEEPEST + 1;
    check("a depth in the last pile comes before it", is_refused(scored_set(MOST_PILES * DEEPEST + 1, lengths, MOST_PILES, true, 2), 4));
    check("and before lengths that do not add up", is_refused(scored_set(3, lengths, MOST_PILES, true, 2), 4));
    check("a setting comes before that", is_refused(scored_set(3, lengths, MOST_PILES, false, 0), 1));
    check("and 65 piles before a setting", is_refused(scored_set(3, lengths, MOST_PILES + 1, false, 0), 12));
    for (i = 0; i <= MOST_PILES; i++) lengths[i] = 0xffffffff;
    check("lengths as large as they go", is_refused(scored_set(3, lengths, MOST_PILES, true, 2), 4));
    for (i = 0; i <= MOST_PILES; i++) lengths[i] = 0;
    check("64 empty piles score nothing", same(by_members(0, lengths, MOST_PILES, 2), scored_set(0, lengths, MOST_PILES, true, 2)));
    check("65 are refused", is_refused(scored_set(0, lengths, MOST_PILES + 1, true, 2), 12));
    check("no piles score nothing", same(by_members(0, NULL, 0, 2), scored_set(0, NULL, 0, true, 2)));
    check("words and no piles are refused", is_refused(scored_set(1, NULL, 0, true, 2), 3));
}

int main(void) {
    tables();
    kernels();
    payloads();
    cells_needed();
    peaks();
    blanks();
    operations();
    sets();
    printf("%d right, %d wrong\n", right, wrong);
    return wrong != 0;
}
