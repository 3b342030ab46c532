/* Times region_picker_score, region_picker_count_clips and region_picker_pop of two builds of the part in one process, in turn: `part/speed.sh against LIBRARY` links
 * this one, and that one with `before_` in front of its names. An older build whose pop takes fewer arguments leaves the last ones alone, as C's calls on x86-64 have
 * it. For each pattern of cells it prints the time of a pop of each build, what it takes to lay the cells out again taken off, and their ratio; for each kind of pile
 * the same of a score, for each kind of read of a count. Both must hand out the same loci, count and refuse the same, and score the same but for piles with quality
 * 255. */
#include <stdio.h>
#include <string.h>
#include <time.h>

#include "../region_picker.h"

typedef uint32_t pop(uint32_t *, double, uint32_t, uint32_t, uint32_t, bool, double *, size_t, uint32_t *, double *);
pop before_region_picker_pop;
typedef size_t length_of(uint8_t);
length_of before_region_picker_table_length;
typedef uint32_t fill(double *, size_t, double *, size_t, uint8_t, uint8_t, double, double, uint8_t, double, bool);
fill before_region_picker_fill_tables;
typedef uint32_t score(uint32_t, const uint32_t *, size_t, const double *, size_t, const double *, size_t, uint8_t, uint8_t, double, double, uint8_t, double, bool,
                       double *, uint32_t *);
score before_region_picker_score;
typedef uint32_t count_clips(const uint32_t *, size_t, const uint8_t *, size_t, uint64_t *);
count_clips before_region_picker_count_clips;

enum { CELLS = 1500, POPS = 2000, ROUNDS = 60 };

static const double THRESHOLD = 0.002;
static double laid[CELLS], cells[CELLS];
static uint32_t region[REGION_PICKER_REGION];
static uint32_t seen;

/* a number from 0 to below 1, from i alone */
static double noise(uint32_t i) {
    i = (i ^ (i >> 15)) * 2654435761u;
    i = (i ^ (i >> 13)) * 2246822519u;
    return ((i ^ (i >> 16)) >> 8) / 16777216.0;
}

static double quiet(uint32_t i) { (void)i; return 0.0; }
static double quiet_noise(uint32_t i) { return noise(i) * THRESHOLD; }
static double level(uint32_t i) { (void)i; return 0.5; }
static double rising(uint32_t i) { return 0.1 + i / 4096.0; }
static double falling(uint32_t i) { return 0.9 - i / 4096.0; }
static double hump(uint32_t i) { uint32_t k = i % 300; return 0.1 + (k < 150 ? k : 300 - k) / 1024.0; }
static double rough(uint32_t i) { return 0.1 + noise(i); }
static double by_one(uint32_t i) { return i % 2 ? 0.5 : 0.0; }
static double by_three(uint32_t i) { return i / 3 % 2 ? 0.5 : 0.0; }
static double by_twenty(uint32_t i) { return i / 20 % 2 ? 0.0 : 0.5 + noise(i); }

static double seconds(void) {
    struct timespec t;
    clock_gettime(CLOCK_MONOTONIC, &t);
    return t.tv_sec + t.tv_nsec * 1e-9;
}

/* POPS pops of max 300, min 50, each of the cells as they were laid; with no function, the laying out alone */
static double turn(pop *f, uint32_t count) {
    double start = seconds();
    for (int i = 0; i < POPS; i++) {
        uint32_t profile[REGION_PICKER_PROFILE] = {0, 1000000, 50, 50, 1, count, count};
        double peak = 0.0;
        memcpy(cells, laid, count * sizeof(double));
        if (f) f(profile, THRESHOLD, 100, 50, 300, false, cells, CELLS, region, &peak);
        seen += profile[REGION_PICKER_REGION_START] + (uint32_t)cells[0];
    }
    return (seconds() - start) / POPS * 1e9;
}

static void pattern(const char *name, double (*f)(uint32_t), uint32_t count) {
    double before = 1e30, after = 1e30, laying = 1e30, t;
    uint32_t size;
    for (uint32_t i = 0; i < count; i++) laid[i] = f(i);
    turn(before_region_picker_pop, count);
    size = region[REGION_PICKER_END];
    turn(region_picker_pop, count);
    if (size != region[REGION_PICKER_END]) printf("%s: %u and %u loci are handed out\n", name, size, region[REGION_PICKER_END]);
    for (int k = 0; k < ROUNDS; k++) {
        if ((t = turn(before_region_picker_pop, count)) < before) before = t;
        if ((t = turn(region_picker_pop, count)) < after) after = t;
        if ((t = turn(NULL, count)) < laying) laying = t;
    }
    printf("| %s, %u cells, region of %u | %.0f ns | %.0f ns | %.2f |\n", name, count, size, before - laying, after - laying, (after - laying) / (before - laying));
}

enum { PILES = 64, DEEPEST = 1000, LONGEST = 60000 };
#define SETTINGS(ploidy) 10, ploidy, 0.001, 0.01, 30, 1.0, false

/* a build's table of a ploidy, and what it scores by it */
struct side {
    double table[LONGEST];
    score *score;
    size_t table_length;
    double priors[104];
};
static struct side sides[2];
static uint32_t piles[PILES][DEEPEST];

/* each pile once, by one side: the time of one, and the sum of the probabilities */
static double scores(const struct side *side, uint32_t depth, uint8_t ploidy, double *sum) {
    double start = seconds(), activity[2];
    uint32_t evidence[2];
    *sum = 0.0;
    for (int i = 0; i < PILES; i++) {
        side->score(i + 1, piles[i], depth, side->table, side->table_length, side->priors, ploidy + 4, SETTINGS(ploidy), activity, evidence);
        *sum += activity[0] + activity[1];
    }
    return (seconds() - start) / PILES * 1e9;
}

/* piles of a depth, one word in `alternates` alternate; one in `odd`, where it is not 0, has the quality `odd_quality`, the others 20 to 40 */
static void scored(const char *name, uint32_t depth, uint8_t ploidy, uint32_t alternates, uint32_t odd, uint32_t odd_quality) {
    double best[2] = {1e30, 1e30}, sum[2], t;
    for (uint32_t i = 0; i < PILES; i++)
        for (uint32_t k = 0; k < depth; k++) {
            uint32_t n = i * DEEPEST + k;
            uint32_t quality = odd && noise(n + 3) * odd < 1.0 ? odd_quality : 20 + (uint32_t)(noise(n) * 21);
            piles[i][k] = 1u << 30 | quality << 22 | (uint32_t)(noise(n + 1) * 50 < 1.0) << 21 | (uint32_t)(noise(n + 2) * alternates < 1.0) << 20;
        }
    sides[0].table_length = before_region_picker_table_length(ploidy);
    sides[1].table_length = region_picker_table_length(ploidy);
    before_region_picker_fill_tables(sides[0].table, LONGEST, sides[0].priors, 104, SETTINGS(ploidy));
    region_picker_fill_tables(sides[1].table, LONGEST, sides[1].priors, 104, SETTINGS(ploidy));
    for (int k = 0; k < 20 * ROUNDS; k++)
        for (int i = 0; i < 2; i++)
            if ((t = scores(&sides[i], depth, ploidy, &sum[i])) < best[i]) best[i] = t;
    if (odd_quality != 255 && sum[0] != sum[1]) printf("%s: %a and %a\n", name, sum[0], sum[1]);
    printf("| %s, %u words, ploidy %u | %.0f ns | %.0f ns | %.2f |\n", name, depth, ploidy, best[0], best[1], best[1] / best[0]);
}

enum { READS = 64, WORDS = 1000, BASES = 10000 };

/* the CIGAR words of each read, how many they are, and of how many qualities each is counted */
static uint32_t cigars[READS][WORDS];
static size_t words[READS], bases;
static uint8_t qualities[BASES];

/* the SAM specification's letters, in the order of the operations */
static const char LETTERS[] = "MIDNSHP=X";

static void read_word(uint32_t read, uint32_t length, char letter) {
    cigars[read][words[read]++] = length << 4 | (uint32_t)(strchr(LETTERS, letter) - LETTERS);
}

/* short reads as aligners make them */
static void aligned(uint32_t read) {
    switch ((int)(noise(read) * 6)) {
    case 0: read_word(read, 12, 'S'); read_word(read, 138, 'M'); break;
    case 1: read_word(read, 70, 'M'); read_word(read, 2, 'D'); read_word(read, 80, 'M'); break;
    case 2: read_word(read, 70, 'M'); read_word(read, 2, 'I'); read_word(read, 78, 'M'); break;
    case 3: read_word(read, 5, 'S'); read_word(read, 60, 'M'); read_word(read, 1000, 'N'); read_word(read, 80, 'M'); read_word(read, 5, 'S'); break;
    case 4: read_word(read, 3, 'H'); read_word(read, 150, 'M'); break;
    default: read_word(read, 150, 'M');
    }
}

/* n words of any operation, of up to 9 bases each */
static void any(uint32_t read, uint32_t n) {
    for (uint32_t i = 0; i < n; i++) read_word(read, (uint32_t)(noise(read * WORDS + i) * 10), LETTERS[(int)(noise(read * WORDS + i + 77777) * 9)]);
}

static void any_few(uint32_t read) { any(read, 20); }
static void any_many(uint32_t read) { any(read, WORDS); }
static void alike_and_not(uint32_t read) {
    for (uint32_t i = 0; i < WORDS / 2; i++) {
        read_word(read, 7, '=');
        read_word(read, 1, i % 10 ? 'X' : 'I');
    }
}
static void matched(uint32_t read) { read_word(read, 150, 'M'); }
static void clipped(uint32_t read) { read_word(read, 150, 'S'); }
static void long_clipped(uint32_t read) { read_word(read, BASES, 'S'); }
static void claims_most(uint32_t read) { read_word(read, (1u << 28) - 1, 'S'); }
static void refused_first(uint32_t read) { any(read, WORDS); cigars[read][0] = 9; }
static void refused_last(uint32_t read) { any(read, WORDS); cigars[read][WORDS - 1] = 9; }

/* each read once, by one side: the time of one, and the sum of the counts and refusals */
static double counts(count_clips *f, uint64_t *sum) {
    double start = seconds();
    *sum = 0;
    for (int i = 0; i < READS; i++) {
        uint64_t n = 0;
        *sum += 1000003 * f(cigars[i], words[i], qualities, bases, &n);
        *sum += n;
    }
    return (seconds() - start) / READS * 1e9;
}

static void counted(const char *name, void (*make)(uint32_t), uint32_t length) {
    count_clips *sides[2] = {before_region_picker_count_clips, region_picker_count_clips};
    double best[2] = {1e30, 1e30}, t;
    uint64_t sum[2];
    bases = length;
    for (uint32_t i = 0; i < READS; i++) {
        words[i] = 0;
        make(i);
    }
    for (int k = 0; k < 20 * ROUNDS; k++)
        for (int i = 0; i < 2; i++)
            if ((t = counts(sides[i], &sum[i])) < best[i]) best[i] = t;
    if (sum[0] != sum[1]) printf("%s: %llu and %llu\n", name, (unsigned long long)sum[0], (unsigned long long)sum[1]);
    printf("| %s, %u qualities | %.1f ns | %.1f ns | %.2f |\n", name, length, best[0], best[1], best[1] / best[0]);
}

int main(void) {
    for (uint32_t i = 0; i < BASES; i++) qualities[i] = (uint8_t)(noise(i) * 42);
    sides[0].score = before_region_picker_score;
    sides[1].score = region_picker_score;
    puts("| Piles | Score before | Score after | After / before |\n|---|---|---|---|");
    scored("quiet", 30, 2, 100, 0, 0);
    scored("active", 30, 2, 2, 0, 0);
    scored("quiet", 1000, 2, 100, 0, 0);
    scored("active", 1000, 2, 2, 0, 0);
    scored("quiet", 30, 10, 100, 0, 0);
    scored("active", 1000, 10, 2, 0, 0);
    scored("a tenth below the minimum", 30, 2, 100, 10, 9);
    scored("half below the minimum", 1000, 2, 2, 2, 9);
    scored("a tenth of quality 255", 30, 2, 100, 10, 255);
    scored("half of quality 255", 1000, 2, 2, 2, 255);
    puts("");
    puts("| Reads | Count before | Count after | After / before |\n|---|---|---|---|");
    counted("150M", matched, 150);
    counted("150S", clipped, 150);
    counted("as aligners make them", aligned, 150);
    counted("20 words of any operation", any_few, 150);
    counted("1000 words of any operation", any_many, BASES);
    counted("1000 words, = and X in turn, one X in ten an I", alike_and_not, BASES);
    counted("10000S", long_clipped, BASES);
    counted("a clip that claims 268435455", claims_most, 150);
    counted("1000 words, the first unknown", refused_first, BASES);
    counted("1000 words, the last unknown", refused_last, BASES);
    puts("");
    puts("| Cells | Pop before | Pop after | After / before |\n|---|---|---|---|");
    pattern("quiet", quiet, 400);
    pattern("quiet with noise", quiet_noise, 400);
    pattern("level", level, 400);
    pattern("rising", rising, 400);
    pattern("falling", falling, 400);
    pattern("a hump", hump, 400);
    pattern("rough", rough, 400);
    pattern("rough, active and not by 20", by_twenty, 400);
    pattern("active and not by 3", by_three, 400);
    pattern("active and not by 1", by_one, 400);
    pattern("active and not by 1", by_one, 1400);
    return seen == 1;
}
