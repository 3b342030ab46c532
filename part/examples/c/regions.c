/* Reads the words of a small stream from standard input and prints its regions, by the part alone: what the region program prints for them.
 * Words are as README.md has them; sigma 17, threshold 0.002, scoring's usual settings, 4,096 cells. With the argument `peaks`, each line goes on with the position of
 * the region's peak and the peak, to six decimals. With the argument `each`, it is a maker who pops after each locus, whatever the stream says, and lends just the
 * cells that this needs. */
#include "../../region_picker.h"
#include <inttypes.h>
#include <stdio.h>
#include <stdlib.h>
#include <string.h>

#define CELLS 4096
#define KERNEL 1001
#define DEPTH 16385 /* one word more than the deepest pile */
#define TABLE 2043
#define PRIORS 6
#define SCORING 10, 2, 0.001, 0.01, 30, 1.0, false

static const double threshold = 0.002;

static uint32_t profile[REGION_PICKER_PROFILE];
static double full[KERNEL], narrow[KERNEL], kernel[KERNEL], table[TABLE], priors[PRIORS];
static size_t kernel_length;
static double *cells;
static uint32_t cells_length = CELLS;
static uint32_t pile[DEPTH];
static size_t depth;

/* kind 3 words set these: max, min, extension, distance, max filter, contig length */
static uint32_t settings[7] = {0, 300, 50, 100, 50, 50, 1073741823};
static bool is_made, is_open, with_peaks, pops_each;
static uint32_t position;
static uint64_t locus_index;

static void refuse(uint32_t number, uint64_t index) {
    printf("refused %" PRIu32 " %" PRIu64 "\n", number, index);
    exit(0);
}

/* Pops until held or empty. */
static void pop_regions(bool forced, uint64_t index) {
    uint32_t region[REGION_PICKER_REGION], answer;
    double peak;
    while ((answer = region_picker_pop(profile, threshold, settings[3], settings[2], settings[1], forced, cells, cells_length, region, &peak)) == 0) {
        printf("%" PRIu32 " %" PRIu32 " %" PRIu32 " %" PRIu32 " %" PRIu32, region[REGION_PICKER_START], region[REGION_PICKER_END],
               region[REGION_PICKER_IS_ACTIVE], region[REGION_PICKER_PADDED_START], region[REGION_PICKER_PADDED_END]);
        if (with_peaks)
            printf(" %" PRIu32 " %.6f", region[REGION_PICKER_PEAK_POSITION], peak);
        putchar('\n');
    }
    if (answer != REGION_PICKER_HELD && answer != REGION_PICKER_EMPTY)
        refuse(answer, index);
}

/* Scores and adds the pile that is open; its refusals name its locus word. */
static void end_pile(void) {
    double activity[2];
    uint32_t evidence[2], refusal;
    if (!is_open)
        return;
    is_open = false;
    refusal = region_picker_score(position, pile, depth, table, TABLE, priors, PRIORS, SCORING, activity, evidence);
    if (refusal == 0)
        refusal = region_picker_add(profile, threshold, 0, position, activity[0], activity[1], evidence[0] == 1, evidence[1], kernel, kernel_length, cells, cells_length);
    if (refusal != 0)
        refuse(refusal, locus_index);
    if (pops_each)
        pop_regions(false, locus_index);
}

static void locus(uint32_t value, uint64_t index) {
    end_pile();
    if (!is_made) {
        uint32_t refusal = region_picker_make(profile, 0, settings[6], settings[4], threshold, settings[5], 17.0, true, full, KERNEL, narrow, KERNEL);
        if (refusal == 0)
            refusal = region_picker_kernel(kernel, KERNEL, profile[REGION_PICKER_FILTER_SIZE], settings[5], full, KERNEL, narrow, KERNEL);
        if (refusal == 0 && pops_each)
            refusal = region_picker_cells_needed(settings[1], settings[4], profile[REGION_PICKER_FILTER_SIZE], settings[6], &cells_length);
        if (refusal != 0)
            refuse(refusal, index);
        cells = malloc(cells_length * sizeof *cells);
        if (cells == NULL) {
            fputs("regions: no memory for the cells\n", stderr);
            exit(1);
        }
        kernel_length = 2 * (size_t)profile[REGION_PICKER_FILTER_SIZE] + 1;
        is_made = true;
    }
    is_open = true;
    position = value;
    locus_index = index;
    depth = 0;
}

static void observation(uint32_t word, uint64_t index) {
    if (!is_open)
        refuse(3, index);
    if (depth < DEPTH)
        pile[depth++] = word;
}

static void pops(uint32_t value, uint64_t index) {
    end_pile();
    if (value > 1)
        refuse(3, index);
    if (is_made)
        pop_regions(value == 1, index);
    else if (settings[1] == 0 || settings[2] == 0)
        refuse(11, index);
}

static void set(uint32_t word, uint64_t index) {
    static const uint32_t least[7] = {0, 0, 0, 0, 0, 0, 1}, most[7] = {0, 0xffffff, 0xffffff, 0xffffff, 1000000, 500, 1073741823};
    uint32_t field = word >> 24 & 63, value = word & 0xffffff;
    if (is_made || field < 1 || field > 6)
        refuse(3, index);
    if (value < least[field] || value > most[field])
        refuse(1, index);
    settings[field] = value;
}

int main(int count, char **arguments) {
    unsigned char bytes[4];
    size_t got;
    uint64_t index = 0;
    with_peaks = count == 2 && strcmp(arguments[1], "peaks") == 0;
    pops_each = count == 2 && strcmp(arguments[1], "each") == 0;
    if (count > 1 && !with_peaks && !pops_each) {
        fputs("usage: regions [peaks | each] < WORDS\n", stderr);
        return 2;
    }
    if (region_picker_fill_tables(table, TABLE, priors, PRIORS, SCORING) != 0)
        return 1;
    for (; (got = fread(bytes, 1, 4, stdin)) == 4; index++) {
        uint32_t word = bytes[0] | (uint32_t)bytes[1] << 8 | (uint32_t)bytes[2] << 16 | (uint32_t)bytes[3] << 24;
        uint32_t value = word & 0x3fffffff;
        switch (word >> 30) {
        case 0: locus(value, index); break;
        case 1: observation(word, index); break;
        case 2: pops(value, index); break;
        default: set(word, index);
        }
    }
    end_pile();
    if (got != 0)
        refuse(3, index);
    return 0;
}
