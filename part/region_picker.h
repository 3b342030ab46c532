/* The region picker as a part: link libregion_picker.a, which `tools/build region_picker` writes to target/staticlib.
 *
 * Every function is proved to do what is said here, for whatever numbers it is handed (crates/region_picker; document 01 is docs/01-scope.md).
 *
 * Memory. The part allocates nothing, keeps nothing between calls and starts no threads. You own all of it: what a call writes is named below, and
 * nothing else is written. A pointer is to as many elements as the length behind it says, or to the number in its brackets, and is aligned as its type
 * asks; no two pointers of one call may overlap, except two that are only read. With a length of 0 a pointer is not followed and may be NULL; any other is
 * not NULL. Calls on different memory may run on different threads at the same time.
 *
 * Doubles. The part assumes the floating-point environment that a program starts with: rounding to nearest, and no flushing of subnormal numbers to zero. A
 * program that is linked with -Ofast or -ffast-math may start in another, in which subnormal cells are lost.
 *
 * Answers. 0 is success. 1 to 11 are document 01's refusals, 12 is document 02's; a refused call writes nothing. docs/MAKERS.md says what to do about each:
 *   1 a setting, or a position given to scoring, outside its range     7 a position that is not on the contig
 *   2 a kernel buffer or a table that is too short                     8 a probability that is not in 0.0 to 1.0
 *   3 a word that is no observation; lengths that do not add up to     9 a position that is not the one after the last
 *     the run; an unknown CIGAR operation
 *   4 a pile of more than 16,384 words                                10 too few cells
 *   5 a record that is broken, or a kernel that is not 2F + 1 long    11 a region size of 0
 *   6 a locus of another contig                                       12 a set of more than 64 piles
 */
#ifndef REGION_PICKER_H
#define REGION_PICKER_H

#include <stdbool.h>
#include <stddef.h>
#include <stdint.h>

#ifdef __cplusplus
extern "C" {
#endif

/* A pop that hands out no region, and is not refused, answers one of these. */
#define REGION_PICKER_HELD 100u  /* the next region is not decided yet: add more loci, or force */
#define REGION_PICKER_EMPTY 101u /* nothing is waiting */

/* A profile is seven numbers, in this order, and the threshold, which you keep beside them. Each call gets them and the cells as the one before left them. */
enum {
    REGION_PICKER_CONTIG,
    REGION_PICKER_CONTIG_LENGTH,
    REGION_PICKER_DISTANCE,
    REGION_PICKER_FILTER_SIZE, /* F: the kernel is 2F + 1 long */
    REGION_PICKER_REGION_START,
    REGION_PICKER_LAST_INPUT,
    REGION_PICKER_COUNT, /* how many cells are in use */
    REGION_PICKER_PROFILE /* how many numbers these are */
};

/* A region is eight numbers. Positions count from 1, and both ends are inside. */
enum {
    REGION_PICKER_REGION_CONTIG,
    REGION_PICKER_START,
    REGION_PICKER_END,
    REGION_PICKER_IS_ACTIVE, /* 1 or 0 */
    REGION_PICKER_PADDED_START,
    REGION_PICKER_PADDED_END,
    REGION_PICKER_EXTENSION,
    REGION_PICKER_PEAK_POSITION, /* the locus with the highest cell, from start to end */
    REGION_PICKER_REGION         /* how many numbers these are */
};

/* Makes an empty profile. contig_length 1 to 1,073,741,823; max_prob_propagation_distance 0 to 1,000,000, and at least 1 if no locus may be lost;
 * active_prob_threshold 0.0 to 1.0; max_filter_size 0 to 500; sigma 1/64 to 4,096. `full` and `narrow` have room for 2 * max_filter_size + 1 doubles each; the
 * kernel is left in one of them. Refuses 1, then 2. */
uint32_t region_picker_make(uint32_t profile[REGION_PICKER_PROFILE], uint32_t contig, uint32_t contig_length, uint32_t max_prob_propagation_distance,
                            double active_prob_threshold, uint32_t max_filter_size, double sigma, bool adaptive_filter_size, double *full, size_t full_length,
                            double *narrow, size_t narrow_length);

/* Copies the kernel that a making left, 2F + 1 doubles, to the front of `kernel`, which is what an add is handed, with the length 2F + 1; F is
 * profile[REGION_PICKER_FILTER_SIZE]. Refuses 2 where `kernel`, `full` or `narrow` is shorter than that. After a 0 the two buffers are free. */
uint32_t region_picker_kernel(double *kernel, size_t kernel_length, uint32_t filter_size, uint32_t max_filter_size, const double *full, size_t full_length,
                              const double *narrow, size_t narrow_length);

/* Writes to `cells` how many of them to lend: with so many, or more, no add is refused 10 where you pop after every add, unforced, with this max_region_size, until
 * held or empty. It runs nothing, so memory can be fixed before there is data; one cell fewer is too few for some loci. filter_size is
 * profile[REGION_PICKER_FILTER_SIZE]; max_filter_size in its place, which you know before a making, is never too little. The answer is the smaller of contig_length
 * and max_region_size + max_prob_propagation_distance + 2 * filter_size: 450 for 300, 50 and 50. Refuses 1 for a distance, filter size (0 to 500) or contig length
 * outside its range, then 11 for a max_region_size of 0. */
uint32_t region_picker_cells_needed(uint32_t max_region_size, uint32_t max_prob_propagation_distance, uint32_t filter_size, uint32_t contig_length,
                                    uint32_t *cells);

/* Adds the locus after the last, or any locus to an empty profile. active_prob 0.0 to 1.0; with has_clips, clip_bases is the count of clipped bases that the
 * activity is spread by. Writes the profile and the cells. Refuses 5, 6, 7, 8, 9, 10. */
uint32_t region_picker_add(uint32_t profile[REGION_PICKER_PROFILE], double active_prob_threshold, uint32_t contig, uint32_t position, double active_prob,
                           double original_active_prob, bool has_clips, uint32_t clip_bases, const double *kernel, size_t kernel_length, double *cells,
                           size_t cells_length);

/* Pops the next region. Writes `region` and `peak` on 0 alone, and then the profile and the cells too. The peak is the highest cell of the region's loci, as the
 * call found them, bit for bit: the first of equals, and of a region whose first cell is a NaN that NaN, whatever follows; its locus is
 * region[REGION_PICKER_PEAK_POSITION]. A region that is not active has a peak too. Forced, it never answers held. Refuses 5, then 11. */
uint32_t region_picker_pop(uint32_t profile[REGION_PICKER_PROFILE], double active_prob_threshold, uint32_t assembly_region_extension, uint32_t min_region_size,
                           uint32_t max_region_size, bool forced, double *cells, size_t cells_length, uint32_t region[REGION_PICKER_REGION], double *peak);

/* How many doubles the table of a ploidy has: 510 * (ploidy / 4 * 4 + 4) + 3, so 2,043 for ploidy 1 to 3. */
size_t region_picker_table_length(uint8_t sample_ploidy);

/* How many doubles the list of priors of a ploidy has: ploidy + 4. */
size_t region_picker_priors_length(uint8_t sample_ploidy);

/* Fills the front of the tables that scoring reads: `table`, of region_picker_table_length doubles, and `priors`, of region_picker_priors_length. Once, and again
 * whenever a setting of scoring changes; docs/SPEED.md has its time. The ranges are those of region_picker_score. Refuses 1 for a setting outside its range, then
 * 2 for a table or priors that are too short. */
uint32_t region_picker_fill_tables(double *table, size_t table_length, double *priors, size_t priors_length, uint8_t min_base_quality_score,
                                   uint8_t sample_ploidy, double snp_heterozygosity, double heterozygosity_standard_deviation,
                                   uint8_t ref_model_deletion_qual, double active_region_alt_multiplier, bool flow_based_reference_model);

/* Scores the pile of a position: observation words, as README.md has them. A base of quality 255, SAM's byte for none, is skipped like one below the minimum; a
 * deletion has the deletion quality, whatever its own. Settings, with the usual choice: min_base_quality_score 1 to 254 (10), sample_ploidy 1
 * to 100 (2), snp_heterozygosity 0.000001 to 0.5 (0.001), heterozygosity_standard_deviation 0.0001 to 1 (0.01), ref_model_deletion_qual 1 to 254 (30),
 * active_region_alt_multiplier 1/1024 to 1,024 (1), flow_based_reference_model (false). `table` and `priors` are what region_picker_fill_tables filled, with
 * just the lengths that the two functions above answer. Each carries the settings that it depends on; one that was filled for others, is of another length, or
 * holds zeros because nothing was filled, is not looked at: the score has the same bits, and takes longer to work out. Writes to `activity` the probability and
 * the original probability, and to `evidence` 1 and the clip count, or 0 and 0: what an add takes. Refuses 1, 4, 3. */
uint32_t region_picker_score(uint32_t position, const uint32_t *pile, size_t pile_length, const double *table, size_t table_length, const double *priors,
                             size_t priors_length, uint8_t min_base_quality_score, uint8_t sample_ploidy, double snp_heterozygosity,
                             double heterozygosity_standard_deviation, uint8_t ref_model_deletion_qual, double active_region_alt_multiplier,
                             bool flow_based_reference_model, double activity[2], uint32_t evidence[2]);

/* Scores a position that was read as several samples, as separate pools are: `words` is one run of all their words, and `lengths` says how many of them each pile
 * has, in the order in which the piles stand; an empty pile has length 0. Settings, tables and what is written are those of region_picker_score. Empty piles are
 * passed over. With none left the answer is 0.0, 0.0 and plain; with one left it is what region_picker_score answers for that pile; with more the probability is that
 * of any sample being active, 1 less the product over the piles, in their order, of 1 less what each scores alone, the original probability is 0.0, and the clip mean
 * runs on from pile to pile. A pile whose words are all skipped is not empty. At most 64 piles, empty ones counted, of at most 16,384 words each. Refuses 12, then 1,
 * 4 for any length, 3 for lengths that do not add up to words_length, and 3 for a word. */
uint32_t region_picker_score_set(uint32_t position, const uint32_t *words, size_t words_length, const uint32_t *lengths, size_t lengths_length,
                                 const double *table, size_t table_length, const double *priors, size_t priors_length, uint8_t min_base_quality_score,
                                 uint8_t sample_ploidy, double snp_heterozygosity, double heterozygosity_standard_deviation, uint8_t ref_model_deletion_qual,
                                 double active_region_alt_multiplier, bool flow_based_reference_model, double activity[2], uint32_t evidence[2]);

/* Counts the soft-clipped bases of a quality above 28 along a read: CIGAR words as BAM stores them, and a quality for each base; 255, SAM's byte for none, is not
 * above 28. Refuses 3. */
uint32_t region_picker_count_clips(const uint32_t *cigar, size_t cigar_length, const uint8_t *qualities, size_t qualities_length, uint64_t *count);

#ifdef __cplusplus
}
#endif

#endif
