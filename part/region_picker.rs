//! The functions of the part (region_picker.h) as Rust declares them.

extern "C" {
    pub fn region_picker_make(
        profile: *mut u32,
        contig: u32,
        contig_length: u32,
        distance: u32,
        threshold: f64,
        max_filter: u32,
        sigma: f64,
        adaptive: bool,
        full: *mut f64,
        full_length: usize,
        narrow: *mut f64,
        narrow_length: usize,
    ) -> u32;
    pub fn region_picker_kernel(
        kernel: *mut f64,
        kernel_length: usize,
        filter: u32,
        max_filter: u32,
        full: *const f64,
        full_length: usize,
        narrow: *const f64,
        narrow_length: usize,
    ) -> u32;
    pub fn region_picker_cells_needed(max: u32, distance: u32, filter: u32, contig_length: u32, cells: *mut u32) -> u32;
    pub fn region_picker_add(
        profile: *mut u32,
        threshold: f64,
        contig: u32,
        position: u32,
        active_prob: f64,
        original: f64,
        has_clips: bool,
        clip_bases: u32,
        kernel: *const f64,
        kernel_length: usize,
        cells: *mut f64,
        cells_length: usize,
    ) -> u32;
    pub fn region_picker_pop(
        profile: *mut u32,
        threshold: f64,
        extension: u32,
        min: u32,
        max: u32,
        forced: bool,
        cells: *mut f64,
        cells_length: usize,
        region: *mut u32,
        peak: *mut f64,
    ) -> u32;
    pub fn region_picker_table_length(ploidy: u8) -> usize;
    pub fn region_picker_priors_length(ploidy: u8) -> usize;
    pub fn region_picker_fill_tables(
        table: *mut f64,
        table_length: usize,
        priors: *mut f64,
        priors_length: usize,
        min_qual: u8,
        ploidy: u8,
        heterozygosity: f64,
        deviation: f64,
        deletion_qual: u8,
        alt_multiplier: f64,
        flow: bool,
    ) -> u32;
    pub fn region_picker_score(
        position: u32,
        pile: *const u32,
        pile_length: usize,
        table: *const f64,
        table_length: usize,
        priors: *const f64,
        priors_length: usize,
        min_qual: u8,
        ploidy: u8,
        heterozygosity: f64,
        deviation: f64,
        deletion_qual: u8,
        alt_multiplier: f64,
        flow: bool,
        activity: *mut f64,
        evidence: *mut u32,
    ) -> u32;
    pub fn region_picker_score_set(
        position: u32,
        words: *const u32,
        words_length: usize,
        lengths: *const u32,
        lengths_length: usize,
        table: *const f64,
        table_length: usize,
        priors: *const f64,
        priors_length: usize,
        min_qual: u8,
        ploidy: u8,
        heterozygosity: f64,
        deviation: f64,
        deletion_qual: u8,
        alt_multiplier: f64,
        flow: bool,
        activity: *mut f64,
        evidence: *mut u32,
    ) -> u32;
}
