//! The part, and the profile and the tables that a caller keeps.

use crate::region_picker::{
    region_picker_add, region_picker_fill_tables, region_picker_kernel, region_picker_make, region_picker_pop, region_picker_priors_length,
    region_picker_score, region_picker_score_set, region_picker_table_length,
};

/// Scoring with the Rust's defaults and a ploidy, its tables filled.
pub struct Scorer {
    ploidy: u8,
    table: Vec<f64>,
    priors: Vec<f64>,
}

impl Scorer {
    pub fn new(ploidy: u8) -> Self {
        let mut table = vec![0.0; unsafe { region_picker_table_length(ploidy) }];
        let mut priors = vec![0.0; unsafe { region_picker_priors_length(ploidy) }];
        let (t, p) = (table.as_mut_ptr(), priors.as_mut_ptr());
        assert_eq!(unsafe { region_picker_fill_tables(t, table.len(), p, priors.len(), 10, ploidy, 1e-3, 0.01, 30, 1.0, false) }, 0);
        Self { ploidy, table, priors }
    }

    /// Probability, original probability, and the clip count where there is clip evidence.
    pub fn score(&self, pos: u32, pile: &[u32]) -> (f64, f64, Option<u32>) {
        let mut activity = [0.0; 2];
        let mut evidence = [0; 2];
        let refusal = unsafe {
            region_picker_score(
                pos,
                pile.as_ptr(),
                pile.len(),
                self.table.as_ptr(),
                self.table.len(),
                self.priors.as_ptr(),
                self.priors.len(),
                10,
                self.ploidy,
                1e-3,
                0.01,
                30,
                1.0,
                false,
                activity.as_mut_ptr(),
                evidence.as_mut_ptr(),
            )
        };
        assert_eq!(refusal, 0);
        (activity[0], activity[1], (evidence[0] == 1).then_some(evidence[1]))
    }

    /// The same of a set of piles.
    pub fn score_set(&self, pos: u32, words: &[u32], lengths: &[u32]) -> (f64, f64, Option<u32>) {
        let mut activity = [0.0; 2];
        let mut evidence = [0; 2];
        let refusal = unsafe {
            region_picker_score_set(
                pos,
                words.as_ptr(),
                words.len(),
                lengths.as_ptr(),
                lengths.len(),
                self.table.as_ptr(),
                self.table.len(),
                self.priors.as_ptr(),
                self.priors.len(),
                10,
                self.ploidy,
                1e-3,
                0.01,
                30,
                1.0,
                false,
                activity.as_mut_ptr(),
                evidence.as_mut_ptr(),
            )
        };
        assert_eq!(refusal, 0);
        (activity[0], activity[1], (evidence[0] == 1).then_some(evidence[1]))
    }
}

/// A profile of contig 0, with the region program's sigma and threshold and a filter of 50.
pub struct Profile {
    numbers: [u32; 7],
    kernel: Vec<f64>,
    cells: Vec<f64>,
}

const THRESHOLD: f64 = 0.002;

impl Profile {
    pub fn new(contig_len: u32, distance: u32) -> Self {
        let mut numbers = [0; 7];
        let (mut full, mut narrow, mut kernel) = (vec![0.0; 101], vec![0.0; 101], vec![0.0; 101]);
        let made = unsafe {
            region_picker_make(numbers.as_mut_ptr(), 0, contig_len, distance, THRESHOLD, 50, 17.0, true, full.as_mut_ptr(), 101, narrow.as_mut_ptr(), 101)
        };
        assert_eq!(made, 0);
        assert_eq!(unsafe { region_picker_kernel(kernel.as_mut_ptr(), 101, numbers[3], 50, full.as_ptr(), 101, narrow.as_ptr(), 101) }, 0);
        kernel.truncate(2 * numbers[3] as usize + 1);
        Self { numbers, kernel, cells: vec![0.0; 4096] }
    }

    pub fn filter_size(&self) -> u32 {
        self.numbers[3]
    }

    pub fn add(&mut self, pos: u32, probability: f64, clips: Option<u32>) {
        let refusal = unsafe {
            region_picker_add(
                self.numbers.as_mut_ptr(),
                THRESHOLD,
                0,
                pos,
                probability,
                0.0,
                clips.is_some(),
                clips.unwrap_or(0),
                self.kernel.as_ptr(),
                self.kernel.len(),
                self.cells.as_mut_ptr(),
                self.cells.len(),
            )
        };
        assert_eq!(refusal, 0);
    }

    /// Start, end and whether it is active, of a region that is ready.
    pub fn pop(&mut self, forced: bool) -> Option<(u32, u32, bool)> {
        let mut region = [0; 8];
        let mut peak = 0.0;
        let cells = self.cells.as_mut_ptr();
        #[rustfmt::skip]
        let answer = unsafe { region_picker_pop(self.numbers.as_mut_ptr(), THRESHOLD, 100, 50, 300, forced, cells, self.cells.len(), region.as_mut_ptr(), &mut peak) };
        (answer == 0).then_some((region[1], region[2], region[3] == 1))
    }
}
