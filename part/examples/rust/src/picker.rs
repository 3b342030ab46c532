//! The part behind a profile and a scorer that own what they lend.

use crate::region_picker::{
    region_picker_add, region_picker_cells_needed, region_picker_fill_tables, region_picker_kernel, region_picker_make, region_picker_pop,
    region_picker_priors_length, region_picker_score, region_picker_table_length,
};

/// A refusal's number.
pub type Refusal = u32;

const PLOIDY: u8 = 2;
const THRESHOLD: f64 = 0.002;
const HELD: u32 = 100;
const EMPTY: u32 = 101;

/// Scoring with its usual settings.
pub struct Scorer {
    table: Vec<f64>,
    priors: Vec<f64>,
}

/// What an add takes of a score.
pub struct Score {
    activity: [f64; 2],
    evidence: [u32; 2],
}

impl Scorer {
    pub fn new() -> Self {
        let mut table = vec![0.0; unsafe { region_picker_table_length(PLOIDY) }];
        let mut priors = vec![0.0; unsafe { region_picker_priors_length(PLOIDY) }];
        let (t, p) = (table.as_mut_ptr(), priors.as_mut_ptr());
        let filled = unsafe { region_picker_fill_tables(t, table.len(), p, priors.len(), 10, PLOIDY, 0.001, 0.01, 30, 1.0, false) };
        assert_eq!(filled, 0, "the settings are in range, and the tables have their lengths");
        Self { table, priors }
    }

    pub fn score(&self, position: u32, pile: &[u32]) -> Result<Score, Refusal> {
        let mut score = Score { activity: [0.0; 2], evidence: [0; 2] };
        let (table, priors) = (&self.table, &self.priors);
        let (activity, evidence) = (score.activity.as_mut_ptr(), score.evidence.as_mut_ptr());
        #[rustfmt::skip]
        let refusal = unsafe { region_picker_score(position, pile.as_ptr(), pile.len(), table.as_ptr(), table.len(), priors.as_ptr(), priors.len(), 10, PLOIDY, 0.001, 0.01, 30, 1.0, false, activity, evidence) };
        answer(refusal).map(|()| score)
    }
}

pub struct Profile {
    numbers: [u32; 7],
    kernel: Vec<f64>,
    cells: Vec<f64>,
}

impl Profile {
    /// A profile without cells; `lend` gives it some.
    pub fn new(contig_length: u32, distance: u32, max_filter: u32) -> Result<Self, Refusal> {
        let n = 2 * max_filter as usize + 1;
        let mut numbers = [0; 7];
        let (mut full, mut narrow, mut kernel) = (vec![0.0; n], vec![0.0; n], vec![0.0; n]);
        #[rustfmt::skip]
        answer(unsafe { region_picker_make(numbers.as_mut_ptr(), 0, contig_length, distance, THRESHOLD, max_filter, 17.0, true, full.as_mut_ptr(), n, narrow.as_mut_ptr(), n) })?;
        answer(unsafe { region_picker_kernel(kernel.as_mut_ptr(), n, numbers[3], max_filter, full.as_ptr(), n, narrow.as_ptr(), n) })?;
        kernel.truncate(2 * numbers[3] as usize + 1);
        Ok(Self { numbers, kernel, cells: Vec::new() })
    }

    /// How many cells are enough where each add is followed by unforced pops with this max until none is ready.
    pub fn cells_needed(&self, max: u32) -> Result<usize, Refusal> {
        let [_, contig_length, distance, filter, ..] = self.numbers;
        let mut cells = 0;
        answer(unsafe { region_picker_cells_needed(max, distance, filter, contig_length, &mut cells) })?;
        Ok(cells as usize)
    }

    /// Before the first add.
    pub fn lend(&mut self, cells: usize) {
        self.cells = vec![0.0; cells];
    }

    pub fn add(&mut self, position: u32, score: &Score) -> Result<(), Refusal> {
        let ([probability, original], [clips, count]) = (score.activity, score.evidence);
        let (kernel, cells) = (&self.kernel, &mut self.cells);
        #[rustfmt::skip]
        let refusal = unsafe { region_picker_add(self.numbers.as_mut_ptr(), THRESHOLD, 0, position, probability, original, clips == 1, count, kernel.as_ptr(), kernel.len(), cells.as_mut_ptr(), cells.len()) };
        answer(refusal)
    }

    /// A region's contig, start, end, 1 where it is active, padded start, padded end, extension and position of its peak, and the peak; none where none is ready.
    pub fn pop(&mut self, extension: u32, min: u32, max: u32, forced: bool) -> Result<Option<([u32; 8], f64)>, Refusal> {
        let mut region = [0; 8];
        let mut peak = 0.0;
        let cells = &mut self.cells;
        #[rustfmt::skip]
        let popped = unsafe { region_picker_pop(self.numbers.as_mut_ptr(), THRESHOLD, extension, min, max, forced, cells.as_mut_ptr(), cells.len(), region.as_mut_ptr(), &mut peak) };
        match popped {
            HELD | EMPTY => Ok(None),
            n => answer(n).map(|()| Some((region, peak))),
        }
    }
}

fn answer(number: u32) -> Result<(), Refusal> {
    if number == 0 {
        Ok(())
    } else {
        Err(number)
    }
}
