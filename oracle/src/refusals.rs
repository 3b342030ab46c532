//! Document 01's ranges and refusals, put over the Rust, which has none of them or others.
use crate::activity_profile::{BandPassActivityProfileParams, PositiveSigma};

pub const SETTING: u64 = 1;
pub const KERNEL_BUFFER: u64 = 2;
pub const WORD: u64 = 3;
pub const DEPTH: u64 = 4;
pub const PILES: u64 = 12;

pub const MAX_POSITION: u32 = 1_073_741_823;

/// The settings of a making as they are handed in, before any check.
#[derive(Clone, Copy)]
pub struct Settings {
    pub contig_len: u32,
    pub distance: u32,
    pub threshold: f64,
    pub max_filter: u32,
    pub sigma: f64,
    pub adaptive: bool,
}

impl Settings {
    pub fn in_range(&self) -> bool {
        (1..=MAX_POSITION).contains(&self.contig_len)
            && self.distance <= 1_000_000
            && (0.0..=1.0).contains(&self.threshold)
            && self.max_filter <= 500
            && (1.0 / 64.0..=4096.0).contains(&self.sigma)
    }

    pub fn params(&self) -> BandPassActivityProfileParams {
        BandPassActivityProfileParams {
            max_prob_propagation_distance: self.distance,
            active_prob_threshold: self.threshold,
            max_filter_size: self.max_filter,
            sigma: PositiveSigma::try_new(self.sigma).expect("a sigma in range is positive"),
            adaptive_filter_size: self.adaptive,
        }
    }

    /// The number of the refusal of a making with buffers of these lengths, or 0.
    pub fn making_refusal(&self, full: usize, narrow: usize) -> u64 {
        if !self.in_range() {
            return SETTING;
        }
        let band = 2 * self.max_filter as usize + 1;
        if full < band || narrow < band {
            return KERNEL_BUFFER;
        }
        0
    }
}

/// The settings of scoring as they are handed in, before any check.
#[derive(Clone, Copy)]
pub struct Scoring {
    pub min_qual: u8,
    pub ploidy: u8,
    pub heterozygosity: f64,
    pub deviation: f64,
    pub deletion_qual: u8,
    pub alt_multiplier: f64,
    pub flow: bool,
}

impl Scoring {
    pub const DEFAULT: Self = Self {
        min_qual: 10,
        ploidy: 2,
        heterozygosity: 1e-3,
        deviation: 0.01,
        deletion_qual: 30,
        alt_multiplier: 1.0,
        flow: false,
    };
}

impl Scoring {
    /// Whether the settings and the position are in their ranges.
    fn in_range(&self, position: u32) -> bool {
        (1..=254).contains(&self.min_qual)
            && (1..=254).contains(&self.deletion_qual)
            && (1..=100).contains(&self.ploidy)
            && (0.000001..=0.5).contains(&self.heterozygosity)
            && (0.0001..=1.0).contains(&self.deviation)
            && (1.0 / 1024.0..=1024.0).contains(&self.alt_multiplier)
            && (1..=MAX_POSITION).contains(&position)
    }
}

const MAX_DEPTH: u32 = 16_384;
const MAX_PILES: usize = 64;

fn is_no_observation(w: &u32) -> bool {
    w >> 30 != 1
}

/// The number of the refusal of a score, or 0: scoring 1, 4, 3.
pub fn scoring_refusal(s: &Scoring, position: u32, pile: &[u32]) -> u64 {
    if !s.in_range(position) {
        return SETTING;
    }
    if pile.len() > MAX_DEPTH as usize {
        return DEPTH;
    }
    if pile.iter().any(is_no_observation) {
        return WORD;
    }
    0
}

/// The number of the refusal of a set's score, or 0 (document 02, U6): 12, then 1, 4 in any pile, 3 for the lengths, 3 in any pile.
pub fn set_refusal(s: &Scoring, position: u32, words: &[u32], lengths: &[u32]) -> u64 {
    if lengths.len() > MAX_PILES {
        return PILES;
    }
    if !s.in_range(position) {
        return SETTING;
    }
    if lengths.iter().any(|&n| n > MAX_DEPTH) {
        return DEPTH;
    }
    if lengths.iter().map(|&n| u128::from(n)).sum::<u128>() != words.len() as u128 {
        return WORD;
    }
    if words.iter().any(is_no_observation) {
        return WORD;
    }
    0
}
