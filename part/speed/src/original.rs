//! The original on the same inputs: the Rust's scoring and profile, and a region program over them that checks nothing.
use crate::activity_profile::{ActivityEvidence, ActivityProfileState, BandPassActivityProfile, BandPassActivityProfileParams, PositiveSigma};
use crate::activity_scoring::{haplotype_caller_activity_profile_state_single_sample, HaplotypeCallerActivityScoringParams, PileupObservation};
use crate::bio_ids::Ploidy;
use crate::multi_sample::any_sample;
use std::sync::Arc;

pub fn observation(w: u32) -> PileupObservation {
    PileupObservation {
        read_base: b'A',
        qual: (w >> 22 & 255) as u8,
        is_deletion: w >> 21 & 1 == 1,
        is_alt: w >> 20 & 1 == 1,
        is_next_to_soft_clip: w >> 19 & 1 == 1,
        read_hq_soft_clip_base_count: w & 0x7_ffff,
    }
}

pub fn params(ploidy: u8) -> HaplotypeCallerActivityScoringParams {
    HaplotypeCallerActivityScoringParams { sample_ploidy: Ploidy::new_unchecked(ploidy), ..Default::default() }
}

pub fn score(pos: u32, pile: &[PileupObservation], params: &HaplotypeCallerActivityScoringParams) -> ActivityProfileState {
    haplotype_caller_activity_profile_state_single_sample("0", pos.into(), pile, params)
}

/// The probability that any of the samples is active, and the evidence.
pub fn score_set(samples: &[Vec<PileupObservation>], params: &HaplotypeCallerActivityScoringParams) -> (f64, ActivityEvidence) {
    let slices: Vec<&[PileupObservation]> = samples.iter().map(Vec::as_slice).collect();
    any_sample(&slices, params)
}

pub struct Profile {
    contig: Arc<str>,
    profile: BandPassActivityProfile,
}

impl Profile {
    pub fn new(contig_len: u32, distance: u32) -> Self {
        let contig: Arc<str> = "0".into();
        let params = BandPassActivityProfileParams {
            max_prob_propagation_distance: distance,
            active_prob_threshold: 0.002,
            max_filter_size: 50,
            sigma: PositiveSigma::try_new(17.0).expect("17 is positive"),
            adaptive_filter_size: true,
        };
        Self { profile: BandPassActivityProfile::new(contig.clone(), contig_len.into(), params), contig }
    }

    pub fn add(&mut self, pos: u32, probability: f64, clips: Option<u32>) {
        let evidence = clips.map_or(ActivityEvidence::Plain, |clip_bases| ActivityEvidence::HighQualitySoftClips { clip_bases });
        let contig = self.contig.clone();
        self.add_state(ActivityProfileState { contig, pos: pos.into(), active_prob: probability, original_active_prob: 0.0, evidence });
    }

    fn add_state(&mut self, state: ActivityProfileState) {
        self.profile.add(state).expect("the add is accepted");
    }

    pub fn pop(&mut self, forced: bool) -> Option<(u32, u32, bool)> {
        let region = self.profile.try_pop_next_ready_region(100, 50, 300, forced).expect("the sizes are not 0")?;
        Some((region.start as u32, region.end as u32, region.is_active))
    }
}

/// The lines that the region program prints for words that it refuses nowhere.
pub fn region(input: &[u8]) -> String {
    let params = params(2);
    let mut profile = Profile::new(1_073_741_823, 50);
    let mut pile: Vec<PileupObservation> = Vec::new();
    let mut locus = None;
    let mut lines = String::new();
    for bytes in input.chunks_exact(4) {
        let w = u32::from_le_bytes([bytes[0], bytes[1], bytes[2], bytes[3]]);
        let value = w & 0x3fff_ffff;
        if w >> 30 == 1 {
            pile.push(observation(w));
            continue;
        }
        if let Some(position) = locus.take() {
            profile.add_state(score(position, &pile, &params));
            pile.clear();
        }
        if w >> 30 == 0 {
            locus = Some(value);
            continue;
        }
        while let Some(r) = profile.profile.try_pop_next_ready_region(100, 50, 300, value == 1).expect("the sizes are not 0") {
            lines += &format!("{} {} {} {} {}\n", r.start, r.end, u32::from(r.is_active), r.padded_start, r.padded_end);
        }
    }
    lines
}
