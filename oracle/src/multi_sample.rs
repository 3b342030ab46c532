//! Two or more samples of a locus, scored together as document 02's U6 has it: the Rust's functions put together, which its own entry for them, the joint EM, is not.
use crate::activity_profile::ActivityEvidence;
use crate::activity_scoring::{
    calc_ref_vs_any_log10_genotype_likelihoods, calculate_multi_sample_any_non_ref_posterior,
    genotype_log10_likelihoods_after_java_genotype_pl_roundtrip, hq_soft_clip_running_mean_rcm_stratified, HaplotypeCallerActivityScoringParams,
    PileupObservation, AVERAGE_HQ_SOFTCLIPS_HQ_BASES_THRESHOLD,
};

/// The probability that any of them is active, with the zero exits on, of likelihoods that are rounded, and the evidence of the mean that runs on across them.
pub fn any_sample(samples: &[&[PileupObservation]], params: &HaplotypeCallerActivityScoringParams) -> (f64, ActivityEvidence) {
    let likelihoods: Vec<Vec<f64>> = samples
        .iter()
        .map(|pile| {
            let gl = calc_ref_vs_any_log10_genotype_likelihoods(params.sample_ploidy.as_u32(), pile, params);
            genotype_log10_likelihoods_after_java_genotype_pl_roundtrip(&gl)
        })
        .collect();
    let mean = hq_soft_clip_running_mean_rcm_stratified(samples, params);
    let evidence = if mean > AVERAGE_HQ_SOFTCLIPS_HQ_BASES_THRESHOLD {
        ActivityEvidence::HighQualitySoftClips { clip_bases: mean as u32 }
    } else {
        ActivityEvidence::Plain
    };
    (calculate_multi_sample_any_non_ref_posterior(&likelihoods, true, params), evidence)
}
