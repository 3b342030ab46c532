//! Answers of scoring: the Rust's, with document 02's skip of quality 255 and under document 01's refusals; and of the sums that it is made of.
use crate::activity_profile::ActivityEvidence;
use crate::activity_scoring::{
    approximate_log10_sum_log10_pair, haplotype_caller_activity_profile_state_single_sample, log10_sum_log10,
    HaplotypeCallerActivityScoringParams, PileupObservation,
};
use crate::bio_ids::Ploidy;
use crate::document::State;
use crate::list::{Answer, Function};
use crate::random::Random;
use crate::refusals::{scoring_refusal, Scoring, MAX_POSITION};
use std::io::Write;

const DEFAULT: Scoring = Scoring::DEFAULT;

/// The contig of every score.
pub const CONTIG: u32 = 7;

impl Scoring {
    pub fn params(&self) -> HaplotypeCallerActivityScoringParams {
        HaplotypeCallerActivityScoringParams {
            min_base_quality_score: self.min_qual,
            sample_ploidy: Ploidy::new_unchecked(self.ploidy),
            snp_heterozygosity: self.heterozygosity,
            heterozygosity_standard_deviation: self.deviation,
            ref_model_deletion_qual: self.deletion_qual,
            active_region_alt_multiplier: self.alt_multiplier,
            flow_based_reference_model: self.flow,
            ..Default::default()
        }
    }
}

/// An observation word.
pub fn word(qual: u64, deletion: bool, alt: bool, near_clip: bool, clips: u64) -> u32 {
    (1 << 30 | qual << 22 | u64::from(deletion) << 21 | u64::from(alt) << 20 | u64::from(near_clip) << 19 | clips) as u32
}

pub fn observation(w: u32) -> PileupObservation {
    PileupObservation {
        read_base: b'A',
        qual: (w >> 22 & 255) as u8,
        is_deletion: w >> 21 & 1 == 1,
        is_alt: w >> 20 & 1 == 1,
        is_next_to_soft_clip: w >> 19 & 1 == 1,
        read_hq_soft_clip_base_count: w & 0x7_ffff,
    }
}

/// The evidence as a clip count, where it is not plain.
pub fn clips_of(evidence: &ActivityEvidence) -> Option<u32> {
    match evidence {
        ActivityEvidence::Plain => None,
        ActivityEvidence::HighQualitySoftClips { clip_bases } => Some(*clip_bases),
    }
}

/// The Rust's score of a pile that is not refused.
pub fn score(s: &Scoring, contig: u32, position: u32, pile: &[u32]) -> State {
    let observations: Vec<PileupObservation> = pile.iter().map(|&w| observation(w)).collect();
    let state = haplotype_caller_activity_profile_state_single_sample(contig.to_string(), position.into(), &observations, &s.params());
    State {
        contig,
        pos: position,
        probability: state.active_prob,
        original: state.original_active_prob,
        clips: clips_of(&state.evidence),
    }
}

/// An answer's first words: the contig, the position and the settings.
pub fn asked(function: Function, s: &Scoring, position: u32) -> Answer {
    Answer::of(function)
        .word(CONTIG.into())
        .word(position.into())
        .word(s.min_qual.into())
        .word(s.ploidy.into())
        .double(s.heterozygosity)
        .double(s.deviation)
        .word(s.deletion_qual.into())
        .double(s.alt_multiplier)
        .word(s.flow.into())
}

/// A run of `depth` words, of which word i is words[i % k]: its words in an answer, and the run.
pub fn run_of(answer: Answer, depth: usize, words: &[u32]) -> (Answer, Vec<u32>) {
    let answer = answer.word(depth as u64).numbers(words);
    (answer, (0..depth).map(|i| words[i % words.len()]).collect())
}

/// An answer's last words: the refusal's number, or 0 and the state.
pub fn told(answer: Answer, refusal: u64, state: impl FnOnce() -> State) -> Answer {
    let answer = answer.word(refusal);
    if refusal != 0 {
        return answer;
    }
    let state = state();
    answer.double(state.probability).double(state.original).word(state.clips.map_or(0, |n| u64::from(n) + 1))
}

/// The answer of a pile of `depth` words, of which word i is words[i % k].
fn score_answer(s: Scoring, position: u32, depth: usize, words: &[u32], out: &mut impl Write) {
    let (answer, pile) = run_of(asked(Function::Score, &s, position), depth, words);
    told(answer, scoring_refusal(&s, position, &pile), || score(&s, CONTIG, position, &pile)).write(out);
}

fn next_up(x: f64) -> f64 {
    f64::from_bits(x.to_bits() + 1)
}

fn next_down(x: f64) -> f64 {
    f64::from_bits(x.to_bits() - 1)
}

/// Settings at both ends of each range and one step outside, NaN and infinite ones.
pub fn edge_settings() -> Vec<Scoring> {
    let mut all = Vec::new();
    for min_qual in [0, 1, 254, 255] {
        all.push(Scoring { min_qual, ..DEFAULT });
    }
    for deletion_qual in [0, 1, 254, 255] {
        all.push(Scoring { deletion_qual, ..DEFAULT });
    }
    for ploidy in [0, 1, 3, 100, 101, 255] {
        all.push(Scoring { ploidy, ..DEFAULT });
    }
    let doubles = |low: f64, high: f64| vec![low, next_down(low), high, next_up(high), 0.0, -1.0, f64::NAN, f64::INFINITY];
    for heterozygosity in doubles(0.000001, 0.5) {
        all.push(Scoring { heterozygosity, ..DEFAULT });
    }
    for deviation in doubles(0.0001, 1.0) {
        all.push(Scoring { deviation, ..DEFAULT });
    }
    for alt_multiplier in doubles(1.0 / 1024.0, 1024.0) {
        all.push(Scoring { alt_multiplier, ..DEFAULT });
    }
    for (low, high) in [(0.000001, 0.0001), (0.000001, 1.0), (0.5, 0.0001), (0.5, 1.0)] {
        all.push(Scoring { heterozygosity: low, deviation: high, ..DEFAULT });
    }
    all
}

fn edge_scores(out: &mut impl Write) {
    let alt = word(30, false, true, false, 0);
    let reference = word(30, false, false, false, 0);
    for s in edge_settings() {
        score_answer(s, 5, 0, &[], out);
        score_answer(s, 5, 3, &[alt, reference], out);
        score_answer(s, 5, 4, &[reference, word(20, true, true, true, 9)], out);
    }
    for position in [0, 1, MAX_POSITION, MAX_POSITION + 1, u32::MAX] {
        score_answer(DEFAULT, position, 2, &[alt, alt], out);
    }
    // every quality, alternate and not, a deletion and not, with the flow model and without
    for qual in 0..256 {
        for flow in [false, true] {
            let s = Scoring { flow, deletion_qual: 9, ..DEFAULT };
            score_answer(s, 9, 3, &[word(qual, false, true, true, 40), reference], out);
            score_answer(s, 9, 2, &[word(qual, false, false, false, 0), alt], out);
            score_answer(s, 9, 3, &[word(qual, true, true, true, 7), alt], out);
        }
    }
    // P13, and means just at and above 6
    let near = |clips| word(30, false, true, true, clips);
    score_answer(DEFAULT, 9, 2, &[near(6), near(8)], out);
    score_answer(DEFAULT, 9, 1, &[near(6)], out);
    score_answer(DEFAULT, 9, 7, &[near(6), near(6), near(6), near(6), near(6), near(6), near(7)], out);
    score_answer(DEFAULT, 9, 3, &[near(0), near(0x7_ffff), near(3)], out);
    // the running mean rounds at each word: of 10 15 0 3 it is just below 7
    score_answer(DEFAULT, 9, 4, &[near(10), near(15), near(0), near(3)], out);
    score_answer(DEFAULT, 9, 3, &[word(30, false, false, true, 90), word(9, false, true, true, 90), near(5)], out);
    // words of other kinds
    for kind in [0u32, 2, 3] {
        let other = alt & 0x3fff_ffff | kind << 30;
        score_answer(DEFAULT, 9, 3, &[alt, other, alt], out);
        score_answer(DEFAULT, 9, 1, &[other], out);
        score_answer(Scoring { ploidy: 0, ..DEFAULT }, 9, 1, &[other], out);
        score_answer(DEFAULT, 9, 16_385, &[other], out);
    }
    // the deepest pile, and one word more; the cap of a PL
    let sharp = word(254, false, true, false, 0);
    let blank = word(255, false, true, false, 0);
    for words in [vec![alt, reference], vec![sharp], vec![blank], vec![word(254, false, false, false, 0)], vec![sharp, word(254, false, false, false, 0)]] {
        for alt_multiplier in [1.0 / 1024.0, 1.0, 1024.0] {
            score_answer(Scoring { alt_multiplier, ..DEFAULT }, 9, 16_384, &words, out);
        }
        score_answer(DEFAULT, 9, 16_385, &words, out);
        score_answer(Scoring { ploidy: 0, ..DEFAULT }, 9, 16_385, &words, out);
    }
    score_answer(Scoring { ploidy: 100, ..DEFAULT }, 9, 16_384, &[alt, reference, reference], out);
}

/// Settings in their ranges, the defaults for the most part.
pub fn some_settings(r: &mut Random) -> Scoring {
    let mut s = DEFAULT;
    if r.chance(2) {
        s.ploidy = r.pick(&[1, 2, 3, 4, 10]);
        if r.chance(20) {
            s.ploidy = 1 + r.below(100) as u8;
        }
    }
    if r.chance(4) {
        s.min_qual = 1 + r.below(254) as u8;
    }
    if r.chance(4) {
        s.deletion_qual = 1 + r.below(254) as u8;
    }
    if r.chance(4) {
        s.heterozygosity = r.pick(&[0.000001, 0.5, 0.01]) * (0.5 + 0.5 * r.unit());
        s.heterozygosity = s.heterozygosity.clamp(0.000001, 0.5);
    }
    if r.chance(4) {
        s.deviation = (r.pick(&[0.0001, 1.0, 0.05]) * (0.5 + r.unit())).clamp(0.0001, 1.0);
    }
    if r.chance(4) {
        s.alt_multiplier = r.pick(&[1.0 / 1024.0, 0.25, 1.5, 1024.0]);
    }
    s.flow = r.chance(3);
    s
}

/// Piles with words of quality 255 (document 02, U3): alone, among others, deletions, next to clips; with the flow model and without, at the least and
/// the largest minimum.
fn blank_scores(out: &mut impl Write) {
    let blank = |deletion, alt, clips| word(255, deletion, alt, clips > 0, clips);
    let (alt, reference) = (word(254, false, true, false, 0), word(254, false, false, false, 0));
    let near = |clips| word(254, false, true, true, clips);
    let piles = [
        vec![blank(false, false, 0)],
        vec![blank(false, true, 0)],
        vec![blank(false, true, 40)],
        vec![blank(false, true, 0), blank(false, false, 0), blank(false, true, 7)],
        vec![word(253, false, true, true, 40)],
        vec![alt, blank(false, true, 0), reference],
        vec![blank(false, false, 0), alt, blank(false, false, 40)],
        vec![reference, blank(false, true, 0)],
        vec![near(7), blank(false, true, 0x7_ffff)],
        vec![blank(false, true, 40), near(6), blank(false, true, 1)],
        vec![near(40), blank(false, true, 1), blank(false, true, 0)],
        vec![blank(true, true, 0)],
        vec![blank(true, false, 0), reference],
        vec![blank(true, true, 40), blank(false, true, 1)],
        vec![blank(true, true, 7), blank(false, true, 40), near(7)],
        vec![word(0, true, true, true, 7), blank(false, true, 40), near(7)],
    ];
    for (min_qual, flow) in [(1, false), (1, true), (10, false), (10, true), (254, false), (254, true)] {
        for deletion_qual in [1, 30, 254] {
            for ploidy in [1, 2, 7] {
                for words in &piles {
                    score_answer(Scoring { min_qual, flow, deletion_qual, ploidy, ..DEFAULT }, 9, words.len(), words, out);
                }
            }
        }
        // depth, kind and position are looked at whatever the quality is
        for depth in [16_384, 16_385] {
            score_answer(Scoring { min_qual, flow, ..DEFAULT }, 9, depth, &[blank(false, true, 40)], out);
        }
        score_answer(Scoring { min_qual, flow, ..DEFAULT }, 9, 2, &[blank(false, true, 0), blank(false, true, 0) ^ 1 << 31], out);
        score_answer(Scoring { min_qual, flow, ..DEFAULT }, 0, 1, &[blank(false, true, 0)], out);
    }
}

/// Piles in which most words have quality 255, or one next to the minimum.
fn some_blank_score(r: &mut Random, out: &mut impl Write) {
    let mut s = some_settings(r);
    s.min_qual = r.pick(&[1, s.min_qual, 10, 253, 254]);
    let words: Vec<u32> = (0..1 + r.below(10))
        .map(|_| {
            let qual = r.pick(&[255, 255, 255, 255, 254, 253, u64::from(s.min_qual), u64::from(s.min_qual) - 1, 30, 0]);
            word(qual, r.chance(4), r.chance(2), r.chance(2), r.pick(&[0, 5, 6, 7, 8, 40, 0x7_ffff]))
        })
        .collect();
    let depth = r.below(2 * words.len() as u64) as usize;
    score_answer(s, 1 + r.below(MAX_POSITION.into()) as u32, depth, &words, out);
}

pub fn score_list(seed: u64, count: u64, out: &mut impl Write) {
    edge_scores(out);
    let mut r = Random::from_seed(seed);
    for _ in 0..count {
        let s = some_settings(&mut r);
        let alts = r.pick(&[2, 3, 10, 50]);
        let words: Vec<u32> = (0..1 + r.below(12))
            .map(|_| {
                let qual = if r.chance(8) { r.below(256) } else { r.pick(&[2, 9, 10, 11, 20, 25, 30, 35, 37, 40]) };
                let clips = if r.chance(30) { r.below(0x8_0000) } else { r.below(14) };
                word(qual, r.chance(9), r.chance(alts), r.chance(3), clips)
            })
            .collect();
        let depth = if r.chance(50) { r.below(400) } else { r.below(2 * words.len() as u64) } as usize;
        score_answer(s, 1 + r.below(MAX_POSITION.into()) as u32, depth, &words, out);
    }
    blank_scores(out);
    for _ in 0..count / 4 {
        some_blank_score(&mut r, out);
    }
}

/// A log10 of the size that scoring meets, or any double.
fn some_log10(r: &mut Random) -> f64 {
    match r.below(8) {
        0 => r.any_double(),
        1 => r.pick(&[0.0, -0.0, f64::INFINITY, f64::NEG_INFINITY, f64::NAN, f64::MAX, f64::MIN]),
        2 => -8.0 * r.unit(),
        _ => -300.0 * r.unit() * r.unit(),
    }
}

pub fn sum_list(seed: u64, count: u64, out: &mut impl Write) {
    let mut r = Random::from_seed(seed);
    for _ in 0..count {
        let a = some_log10(&mut r);
        let b = if r.chance(2) { a + 8.5 * r.unit() } else { some_log10(&mut r) };
        for (a, b) in [(a, b), (b, a), (a, a)] {
            let sum = approximate_log10_sum_log10_pair(a, b);
            Answer::of(Function::PairSum).double(a).double(b).double(sum).write(out);
        }
        let values: Vec<f64> = (0..r.below(6)).map(|_| some_log10(&mut r)).collect();
        Answer::of(Function::Log10Sum).doubles(&values).double(log10_sum_log10(&values)).write(out);
    }
}
