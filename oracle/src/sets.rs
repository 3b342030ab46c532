//! Answers of scoring a set of piles (document 02, U6), under its refusals.
use crate::activity_scoring::PileupObservation;
use crate::document::State;
use crate::list::Function;
use crate::multi_sample::any_sample;
use crate::random::Random;
use crate::refusals::{set_refusal, Scoring, MAX_POSITION};
use crate::scores::{asked, clips_of, edge_settings, observation, run_of, score, some_settings, told, word, CONTIG};
use std::io::Write;

const DEFAULT: Scoring = Scoring::DEFAULT;

/// The piles of a run, which the lengths add up to.
fn piles<'a>(words: &'a [u32], lengths: &[u32]) -> Vec<&'a [u32]> {
    let mut rest = words;
    lengths
        .iter()
        .map(|&n| {
            let (pile, after) = rest.split_at(n as usize);
            rest = after;
            pile
        })
        .collect()
}

/// The score of a set that is not refused.
fn set_score(s: &Scoring, position: u32, words: &[u32], lengths: &[u32]) -> State {
    let left: Vec<&[u32]> = piles(words, lengths).into_iter().filter(|pile| !pile.is_empty()).collect();
    if left.is_empty() {
        return State { contig: CONTIG, pos: position, probability: 0.0, original: 0.0, clips: None };
    }
    if left.len() == 1 {
        return score(s, CONTIG, position, left[0]);
    }
    let samples: Vec<Vec<PileupObservation>> = left.iter().map(|pile| pile.iter().map(|&w| observation(w)).collect()).collect();
    let (probability, evidence) = any_sample(&samples.iter().map(Vec::as_slice).collect::<Vec<_>>(), &s.params());
    State { contig: CONTIG, pos: position, probability, original: 0.0, clips: clips_of(&evidence) }
}

/// The answer of a set whose run has `depth` words, of which word i is words[i % k].
fn set_answer(s: Scoring, position: u32, depth: usize, words: &[u32], lengths: &[u32], out: &mut impl Write) {
    let (answer, run) = run_of(asked(Function::ScoreSet, &s, position), depth, words);
    let answer = answer.numbers(lengths);
    told(answer, set_refusal(&s, position, &run, lengths), || set_score(&s, position, &run, lengths)).write(out);
}

/// The answer of piles that stand in their order.
fn piles_answer(s: Scoring, piles: &[Vec<u32>], out: &mut impl Write) {
    let lengths: Vec<u32> = piles.iter().map(|pile| pile.len() as u32).collect();
    let words = piles.concat();
    set_answer(s, 9, words.len(), &words, &lengths, out);
}

fn alt(qual: u64) -> u32 {
    word(qual, false, true, false, 0)
}

fn reference(qual: u64) -> u32 {
    word(qual, false, false, false, 0)
}

fn near(clips: u64) -> u32 {
    word(30, false, true, true, clips)
}

/// The same run, cut in two at every place, and with an empty pile in every place of that.
fn cuts(s: Scoring, words: &[u32], out: &mut impl Write) {
    for at in 0..=words.len() {
        let two = [words[..at].to_vec(), words[at..].to_vec()];
        piles_answer(s, &two, out);
        for place in 0..=2 {
            let mut three = two.to_vec();
            three.insert(place, Vec::new());
            piles_answer(s, &three, out);
        }
    }
    piles_answer(s, &words.iter().map(|&w| vec![w]).collect::<Vec<_>>(), out);
}

/// Piles of which a member decides something: the order of the product, whether one is left, what runs on.
fn small_piles() -> Vec<Vec<u32>> {
    let skipped = vec![reference(5), alt(9)];
    let blank = vec![word(255, false, true, true, 40)];
    vec![
        Vec::new(),
        skipped,
        blank,
        vec![alt(30)],
        vec![reference(30)],
        vec![alt(12), reference(13)],
        vec![near(5)],
        vec![near(12), near(1), alt(20)],
        vec![word(40, true, true, true, 7), reference(37)],
    ]
}

fn number_of_piles(out: &mut impl Write) {
    for n in 0..=65u64 {
        // of one word each, of none, and every other one of none
        let ones: Vec<Vec<u32>> = (0..n).map(|i| vec![alt(10 + i % 30)]).collect();
        piles_answer(DEFAULT, &ones, out);
        piles_answer(DEFAULT, &vec![Vec::new(); n as usize], out);
        let some: Vec<Vec<u32>> = (0..n).map(|i| if i % 2 == 0 { vec![near(i % 14), reference(12)] } else { Vec::new() }).collect();
        piles_answer(Scoring { heterozygosity: 0.5, deviation: 1.0, ..DEFAULT }, &some, out);
        // one pile left, in the last place
        let mut last = vec![Vec::new(); n as usize];
        if let Some(pile) = last.last_mut() {
            *pile = vec![alt(30), near(40)];
        }
        piles_answer(DEFAULT, &last, out);
        // no lengths for a word, and a word for no length
        set_answer(DEFAULT, 9, 1, &[alt(30)], &vec![0; n as usize], out);
        set_answer(DEFAULT, 9, 0, &[], &vec![1; n as usize], out);
    }
}

/// Every way in which five faults may come together: more than 64 piles, a setting, a depth, lengths that do not add up, a word.
fn faults_together(out: &mut impl Write) {
    for faults in 0..32u32 {
        let has = |i: u32| faults >> i & 1 == 1;
        let mut lengths = vec![1u32; if has(0) { 65 } else { 3 }];
        if has(2) {
            lengths[2] = 16_385;
        }
        let s = if has(1) { Scoring { ploidy: 101, ..DEFAULT } } else { DEFAULT };
        let whole: u32 = lengths.iter().sum();
        let depth = if has(3) { whole + 1 } else { whole };
        let words = if has(4) { vec![alt(30), 5] } else { vec![alt(30), reference(20)] };
        set_answer(s, 9, depth as usize, &words, &lengths, out);
        set_answer(s, 9, depth as usize - if has(3) { 2 } else { 0 }, &words, &lengths, out);
    }
}

fn lengths_and_depths(out: &mut impl Write) {
    let words = [alt(30), reference(30), near(8), alt(12)];
    // sums of one more and one fewer, and those that wrap in 32 bits
    for lengths in [
        vec![4],
        vec![5],
        vec![3],
        vec![2, 2],
        vec![2, 3],
        vec![2, 1],
        vec![0, 4, 0],
        vec![0, 0, 0],
        vec![],
        vec![u32::MAX],
        vec![u32::MAX, 5],
        vec![5, u32::MAX],
        vec![4, u32::MAX, 1],
        vec![u32::MAX; 64],
        vec![1 << 31, 1 << 31, 4],
        vec![1 << 26; 64],
        vec![16_384, 4],
        vec![16_385, 4],
        vec![4, 16_384],
        vec![4, 16_385],
    ] {
        set_answer(DEFAULT, 9, 4, &words, &lengths, out);
        set_answer(DEFAULT, 0, 4, &words, &lengths, out);
        set_answer(DEFAULT, 9, 0, &[], &lengths, out);
    }
    // the deepest piles, and one word more, in each place, with a word of another kind in the first and without
    for bad in [false, true] {
        let words = if bad { vec![0, alt(30), reference(30)] } else { vec![reference(30), alt(30), reference(11)] };
        for lengths in [[2, 16_384], [2, 16_385], [16_384, 2], [16_385, 2], [16_384, 16_384], [16_385, 16_384], [16_384, 16_385]] {
            let depth = lengths[0] + lengths[1];
            set_answer(DEFAULT, 9, depth as usize, &words, &lengths, out);
            set_answer(DEFAULT, 9, depth as usize - 1, &words, &lengths, out);
        }
    }
    // words of other kinds, in each pile
    for kind in [0u32, 2, 3] {
        let other = alt(30) & 0x3fff_ffff | kind << 30;
        for place in 0..3 {
            let mut three = [vec![alt(30)], vec![reference(30)], vec![alt(12)]];
            three[place].push(other);
            piles_answer(DEFAULT, &three, out);
        }
        piles_answer(DEFAULT, &[Vec::new(), vec![other], Vec::new()], out);
    }
    for position in [0, 1, MAX_POSITION, MAX_POSITION + 1, u32::MAX] {
        set_answer(DEFAULT, position, 4, &words, &[1, 3], out);
        set_answer(DEFAULT, position, 4, &words, &[4], out);
        set_answer(DEFAULT, position, 0, &[], &[], out);
    }
}

fn edge_sets(out: &mut impl Write) {
    number_of_piles(out);
    faults_together(out);
    lengths_and_depths(out);
    for s in edge_settings() {
        piles_answer(s, &[vec![alt(30)], vec![word(20, true, true, true, 9), reference(30)]], out);
        piles_answer(s, &[Vec::new(), vec![alt(30), reference(30)]], out);
        piles_answer(s, &[], out);
    }
    // every two and three of the small piles, for ploidies whose likelihoods are few and many
    let small = small_piles();
    for ploidy in [1, 2, 10, 100] {
        let s = Scoring { ploidy, ..DEFAULT };
        for a in &small {
            for b in &small {
                piles_answer(s, &[a.clone(), b.clone()], out);
                piles_answer(Scoring { heterozygosity: 0.5, deviation: 1.0, ..s }, &[a.clone(), b.clone()], out);
                if ploidy <= 2 {
                    for c in &small {
                        piles_answer(s, &[a.clone(), b.clone(), c.clone()], out);
                    }
                }
            }
        }
    }
    // the mean: begun anew at each pile, or made of means, it would be another; of 10 15 0 3 it is just below 7
    for clips in [vec![10, 15, 0, 3], vec![5, 8], vec![4, 4, 11], vec![12, 1, 1], vec![6, 6, 7], vec![0, 0x7_ffff, 3], vec![6], vec![7]] {
        cuts(DEFAULT, &clips.iter().map(|&n| near(n)).collect::<Vec<_>>(), out);
    }
    cuts(DEFAULT, &[near(9), word(255, false, true, true, 40), reference(20), near(4), word(9, false, true, true, 90), near(7)], out);
}

/// Piles of a few words whose probability is not far above a half. One that is not 0.0 is a half at least, but for roundings, so that the product over most piles is too small
/// for its last bits to show in 1 less it.
fn close_piles(s: &Scoring) -> Vec<Vec<u32>> {
    let mut all = Vec::new();
    for qual in 1..=40 {
        for other in [1, 5, 10, 20] {
            for (alts, references) in [(1, 0), (1, 1), (2, 1), (1, 2), (2, 2), (3, 2), (2, 3)] {
                let mut pile = vec![alt(qual); alts];
                pile.resize(alts + references, reference(other));
                let probability = score(s, CONTIG, 9, &pile).probability;
                if probability > 0.0 && probability < 0.75 {
                    all.push(pile);
                }
            }
        }
    }
    all
}

/// Sets in which the order of the product may show.
fn close_sets(r: &mut Random, count: u64, out: &mut impl Write) {
    for ploidy in [1, 2] {
        let s = Scoring { ploidy, min_qual: 1, heterozygosity: 0.5, deviation: 1.0, ..DEFAULT };
        let close = close_piles(&s);
        for _ in 0..count {
            let set: Vec<Vec<u32>> = (0..3).map(|_| close[r.below(close.len() as u64) as usize].clone()).collect();
            piles_answer(s, &set, out);
        }
    }
}

/// A pile of words as a reader has them, or of skipped ones alone.
fn some_pile(r: &mut Random, s: &Scoring, alts: u64) -> Vec<u32> {
    let skipped = r.chance(6);
    (0..if r.chance(4) { 0 } else { 1 + r.below(9) })
        .map(|_| {
            let qual = match r.below(8) {
                0 => r.below(256),
                1 => u64::from(s.min_qual),
                _ if skipped => r.pick(&[255, u64::from(s.min_qual) - 1]),
                _ => r.pick(&[9, 10, 11, 12, 20, 30, 37, 40]),
            };
            let clips = if r.chance(30) { r.below(0x8_0000) } else { r.below(14) };
            word(qual, r.chance(9), r.chance(alts), r.chance(3), clips)
        })
        .collect()
}

fn some_set(r: &mut Random, out: &mut impl Write) {
    let mut s = some_settings(r);
    if r.chance(40) {
        s.ploidy = 100;
    }
    if r.chance(60) {
        s.ploidy = 101;
    }
    let count = if r.chance(20) { r.below(67) } else { r.below(7) };
    let alts = r.pick(&[1, 2, 3, 10]);
    let piles: Vec<Vec<u32>> = (0..count).map(|_| some_pile(r, &s, alts)).collect();
    let mut lengths: Vec<u32> = piles.iter().map(|pile| pile.len() as u32).collect();
    let mut words = piles.concat();
    if r.chance(25) && !words.is_empty() {
        let at = r.below(words.len() as u64) as usize;
        words[at] ^= 1 << (30 + r.below(2));
    }
    if r.chance(25) && !lengths.is_empty() {
        let at = r.below(lengths.len() as u64) as usize;
        lengths[at] = r.pick(&[lengths[at] + 1, lengths[at].wrapping_sub(1), 16_384, 16_385, u32::MAX]);
    }
    set_answer(s, 1 + r.below(MAX_POSITION.into()) as u32, words.len(), &words, &lengths, out);
}

pub fn set_list(seed: u64, count: u64, out: &mut impl Write) {
    edge_sets(out);
    let mut r = Random::from_seed(seed);
    for _ in 0..count {
        some_set(&mut r, out);
    }
    close_sets(&mut r, count / 8, out);
}
