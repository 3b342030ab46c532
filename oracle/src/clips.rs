//! Answers of the soft-clip count: the Rust's, with document 02's skip of quality 255 and under document 01's refusal of operations that SAM does not have.
use crate::hq_soft_clip::count_high_quality_soft_clip_bases_rcm;
use crate::list::{Answer, Function};
use crate::random::Random;
use rust_htslib::bam::record::Cigar;
use rust_htslib::bam::Record;
use std::io::Write;

/// The longest that a CIGAR word can say.
const LONGEST: u32 = (1 << 28) - 1;

/// The SAM operation of a CIGAR word, or none.
fn operation(word: u32) -> Option<Cigar> {
    let n = word >> 4;
    match word & 15 {
        0 => Some(Cigar::Match(n)),
        1 => Some(Cigar::Ins(n)),
        2 => Some(Cigar::Del(n)),
        3 => Some(Cigar::RefSkip(n)),
        4 => Some(Cigar::SoftClip(n)),
        5 => Some(Cigar::HardClip(n)),
        6 => Some(Cigar::Pad(n)),
        7 => Some(Cigar::Equal(n)),
        8 => Some(Cigar::Diff(n)),
        _ => None,
    }
}

fn clip_answer(cigar: &[u32], qual: &[u8], out: &mut impl Write) {
    let mut answer = Answer::of(Function::ClipCount).word(cigar.len() as u64);
    for &word in cigar {
        answer = answer.word(word.into());
    }
    answer = answer.word(qual.len() as u64);
    for &q in qual {
        answer = answer.word(q.into());
    }
    let operations: Option<Vec<Cigar>> = cigar.iter().map(|&word| operation(word)).collect();
    answer = match operations {
        None => answer.word(3),
        Some(cigar) => {
            let record = Record { cigar, qual: qual.to_vec() };
            answer.word(0).word(count_high_quality_soft_clip_bases_rcm(&record).into())
        }
    };
    answer.write(out);
}

pub fn clip_list(seed: u64, count: u64, out: &mut impl Write) {
    let mut r = Random::from_seed(seed);
    // P15, no words, no qualities, each operation alone, with a length of 0, and with one past the qualities
    clip_answer(&[3 << 4 | 4, 2 << 4], &[28, 29, 30, 40, 40], out);
    clip_answer(&[], &[40, 40], out);
    clip_answer(&[3 << 4 | 4], &[], out);
    for op in 0..16 {
        for n in [0, 1, 5, 1 << 20] {
            clip_answer(&[n << 4 | op, 2 << 4 | 4], &[40, 40, 40], out);
            clip_answer(&[n << 4 | op], &[], out);
        }
    }
    for _ in 0..count {
        let words = r.below(7);
        let cigar: Vec<u32> = (0..words)
            .map(|_| {
                let op = if r.chance(60) { 9 + r.below(7) } else { r.pick(&[0, 1, 2, 3, 4, 4, 4, 5, 6, 7, 8]) } as u32;
                let n = if r.chance(30) { r.below(1 << 12) } else { r.below(6) } as u32;
                n << 4 | op
            })
            .collect();
        let qual: Vec<u8> = (0..r.below(16)).map(|_| r.pick(&[0, 2, 20, 27, 28, 29, 30, 40, 93, 254, 255])).collect();
        clip_answer(&cigar, &qual, out);
    }
    // document 02, U3: quality 255 at each place of a read, alone and among others of it, and 254 there, which counts
    let cigar: Vec<u32> = [(2, 5), (3, 4), (4, 0), (2, 1), (3, 2), (2, 7), (1, 8), (3, 4), (1, 5)].iter().map(|&(n, op): &(u32, u32)| n << 4 | op).collect();
    for at in 0..16 {
        for others in [0, 28, 29, 40, 254, 255] {
            for q in [254, 255] {
                let mut qual = vec![others; 15];
                if at < 15 {
                    qual[at] = q;
                }
                clip_answer(&cigar, &qual, out);
                clip_answer(&[15 << 4 | 4], &qual, out);
                clip_answer(&[20 << 4 | 4], &qual[..at.min(15)], out);
            }
        }
    }
    // document 02, U4: each operation first, last, both and between others, with no length, with some and with the longest
    let others: [&[u32]; 3] = [&[2 << 4 | 4, 3 << 4, 1 << 4 | 1, 2 << 4 | 4], &[1 << 4, 1 << 4 | 4, 1 << 4 | 7, 1 << 4 | 4, 1 << 4 | 8], &[4 << 4 | 4]];
    let quals: [&[u8]; 2] = [&[40, 40, 20, 40, 40, 20, 20, 40, 28, 29], &[20, 29, 255, 40]];
    for op in 0..16 {
        for n in [0, 2, LONGEST] {
            let word = n << 4 | op;
            for among in others {
                for qual in quals {
                    clip_answer(&[&[word], among].concat(), qual, out);
                    clip_answer(&[among, &[word]].concat(), qual, out);
                    clip_answer(&[&[word], among, &[word]].concat(), qual, out);
                    clip_answer(&[&among[..1], &[word], among].concat(), qual, out);
                }
            }
        }
    }
    // each operation behind each, and a clip behind both
    for first in 0..16 {
        for second in 0..16 {
            clip_answer(&[2 << 4 | first, 1 << 4 | second, 1 << 4 | 4], &[40, 40, 20, 40], out);
            clip_answer(&[1 << 4 | first, 2 << 4 | second, 2 << 4 | 4], &[29, 20, 40, 40, 20, 20], out);
        }
    }
    // any words, of lengths that are none, short or the longest
    for _ in 0..count / 20 {
        let cigar: Vec<u32> = (0..1 + r.below(12))
            .map(|_| {
                let op = if r.chance(80) { 9 + r.below(7) } else { r.below(9) } as u32;
                let n = if r.chance(20) { LONGEST } else { r.below(5) as u32 };
                n << 4 | op
            })
            .collect();
        let qual: Vec<u8> = (0..r.below(32)).map(|_| r.pick(&[0, 20, 28, 29, 40, 254, 255])).collect();
        clip_answer(&cigar, &qual, out);
    }
}
