//! Answers of the elementary functions, the kernel and the making of a profile.
use crate::activity_profile::{adaptive_filter_size, make_gaussian_kernel, normal_distribution};
use crate::list::{Answer, Function};
use crate::random::Random;
use crate::refusals::{Settings, MAX_POSITION};
use std::io::Write;

fn next_up(x: f64) -> f64 {
    f64::from_bits(x.to_bits() + 1)
}

fn next_down(x: f64) -> f64 {
    f64::from_bits(x.to_bits() - 1)
}

/// Doubles at the edges of document 01's steps.
fn edges() -> Vec<f64> {
    let tiny = f64::from_bits(1);
    let least_normal = f64::MIN_POSITIVE;
    let mut xs = vec![
        0.0, -0.0, 1.0, -1.0, 2.0, 0.5, 16.0, 15.0, 15.5, 17.0, 700.0, -700.0, 709.0, 710.0, -745.0, 1024.0, 0.00001,
        tiny, least_normal, f64::MAX, f64::MIN, f64::INFINITY, f64::NEG_INFINITY, f64::NAN,
    ];
    for x in xs.clone() {
        if x.is_finite() && x != 0.0 {
            xs.push(next_up(x));
            xs.push(next_down(x));
        }
    }
    xs
}

fn elementary_answers(x: f64, out: &mut impl Write) {
    Answer::of(Function::Exp).double(x).double(elementary::exp(x)).write(out);
    Answer::of(Function::Ln).double(x).double(elementary::ln(x)).write(out);
    Answer::of(Function::Log10).double(x).double(elementary::log10(x)).write(out);
    Answer::of(Function::TenTo).double(x).double(elementary::ten_to(x)).write(out);
    Answer::of(Function::LnGamma).double(x).double(elementary::ln_gamma(x)).write(out);
}

/// A double of a kind that scoring meets, or of any bit pattern.
fn some_double(r: &mut Random) -> f64 {
    match r.below(6) {
        0 => r.any_double(),
        1 => r.unit(),
        2 => -800.0 * r.unit(),
        3 => 400.0 * r.unit(),
        4 => f64::from(r.below(300) as u32),
        _ => (r.unit() - 0.5) * f64::from(r.below(100_000) as u32),
    }
}

pub fn elementary_list(seed: u64, count: u64, out: &mut impl Write) {
    for x in edges() {
        elementary_answers(x, out);
    }
    let mut r = Random::from_seed(seed);
    for _ in 0..count {
        elementary_answers(some_double(&mut r), out);
    }
}

/// A lent buffer before the call: entry i is the double whose bits are `fill` + i.
fn buffer(fill: u64, n: usize) -> Vec<f64> {
    (0..n as u64).map(|i| f64::from_bits(fill + i)).collect()
}

/// What document 01's making does to the buffers, over the Rust's kernel.
fn making_answer(contig: u32, s: Settings, fill: u64, n: usize, m: usize, out: &mut impl Write) {
    let mut full = buffer(fill, n);
    let mut narrow = buffer(fill, m);
    let refusal = s.making_refusal(n, m);
    let mut answer = Answer::of(Function::Making)
        .word(contig.into())
        .word(s.contig_len.into())
        .word(s.distance.into())
        .double(s.threshold)
        .word(s.max_filter.into())
        .double(s.sigma)
        .word(s.adaptive.into())
        .word(fill)
        .word(n as u64)
        .word(m as u64)
        .word(refusal);
    if refusal == 0 {
        let (filter_size, kernel) = s.params().resolved_filter_and_kernel();
        let widest = make_gaussian_kernel(s.max_filter, s.sigma);
        full[..widest.len()].copy_from_slice(&widest);
        if filter_size < s.max_filter {
            narrow[..kernel.len()].copy_from_slice(&kernel);
        }
        answer = answer.word(filter_size.into()).doubles(&kernel);
    }
    answer.elements(&full).elements(&narrow).write(out);
}

fn some_settings(r: &mut Random) -> Settings {
    Settings {
        contig_len: r.pick(&[1, 2, 10, 1000, MAX_POSITION]),
        distance: r.pick(&[0, 1, 50, 1_000_000]),
        threshold: r.pick(&[0.0, -0.0, 0.002, 0.5, 1.0]),
        max_filter: r.pick(&[0, 1, 2, 5, 17, 30, 50]),
        sigma: r.pick(&[1.0 / 64.0, 0.3, 1.0, 2.5, 6.0, 17.0, 100.0, 4096.0]),
        adaptive: !r.chance(4),
    }
}

/// One setting at or outside an end of its range.
fn edge_setting(r: &mut Random) -> Settings {
    let mut s = some_settings(r);
    match r.below(5) {
        0 => s.contig_len = r.pick(&[0, 1, MAX_POSITION, MAX_POSITION + 1, u32::MAX]),
        1 => s.distance = r.pick(&[0, 1_000_000, 1_000_001, u32::MAX]),
        2 => {
            s.threshold = r.pick(&[
                0.0, -0.0, 1.0, next_up(1.0), -f64::from_bits(1), f64::NAN, f64::INFINITY, f64::NEG_INFINITY,
            ]);
        }
        3 => s.max_filter = r.pick(&[0, 501, u32::MAX]),
        _ => {
            s.sigma = r.pick(&[
                1.0 / 64.0, next_down(1.0 / 64.0), 4096.0, next_up(4096.0), 0.0, -17.0, f64::NAN, f64::INFINITY,
            ]);
        }
    }
    s
}

pub fn kernel_list(seed: u64, count: u64, out: &mut impl Write) {
    let mut r = Random::from_seed(seed);
    let fill = 0x4008_0000_0000_0000;
    for max_filter in [0, 500] {
        for sigma in [1.0 / 64.0, 17.0, 4096.0] {
            for adaptive in [false, true] {
                let s = Settings { contig_len: 1000, distance: 50, threshold: 0.002, max_filter, sigma, adaptive };
                let band = 2 * max_filter as usize + 1;
                making_answer(7, s, fill, band, band, out);
            }
        }
    }
    for _ in 0..count {
        let s = if r.chance(3) { edge_setting(&mut r) } else { some_settings(&mut r) };
        let band = 2 * (s.max_filter as usize).min(500) + 1;
        let n = band + r.pick(&[0, 0, 1, 3]) - r.pick(&[0, 0, 0, 1]);
        let m = band + r.pick(&[0, 0, 1, 3]) - r.pick(&[0, 0, 0, 1]);
        making_answer(r.below(1 << 32) as u32, s, fill + r.below(1 << 20), n, m, out);

        let mean = f64::from(r.below(501) as u32);
        let x = f64::from(r.below(1001) as u32);
        let sd = r.pick(&[1.0 / 64.0, 0.3, 1.0, 2.5, 17.0, 4096.0, -2.0, 0.0, f64::NAN]);
        Answer::of(Function::NormalDistribution).double(mean).double(sd).double(x).double(normal_distribution(mean, sd, x)).write(out);

        let filter_size = r.below(40) as u32;
        let sigma = r.pick(&[1.0 / 64.0, 0.3, 1.0, 2.5, 17.0, 4096.0]);
        let kernel = make_gaussian_kernel(filter_size, sigma);
        Answer::of(Function::MakeGaussianKernel).word(filter_size.into()).double(sigma).doubles(&kernel).write(out);

        let least = r.pick(&[0.00001, 0.0, 0.5, kernel[kernel.len() / 2], kernel[0], f64::NAN]);
        let mut entries = kernel;
        if r.chance(4) {
            let at = r.below(entries.len() as u64) as usize;
            entries[at] = r.pick(&[f64::NAN, f64::INFINITY, 0.0, least]);
        }
        entries.truncate(entries.len() - r.below(2) as usize);
        let size = adaptive_filter_size(&entries, least);
        Answer::of(Function::AdaptiveFilterSize).double(least).doubles(&entries).word(size.into()).write(out);
    }
}
