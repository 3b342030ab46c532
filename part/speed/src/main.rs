//! Times the original and the part on the same inputs in one run, and prints the ratios as the table of docs/SPEED.md.
//!
//!     speed REGION               the table; REGION is the region program
//!     speed count CASE SIDE N    the case of that row, N times by `original` or `part`, for a counter of instructions
//!     speed words COUNT > FILE   a stream of so many loci
//!     speed region < FILE        the original's region program, without checks
#![allow(dead_code)]
#![allow(clippy::all)]

#[path = "../../../oracle/src/activity_profile.rs"]
mod activity_profile;
#[path = "../../../oracle/src/activity_scoring.rs"]
mod activity_scoring;
#[path = "../../../oracle/src/hq_soft_clip.rs"]
mod hq_soft_clip;
#[path = "../../../oracle/src/minimal_genotyping.rs"]
mod minimal_genotyping;
#[path = "../../../oracle/src/multi_sample.rs"]
mod multi_sample;
mod original;
mod part;
#[path = "../../region_picker.rs"]
mod region_picker;
#[path = "../../../oracle/src/random.rs"]
mod random;
#[path = "../../../oracle/src/stand_ins.rs"]
mod stand_ins;

use random::Random;
use stand_ins::{bio_ids, read_binding, read_model, read_projection};
use std::hint::black_box;
use std::io::{Read, Write};
use std::process::{Command, Stdio};
use std::time::{Duration, Instant};

fn word(qual: u64, alt: bool, clips: Option<u64>) -> u32 {
    (1 << 30 | qual << 22 | u64::from(alt) << 20 | clips.map_or(0, |n| 1 << 19 | n)) as u32
}

/// A pile: quiet, with one sequencing error in a hundred, or active, every other read alternate.
fn pile(random: &mut Random, depth: usize, active: bool) -> Vec<u32> {
    (0..depth)
        .map(|_| {
            let alt = if active { random.below(2) == 0 } else { random.below(100) == 0 };
            word(20 + random.below(21), alt, None)
        })
        .collect()
}

/// Loci from 1 on, some 30 reads deep; one in 200 is a variant, one in 1,000 has reads with soft clips; a pop after every 50 loci and a forced one at the end.
fn stream(loci: u32) -> Vec<u8> {
    let mut random = Random::from_seed(7);
    let mut words = Vec::new();
    for position in 1..=loci {
        words.push(position);
        let depth = 20 + random.below(21) as usize;
        let active = random.below(200) == 0;
        let mut reads = pile(&mut random, depth, active);
        if random.below(1000) == 0 {
            for w in reads.iter_mut().step_by(3) {
                *w = word(30, true, Some(5 + random.below(60)));
            }
        }
        words.append(&mut reads);
        if position % 50 == 0 {
            words.push(2 << 30);
        }
    }
    words.push(2 << 30 | 1);
    words.iter().flat_map(|w| w.to_le_bytes()).collect()
}

/// What one side does n times over.
type Side = Box<dyn FnMut(u32)>;

struct Case {
    name: String,
    least: f64,
    turns: u32,
    original: Side,
    part: Side,
}

fn scoring(depth: usize, active: bool, ploidy: u8) -> Case {
    let kind = if active { "active" } else { "quiet" };
    let mut random = Random::from_seed(depth as u64 + u64::from(ploidy));
    let piles: Vec<Vec<u32>> = (0..64).map(|_| pile(&mut random, depth, active)).collect();
    let observations: Vec<Vec<_>> = piles.iter().map(|p| p.iter().map(|&w| original::observation(w)).collect()).collect();
    let params = original::params(ploidy);
    let scorer = part::Scorer::new(ploidy);
    for (words, pile) in piles.iter().zip(&observations) {
        let (a, b) = (original::score(1, pile, &params), scorer.score(1, words));
        assert_eq!((a.active_prob.to_bits(), a.original_active_prob.to_bits()), (b.0.to_bits(), b.1.to_bits()));
    }
    Case {
        name: format!("scoring, depth {depth}, {kind}, ploidy {ploidy}"),
        least: if depth < 1000 { 10.0 } else { 20.0 },
        turns: 60_000 / depth as u32,
        original: Box::new(move |n| {
            for i in 0..n {
                black_box(original::score(1, &observations[i as usize % 64], &params));
            }
        }),
        part: Box::new(move |n| {
            for i in 0..n {
                black_box(scorer.score(1, &piles[i as usize % 64]));
            }
        }),
    }
}

/// Sets of piles, scored together.
fn sets(count: usize, depth: usize, active: bool, ploidy: u8) -> Case {
    let kind = if active { "active" } else { "quiet" };
    let mut random = Random::from_seed((count * depth) as u64 + u64::from(ploidy));
    let sets: Vec<Vec<Vec<u32>>> = (0..64).map(|_| (0..count).map(|_| pile(&mut random, depth, active)).collect()).collect();
    let samples: Vec<Vec<Vec<_>>> = sets.iter().map(|set| set.iter().map(|p| p.iter().map(|&w| original::observation(w)).collect()).collect()).collect();
    let runs: Vec<Vec<u32>> = sets.iter().map(|set| set.concat()).collect();
    let lengths = vec![depth as u32; count];
    let params = original::params(ploidy);
    let scorer = part::Scorer::new(ploidy);
    for (words, piles) in runs.iter().zip(&samples) {
        let (a, b) = (original::score_set(piles, &params), scorer.score_set(1, words, &lengths));
        assert_eq!((a.0.to_bits(), 0.0f64.to_bits()), (b.0.to_bits(), b.1.to_bits()));
    }
    Case {
        name: format!("scoring a set, {count} piles of depth {depth}, {kind}, ploidy {ploidy}"),
        least: 10.0,
        turns: 60_000 / (count * depth) as u32,
        original: Box::new(move |n| {
            for i in 0..n {
                black_box(original::score_set(&samples[i as usize % 64], &params));
            }
        }),
        part: Box::new(move |n| {
            for i in 0..n {
                black_box(scorer.score_set(1, &runs[i as usize % 64], &lengths));
            }
        }),
    }
}

/// n loci added in their order, and a pop after each until none is ready.
fn feed(n: u32, mut add: impl FnMut(u32), mut pop: impl FnMut() -> Option<(u32, u32, bool)>) -> u64 {
    let mut sum = 0;
    for pos in 1..=n {
        add(pos);
        while let Some((start, end, active)) = pop() {
            sum = sum * 31 + u64::from(start) + u64::from(end) * 3 + u64::from(active);
            sum %= 1 << 40;
        }
    }
    sum
}

fn profile(name: &str, least: f64, probability: fn(u32) -> f64, clips: Option<u32>) -> Case {
    use std::cell::RefCell;
    let by_original = move |n: u32| {
        let profile = RefCell::new(original::Profile::new(n + 100, 50));
        feed(n, |pos| profile.borrow_mut().add(pos, probability(pos), clips), || profile.borrow_mut().pop(false))
    };
    let by_part = move |n: u32| {
        let profile = RefCell::new(part::Profile::new(n + 100, 50));
        assert_eq!(profile.borrow().filter_size(), 50);
        feed(n, |pos| profile.borrow_mut().add(pos, probability(pos), clips), || profile.borrow_mut().pop(false))
    };
    assert_eq!(by_original(2000), by_part(2000));
    Case {
        name: format!("add and pop, {name}"),
        least,
        turns: if clips.is_some() { 600 } else { 5_000 },
        original: Box::new(move |n| {
            black_box(by_original(n));
        }),
        part: Box::new(move |n| {
            black_box(by_part(n));
        }),
    }
}

/// The cases, each made when it is asked for.
fn cases() -> Vec<Box<dyn Fn() -> Case>> {
    let active = |p: u32| 0.25 + f64::from(p % 7) / 16.0;
    let mut all: Vec<Box<dyn Fn() -> Case>> = Vec::new();
    for depth in [30, 1000] {
        for is_active in [false, true] {
            for ploidy in [2, 10] {
                all.push(Box::new(move || scoring(depth, is_active, ploidy)));
            }
        }
    }
    for is_active in [false, true] {
        for ploidy in [2, 10] {
            all.push(Box::new(move || sets(8, 30, is_active, ploidy)));
        }
    }
    all.push(Box::new(|| profile("F 50, quiet", 0.0, |_| 0.0, None)));
    all.push(Box::new(move || profile("F 50, all active", 50.0, active, None)));
    all.push(Box::new(move || profile("F 50, all active with clips of 100", 100.0, active, Some(100))));
    all
}

fn timed(side: &mut Side, turns: u32) -> Duration {
    let start = Instant::now();
    side(turns);
    start.elapsed()
}

/// The ratio of the shortest times of both sides, which run in turn.
fn ratio(case: &mut Case) -> (f64, f64) {
    let (mut original, mut part) = (Duration::MAX, Duration::MAX);
    for _ in 0..40 {
        original = original.min(timed(&mut case.original, case.turns));
        part = part.min(timed(&mut case.part, case.turns * 8));
    }
    let part = part.as_secs_f64() / 8.0;
    (original.as_secs_f64() / part, part / f64::from(case.turns) * 1e9)
}

fn run(mut command: Command, input: &str) -> (Duration, Vec<u8>) {
    let file = std::fs::File::open(input).expect("the stream is there");
    let start = Instant::now();
    let output = command.stdin(Stdio::from(file)).output().expect("the program runs");
    (start.elapsed(), output.stdout)
}

fn row(name: &str, ratio: f64, least: f64, note: &str) {
    let wanted = if least > 0.0 { format!("{least:.0}") } else { "-".into() };
    println!("| {name} | {ratio:.1} | {wanted} | {note} |");
}

fn table(program: &str) {
    println!("| Case | Times as fast as the Rust | Asked | Each, part |");
    println!("|---|---|---|---|");
    for case in cases() {
        let mut case = case();
        let (ratio, ns) = ratio(&mut case);
        row(&case.name, ratio, case.least, &format!("{ns:.0} ns"));
    }
    let bytes = stream(130_000);
    let words = bytes.len() / 4;
    let path = std::env::temp_dir().join(format!("region_picker_speed_{}.words", std::process::id()));
    let path = path.to_str().expect("a path in UTF-8");
    std::fs::write(path, &bytes).expect("the stream is written");
    let me = std::env::current_exe().expect("this program's path");
    let (mut original, mut part) = (Duration::MAX, Duration::MAX);
    for _ in 0..9 {
        let mut command = Command::new(&me);
        command.arg("region");
        let (a, by_original) = run(command, path);
        let (b, by_part) = run(Command::new(program), path);
        assert!(by_original == by_part, "both print the same");
        original = original.min(a);
        part = part.min(b);
    }
    std::fs::remove_file(path).expect("the stream is removed");
    let each = part.as_secs_f64() / words as f64 * 1e9;
    row(&format!("region program, {words} words"), original.as_secs_f64() / part.as_secs_f64(), 10.0, &format!("{each:.1} ns a word"));
}

fn main() {
    let words: Vec<String> = std::env::args().skip(1).collect();
    let words: Vec<&str> = words.iter().map(String::as_str).collect();
    match words[..] {
        ["region"] => {
            let mut input = Vec::new();
            std::io::stdin().read_to_end(&mut input).expect("standard input is read");
            print!("{}", original::region(&input));
        }
        ["words", count] => std::io::stdout().write_all(&stream(count.parse().expect("a number"))).expect("the stream is written"),
        ["count", number, side, n] => {
            let number: usize = number.parse().expect("a number");
            let mut case = cases()[number - 1]();
            let n = n.parse().expect("a number");
            if side == "original" {
                (case.original)(n);
            } else {
                (case.part)(n);
            }
        }
        [program] => table(program),
        _ => {
            eprintln!("usage: speed REGION, speed count CASE SIDE N, speed words COUNT > FILE, or speed region < FILE");
            std::process::exit(2);
        }
    }
}
