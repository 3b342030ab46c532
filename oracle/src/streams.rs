//! Streams of words for the region program: their making, their answers in a list, and the comparison of another program's output with the oracle's.
use crate::list::{Answer, Function};
use crate::random::Random;
use crate::region;
use std::io::Write;
use std::process::{Command, Stdio};

/// Some words, so many times over; the first of them is raised by `step` each time.
#[derive(Clone)]
struct Item {
    times: u32,
    step: u32,
    words: Vec<u32>,
}

/// A stream: its items, and the bytes of a remainder.
struct Stream {
    items: Vec<Item>,
    remainder: Vec<u8>,
}

fn one(w: u32) -> Item {
    Item { times: 1, step: 0, words: vec![w] }
}

fn setting(field: u32, value: u32) -> u32 {
    3 << 30 | field << 24 | value
}

fn pop(value: u32) -> u32 {
    2 << 30 | value
}

fn observation(qual: u32, flags: u32, clips: u32) -> u32 {
    1 << 30 | qual << 22 | flags << 19 | clips
}

impl Stream {
    fn of(items: Vec<Item>) -> Self {
        Self { items, remainder: Vec::new() }
    }

    fn words(&self) -> Vec<u32> {
        let mut all = Vec::new();
        for item in &self.items {
            for i in 0..item.times {
                all.push(item.words[0].wrapping_add(item.step.wrapping_mul(i)));
                all.extend_from_slice(&item.words[1..]);
            }
        }
        all
    }

    fn bytes(&self) -> Vec<u8> {
        let mut all: Vec<u8> = self.words().iter().flat_map(|w| w.to_le_bytes()).collect();
        all.extend_from_slice(&self.remainder);
        all
    }

    /// What the region program prints of it, as a listing or as a sheet.
    fn answer(&self, function: Function) -> Answer {
        let mut a = Answer::of(function).word(self.items.len() as u64).word(self.remainder.len() as u64);
        for item in &self.items {
            a = a.word(item.times.into()).word(item.step.into()).word(item.words.len() as u64);
            for &w in &item.words {
                a = a.word(w.into());
            }
        }
        let run = region::run(&self.bytes());
        let printed = match function {
            Function::Sheet => run.sheet(),
            _ => run.listing(),
        };
        a = a.word(printed.len() as u64);
        for b in printed.bytes() {
            a = a.word(b.into());
        }
        a
    }
}

/// The observations of a locus: none, quiet, active, next to soft clips, deletions, or any.
fn pile(r: &mut Random) -> Vec<u32> {
    let depth = r.pick(&[0, 0, 1, 2, 3, 5, 8, 20]);
    let kind = r.below(6);
    (0..depth)
        .map(|_| {
            let qual = 10 + r.below(40) as u32;
            match kind {
                0 => observation(qual, 0, 0),
                1 => observation(qual, 2, 0),
                2 => observation(qual, 3, r.below(40) as u32),
                3 => observation(qual, r.pick(&[0, 2]), 0),
                4 => observation(qual, 4, 0),
                _ => observation(r.below(256) as u32, r.below(8) as u32, r.pick(&[0, 6, 7, 30, 524_287])),
            }
        })
        .collect()
}

/// The settings that small profiles have, each value within its range but for a few.
fn settings(r: &mut Random, items: &mut Vec<Item>) {
    let small = !r.chance(8);
    for field in 1..=6 {
        let value = match field {
            1 => 1 + r.below(12),
            2 => 1 + r.below(6),
            3 => r.below(9),
            4 => r.below(7),
            5 => r.below(7),
            _ => 30 + r.below(300),
        };
        if small && !r.chance(12) {
            items.push(one(setting(field, value as u32)));
        }
    }
    if r.chance(10) {
        items.push(one(setting(1 + r.below(6) as u32, r.pick(&[0, 1, 500, 501, 1_000_000, 1_000_001, 0xff_ffff]))));
    }
    if r.chance(30) {
        items.push(one(setting(r.pick(&[0, 7, 8, 63]), r.below(3) as u32)));
    }
    if r.chance(12) {
        items.push(one(pop(r.pick(&[0, 1, 2]))));
    }
}

/// Loci in stretches: most follow one another, and pops come at the habit's pace.
fn loci(r: &mut Random, items: &mut Vec<Item>) {
    let habit = r.pick(&[1, 3, 10, 1000]);
    let mut p = r.pick(&[1, 1, 2, 5, 20]);
    for _ in 0..1 + r.below(30) {
        let mut words = vec![p];
        words.extend(pile(r));
        let times = r.pick(&[1, 1, 2, 4, 9]);
        items.push(Item { times, step: 1, words });
        p = p.wrapping_add(times);
        if r.chance(habit) {
            items.push(one(pop(u32::from(r.chance(5)))));
        }
        if r.chance(25) {
            items.push(one(pop(1)));
            p = r.pick(&[1, p, p + 3, 2]);
        }
    }
    if r.chance(2) {
        items.push(one(pop(1)));
    }
}

/// One word changed, taken out, put in or doubled; or a word that stands where it may not.
fn damage(r: &mut Random, items: &mut Vec<Item>) {
    let at = r.below(items.len() as u64) as usize;
    match r.below(8) {
        0 => {
            let i = r.below(items[at].words.len() as u64) as usize;
            items[at].words[i] ^= 1 << r.below(32);
        }
        1 => {
            items.remove(at);
        }
        2 => items.insert(at, one(r.word() as u32)),
        3 => items.insert(at, items[at].clone()),
        4 => items.insert(at, one(setting(1 + r.below(6) as u32, 5))),
        5 => items.insert(at, one(pop(r.pick(&[2, 7, 0x3fff_ffff])))),
        6 => items.insert(at, one(observation(30, 2, 0))),
        _ => items.insert(at, one(r.pick(&[0, 0x3fff_ffff, 1_000]))),
    }
}

/// A whole contig of few loci, with clipped reads at its ends: their windows, and what they spread, reach past both.
fn contig_ends(r: &mut Random) -> Vec<Item> {
    let length = 3 + r.below(30) as u32;
    let sizes = [1 + r.below(9), 1 + r.below(4), r.below(9), r.below(8), r.below(7), length.into()];
    let mut items: Vec<Item> = (1..).zip(sizes).map(|(field, value)| one(setting(field, value as u32))).collect();
    let habit = r.pick(&[1, 4, 1000]);
    for p in 1..=length + u32::from(r.chance(6)) {
        let mut words = vec![p];
        if p <= 3 || p + 3 > length || r.chance(6) {
            let clips = r.pick(&[7, 8, 12, 40, 524_287]);
            words.extend((0..1 + r.below(4)).map(|_| observation(35, 3, clips)));
        } else if r.chance(3) {
            words.extend(pile(r));
        }
        items.push(Item { times: 1, step: 0, words });
        if r.chance(habit) {
            items.push(one(pop(0)));
        }
    }
    items.push(one(pop(1)));
    items
}

/// Long active stretches of few different activities, so that a region reaches max and has several places to be cut at, often equal ones.
fn cuts(r: &mut Random) -> Vec<Item> {
    let filter = r.pick(&[0, 0, 0, 1, 3]);
    let sizes = [3 + r.below(12), 1 + r.below(4), r.below(4), r.below(4), filter, 2_000];
    let mut items: Vec<Item> = (1..).zip(sizes).map(|(field, value)| one(setting(field, value as u32))).collect();
    let reference = observation(30, 0, 0);
    let piles: Vec<Vec<u32>> = (0..2 + r.below(3)).map(|_| vec![observation(20 + r.below(20) as u32, 2, 0), reference]).collect();
    let habit = r.pick(&[1, 5, 30]);
    let mut p = 1;
    for _ in 0..10 + r.below(60) {
        let times = r.pick(&[1, 1, 1, 2, 3]);
        let mut words = vec![p];
        if !r.chance(25) {
            words.extend(&piles[r.below(piles.len() as u64) as usize]);
        }
        items.push(Item { times, step: 1, words });
        p += times;
        if r.chance(habit) {
            items.push(one(pop(0)));
        }
    }
    items.push(one(pop(1)));
    items
}

/// A pile of about as many words as there may be, in front of a word that ends it.
fn deep(r: &mut Random) -> Vec<Item> {
    let depth = r.pick(&[16_383, 16_384, 16_385, 16_386, 20_000]);
    let locus = one(r.pick(&[0, 7, 7, 1_000]));
    vec![locus, Item { times: depth, step: 0, words: vec![observation(30, r.pick(&[0, 2]), 0)] }, one(r.pick(&[8, 8, pop(1), pop(7)]))]
}

/// About as many loci without a pop as there are cells, and more.
fn full(r: &mut Random) -> Vec<Item> {
    let mut items = Vec::new();
    let mut words = vec![1];
    words.extend(pile(r));
    let times = r.pick(&[4_000, 4_046, 4_047, 4_095, 4_096, 4_097, 5_000]);
    if r.chance(2) {
        items.push(one(setting(1, r.pick(&[300, 5_000]))));
    }
    items.push(Item { times, step: 1, words });
    items.push(one(pop(r.pick(&[0, 1]))));
    items.push(Item { times: 50, step: 1, words: vec![times + 1] });
    items.push(one(pop(1)));
    items
}

/// So many regions of a locus each, popped one by one or all at once, and a refusal behind them or none.
fn regions(count: u32, at_once: bool, refused: bool) -> Stream {
    let mut items: Vec<Item> = (1..).zip([1, 1, 3, 0, 0]).map(|(field, value)| one(setting(field, value))).collect();
    let locus = if at_once { vec![1] } else { vec![1, pop(0)] };
    items.push(Item { times: count, step: 1, words: locus });
    items.push(one(pop(1)));
    if refused {
        items.push(one(observation(30, 2, 0)));
    }
    Stream::of(items)
}

/// Sheets of no page, of one and of more, their last page short or full, each also with a refusal behind it; and positions that fill their columns.
fn sheets() -> Vec<Stream> {
    let mut all = Vec::new();
    for count in [0, 1, 59, 60, 61, 120, 121] {
        for refused in [false, true] {
            all.push(regions(count, count % 2 == 0, refused));
        }
    }
    let last = [0x3fff_fffd, 0x3fff_fffe, 0x3fff_ffff, pop(1)];
    all.push(Stream::of(last.map(one).to_vec()));
    all
}

/// Words of quality 255 (document 02, U3) at one locus of 120: nothing else, among bases that count, deletions, next to clips; and as many as a pile may have,
/// and one more.
fn blanks() -> Vec<Stream> {
    let (alt, near, few) = (observation(36, 2, 0), observation(36, 3, 7), observation(36, 3, 5));
    let blank = |flags, clips| observation(255, flags, clips);
    let piles = [
        vec![alt, alt],
        vec![blank(2, 0), blank(2, 0)],
        vec![blank(0, 0), alt, blank(0, 0), alt, blank(0, 0)],
        vec![blank(2, 0), observation(36, 0, 0), blank(2, 0)],
        vec![blank(6, 0), blank(6, 0)],
        vec![blank(3, 40), blank(3, 40)],
        vec![near, near],
        vec![near, blank(3, 0), near, blank(3, 0)],
        vec![few, few, blank(3, 524_287)],
        vec![blank(7, 40), blank(3, 0), blank(7, 40)],
    ];
    let run = |first, times| Item { times, step: 1, words: vec![first] };
    let mut all = Vec::new();
    for pile in piles {
        let mut items = vec![one(setting(6, 120)), run(1, 60)];
        items.extend(pile.into_iter().map(one));
        items.extend([run(61, 60), one(pop(1))]);
        all.push(Stream::of(items));
    }
    for depth in [16_384, 16_385] {
        all.push(Stream::of(vec![one(9), Item { times: depth, step: 0, words: vec![blank(2, 0)] }, one(10), one(pop(1))]));
    }
    all
}

/// A stream with quality 255 in every other observation.
fn blanked(r: &mut Random) -> Stream {
    let mut s = small(r);
    for item in &mut s.items {
        for w in &mut item.words {
            if *w >> 30 == 1 && r.chance(2) {
                *w |= 255 << 22;
            }
        }
    }
    s
}

fn stream(r: &mut Random) -> Stream {
    match r.below(40) {
        0 => Stream::of(deep(r)),
        1 | 2 => Stream::of(full(r)),
        3 => regions(r.below(200) as u32, r.chance(2), r.chance(2)),
        4..=7 => blanked(r),
        _ => small(r),
    }
}

/// A stream of few words, as a list has room for.
fn small(r: &mut Random) -> Stream {
    let mut items = Vec::new();
    match r.below(8) {
        0 => items = contig_ends(r),
        1 | 2 => items = cuts(r),
        _ => {
            settings(r, &mut items);
            if !r.chance(20) {
                loci(r, &mut items);
            }
        }
    }
    while r.chance(3) && !items.is_empty() {
        damage(r, &mut items);
    }
    let mut s = Stream::of(items);
    if r.chance(10) {
        s.remainder = (0..1 + r.below(3)).map(|_| r.word() as u8).collect();
    }
    s
}

/// Streams that show each order and each refusal by themselves.
fn edges() -> Vec<Stream> {
    let words = |ws: &[u32]| Stream::of(ws.iter().map(|&w| one(w)).collect());
    let with = |ws: &[u32], remainder: &[u8]| Stream { remainder: remainder.to_vec(), ..words(ws) };
    let alt = observation(35, 2, 0);
    let mut all = vec![
        words(&[]),
        with(&[], &[1]),
        with(&[1], &[1, 2, 3]),
        with(&[0], &[9]),
        // document 01's worked example
        words(&[0xC100_0003, 0xC200_0001, 0xC300_0001, 0xC600_000A, 1, 2, 3, 4, 0x8000_0001]),
        // a pop word's value after a bad pile and after a good one; a size of 0, before the first locus and after it
        words(&[0, pop(7)]),
        words(&[1, pop(7)]),
        words(&[setting(2, 0), pop(2)]),
        words(&[setting(2, 0), pop(1)]),
        words(&[setting(1, 0), 5, pop(0)]),
        words(&[pop(1), pop(0), setting(1, 4), 5, pop(1)]),
        // a setting within a pile that is bad, and past the first locus
        words(&[0, setting(1, 3), 1]),
        words(&[3, alt, setting(1, 3)]),
        words(&[3, pop(1), setting(1, 3)]),
        // .. with a value that is outside its range, which is not what it is refused for
        words(&[1, setting(5, 501)]),
        words(&[1, alt, setting(4, 1_000_001)]),
        words(&[1, pop(1), setting(6, 0)]),
        // an observation without a pile
        words(&[alt]),
        words(&[3, pop(0), alt]),
        // off the contig, not the next, and after a forced pop anywhere
        words(&[setting(6, 10), 11]),
        words(&[5, 7]),
        words(&[5, 5, pop(1)]),
        words(&[5, pop(1), 3, 4, pop(1)]),
    ];
    for field in 0..64 {
        all.push(words(&[setting(field, 1), 1, 2, 3, pop(1)]));
        all.push(words(&[setting(field, 0), 1, 2, 3, pop(1)]));
    }
    for (field, last) in [(4, 1_000_000), (5, 500), (6, 0xff_ffff)] {
        all.push(words(&[setting(field, last), 1, alt, pop(1)]));
        all.push(words(&[setting(field, last + 1), 1, alt, pop(1)]));
    }
    // the deepest pile, and deeper ones at a position that is refused first and at one that is not
    for (depth, locus) in [(16_384, 9), (16_385, 9), (16_386, 9), (16_385, 0)] {
        let items = vec![one(locus), Item { times: depth, step: 0, words: vec![alt] }, one(10)];
        all.push(Stream::of(items));
    }
    // as many cells as there are, and one more, needed by a locus alone and by what it spreads
    for (times, words) in [(4_096, vec![1]), (4_097, vec![1]), (4_046, vec![1, alt]), (4_047, vec![1, alt])] {
        all.push(Stream::of(vec![one(setting(1, 5_000)), Item { times, step: 1, words }, one(pop(1))]));
    }
    all.extend(sheets());
    all.extend(blanks());
    all
}

/// The answers of the edges, of `count` streams and of a tenth as many with quality 255; the edges have the large ones, of which a list needs few.
pub fn stream_list(seed: u64, count: u64, out: &mut impl Write) {
    list(edges(), Function::Region, seed, count, out);
}

/// The same as sheets, with the edges of a sheet alone.
pub fn sheet_list(seed: u64, count: u64, out: &mut impl Write) {
    list(sheets(), Function::Sheet, seed, count, out);
}

fn list(first: Vec<Stream>, function: Function, seed: u64, count: u64, out: &mut impl Write) {
    for s in first {
        s.answer(function).write(out);
    }
    let r = &mut Random::from_seed(seed);
    for _ in 0..count {
        small(r).answer(function).write(out);
    }
    for _ in 0..count / 10 {
        blanked(r).answer(function).write(out);
    }
}

/// What a program prints for an input.
fn output_of(program: &str, argument: Option<&str>, input: Vec<u8>) -> String {
    let mut child =
        Command::new(program).args(argument).stdin(Stdio::piped()).stdout(Stdio::piped()).spawn().expect("the program starts");
    let mut stdin = child.stdin.take().expect("its input is a pipe");
    // a program that refuses may leave before it has read all
    let writer = std::thread::spawn(move || drop(stdin.write_all(&input)));
    let output = child.wait_with_output().expect("the program ends");
    writer.join().expect("the input is written");
    String::from_utf8_lossy(&output.stdout).into_owned()
}

/// How a program prints the regions: a line each, a sheet, or, asked for `peaks`, a line each with the peak behind it; or, asked for `each`, the regions of a maker
/// who pops after each locus, a line each.
#[derive(Clone, Copy, PartialEq)]
pub enum Form {
    Listing,
    Sheet,
    Peaks,
    Each,
}

impl Form {
    fn argument(self) -> Option<&'static str> {
        match self {
            Form::Listing | Form::Sheet => None,
            Form::Peaks => Some("peaks"),
            Form::Each => Some("each"),
        }
    }
}

/// Compares what programs print with the oracle, on the edges and on `count` streams; whether all are the same. The forms are all `Each`, or none is.
pub fn compare(programs: &[(&str, Form)], seed: u64, count: u64) -> bool {
    let r = &mut Random::from_seed(seed);
    let fresh = (0..count).map(|_| stream(r));
    let (mut same, mut asked, mut regions, mut pages) = (0u64, 0u64, 0usize, 0usize);
    let mut refused = [0u64; 12];
    for s in edges().into_iter().chain(fresh) {
        let input = s.bytes();
        let run = if programs[0].1 == Form::Each { region::run_each(&input) } else { region::run(&input) };
        asked += 1;
        regions += run.count();
        pages += run.count().div_ceil(60);
        if let Some(number) = run.refusal() {
            refused[number] += 1;
        }
        same += u64::from(programs.iter().all(|&(program, form)| is_printed(program, form, &s, &run)));
    }
    let names = programs.iter().map(|p| match p.1 {
        Form::Listing => "as listings",
        Form::Sheet => "as sheets",
        Form::Peaks => "with peaks",
        Form::Each => "popped after each locus",
    });
    let forms = names.collect::<Vec<_>>().join(" and ");
    println!("{same} of {asked} streams are the same, {forms}: {regions} regions, {pages} pages; {} streams are refused", refused.iter().sum::<u64>());
    let by_number: Vec<String> = (1..12).filter(|&n| refused[n] > 0).map(|n| format!("{n}: {}", refused[n])).collect();
    println!("refusals by number: {}", by_number.join(", "));
    same == asked
}

/// Whether a program prints a run in this form; where it does not, both are shown.
fn is_printed(program: &str, form: Form, s: &Stream, run: &region::Printed) -> bool {
    let expected = match form {
        Form::Listing | Form::Each => run.listing(),
        Form::Sheet => run.sheet(),
        Form::Peaks => run.peaks(),
    };
    let printed = output_of(program, form.argument(), s.bytes());
    if printed == expected {
        return true;
    }
    let words: Vec<String> = s.words().iter().map(|w| format!("{w:08X}")).collect();
    println!("{program} differs: {} and {} bytes\nexpected\n{expected}printed\n{printed}", words.join(" "), s.remainder.len());
    false
}

/// The sample of the repository: a panel of one gene, 1,200 loci read by 12 reads each, quiet but for a resistance allele at 300 to 304 carried by half of the
/// reads, a deletion at 520 to 526, clipped reads over an insertion at 800, and a long divergent stretch from 950 on. The picker is asked for regions every 100 loci.
pub fn panel() -> Vec<u8> {
    let quiet = observation(36, 0, 0);
    let alt = observation(36, 2, 0);
    let mut words = vec![setting(6, 1_200)];
    for p in 1..=1_200 {
        words.push(p);
        for read in 0..12 {
            words.push(match p {
                300..=304 if read % 2 == 0 => alt,
                520..=526 if read % 3 == 0 => observation(0, 6, 0),
                800 if read % 2 == 0 => observation(34, 3, 25),
                950.. if p % 4 == 0 && read % 2 == 1 => alt,
                _ => quiet,
            });
        }
        if p % 100 == 0 {
            words.push(pop(0));
        }
    }
    words.push(pop(1));
    words.iter().flat_map(|w| w.to_le_bytes()).collect()
}
