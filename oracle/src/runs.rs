//! Answers of adds and pops: long lists of calls on one profile, run through the Rust, and single calls on records and cells of any content.
use crate::activity_profile::{ActivityEvidence, ActivityProfileState, BandPassActivityProfile};
use crate::list::{Answer, Function};
use crate::document::{self, Popped, Record, Region, Sizes, State};
use crate::random::Random;
use crate::refusals::Settings;
use std::io::Write;

/// The Rust's profile beside the cells that document 01 speaks of.
pub struct Rust {
    profile: BandPassActivityProfile,
    cells: Vec<f64>,
}

impl Rust {
    /// A fresh profile, over cells that hold what document 01's do.
    pub fn new(contig: u32, s: &Settings, cells: &[f64]) -> Self {
        let profile = BandPassActivityProfile::new(contig.to_string(), s.contig_len.into(), s.params());
        Self { profile, cells: cells.to_vec() }
    }

    pub fn add(&mut self, s: State) {
        let evidence = s.clips.map_or(ActivityEvidence::Plain, |clip_bases| ActivityEvidence::HighQualitySoftClips { clip_bases });
        let state = ActivityProfileState {
            contig: s.contig.to_string().into(),
            pos: s.pos.into(),
            active_prob: s.probability,
            original_active_prob: s.original,
            evidence,
        };
        self.profile.add(state).expect("an add that document 01 accepts is accepted by the Rust");
        self.read_cells();
    }

    pub fn pop(&mut self, sizes: Sizes) -> Option<Region> {
        let held = self.profile.len();
        let popped = self
            .profile
            .try_pop_next_ready_region(sizes.extension, sizes.min, sizes.max, sizes.forced)
            .expect("sizes of at least 1 are accepted by the Rust")?;
        self.cells[..held].fill(0.0);
        self.read_cells();
        Some(Region {
            contig: popped.contig.parse().expect("the contig is a number"),
            start: popped.start as u32,
            end: popped.end as u32,
            active: popped.is_active,
            padded_start: popped.padded_start as u32,
            padded_end: popped.padded_end as u32,
            extension: popped.extension,
        })
    }

    fn read_cells(&mut self) {
        for (cell, state) in self.cells.iter_mut().zip(self.profile.states()) {
            *cell = state.active_prob;
        }
    }

    /// The Rust's state is what document 01's rules gave.
    pub fn agree(&self, record: &Record, cells: &[f64]) {
        assert_eq!(self.profile.region_start().unwrap_or(0), u64::from(record.start));
        assert_eq!(self.profile.last_input_pos().unwrap_or(0), u64::from(record.last));
        assert_eq!(self.profile.len(), record.count as usize);
        let bits = |xs: &[f64]| xs.iter().map(|x| x.to_bits()).collect::<Vec<_>>();
        assert_eq!(bits(&self.cells), bits(cells));
    }
}

fn state_words(answer: Answer, s: State) -> Answer {
    answer
        .word(s.contig.into())
        .word(s.pos.into())
        .double(s.probability)
        .double(s.original)
        .word(s.clips.map_or(0, |c| u64::from(c) + 1))
}

fn sizes_words(answer: Answer, s: Sizes) -> Answer {
    answer.word(s.extension.into()).word(s.min.into()).word(s.max.into()).word(s.forced.into())
}

/// 0, the region and its peak; 1, held; 2, empty; 3 and the refusal's number.
fn popped_words(answer: Answer, p: Popped) -> Answer {
    match p {
        Popped::Region(r, peak) => answer
            .word(0)
            .word(r.contig.into())
            .word(r.start.into())
            .word(r.end.into())
            .word(r.active.into())
            .word(r.padded_start.into())
            .word(r.padded_end.into())
            .word(r.extension.into())
            .double(peak.cell)
            .word(peak.pos.into()),
        Popped::Held => answer.word(1),
        Popped::Empty => answer.word(2),
        Popped::Refused(n) => answer.word(3).word(n),
    }
}

fn record_words(answer: Answer, r: &Record) -> Answer {
    answer
        .word(r.contig.into())
        .word(r.contig_len.into())
        .word(r.distance.into())
        .double(r.threshold)
        .word(r.filter.into())
        .word(r.start.into())
        .word(r.last.into())
        .word(r.count.into())
}

// ---- lists of calls on one profile

pub fn some_state(r: &mut Random, record: &Record) -> State {
    let next = if record.count == 0 { 1 + r.below(6) as u32 } else { record.last + 1 };
    let pos = match r.below(24) {
        0 => 0,
        1 => record.contig_len + 1,
        2 => next.wrapping_add(1),
        3 => r.below(u64::from(record.contig_len) + 2) as u32,
        _ => next,
    };
    State {
        contig: if r.chance(40) { record.contig + 1 } else { record.contig },
        pos,
        probability: match r.below(14) {
            0 => 1.0,
            1 => -0.0,
            2..=5 => 0.0,
            6 => 1e-300,
            7 => r.pick(&[1.5, -0.25, f64::NAN]),
            _ => (r.below(11) as f64) / 10.0,
        },
        original: r.pick(&[0.0, 0.5, f64::NAN]),
        clips: if r.chance(4) { Some(r.pick(&[0, 1, 2, 3, 7, 1000, u32::MAX])) } else { None },
    }
}

pub fn some_sizes(r: &mut Random) -> Sizes {
    let max = r.pick(&[1, 2, 3, 4, 6]);
    Sizes {
        extension: r.pick(&[0, 1, 3, u32::MAX]),
        min: if r.chance(30) { 0 } else { r.pick(&[1, 1, 2, 3, 9, u32::MAX]) },
        max: if r.chance(30) { 0 } else { max },
        forced: r.chance(5),
    }
}

/// One run: a making, then calls, each with the record and all cells after it. Document 01's rules go beside the Rust, and both agree after each call.
pub struct Run {
    pub record: Record,
    cells: Vec<f64>,
    kernel: Vec<f64>,
    rust: Rust,
    made: Answer,
    calls: u64,
    called: Answer,
}

impl Run {
    /// A fresh profile with n cells, the bit pattern of cell i being fill + i.
    pub fn new(contig: u32, s: &Settings, n: usize, fill: u64) -> Self {
        let (filter, kernel) = s.params().resolved_filter_and_kernel();
        let record =
            Record { contig, contig_len: s.contig_len, distance: s.distance, threshold: s.threshold, filter, start: 0, last: 0, count: 0 };
        let cells: Vec<f64> = (0..n as u64).map(|i| f64::from_bits(fill + i)).collect();
        let rust = Rust::new(contig, s, &cells);
        let made = Answer::of(Function::Run)
            .word(contig.into())
            .word(s.contig_len.into())
            .word(s.distance.into())
            .double(s.threshold)
            .word(s.max_filter.into())
            .double(s.sigma)
            .word(s.adaptive.into())
            .word(fill)
            .word(n as u64);
        Self { record, cells, kernel, rust, made, calls: 0, called: Answer::of(Function::Run) }
    }

    /// The refusal's number, or 0.
    pub fn add(&mut self, s: State) -> u64 {
        let refusal = document::add(&mut self.record, s, &self.kernel, &mut self.cells);
        if refusal == 0 {
            self.rust.add(s);
        }
        self.called(|answer| state_words(answer.word(0), s).word(refusal));
        refusal
    }

    pub fn pop(&mut self, sizes: Sizes) -> Popped {
        let popped = document::pop(&mut self.record, sizes, &mut self.cells);
        match popped {
            Popped::Region(region, _) => assert_eq!(self.rust.pop(sizes), Some(region)),
            Popped::Held | Popped::Empty => assert_eq!(self.rust.pop(sizes), None),
            Popped::Refused(_) => {}
        }
        self.called(|answer| popped_words(sizes_words(answer.word(1), sizes), popped));
        popped
    }

    /// The call's words, and what it left.
    fn called(&mut self, words: impl FnOnce(Answer) -> Answer) {
        self.rust.agree(&self.record, &self.cells);
        let called = words(std::mem::replace(&mut self.called, Answer::of(Function::Run)));
        let r = &self.record;
        self.called = called.word(r.start.into()).word(r.last.into()).word(r.count.into()).elements(&self.cells);
        self.calls += 1;
    }

    pub fn write(self, out: &mut impl Write) {
        self.made.word(self.calls).then(self.called).write(out);
    }
}

/// A run of calls of any kind.
fn run(r: &mut Random, calls: u64, out: &mut impl Write) {
    let s = Settings {
        contig_len: r.pick(&[1, 9, 40, 1000, 1000, 1000, 1000]),
        distance: r.pick(&[0, 1, 2, 4]),
        threshold: r.pick(&[0.0, 0.05, 0.3, 1.0]),
        max_filter: r.pick(&[0, 1, 2, 3]),
        sigma: r.pick(&[0.3, 1.0, 17.0]),
        adaptive: r.chance(2),
    };
    let n = r.pick(&[3, 8, 12, 16]);
    let fill = some_fill(r);
    let mut run = Run::new(r.below(100) as u32, &s, n, fill);
    for _ in 0..calls {
        if r.chance(3) {
            run.pop(some_sizes(r));
        } else {
            run.add(some_state(r, &run.record));
        }
    }
    run.write(out);
}

/// The bit pattern of the first of the cells that are lent.
pub fn some_fill(r: &mut Random) -> u64 {
    0x3fd0_0000_0000_0000 + r.below(1 << 16)
}

pub fn run_list(seed: u64, count: u64, out: &mut impl Write) {
    let mut r = Random::from_seed(seed);
    for _ in 0..count {
        run(&mut r, 100, out);
    }
}

// ---- single calls on records and cells of any content

fn any_cell(r: &mut Random) -> f64 {
    match r.below(12) {
        0 => f64::NAN,
        1 => f64::INFINITY,
        2 => f64::NEG_INFINITY,
        3 => -0.0,
        4 => f64::MAX,
        5 => 0.0,
        6 => r.any_double(),
        _ => (r.below(11) as f64) / 10.0,
    }
}

/// A record that holds loci as it has to, or one number of which was changed.
fn any_record(r: &mut Random, n: usize) -> Record {
    let filter = r.below(4) as u32;
    let contig_len = r.pick(&[6, 20, 1_073_741_823]);
    let count = r.below(n as u64 + 1).min(u64::from(contig_len)) as u32;
    let mut record = Record {
        contig: 1,
        contig_len,
        distance: r.pick(&[0, 1, 2, 1_000_000]),
        threshold: r.pick(&[0.0, 0.05, 0.5, 1.0]),
        filter,
        start: 0,
        last: 0,
        count,
    };
    if count > 0 {
        record.start = 1 + r.pick(&[0, 1, contig_len - count]).min(contig_len - count);
        let end = record.start + count - 1;
        record.last = end.saturating_sub(r.below(u64::from(filter) + 1) as u32).max(record.start.saturating_sub(1)).max(1);
    }
    if r.chance(3) {
        let big = r.pick(&[0, 1, u32::MAX, u32::MAX - 1, 1 << 31, 7]);
        match r.below(7) {
            0 => record.start = big,
            1 => record.last = big,
            2 => record.count = big,
            3 => record.filter = r.pick(&[0, 1, 501, u32::MAX]),
            4 => record.distance = r.pick(&[1_000_001, u32::MAX]),
            5 => record.threshold = r.pick(&[-0.5, 1.5, f64::NAN, -0.0]),
            _ => record.contig_len = r.pick(&[0, 1, 1_073_741_824, u32::MAX]),
        }
    }
    record
}

fn single_add(r: &mut Random, out: &mut impl Write) {
    let n = r.below(9) as usize;
    let mut record = any_record(r, n);
    let mut cells: Vec<f64> = (0..n).map(|_| any_cell(r)).collect();
    let k = if r.chance(12) { r.below(9) as usize } else { 2 * record.filter.min(3) as usize + 1 };
    let kernel: Vec<f64> = (0..k).map(|_| any_cell(r)).collect();
    let mut s = some_state(r, &Record { contig_len: record.contig_len.min(1 << 30), last: record.last.min(1 << 30), ..record });
    if r.chance(20) {
        s.pos = u32::MAX;
    }
    let answer = record_words(Answer::of(Function::Add), &record);
    let answer = state_words(answer, s).doubles(&kernel).doubles(&cells);
    let refusal = document::add(&mut record, s, &kernel, &mut cells);
    record_words(answer.word(refusal), &record).elements(&cells).write(out);
}

fn single_pop(r: &mut Random, out: &mut impl Write) {
    let n = r.below(9) as usize;
    let record = any_record(r, n);
    let cells: Vec<f64> = (0..n).map(|_| any_cell(r)).collect();
    let mut sizes = some_sizes(r);
    sizes.forced = r.chance(2);
    if r.chance(20) {
        sizes.max = u32::MAX;
    }
    pop_answer(record, sizes, cells, out);
}

fn pop_answer(mut record: Record, sizes: Sizes, mut cells: Vec<f64>, out: &mut impl Write) {
    let answer = record_words(Answer::of(Function::Pop), &record);
    let answer = sizes_words(answer, sizes).doubles(&cells);
    let popped = document::pop(&mut record, sizes, &mut cells);
    record_words(popped_words(answer, popped), &record).elements(&cells).write(out);
}

/// A record of document 01's examples: threshold 0.05, distance 1, F 0, L 100, start 1, last input at the last cell.
fn example(cells: &[f64]) -> Record {
    let n = cells.len() as u32;
    Record { contig: 1, contig_len: 100, distance: 1, threshold: 0.05, filter: 0, start: 1, last: n, count: n }
}

/// A pop of it with max 4.
fn example_pop(cells: &[f64], min: u32, forced: bool, out: &mut impl Write) {
    pop_answer(example(cells), Sizes { extension: 0, min, max: 4, forced }, cells.to_vec(), out);
}

/// P1 to P6; a tie of three; and cells that no add leaves, where document 01 decides and not the Rust's start from f64::MAX.
fn examples(out: &mut impl Write) {
    example_pop(&[0.9, f64::INFINITY, f64::MAX, f64::INFINITY, 0.9], 2, false, out);
    example_pop(&[0.9, 0.5, 0.2, 0.5, 0.9], 2, false, out);
    example_pop(&[0.9, 0.2, 0.5, 0.2, 0.9], 2, false, out);
    example_pop(&[0.2, 0.3, 0.4, 0.5, 0.6], 2, false, out);
    example_pop(&[0.9, 0.3, 0.3, 0.9, 0.9], 2, false, out);
    example_pop(&[0.9, 0.5, 0.2, 0.5, 0.9], 9, false, out);
    example_pop(&[0.9, 0.5, 0.2, 0.1], 2, true, out);
    example_pop(&[0.9, 0.2, 0.5, 0.2, 0.5, 0.2, 0.9], 1, false, out);
}

// ---- pops for the peak (document 02, U2)

/// A forced pop of all these cells, where they are on one side and none is cut at.
fn whole_pop(cells: &[f64], out: &mut impl Write) {
    let n = cells.len() as u32;
    pop_answer(example(cells), Sizes { extension: 0, min: n, max: n + 1, forced: true }, cells.to_vec(), out);
}

/// The rule's corners: NaN first and later, zeros of both signs, ties, one cell, infinities; a region cut short before a higher cell, one that ends at the other side
/// before one, and a forced pop that trims one; and the highest cell at each place of one to nine, alone and with an equal one behind it.
fn peak_examples(out: &mut impl Write) {
    let nan = f64::NAN;
    let inf = f64::INFINITY;
    for cells in [
        &[nan, 0.01, 0.04][..],
        &[nan, nan, nan],
        &[0.01, nan, 0.04, nan, 0.03],
        &[0.3, 0.7, 0.5, 0.7, 0.6],
        &[-0.0, 0.0, -0.0],
        &[0.0, -0.0, 0.0],
        &[-0.0, -1.0, 0.0, 0.04],
        &[0.6],
        &[0.01],
        &[nan],
        &[inf, inf, 0.5],
        &[0.5, inf, f64::MAX, inf],
        &[-inf, -inf, f64::MIN],
        &[-inf, nan, -inf, 0.01],
        &[0.5, f64::MIN_POSITIVE, 0.5],
        &[5e-324, 1e-323, 5e-324, 0.0],
    ] {
        whole_pop(cells, out);
    }
    example_pop(&[0.5, 0.3, 0.2, 0.9, 0.9], 2, false, out);
    example_pop(&[0.5, 0.6, 0.7, 0.8, 0.9], 2, false, out);
    example_pop(&[0.5, 0.6, 0.01, 0.8, 0.9], 2, false, out);
    example_pop(&[0.01, 0.02, 0.8, 0.9, 0.9], 2, false, out);
    let trimmed = [0.2, 0.4, 0.3, 0.8, 0.9];
    let record = Record { start: 10, last: 12, filter: 2, ..example(&trimmed) };
    pop_answer(record, Sizes { extension: 1, min: 1, max: 9, forced: true }, trimmed.to_vec(), out);
    let past = [0.2, 0.4];
    let record = Record { start: 13, last: 12, filter: 2, distance: 0, ..example(&past) };
    pop_answer(record, Sizes { extension: 1, min: 1, max: 9, forced: true }, past.to_vec(), out);
    let far = [0.4, 0.4, 0.5];
    let record = Record { contig_len: 1_073_741_823, start: 1_073_741_821, last: 1_073_741_823, ..example(&far) };
    pop_answer(record, Sizes { extension: u32::MAX, min: 1, max: u32::MAX, forced: true }, far.to_vec(), out);
    for n in 1..=9 {
        for at in 0..n {
            let mut cells = vec![0.25; n];
            cells[at] = 0.75;
            whole_pop(&cells, out);
            if at + 1 < n {
                cells[at + 1] = 0.75;
                whole_pop(&cells, out);
                cells[at + 1] = nan;
                whole_pop(&cells, out);
            }
        }
    }
}

/// A pop of up to 40 cells, of few values or of any, rising or not, with max up to all of them.
fn peak_pop(r: &mut Random, out: &mut impl Write) {
    let n = 1 + r.below(40) as usize;
    let kind = r.below(4);
    let cells: Vec<f64> = (0..n)
        .map(|i| match kind {
            0 => r.pick(&[0.2, 0.4, 0.6]),
            1 => (i as f64 + r.below(3) as f64) / 64.0,
            2 if r.chance(3) => any_cell(r),
            2 => 0.5,
            _ => r.unit(),
        })
        .collect();
    let threshold = r.pick(&[0.0, 0.01, 0.05, 1.0]);
    let start = 1 + r.below(60) as u32;
    let record = Record { start, last: start + n as u32 - 1, threshold, ..example(&cells) };
    let sizes = Sizes { extension: r.pick(&[0, 7]), min: 1 + r.below(8) as u32, max: 1 + r.below(n as u64 + 1) as u32, forced: r.chance(2) };
    pop_answer(record, sizes, cells, out);
}

pub fn call_list(seed: u64, count: u64, out: &mut impl Write) {
    let mut r = Random::from_seed(seed);
    examples(out);
    for _ in 0..count {
        single_add(&mut r, out);
        single_pop(&mut r, out);
    }
    peak_examples(out);
    for _ in 0..count / 3 {
        peak_pop(&mut r, out);
    }
}
