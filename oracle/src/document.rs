//! Adding and popping as document 01 words them, for records and cells of any content, apart from the Rust. Where the Rust has a value too, the
//! lists are made only after the two agree.
use crate::refusals::MAX_POSITION;

#[derive(Clone, Copy, PartialEq, Debug)]
pub struct Record {
    pub contig: u32,
    pub contig_len: u32,
    pub distance: u32,
    pub threshold: f64,
    pub filter: u32,
    pub start: u32,
    pub last: u32,
    pub count: u32,
}

#[derive(Clone, Copy, PartialEq, Debug)]
pub struct State {
    pub contig: u32,
    pub pos: u32,
    pub probability: f64,
    pub original: f64,
    /// The clip count, where the evidence is not plain.
    pub clips: Option<u32>,
}

#[derive(Clone, Copy, PartialEq, Debug)]
pub struct Region {
    pub contig: u32,
    pub start: u32,
    pub end: u32,
    pub active: bool,
    pub padded_start: u32,
    pub padded_end: u32,
    pub extension: u32,
}

/// Document 02, U2: the peak of a region, which the Rust does not have.
#[derive(Clone, Copy, Debug)]
pub struct Peak {
    pub cell: f64,
    pub pos: u32,
}

#[derive(Clone, Copy, PartialEq, Debug)]
pub struct Sizes {
    pub extension: u32,
    pub min: u32,
    pub max: u32,
    pub forced: bool,
}

#[derive(Clone, Copy, Debug)]
pub enum Popped {
    Region(Region, Peak),
    Held,
    Empty,
    Refused(u64),
}

impl Record {
    fn d(&self) -> i128 {
        i128::from(self.distance) + i128::from(self.filter)
    }

    /// "It is broken if .."
    pub fn is_broken(&self, cells: usize) -> bool {
        let (start, last, count) = (i128::from(self.start), i128::from(self.last), i128::from(self.count));
        let end = start + count - 1;
        let in_range = (1..=MAX_POSITION).contains(&self.contig_len)
            && self.distance <= 1_000_000
            && (0.0..=1.0).contains(&self.threshold);
        let rules = start >= 1
            && start <= last + 1
            && last >= 1
            && last <= end
            && end <= i128::from(self.contig_len)
            && end <= last + i128::from(self.filter);
        !in_range
            || self.filter > 500
            || count > cells as i128
            || (count == 0 && (start != 0 || last != 0))
            || (count > 0 && !rules)
    }
}

/// Document 02, U5: "the smaller of contig length and max + distance + 2 × filter. It refuses 1 for a number outside its range, then 11 for a zero max".
pub fn cells_needed(max: u32, distance: u32, filter: u32, contig_len: u32) -> Result<u32, u64> {
    if distance > 1_000_000 || filter > 500 || !(1..=MAX_POSITION).contains(&contig_len) {
        return Err(1);
    }
    if max == 0 {
        return Err(11);
    }
    let sum = i128::from(max) + i128::from(distance) + 2 * i128::from(filter);
    Ok(sum.min(i128::from(contig_len)) as u32)
}

/// The refusal's number, or 0; the record and the cells are changed where it is 0.
pub fn add(record: &mut Record, s: State, kernel: &[f64], cells: &mut [f64]) -> u64 {
    let r = *record;
    if r.is_broken(cells.len()) || kernel.len() as u64 != 2 * u64::from(r.filter) + 1 {
        return 5;
    }
    if s.contig != r.contig {
        return 6;
    }
    if s.pos == 0 || s.pos > r.contig_len {
        return 7;
    }
    if !(0.0..=1.0).contains(&s.probability) {
        return 8;
    }
    if r.count > 0 && u64::from(s.pos) != u64::from(r.last) + 1 {
        return 9;
    }
    let (p, l, f) = (i128::from(s.pos), i128::from(r.contig_len), i128::from(r.filter));
    let start = if r.count == 0 { p } else { i128::from(r.start) };
    let receiving: Vec<i128> = if s.probability > 0.0 {
        (p - f..=p + f).filter(|q| (1..=l).contains(q)).collect()
    } else {
        vec![p]
    };
    let highest = *receiving.last().expect("p itself receives");
    let needed = i128::from(r.count).max(highest - start + 1);
    if needed > cells.len() as i128 {
        return 10;
    }
    let m = match s.clips {
        None => 1,
        Some(clips) => {
            let n = i128::from(clips).min(r.d());
            (-n..=n).filter(|d| (1..=l).contains(&(p + d))).count()
        }
    };
    for q in receiving {
        if q < start {
            continue;
        }
        let w = if s.probability > 0.0 { s.probability * kernel[(q - p + f) as usize] } else { s.probability };
        let mut sum = w;
        for _ in 1..m {
            sum += w;
        }
        let i = (q - start) as usize;
        cells[i] = if i < r.count as usize { cells[i] + sum } else { sum };
    }
    record.start = start as u32;
    record.last = s.pos;
    record.count = needed as u32;
    0
}

/// The answer; the record and the cells are changed where it is a region.
pub fn pop(record: &mut Record, sizes: Sizes, cells: &mut [f64]) -> Popped {
    let r = *record;
    if r.is_broken(cells.len()) {
        return Popped::Refused(5);
    }
    if sizes.min == 0 || sizes.max == 0 {
        return Popped::Refused(11);
    }
    if r.count == 0 {
        return Popped::Empty;
    }
    if !sizes.forced && i128::from(r.count) < i128::from(sizes.max) + r.d() {
        return Popped::Held;
    }
    let mut held = r.count as usize;
    if sizes.forced {
        held = held.min(r.last.saturating_sub(r.start) as usize + 1);
    }
    let active = cells[0] > r.threshold;
    let other = (0..held).find(|&i| (cells[i] > r.threshold) != active).unwrap_or(held);
    let mut size = other.min(sizes.max as usize);
    if active && size == sizes.max as usize {
        size = cut(&cells[..held], sizes.min as usize, sizes.max as usize);
    }
    let end = u64::from(r.start) + size as u64 - 1;
    let region = Region {
        contig: r.contig,
        start: r.start,
        end: end as u32,
        active,
        padded_start: r.start.saturating_sub(sizes.extension).max(1),
        padded_end: (end + u64::from(sizes.extension)).min(u64::from(r.contig_len)) as u32,
        extension: sizes.extension,
    };
    let peak = highest(&cells[..size]);
    let peak = Peak { cell: cells[peak], pos: (u64::from(r.start) + peak as u64) as u32 };
    let left = held - size;
    for i in 0..r.count as usize {
        cells[i] = if i < left { cells[size + i] } else { 0.0 };
    }
    *record = if left == 0 {
        Record { start: 0, last: 0, count: 0, ..r }
    } else {
        Record { start: (u64::from(r.start) + size as u64) as u32, count: left as u32, ..r }
    };
    Popped::Region(region, peak)
}

/// Document 02, U2: "the first cell leads, even a NaN, and a later one only if strictly above the leader".
fn highest(cells: &[f64]) -> usize {
    (1..cells.len()).fold(0, |leader, i| if cells[i] > cells[leader] { i } else { leader })
}

/// "from index max − 1 down to min − 1, a cell qualifies if it is neither first nor last held, at most its right neighbour and strictly below its
/// left. The smallest wins, the higher index on ties, and stays inside. None qualifying leaves max": the size.
fn cut(cells: &[f64], min: usize, max: usize) -> usize {
    let mut best: Option<usize> = None;
    let mut i = max;
    while i >= min {
        i -= 1;
        let inner = i > 0 && i + 1 < cells.len();
        if inner && cells[i] <= cells[i + 1] && cells[i] < cells[i - 1] && best.map_or(true, |b| cells[i] < cells[b]) {
            best = Some(i);
        }
    }
    best.map_or(max, |b| b + 1)
}
