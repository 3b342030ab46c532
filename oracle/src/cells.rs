//! Answers on the cells that a maker must provide (document 02, U5): the number, by itself, and runs of a maker who after every add pops unforced, with one
//! max, until "held" or "empty".
use crate::document::{self, Popped, Sizes, State};
use crate::list::{Answer, Function};
use crate::random::Random;
use crate::refusals::{Settings, MAX_POSITION};
use crate::runs::{some_fill, some_sizes, some_state, Run};
use std::io::Write;

fn cells_answer(max: u32, distance: u32, filter: u32, contig_len: u32, out: &mut impl Write) {
    let answer = Answer::of(Function::CellsNeeded).word(max.into()).word(distance.into()).word(filter.into()).word(contig_len.into());
    match document::cells_needed(max, distance, filter, contig_len) {
        Ok(cells) => answer.word(0).word(cells.into()).write(out),
        Err(refusal) => answer.word(refusal).write(out),
    }
}

/// Both ends of each range and one step outside, in every combination, and contigs just below the sum of the defaults and just above.
fn edges(out: &mut impl Write) {
    for max in [0, 1, 300, u32::MAX] {
        for distance in [0, 1, 50, 1_000_000, 1_000_001, u32::MAX] {
            for filter in [0, 1, 50, 500, 501, u32::MAX] {
                for contig_len in [0, 1, 2, 449, 450, 451, MAX_POSITION, MAX_POSITION + 1, u32::MAX] {
                    cells_answer(max, distance, filter, contig_len, out);
                }
            }
        }
    }
}

/// Numbers about as long as the contig, so that either is the smaller.
fn some_cells(r: &mut Random, out: &mut impl Write) {
    let max = r.below(2000) as u32;
    let distance = r.pick(&[0, 1, 50, 1000, 1_000_000]);
    let filter = r.below(501) as u32;
    let sum = max + distance + 2 * filter;
    let contig_len = (sum + 3).saturating_sub(r.below(7) as u32);
    cells_answer(max, distance, filter, contig_len, out);
}

/// A maker: the one max, and what it pops with.
struct Maker {
    run: Run,
    max: u32,
}

impl Maker {
    fn new(contig: u32, s: &Settings, max: u32, cells: u32, fill: u64) -> Self {
        Self { run: Run::new(contig, s, cells as usize, fill), max }
    }

    fn pop_until_held(&mut self, r: &mut Random) {
        loop {
            let sizes = Sizes { extension: r.pick(&[0, 1, 3, u32::MAX]), min: r.pick(&[1, 1, 2, 3, 9, u32::MAX]), max: self.max, forced: false };
            if matches!(self.run.pop(sizes), Popped::Held | Popped::Empty) {
                return;
            }
        }
    }

    /// Adds of any kind, refused ones too, and now and then pops besides, forced or of other sizes: no add is refused 10.
    fn any_adds(mut self, r: &mut Random, adds: u64, out: &mut impl Write) {
        for _ in 0..adds {
            let state = some_state(r, &self.run.record);
            assert_ne!(self.run.add(state), 10);
            self.pop_until_held(r);
            while r.chance(12) {
                self.run.pop(some_sizes(r));
            }
        }
        self.run.write(out);
    }

    /// 0.0 at the loci before k, and 1.0 at k: what that last add answers.
    fn zeros_and_one(mut self, r: &mut Random, k: u32, out: &mut impl Write) -> u64 {
        let at = |pos, probability, contig| State { contig, pos, probability, original: probability, clips: None };
        let contig = self.run.record.contig;
        for pos in 1..k {
            assert_eq!(self.run.add(at(pos, 0.0, contig)), 0);
            self.pop_until_held(r);
        }
        let last = self.run.add(at(k, 1.0, contig));
        self.run.write(out);
        last
    }
}

/// One choice of settings: such a maker's run with just the cells needed, or a few more; the zeros and the 1.0 with just the cells needed, where the 1.0 takes the
/// last of them, and with one fewer, where it is refused 10.
fn settings(r: &mut Random, out: &mut impl Write) {
    let mut s = Settings {
        contig_len: 1,
        distance: r.below(6) as u32,
        threshold: r.pick(&[0.0, 0.05, 0.3, 1.0]),
        max_filter: r.below(5) as u32,
        sigma: r.pick(&[0.3, 1.0, 17.0]),
        adaptive: r.chance(2),
    };
    let max = 1 + r.below(6) as u32;
    let (filter, _) = s.params().resolved_filter_and_kernel();
    let sum = max + s.distance + 2 * filter;
    s.contig_len = r.pick(&[1, sum.saturating_sub(2).max(1), sum.saturating_sub(1).max(1), sum, sum + 1, 1000, 1000, 1000]);
    let needed = document::cells_needed(max, s.distance, filter, s.contig_len).expect("the settings are in range, and max is not 0");
    cells_answer(max, s.distance, filter, s.contig_len, out);
    cells_answer(max, s.distance, s.max_filter, s.contig_len, out);
    let contig = r.below(100) as u32;
    let fill = some_fill(r);
    let more = if r.chance(4) { 1 + r.below(3) as u32 } else { 0 };
    Maker::new(contig, &s, max, needed + more, fill).any_adds(r, 20, out);
    let k = s.contig_len.min(max + s.distance + filter);
    assert_eq!(Maker::new(contig, &s, max, needed, fill).zeros_and_one(r, k, out), 0);
    assert_eq!(Maker::new(contig, &s, max, needed - 1, fill).zeros_and_one(r, k, out), 10);
}

pub fn cell_list(seed: u64, count: u64, out: &mut impl Write) {
    edges(out);
    let mut r = Random::from_seed(seed);
    for _ in 0..count {
        some_cells(&mut r, out);
        settings(&mut r, out);
    }
}
