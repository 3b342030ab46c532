//! The region program as document 01 words it: words in, lines out. Scores are the Rust's; each accepted add and each pop goes through the Rust's profile
//! and through document 01's rules, which have to agree.
use crate::document::{self, Peak, Popped, Record, Sizes, State};
use crate::refusals::{scoring_refusal, Scoring, Settings, MAX_POSITION};
use crate::runs::Rust;
use crate::scores::score;

const CELLS: usize = 4096;
/// More than the streams here have loci: who pops after each locus is never short of cells.
const PLENTY: usize = 8192;
const CONTIG: u32 = 0;

/// A refusal: its number and the index of the word that it names.
struct Refusal(u64, u64);

/// "start, end, 1 active or 0, padded start, padded end"
struct Region {
    start: u32,
    end: u32,
    active: bool,
    padded_start: u32,
    padded_end: u32,
    /// Document 02, U2; it is not printed.
    peak: Peak,
}

impl Region {
    /// Document 01: "A line is start, end, 1 active or 0, padded start, padded end, in decimal with single blanks".
    fn line(&self) -> String {
        format!("{} {} {} {} {}", self.start, self.end, u32::from(self.active), self.padded_start, self.padded_end)
    }
}

/// The open pile: the index of its locus word, its position and its words.
struct Pile {
    index: u64,
    position: u32,
    words: Vec<u32>,
}

struct Profile {
    record: Record,
    kernel: Vec<f64>,
    cells: Vec<f64>,
    rust: Rust,
}

impl Profile {
    fn new(s: &Settings, cells: usize) -> Self {
        let (filter, kernel) = s.params().resolved_filter_and_kernel();
        let record = Record {
            contig: CONTIG,
            contig_len: s.contig_len,
            distance: s.distance,
            threshold: s.threshold,
            filter,
            start: 0,
            last: 0,
            count: 0,
        };
        let cells = vec![0.0; cells];
        let rust = Rust::new(CONTIG, s, &cells);
        Self { record, kernel, cells, rust }
    }

    fn add(&mut self, state: State) -> u64 {
        let refusal = document::add(&mut self.record, state, &self.kernel, &mut self.cells);
        if refusal == 0 {
            self.rust.add(state);
        }
        refusal
    }

    fn pop(&mut self, sizes: Sizes) -> Popped {
        let popped = document::pop(&mut self.record, sizes, &mut self.cells);
        match popped {
            Popped::Region(region, _) => assert_eq!(self.rust.pop(sizes), Some(region)),
            Popped::Held | Popped::Empty => assert_eq!(self.rust.pop(sizes), None),
            Popped::Refused(_) => {}
        }
        self.rust.agree(&self.record, &self.cells);
        popped
    }
}

struct Program {
    settings: Settings,
    min: u32,
    max: u32,
    extension: u32,
    /// Made at the first locus word, which closes the settings.
    profile: Option<Profile>,
    pile: Option<Pile>,
    regions: Vec<Region>,
    /// Pops unforced after each locus, whatever the stream says, as a maker does for whom the number of cells is meant (document 02, U5).
    each: bool,
}

impl Program {
    fn new(each: bool) -> Self {
        let settings =
            Settings { contig_len: MAX_POSITION, distance: 50, threshold: 0.002, max_filter: 50, sigma: 17.0, adaptive: true };
        Self { settings, min: 50, max: 300, extension: 100, profile: None, pile: None, regions: Vec::new(), each }
    }

    /// "A pile is scored and added when it ends .. its refusals name its locus word."
    fn end_pile(&mut self) -> Result<(), Refusal> {
        let Some(pile) = self.pile.take() else {
            return Ok(());
        };
        let refused = |n| Err(Refusal(n, pile.index));
        let scoring = Scoring::DEFAULT;
        let refusal = scoring_refusal(&scoring, pile.position, &pile.words);
        if refusal != 0 {
            return refused(refusal);
        }
        let state = score(&scoring, CONTIG, pile.position, &pile.words);
        let profile = self.profile.as_mut().expect("a locus word came before");
        let refusal = profile.add(state);
        if refusal != 0 {
            assert!(!self.each || refusal != 10);
            return refused(refusal);
        }
        if self.each {
            self.pops(false, pile.index)?;
        }
        Ok(())
    }

    /// The profile is made at the first locus. One that is popped after each locus has the cells for it, which a zero max has none of.
    fn make(&mut self, index: u64) -> Result<(), Refusal> {
        let s = &self.settings;
        if self.each {
            document::cells_needed(self.max, s.distance, s.max_filter, s.contig_len).map_err(|n| Refusal(n, index))?;
        }
        self.profile = Some(Profile::new(s, if self.each { PLENTY } else { CELLS }));
        Ok(())
    }

    /// "Kind 2: pop until held or empty, value 0 unforced, 1 forced."
    fn pops(&mut self, forced: bool, index: u64) -> Result<(), Refusal> {
        let sizes = Sizes { extension: self.extension, min: self.min, max: self.max, forced };
        let Some(profile) = self.profile.as_mut() else {
            return if sizes.min == 0 || sizes.max == 0 { Err(Refusal(11, index)) } else { Ok(()) };
        };
        loop {
            match profile.pop(sizes) {
                Popped::Region(r, peak) => self.regions.push(Region {
                    start: r.start,
                    end: r.end,
                    active: r.active,
                    padded_start: r.padded_start,
                    padded_end: r.padded_end,
                    peak,
                }),
                Popped::Held | Popped::Empty => return Ok(()),
                Popped::Refused(n) => return Err(Refusal(n, index)),
            }
        }
    }

    /// "Kind 3, only before the first locus: bits 29-24 field, 23-0 value .. Values are range-checked, and refused 1, at their word."
    fn set(&mut self, w: u32, index: u64) -> Result<(), Refusal> {
        let value = w & 0xff_ffff;
        if self.profile.is_some() {
            return Err(Refusal(3, index));
        }
        match w >> 24 & 63 {
            1 => self.max = value,
            2 => self.min = value,
            3 => self.extension = value,
            4 => self.settings.distance = value,
            5 => self.settings.max_filter = value,
            6 => self.settings.contig_len = value,
            _ => return Err(Refusal(3, index)),
        }
        if self.settings.in_range() {
            Ok(())
        } else {
            Err(Refusal(1, index))
        }
    }

    fn word(&mut self, w: u32, index: u64) -> Result<(), Refusal> {
        let value = w & 0x3fff_ffff;
        match w >> 30 {
            0 => {
                self.end_pile()?;
                if self.profile.is_none() {
                    self.make(index)?;
                }
                self.pile = Some(Pile { index, position: value, words: Vec::new() });
                Ok(())
            }
            1 => match self.pile.as_mut() {
                Some(pile) => {
                    // a pile that is too deep is refused whatever its further words are
                    if pile.words.len() <= 16_384 {
                        pile.words.push(w);
                    }
                    Ok(())
                }
                None => Err(Refusal(3, index)),
            },
            2 => {
                self.end_pile()?;
                if value > 1 {
                    return Err(Refusal(3, index));
                }
                self.pops(value == 1, index)
            }
            _ => self.set(w, index),
        }
    }

    fn run(&mut self, input: &[u8]) -> Result<(), Refusal> {
        let words = input.chunks_exact(4);
        let remainder = !words.remainder().is_empty();
        let mut index = 0;
        for bytes in words {
            self.word(u32::from_le_bytes([bytes[0], bytes[1], bytes[2], bytes[3]]), index)?;
            index += 1;
        }
        self.end_pile()?;
        if remainder {
            return Err(Refusal(3, index));
        }
        Ok(())
    }
}

/// What comes of an input: the regions, and the refusal where one ends it.
pub struct Printed {
    regions: Vec<Region>,
    refusal: Option<Refusal>,
}

/// Runs the program on this input.
pub fn run(input: &[u8]) -> Printed {
    run_by(Program::new(false), input)
}

/// The same, popped after each locus too.
pub fn run_each(input: &[u8]) -> Printed {
    run_by(Program::new(true), input)
}

fn run_by(mut program: Program, input: &[u8]) -> Printed {
    let refusal = program.run(input).err();
    Printed { regions: program.regions, refusal }
}

impl Printed {
    /// A line for each region.
    pub fn listing(&self) -> String {
        let lines: String = self.regions.iter().map(|r| r.line() + "\n").collect();
        lines + &self.refusal_line()
    }

    /// With the position of the peak and the peak behind each line, as the part's examples print them.
    pub fn peaks(&self) -> String {
        let lines: String = self.regions.iter().map(|r| format!("{} {} {:.6}\n", r.line(), r.peak.pos, r.peak.cell)).collect();
        lines + &self.refusal_line()
    }

    /// Document 02, U1: rows "right-aligned in 10, 10, 1, 10 and 10 columns, with one blank between", "60 rows and then a form feed; the last page may be shorter
    /// and has the form feed too".
    pub fn sheet(&self) -> String {
        let mut text = String::new();
        for page in self.regions.chunks(60) {
            for r in page {
                text += &format!("{:>10} {:>10} {:>1} {:>10} {:>10}\n", r.start, r.end, u32::from(r.active), r.padded_start, r.padded_end);
            }
            text.push('\x0C');
        }
        text + &self.refusal_line()
    }

    fn refusal_line(&self) -> String {
        match self.refusal {
            Some(Refusal(number, index)) => format!("refused {number} {index}\n"),
            None => String::new(),
        }
    }

    /// The number of the refusal.
    pub fn refusal(&self) -> Option<usize> {
        self.refusal.as_ref().map(|r| r.0 as usize)
    }

    /// How many regions there are.
    pub fn count(&self) -> usize {
        self.regions.len()
    }
}
