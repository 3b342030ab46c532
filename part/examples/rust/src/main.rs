//! Reads the words of a small stream from standard input and prints its regions, by the part alone: what the region program prints for them. With the argument
//! `peaks`, each line goes on with the position of the region's peak and the peak, to six decimals. With the argument `each`, it is a maker who pops after each locus,
//! whatever the stream says, and lends just the cells that this needs.
mod picker;
#[path = "../../../region_picker.rs"]
mod region_picker;

use picker::{Profile, Refusal, Scorer};
use std::io::Read;

const CELLS: usize = 4096;
const DEEPEST: usize = 16_384;

/// The open pile: the index of its locus word, its position and its words.
struct Pile {
    index: u64,
    position: u32,
    words: Vec<u32>,
}

struct Stream {
    scorer: Scorer,
    /// By field: max, min, extension, distance, max filter, contig length.
    settings: [u32; 7],
    /// Made at the first locus word.
    profile: Option<Profile>,
    pile: Option<Pile>,
    with_peaks: bool,
    pops_each: bool,
}

/// A refusal with the index of the word that it names.
type Stopped = (Refusal, u64);

impl Stream {
    fn new(with_peaks: bool, pops_each: bool) -> Self {
        Self { scorer: Scorer::new(), settings: [0, 300, 50, 100, 50, 50, 1_073_741_823], profile: None, pile: None, with_peaks, pops_each }
    }

    fn end_pile(&mut self) -> Result<(), Stopped> {
        let (Some(pile), Some(profile)) = (self.pile.take(), self.profile.as_mut()) else {
            return Ok(());
        };
        let score = self.scorer.score(pile.position, &pile.words);
        score.and_then(|s| profile.add(pile.position, &s)).map_err(|n| (n, pile.index))?;
        if self.pops_each {
            self.pop_regions(false, pile.index)?;
        }
        Ok(())
    }

    fn locus(&mut self, position: u32, index: u64) -> Result<(), Stopped> {
        self.end_pile()?;
        if self.profile.is_none() {
            self.profile = Some(self.make().map_err(|n| (n, index))?);
        }
        self.pile = Some(Pile { index, position, words: Vec::new() });
        Ok(())
    }

    fn make(&self) -> Result<Profile, Refusal> {
        let [_, max, _, _, distance, max_filter, contig_length] = self.settings;
        let mut profile = Profile::new(contig_length, distance, max_filter)?;
        profile.lend(if self.pops_each { profile.cells_needed(max)? } else { CELLS });
        Ok(profile)
    }

    fn observation(&mut self, word: u32, index: u64) -> Result<(), Stopped> {
        let pile = self.pile.as_mut().ok_or((3, index))?;
        if pile.words.len() <= DEEPEST {
            pile.words.push(word);
        }
        Ok(())
    }

    fn pops(&mut self, value: u32, index: u64) -> Result<(), Stopped> {
        self.end_pile()?;
        if value > 1 {
            return Err((3, index));
        }
        let [_, max, min, ..] = self.settings;
        if self.profile.is_none() {
            return if max == 0 || min == 0 { Err((11, index)) } else { Ok(()) };
        }
        self.pop_regions(value == 1, index)
    }

    /// Pops until none is ready.
    fn pop_regions(&mut self, forced: bool, index: u64) -> Result<(), Stopped> {
        let [_, max, min, extension, ..] = self.settings;
        let Some(profile) = self.profile.as_mut() else {
            return Ok(());
        };
        while let Some(([_, start, end, active, padded_start, padded_end, _, position], peak)) =
            profile.pop(extension, min, max, forced).map_err(|n| (n, index))?
        {
            print!("{start} {end} {active} {padded_start} {padded_end}");
            if self.with_peaks {
                print!(" {position} {peak:.6}");
            }
            println!();
        }
        Ok(())
    }

    fn set(&mut self, word: u32, index: u64) -> Result<(), Stopped> {
        let (field, value) = ((word >> 24 & 63) as usize, word & 0xff_ffff);
        let range = match field {
            _ if self.profile.is_some() => return Err((3, index)),
            1..=3 => 0..=0xff_ffff,
            4 => 0..=1_000_000,
            5 => 0..=500,
            6 => 1..=1_073_741_823,
            _ => return Err((3, index)),
        };
        if !range.contains(&value) {
            return Err((1, index));
        }
        self.settings[field] = value;
        Ok(())
    }

    fn word(&mut self, word: u32, index: u64) -> Result<(), Stopped> {
        let value = word & 0x3fff_ffff;
        match word >> 30 {
            0 => self.locus(value, index),
            1 => self.observation(word, index),
            2 => self.pops(value, index),
            _ => self.set(word, index),
        }
    }

    fn run(&mut self, input: &[u8]) -> Result<(), Stopped> {
        let words = input.chunks_exact(4);
        let is_whole = words.remainder().is_empty();
        let mut index = 0;
        for bytes in words {
            self.word(u32::from_le_bytes([bytes[0], bytes[1], bytes[2], bytes[3]]), index)?;
            index += 1;
        }
        self.end_pile()?;
        if is_whole {
            Ok(())
        } else {
            Err((3, index))
        }
    }
}

fn main() {
    let arguments: Vec<String> = std::env::args().skip(1).collect();
    let with_peaks = arguments == ["peaks"];
    let pops_each = arguments == ["each"];
    if !arguments.is_empty() && !with_peaks && !pops_each {
        eprintln!("usage: regions [peaks | each] < WORDS");
        std::process::exit(2);
    }
    let mut input = Vec::new();
    std::io::stdin().read_to_end(&mut input).expect("standard input is read");
    if let Err((number, index)) = Stream::new(with_peaks, pops_each).run(&input) {
        println!("refused {number} {index}");
    }
}
