//! Lists of answers: the format that the replay programs read (docs/LISTS.md).
use std::io::Write;

/// The functions that a list may hold answers of, by their numbers in a list.
#[derive(Clone, Copy)]
pub enum Function {
    Exp = 1,
    Ln = 2,
    Log10 = 3,
    TenTo = 4,
    LnGamma = 5,
    NormalDistribution = 6,
    MakeGaussianKernel = 7,
    AdaptiveFilterSize = 8,
    Making = 9,
    Add = 10,
    Pop = 11,
    Run = 12,
    ClipCount = 13,
    Score = 14,
    PairSum = 15,
    Log10Sum = 16,
    Region = 17,
    Sheet = 18,
    CellsNeeded = 19,
    ScoreSet = 20,
}

/// One answer: the function's number, how many words follow, and the words of the arguments and then of the results.
pub struct Answer {
    function: Function,
    words: Vec<u64>,
}

impl Answer {
    pub fn of(function: Function) -> Self {
        Self { function, words: Vec::new() }
    }

    pub fn word(mut self, w: u64) -> Self {
        self.words.push(w);
        self
    }

    pub fn double(self, x: f64) -> Self {
        self.word(bits(x))
    }

    /// A slice: its length, then its elements.
    pub fn doubles(self, xs: &[f64]) -> Self {
        let counted = self.word(xs.len() as u64);
        counted.elements(xs)
    }

    /// The same of whole numbers.
    pub fn numbers(mut self, xs: &[u32]) -> Self {
        self.words.push(xs.len() as u64);
        self.words.extend(xs.iter().map(|&x| u64::from(x)));
        self
    }

    /// The elements of a slice whose length is known.
    pub fn elements(mut self, xs: &[f64]) -> Self {
        self.words.extend(xs.iter().map(|&x| bits(x)));
        self
    }

    /// The words of another, behind these.
    pub fn then(mut self, other: Self) -> Self {
        self.words.extend(other.words);
        self
    }

    pub fn write(self, out: &mut impl Write) {
        let mut all = vec![self.function as u64, self.words.len() as u64];
        all.extend(self.words);
        for w in all {
            out.write_all(&w.to_le_bytes()).expect("the list is written");
        }
    }
}

/// A double's bit pattern; every NaN is written as one pattern.
pub fn bits(x: f64) -> u64 {
    if x.is_nan() {
        0x7ff8_0000_0000_0000
    } else {
        x.to_bits()
    }
}
