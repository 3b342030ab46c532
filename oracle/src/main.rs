//! Prints lists of the oracle's answers, which the replay programs compare with the proved library's (docs/LISTS.md), and what the region program prints
//! for the words on standard input, as a listing or as a sheet; and compares the output of other programs with that.
//!
//!     oracle NAME SEED COUNT > FILE
//!     oracle region < WORDS
//!     oracle sheet < WORDS
//!     oracle compare SEED COUNT PROGRAM [SHEET]
//!     oracle peaks SEED COUNT PROGRAM
//!     oracle each SEED COUNT PROGRAM
//!     oracle panel > FILE
#![allow(dead_code)]
#![allow(clippy::all)]

mod activity_profile;
mod activity_scoring;
mod cells;
mod clips;
mod document;
mod hq_soft_clip;
mod list;
mod makings;
mod minimal_genotyping;
mod multi_sample;
mod random;
mod refusals;
mod region;
mod runs;
mod scores;
mod sets;
mod stand_ins;
mod streams;

use stand_ins::{bio_ids, read_binding, read_model, read_projection};
use std::io::{Read, Write};
use streams::Form;

fn main() {
    let words: Vec<String> = std::env::args().skip(1).collect();
    if words == ["region"] || words == ["sheet"] {
        let mut input = Vec::new();
        std::io::stdin().read_to_end(&mut input).expect("standard input is read");
        let run = region::run(&input);
        print!("{}", if words == ["sheet"] { run.sheet() } else { run.listing() });
        return;
    }
    if words == ["panel"] {
        std::io::stdout().write_all(&streams::panel()).expect("the panel is written");
        return;
    }
    if words.len() >= 4 && ["compare", "peaks", "each"].contains(&words[0].as_str()) {
        let number = |i: usize| words[i].parse::<u64>().expect("a number");
        let program = words[3].as_str();
        let programs = match (words[0].as_str(), words.get(4)) {
            ("each", _) => vec![(program, Form::Each)],
            ("peaks", _) => vec![(program, Form::Listing), (program, Form::Peaks)],
            (_, Some(sheet)) => vec![(program, Form::Listing), (sheet.as_str(), Form::Sheet)],
            _ => vec![(program, Form::Listing)],
        };
        std::process::exit(i32::from(!streams::compare(&programs, number(1), number(2))));
    }
    let number = |i: usize| words.get(i).and_then(|w| w.parse::<u64>().ok());
    let (Some(name), Some(seed), Some(count)) = (words.first(), number(1), number(2)) else {
        eprintln!("usage: oracle elementary|kernel|runs|calls|clips|scores|sets|sums|cells|streams|sheets SEED COUNT > FILE, oracle region < WORDS, oracle sheet < WORDS, oracle compare SEED COUNT PROGRAM [SHEET], oracle peaks SEED COUNT PROGRAM, oracle each SEED COUNT PROGRAM, or oracle panel > FILE");
        std::process::exit(2);
    };
    let mut out = std::io::BufWriter::new(std::io::stdout().lock());
    match name.as_str() {
        "elementary" => makings::elementary_list(seed, count, &mut out),
        "kernel" => makings::kernel_list(seed, count, &mut out),
        "runs" => runs::run_list(seed, count, &mut out),
        "calls" => runs::call_list(seed, count, &mut out),
        "clips" => clips::clip_list(seed, count, &mut out),
        "scores" => scores::score_list(seed, count, &mut out),
        "sums" => scores::sum_list(seed, count, &mut out),
        "sets" => sets::set_list(seed, count, &mut out),
        "cells" => cells::cell_list(seed, count, &mut out),
        "streams" => streams::stream_list(seed, count, &mut out),
        "sheets" => streams::sheet_list(seed, count, &mut out),
        _ => {
            eprintln!("oracle: no list named {name}");
            std::process::exit(2);
        }
    }
    out.flush().expect("the list is written");
}
