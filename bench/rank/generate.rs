//! generate N SEED: writes ranks.tsv and links.tsv into the current folder: the same rank for each key from 1 to
//! N, and four links from each, the same for the same seed. A line is KEY<TAB>RANK<LF> or KEY<TAB>TARGET<LF>.

use std::env;
use std::fs::File;
use std::io::{self, BufWriter, Write};
use std::process;

const LINKS_PER_KEY: u64 = 4;

/// 1, in parts per million.
const RANK: u64 = 1_000_000;

/// A linear congruential generator modulo 2 to the power of 31.
struct Generator(u64);

impl Generator {
    fn next(&mut self) -> u64 {
        let next = self.0.wrapping_mul(1103515245).wrapping_add(12345);
        self.0 = next % (1 << 31);
        self.0
    }
}

fn main() {
    let numbers: Vec<u64> = env::args().skip(1).flat_map(|word| word.parse()).collect();
    let &[keys, seed] = &numbers[..] else {
        eprintln!("usage: generate N SEED");
        process::exit(2);
    };
    if let Err(error) = write_ranks(keys).and_then(|()| write_links(keys, seed)) {
        eprintln!("generate: {error}");
        process::exit(1);
    }
}

fn write_ranks(keys: u64) -> io::Result<()> {
    let mut out = BufWriter::new(File::create("ranks.tsv")?);
    for key in 1..=keys {
        writeln!(out, "{key}\t{RANK}")?;
    }
    out.flush()
}

fn write_links(keys: u64, seed: u64) -> io::Result<()> {
    let mut random = Generator(seed);
    let mut out = BufWriter::new(File::create("links.tsv")?);
    for key in 1..=keys {
        for _ in 0..LINKS_PER_KEY {
            // The three lowest bits of such a generator repeat within eight draws.
            let target = 1 + (random.next() / 8) % keys;
            writeln!(out, "{key}\t{target}")?;
        }
    }
    out.flush()
}
