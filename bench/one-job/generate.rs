//! generate N SEED: writes a table of N lines KEY<TAB>FIELD<LF> to stdout,
//! the same table for the same seed.

use std::env;
use std::io::{self, BufWriter, Write};
use std::process;

/// A linear congruential generator with the constants of Knuth's MMIX.
struct Generator(u64);

impl Generator {
    fn next(&mut self) -> u64 {
        self.0 = self
            .0
            .wrapping_mul(6364136223846793005)
            .wrapping_add(1442695040888963407);
        // The low bits of such a generator repeat soon: 40 high bits are kept.
        self.0 >> 24
    }
}

fn main() {
    let numbers: Vec<u64> = env::args().skip(1).flat_map(|word| word.parse()).collect();
    let &[count, seed] = &numbers[..] else {
        eprintln!("usage: generate N SEED");
        process::exit(2);
    };
    if let Err(error) = write_table(count, seed) {
        eprintln!("generate: {error}");
        process::exit(1);
    }
}

fn write_table(count: u64, seed: u64) -> io::Result<()> {
    let mut random = Generator(seed);
    // A quarter as many keys as lines makes groups of about four.
    let keys = (count / 4).max(1);
    let mut out = BufWriter::new(io::stdout().lock());
    for _ in 0..count {
        let key = random.next() % keys;
        // Shifted down so that a quarter of the fields are negative.
        let field = random.next() as i64 - (1 << 38);
        writeln!(out, "{key}\t{field}")?;
    }
    out.flush()
}
