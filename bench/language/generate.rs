//! generate BYTES: writes the text of a program to stdout, which has nearly so many bytes, most of them functions.

use std::env;
use std::fmt::Write;
use std::process;

const HEAD: &str = "program bench;\nparts 1;\nrounds 1;\nstop exact;\ntable t \"t.tsv\" (int, int);\n";
const TAIL: &str = "begin t;\nstep { state by same; reduce least; }\n";

/// As many as a program may have.
const FUNCTIONS: usize = 64;

fn main() {
    let words: Vec<usize> = env::args().skip(1).flat_map(|word| word.parse()).collect();
    let &[bytes] = &words[..] else {
        eprintln!("usage: generate BYTES");
        process::exit(2);
    };
    let mut text = String::from(HEAD);
    for number in 0..FUNCTIONS {
        let left = bytes.saturating_sub(text.len() + TAIL.len());
        text.push_str(&function(number, left / (FUNCTIONS - number)));
    }
    text.push_str(TAIL);
    print!("{text}");
}

/// A function of at most so many bytes, but for its first and its last lines.
fn function(number: usize, bytes: usize) -> String {
    let mut text = format!("\n# the links of a key, number {number}\nreduce share_{number}(k: int; r: (int), l: (int, text)) -> (int, int) {{\n");
    text.push_str("  let n = 0;\n  for (t, name) in l { set n = add(n, 1); }\n  emit(k, 0);\n");
    for line in 0.. {
        let mut next = String::new();
        let _ = writeln!(
            next,
            "  for (x) in r {{\n    if (lt(x, {})) {{ emit(k, div(mul(x, 85), mul(n, {}))); }} else {{ emit(k, len(\"a \\\"text\\\"\")); }}\n  }}",
            number * 7 + line,
            line + 100
        );
        if text.len() + next.len() > bytes {
            break;
        }
        text.push_str(&next);
    }
    text.push_str("}\n");
    text
}
