//! plain COUNT: the two functions of the program crate function_bench, written by hand over values that may be of
//! either kind. It runs each over so many groups, and prints how many records it emitted and the sum of their numbers.

use std::env;
use std::process;
use std::slice;

#[derive(Clone)]
enum Value {
    Int(i64),
    // These groups have no text; the variant gives a value its general size.
    #[allow(dead_code)]
    Text(Box<[u8]>),
}

// These groups have one field; the other variants give a record its general size.
#[allow(dead_code)]
enum Fields {
    None,
    One(Value),
    Many(Box<[Value]>),
}

impl Fields {
    fn as_slice(&self) -> &[Value] {
        match self {
            Fields::None => &[],
            Fields::One(value) => slice::from_ref(value),
            Fields::Many(values) => values,
        }
    }
}

struct Record {
    key: Value,
    fields: Fields,
}

/// The field lists of one key in a stream.
type Group = Vec<Fields>;

/// Adds what it emits for a key and its groups.
type Reduce = fn(&Value, &[Group], &mut Vec<Record>);

struct Case {
    key: Value,
    share: Vec<Group>,
    total: Vec<Group>,
}

#[derive(Default)]
struct Sums {
    records: u64,
    numbers: i64,
}

const KEYS: usize = 1000;

fn main() {
    let Some(count) = env::args().nth(1).and_then(|word| word.parse().ok()) else {
        process::exit(2);
    };
    let cases: Vec<Case> = (0..KEYS as i64).map(case_of).collect();
    let mut sums = Sums::default();
    run(share, &cases, |case| &case.share, count, &mut sums);
    println!("share {} {}", sums.records, sums.numbers);
    let mut sums = Sums::default();
    run(total, &cases, |case| &case.total, count, &mut sums);
    println!("total {} {}", sums.records, sums.numbers);
}

/// In the first function a rank and four links, in the second four numbers.
fn case_of(key: i64) -> Case {
    let rank = key * 7919 + 150_000;
    Case {
        key: Value::Int(key),
        share: vec![group(rank, 1), group(key, 4)],
        total: vec![group(rank, 4)],
    }
}

fn group(first: i64, count: i64) -> Group {
    (0..count)
        .map(|more| Fields::One(Value::Int(first + more)))
        .collect()
}

fn run(
    reduce: Reduce,
    cases: &[Case],
    groups: fn(&Case) -> &[Group],
    count: usize,
    sums: &mut Sums,
) {
    let mut out = Vec::new();
    for case in cases.iter().cycle().take(count) {
        reduce(&case.key, groups(case), &mut out);
        sums.add(&out);
        out.clear();
    }
}

impl Sums {
    fn add(&mut self, rows: &[Record]) {
        for row in rows {
            self.records += 1;
            self.add_value(&row.key);
            for value in row.fields.as_slice() {
                self.add_value(value);
            }
        }
    }

    fn add_value(&mut self, value: &Value) {
        if let Value::Int(n) = value {
            self.numbers = self.numbers.wrapping_add(*n);
        }
    }
}

fn share(key: &Value, groups: &[Group], out: &mut Vec<Record>) {
    let [ranks, links] = groups else {
        return;
    };
    let mut n = 0_i64;
    for _ in links {
        n = n.saturating_add(1);
    }
    emit(key.clone(), 0, out);
    for rank in ranks {
        let [Value::Int(x)] = rank.as_slice() else {
            return;
        };
        for link in links {
            let [u] = link.as_slice() else {
                return;
            };
            let part = quotient(x.saturating_mul(85), n.saturating_mul(100));
            emit(u.clone(), part, out);
        }
    }
}

fn total(key: &Value, groups: &[Group], out: &mut Vec<Record>) {
    let [numbers] = groups else {
        return;
    };
    let mut s = 150_000_i64;
    for fields in numbers {
        let [Value::Int(x)] = fields.as_slice() else {
            return;
        };
        s = s.saturating_add(*x);
    }
    emit(key.clone(), s, out);
}

fn emit(key: Value, number: i64, out: &mut Vec<Record>) {
    out.push(Record {
        key,
        fields: Fields::One(Value::Int(number)),
    });
}

fn quotient(a: i64, b: i64) -> i64 {
    if b == 0 {
        0
    } else {
        a.saturating_div(b)
    }
}
