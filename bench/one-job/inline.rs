//! inline TABLE OUT: the same job with a record's one field in place, so that
//! no record needs a heap allocation of its own.

use std::cmp::Ordering;
use std::env;
use std::fs;
use std::io::{self, Write};
use std::path::Path;
use std::process;
use std::slice;

/// Int comes before Text in the derived order.
#[derive(Clone, PartialEq, Eq, PartialOrd, Ord)]
enum Value {
    Int(i64),
    // This table has no text; the variant gives a value its general size.
    #[allow(dead_code)]
    Text(Box<[u8]>),
}

// This table has one field; the other variants give a record its general size.
#[allow(dead_code)]
#[derive(Clone)]
enum Fields {
    None,
    One(Value),
    Many(Box<[Value]>),
}

impl Fields {
    /// Fields are compared as lists, whichever variant holds them.
    fn as_slice(&self) -> &[Value] {
        match self {
            Fields::None => &[],
            Fields::One(value) => slice::from_ref(value),
            Fields::Many(values) => values,
        }
    }
}

#[derive(Clone)]
struct Record {
    key: Value,
    fields: Fields,
}

fn main() {
    let words: Vec<String> = env::args().skip(1).collect();
    let [table, out] = &words[..] else {
        eprintln!("usage: inline TABLE OUT");
        process::exit(2);
    };
    if let Err(error) = run(Path::new(table), Path::new(out)) {
        eprintln!("inline: {error}");
        process::exit(1);
    }
}

fn run(table: &Path, out: &Path) -> io::Result<()> {
    let table = read_table(table)?;

    let mut stream = Vec::with_capacity(table.len());
    for record in &table {
        same(record, &mut stream);
    }
    drop(table);

    // Equal records cannot be told apart, so an unstable sort will do.
    stream.sort_unstable_by(compare);

    let mut emitted = Vec::new();
    for group in stream.chunk_by(|a, b| a.key == b.key) {
        least(group, &mut emitted);
    }

    write_part(&emitted, out)?;
    println!("rounds 1");
    println!("end limit");
    Ok(())
}

fn compare(a: &Record, b: &Record) -> Ordering {
    let by_fields = || a.fields.as_slice().cmp(b.fields.as_slice());
    a.key.cmp(&b.key).then_with(by_fields)
}

fn read_table(path: &Path) -> io::Result<Vec<Record>> {
    let text = fs::read(path)?;
    // One more than the line ends, as the last line may lack its own.
    let lines = text.iter().filter(|&&byte| byte == b'\n').count() + 1;
    let mut table = Vec::with_capacity(lines);
    for (index, line) in text.split_inclusive(|&byte| byte == b'\n').enumerate() {
        let line = line.strip_suffix(b"\n").unwrap_or(line);
        match parse_record(line) {
            Some(record) => table.push(record),
            None => {
                let message = format!("line {}: not two whole numbers", index + 1);
                return Err(io::Error::new(io::ErrorKind::InvalidData, message));
            }
        }
    }
    Ok(table)
}

fn parse_record(line: &[u8]) -> Option<Record> {
    let mut pieces = line.split(|&byte| byte == b'\t');
    let key = parse_int(pieces.next()?)?;
    let field = parse_int(pieces.next()?)?;
    if pieces.next().is_some() {
        return None;
    }
    Some(Record {
        key,
        fields: Fields::One(field),
    })
}

/// A number has one spelling only: `0`, or an optional `-` and digits that
/// do not begin with 0.
fn parse_int(piece: &[u8]) -> Option<Value> {
    let digits = piece.strip_prefix(b"-").unwrap_or(piece);
    let canonical = piece == b"0" || matches!(digits.first(), Some(b'1'..=b'9'));
    if !canonical {
        return None;
    }
    let number = std::str::from_utf8(piece).ok()?.parse().ok()?;
    Some(Value::Int(number))
}

/// The map function: emits a copy of the record.
fn same(record: &Record, emitted: &mut Vec<Record>) {
    emitted.push(record.clone());
}

/// The reduce function: emits the key with the least fields of its group.
/// The group is sorted, so they are those of the first record.
fn least(group: &[Record], emitted: &mut Vec<Record>) {
    emitted.push(group[0].clone());
}

fn write_part(records: &[Record], out: &Path) -> io::Result<()> {
    let mut part = Vec::new();
    for record in records {
        write_value(&record.key, &mut part)?;
        for field in record.fields.as_slice() {
            part.push(b'\t');
            write_value(field, &mut part)?;
        }
        part.push(b'\n');
    }
    fs::create_dir_all(out)?;
    fs::write(out.join("part-00000"), part)
}

fn write_value(value: &Value, part: &mut Vec<u8>) -> io::Result<()> {
    match value {
        Value::Int(number) => write!(part, "{number}"),
        Value::Text(bytes) => part.write_all(bytes),
    }
}
