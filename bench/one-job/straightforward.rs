//! straightforward TABLE OUT: the job as one would first write it. Every
//! record holds its fields in a list of its own on the heap.

use std::env;
use std::fs::{self, File};
use std::io::{self, BufWriter, Write};
use std::path::Path;
use std::process;

/// Int comes before Text in the derived order.
#[derive(Clone, PartialEq, Eq, PartialOrd, Ord)]
enum Value {
    Int(i64),
    // This table has no text; the variant gives a value its general size.
    #[allow(dead_code)]
    Text(Vec<u8>),
}

/// The derived order is by key, then by fields.
#[derive(Clone, PartialEq, Eq, PartialOrd, Ord)]
struct Record {
    key: Value,
    fields: Vec<Value>,
}

fn main() {
    let words: Vec<String> = env::args().skip(1).collect();
    let [table, out] = &words[..] else {
        eprintln!("usage: straightforward TABLE OUT");
        process::exit(2);
    };
    if let Err(error) = run(Path::new(table), Path::new(out)) {
        eprintln!("straightforward: {error}");
        process::exit(1);
    }
}

fn run(table: &Path, out: &Path) -> io::Result<()> {
    let table = read_table(table)?;

    let mut stream = Vec::new();
    for record in &table {
        same(record, &mut stream);
    }
    drop(table);

    stream.sort();

    let mut emitted = Vec::new();
    for group in stream.chunk_by(|a, b| a.key == b.key) {
        least(group, &mut emitted);
    }

    write_part(&emitted, out)?;
    println!("rounds 1");
    println!("end limit");
    Ok(())
}

fn read_table(path: &Path) -> io::Result<Vec<Record>> {
    let text = fs::read(path)?;
    let mut table = Vec::new();
    for (index, line) in text.split_inclusive(|&byte| byte == b'\n').enumerate() {
        let line = line.strip_suffix(b"\n").unwrap_or(line);
        match parse_record(line) {
            Some(record) => table.push(record),
            None => {
                let message = format!("line {}: not two whole numbers", index + 1);
                return Err(io::Error::new(io::ErrorKind::InvalidData, message));
            }
        }
    }
    Ok(table)
}

fn parse_record(line: &[u8]) -> Option<Record> {
    let mut pieces = line.split(|&byte| byte == b'\t');
    let key = parse_int(pieces.next()?)?;
    let field = parse_int(pieces.next()?)?;
    if pieces.next().is_some() {
        return None;
    }
    Some(Record {
        key,
        fields: vec![field],
    })
}

/// A number has one spelling only: `0`, or an optional `-` and digits that
/// do not begin with 0.
fn parse_int(piece: &[u8]) -> Option<Value> {
    let digits = piece.strip_prefix(b"-").unwrap_or(piece);
    let canonical = piece == b"0" || matches!(digits.first(), Some(b'1'..=b'9'));
    if !canonical {
        return None;
    }
    let number = std::str::from_utf8(piece).ok()?.parse().ok()?;
    Some(Value::Int(number))
}

/// The map function: emits a copy of the record.
fn same(record: &Record, emitted: &mut Vec<Record>) {
    emitted.push(record.clone());
}

/// The reduce function: emits the key with the least fields of its group.
/// The group is sorted, so they are those of the first record.
fn least(group: &[Record], emitted: &mut Vec<Record>) {
    emitted.push(group[0].clone());
}

fn write_part(records: &[Record], out: &Path) -> io::Result<()> {
    fs::create_dir_all(out)?;
    let mut part = BufWriter::new(File::create(out.join("part-00000"))?);
    for record in records {
        write_value(&record.key, &mut part)?;
        for field in &record.fields {
            part.write_all(b"\t")?;
            write_value(field, &mut part)?;
        }
        part.write_all(b"\n")?;
    }
    part.flush()
}

fn write_value(value: &Value, part: &mut impl Write) -> io::Result<()> {
    match value {
        Value::Int(number) => write!(part, "{number}"),
        Value::Text(bytes) => part.write_all(bytes),
    }
}
