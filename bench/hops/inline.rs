//! inline START LINKS OUT: the program of run.sh as data, run round by round
//! over records with their one field in place. Any other program of steps,
//! sources and reduces would be run by the same code.

use std::cmp::Ordering;
use std::env;
use std::fs;
use std::io::{self, Write};
use std::mem;
use std::path::Path;
use std::process;
use std::slice;

/// Int comes before Text in the derived order.
#[derive(Clone, PartialEq, Eq, PartialOrd, Ord)]
enum Value {
    Int(i64),
    // These tables have no text; the variant gives a value its general size.
    #[allow(dead_code)]
    Text(Box<[u8]>),
}

// These tables have one field; the other variants give a record its general size.
#[allow(dead_code)]
#[derive(Clone)]
enum Fields {
    None,
    One(Value),
    Many(Box<[Value]>),
}

impl Fields {
    /// Fields are compared as lists, whichever variant holds them.
    fn as_slice(&self) -> &[Value] {
        match self {
            Fields::None => &[],
            Fields::One(value) => slice::from_ref(value),
            Fields::Many(values) => values,
        }
    }
}

#[derive(Clone)]
struct Record {
    key: Value,
    fields: Fields,
}

/// What a source's map emitted for one part, sorted.
type Stream = Vec<Record>;

/// The records of one key in a stream: its field lists, in order.
type Group<'a> = &'a [Record];

/// Adds what it emits for a record.
type Map = fn(&Record, &mut Vec<Record>);

/// Adds what it emits for a key and its groups, one group for each stream.
type Reduce = fn(&Value, &[Group<'_>], &mut Vec<Record>);

enum Origin {
    /// The start table, and later the output of the round before.
    State,
    /// The output of the step before.
    Prev,
    /// The table of this number, from 0.
    Table(usize),
}

struct Source {
    from: Origin,
    map: Map,
}

struct Step {
    sources: Vec<Source>,
    reduce: Reduce,
}

struct Program {
    parts: usize,
    rounds: u32,
    start: usize,
    steps: Vec<Step>,
}

struct Outcome {
    parts: Vec<Vec<Record>>,
    rounds: u32,
    end: &'static str,
}

fn main() {
    let words: Vec<String> = env::args().skip(1).collect();
    let [start, links, out] = &words[..] else {
        eprintln!("usage: inline START LINKS OUT");
        process::exit(2);
    };
    if let Err(error) = run(Path::new(start), Path::new(links), Path::new(out)) {
        eprintln!("inline: {error}");
        process::exit(1);
    }
}

fn run(start: &Path, links: &Path, out: &Path) -> io::Result<()> {
    let tables = [read_table(start)?, read_table(links)?];
    let outcome = run_program(&hops(), &tables);
    write_parts(&outcome.parts, out)?;
    println!("rounds {}", outcome.rounds);
    println!("end {}", outcome.end);
    Ok(())
}

/// Table 0 is the start, and table 1 has the links.
fn hops() -> Program {
    let by_same = |from| Source { from, map: same };
    let sources = |from: [Origin; 2]| from.map(by_same).into();
    Program {
        parts: 2,
        rounds: 100,
        start: 0,
        steps: vec![
            Step {
                sources: sources([Origin::State, Origin::Table(1)]),
                reduce: hop,
            },
            Step {
                sources: sources([Origin::Prev, Origin::Table(0)]),
                reduce: least,
            },
        ],
    }
}

/// Runs rounds until two of them leave the same state, or all rounds are spent.
fn run_program(program: &Program, tables: &[Vec<Record>]) -> Outcome {
    let mut state = run_round(program, tables, slice::from_ref(&tables[program.start]));
    for round in 2..=program.rounds {
        let before = mem::take(&mut state);
        state = run_round(program, tables, &before);
        if is_same_state(&before, &state) {
            return Outcome {
                parts: state,
                rounds: round,
                end: "fixpoint",
            };
        }
    }
    Outcome {
        parts: state,
        rounds: program.rounds,
        end: "limit",
    }
}

fn run_round(program: &Program, tables: &[Vec<Record>], state: &[Vec<Record>]) -> Vec<Vec<Record>> {
    let mut output = Vec::new();
    for step in &program.steps {
        output = run_step(step, program.parts, tables, state, output);
    }
    output
}

fn run_step(
    step: &Step,
    parts: usize,
    tables: &[Vec<Record>],
    state: &[Vec<Record>],
    before: Vec<Vec<Record>>,
) -> Vec<Vec<Record>> {
    let mut streams_of_parts: Vec<Vec<Stream>> = vec![Vec::new(); parts];
    for source in &step.sources {
        let splits = match source.from {
            Origin::State => state,
            Origin::Prev => &before,
            Origin::Table(number) => slice::from_ref(&tables[number]),
        };
        let spilled = spill(splits, source.map, parts);
        for (streams, stream) in streams_of_parts.iter_mut().zip(spilled) {
            streams.push(stream);
        }
    }
    drop(before);
    // The streams of a part are dropped before the next part is reduced.
    streams_of_parts
        .into_iter()
        .map(|streams| reduce_part(&streams, step.reduce))
        .collect()
}

/// Maps each record, and deals what is emitted to the parts: a stream for each.
fn spill(splits: &[Vec<Record>], map: Map, parts: usize) -> Vec<Stream> {
    let records: usize = splits.iter().map(Vec::len).sum();
    let mut streams: Vec<Stream> = Vec::new();
    streams.resize_with(parts, || Vec::with_capacity(records / parts));
    let mut emitted = Vec::new();
    for record in splits.iter().flatten() {
        map(record, &mut emitted);
        for record in emitted.drain(..) {
            streams[part_of(&record.key, parts)].push(record);
        }
    }
    for stream in &mut streams {
        // Equal records cannot be told apart, so an unstable sort will do.
        stream.sort_unstable_by(compare);
    }
    streams
}

fn part_of(key: &Value, parts: usize) -> usize {
    match key {
        Value::Int(number) => number.rem_euclid(parts as i64) as usize,
        Value::Text(bytes) => {
            let add = |hash: u32, &byte: &u8| hash.wrapping_mul(31).wrapping_add(byte.into());
            bytes.iter().fold(0, add) as usize % parts
        }
    }
}

fn compare(a: &Record, b: &Record) -> Ordering {
    let by_fields = || compare_fields(a, b);
    a.key.cmp(&b.key).then_with(by_fields)
}

fn compare_fields(a: &Record, b: &Record) -> Ordering {
    a.fields.as_slice().cmp(b.fields.as_slice())
}

/// Calls reduce for each key of any stream, keys ascending.
fn reduce_part(streams: &[Stream], reduce: Reduce) -> Vec<Record> {
    let mut emitted = Vec::new();
    let mut left: Vec<&[Record]> = streams.iter().map(Vec::as_slice).collect();
    let mut groups = Vec::with_capacity(left.len());
    while let Some(key) = least_key(&left) {
        groups.clear();
        groups.extend(left.iter_mut().map(|stream| take_group(stream, key)));
        reduce(key, &groups, &mut emitted);
    }
    emitted
}

fn least_key<'a>(left: &[&'a [Record]]) -> Option<&'a Value> {
    let first_keys = left.iter().filter_map(|stream| Some(&stream.first()?.key));
    first_keys.min()
}

/// Takes the records of a key off the front of a stream that has none below it.
fn take_group<'a>(stream: &mut &'a [Record], key: &Value) -> Group<'a> {
    let of_key = |record: &&Record| record.key == *key;
    let count = stream.iter().take_while(of_key).count();
    let (group, left) = stream.split_at(count);
    *stream = left;
    group
}

/// Whether each key has the same field lists in both, in whatever order.
fn is_same_state(old: &[Vec<Record>], new: &[Vec<Record>]) -> bool {
    let (old, new) = (sorted(old), sorted(new));
    old.len() == new.len() && old.iter().zip(&new).all(|(a, b)| compare(a, b).is_eq())
}

fn sorted(parts: &[Vec<Record>]) -> Vec<&Record> {
    let mut records: Vec<&Record> = parts.iter().flatten().collect();
    // Each part is mostly in order already, which the stable sort makes use of.
    records.sort_by(|a, b| compare(a, b));
    records
}

/// The map function: emits a copy of the record.
fn same(record: &Record, emitted: &mut Vec<Record>) {
    emitted.push(record.clone());
}

/// The reduce function that emits the key with the least fields of all groups.
/// Groups are sorted, so those of each group are in its first record.
fn least(_key: &Value, groups: &[Group<'_>], emitted: &mut Vec<Record>) {
    let first_records = groups.iter().filter_map(|group| group.first());
    if let Some(record) = first_records.min_by(|a, b| compare_fields(a, b)) {
        emitted.push(record.clone());
    }
}

/// The reduce function of two streams that emits, for each number of the first
/// group and each field of the second, that field as a key with the next number.
fn hop(_key: &Value, groups: &[Group<'_>], emitted: &mut Vec<Record>) {
    let [distances, targets] = groups else {
        return;
    };
    for distance in *distances {
        let [Value::Int(number)] = distance.fields.as_slice() else {
            continue;
        };
        let next = Value::Int(number.saturating_add(1));
        for target in *targets {
            if let Some(key) = target.fields.as_slice().first() {
                emitted.push(Record {
                    key: key.clone(),
                    fields: Fields::One(next.clone()),
                });
            }
        }
    }
}

fn read_table(path: &Path) -> io::Result<Vec<Record>> {
    let text = fs::read(path)?;
    // One more than the line ends, as the last line may lack its own.
    let lines = text.iter().filter(|&&byte| byte == b'\n').count() + 1;
    let mut table = Vec::with_capacity(lines);
    for (index, line) in text.split_inclusive(|&byte| byte == b'\n').enumerate() {
        let line = line.strip_suffix(b"\n").unwrap_or(line);
        match parse_record(line) {
            Some(record) => table.push(record),
            None => {
                let message = format!("line {}: not two whole numbers", index + 1);
                return Err(io::Error::new(io::ErrorKind::InvalidData, message));
            }
        }
    }
    Ok(table)
}

fn parse_record(line: &[u8]) -> Option<Record> {
    let mut pieces = line.split(|&byte| byte == b'\t');
    let key = parse_int(pieces.next()?)?;
    let field = parse_int(pieces.next()?)?;
    if pieces.next().is_some() {
        return None;
    }
    Some(Record {
        key,
        fields: Fields::One(field),
    })
}

/// A number has one spelling only: `0`, or an optional `-` and digits that
/// do not begin with 0.
fn parse_int(piece: &[u8]) -> Option<Value> {
    let digits = piece.strip_prefix(b"-").unwrap_or(piece);
    let canonical = piece == b"0" || matches!(digits.first(), Some(b'1'..=b'9'));
    if !canonical {
        return None;
    }
    let number = std::str::from_utf8(piece).ok()?.parse().ok()?;
    Some(Value::Int(number))
}

fn write_parts(parts: &[Vec<Record>], out: &Path) -> io::Result<()> {
    fs::create_dir_all(out)?;
    for (number, records) in parts.iter().enumerate() {
        let mut text = Vec::new();
        for record in records {
            write_record(record, &mut text)?;
        }
        fs::write(out.join(format!("part-{number:05}")), text)?;
    }
    Ok(())
}

fn write_record(record: &Record, text: &mut Vec<u8>) -> io::Result<()> {
    write_value(&record.key, text)?;
    for field in record.fields.as_slice() {
        text.push(b'\t');
        write_value(field, text)?;
    }
    text.push(b'\n');
    Ok(())
}

fn write_value(value: &Value, text: &mut Vec<u8>) -> io::Result<()> {
    match value {
        Value::Int(number) => write!(text, "{number}"),
        Value::Text(bytes) => text.write_all(bytes),
    }
}
