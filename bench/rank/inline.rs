//! inline RANKS LINKS OUT: the program of run.sh as data, run round by round over records with their one field in
//! place. What a source has in every round is dealt and sorted once. Any other program of steps, sources and
//! reduces whose last reduce emits at its key would be run by the same code.

use std::cmp::Ordering;
use std::env;
use std::fs;
use std::io::{self, Write};
use std::mem;
use std::path::Path;
use std::process;
use std::slice;

/// Int comes before Text in the derived order.
#[derive(Clone, PartialEq, Eq, PartialOrd, Ord)]
enum Value {
    Int(i64),
    // These tables have no text; the variant gives a value its general size.
    #[allow(dead_code)]
    Text(Box<[u8]>),
}

// These tables have one field; the other variants give a record its general size.
#[allow(dead_code)]
#[derive(Clone)]
enum Fields {
    None,
    One(Value),
    Many(Box<[Value]>),
}

impl Fields {
    /// Fields are compared as lists, whichever variant holds them.
    fn as_slice(&self) -> &[Value] {
        match self {
            Fields::None => &[],
            Fields::One(value) => slice::from_ref(value),
            Fields::Many(values) => values,
        }
    }
}

#[derive(Clone)]
struct Record {
    key: Value,
    fields: Fields,
}

/// What a source's map emitted for one part, sorted.
type Stream = Vec<Record>;

/// The records of one key in a stream: its field lists, in order.
type Group<'a> = &'a [Record];

/// Adds what it emits for a record.
type Map = fn(&Record, &mut Vec<Record>);

/// Adds what it emits for a key and its groups, one group for each stream.
type Reduce = fn(&Value, &[Group<'_>], &mut Vec<Record>);

/// How far the group of a key is from its group in the round before. A number below 0 counts as 0.
type Distance = fn(&Value, Group<'_>, Group<'_>) -> i64;

enum Origin {
    /// The start table, and later the output of the round before.
    State,
    /// The output of the step before.
    Prev,
    /// The table of this number, from 0.
    Table(usize),
}

struct Source {
    from: Origin,
    map: Map,
}

struct Step {
    sources: Vec<Source>,
    reduce: Reduce,
}

struct Program {
    parts: usize,
    rounds: u32,
    threshold: u64,
    distance: Distance,
    start: usize,
    steps: Vec<Step>,
}

struct Outcome {
    parts: Vec<Vec<Record>>,
    rounds: u32,
    end: &'static str,
}

/// For each source of each step the streams of all parts, where they are the same in every round.
type Kept = Vec<Vec<Option<Vec<Stream>>>>;

fn main() {
    let words: Vec<String> = env::args().skip(1).collect();
    let [ranks, links, out] = &words[..] else {
        eprintln!("usage: inline RANKS LINKS OUT");
        process::exit(2);
    };
    if let Err(error) = run(Path::new(ranks), Path::new(links), Path::new(out)) {
        eprintln!("inline: {error}");
        process::exit(1);
    }
}

fn run(ranks: &Path, links: &Path, out: &Path) -> io::Result<()> {
    let tables = vec![read_table(ranks)?, read_table(links)?];
    let outcome = run_program(&rank(), tables);
    write_parts(&outcome.parts, out)?;
    println!("rounds {}", outcome.rounds);
    println!("end {}", outcome.end);
    Ok(())
}

/// Table 0 has the ranks, and table 1 the links.
fn rank() -> Program {
    let by_same = |from| Source { from, map: same };
    Program {
        parts: 1,
        rounds: 50,
        threshold: 1_400_000,
        distance: moved,
        start: 0,
        steps: vec![
            Step {
                sources: [Origin::State, Origin::Table(1)].map(by_same).into(),
                reduce: share,
            },
            Step {
                sources: [Origin::Prev].map(by_same).into(),
                reduce: total,
            },
        ],
    }
}

/// Runs rounds until one of them leaves a state close to the one before, or all rounds are spent.
fn run_program(program: &Program, mut tables: Vec<Vec<Record>>) -> Outcome {
    let kept = kept_streams(program, &tables);
    let start = mem::take(&mut tables[program.start]);
    drop(tables);
    let mut state = run_round(program, &kept, vec![start]).1;
    for round in 2..=program.rounds {
        let (before, after) = run_round(program, &kept, state);
        state = after;
        if distance(program.distance, &before, &state) < program.threshold {
            return Outcome {
                parts: state,
                rounds: round,
                end: "close",
            };
        }
    }
    Outcome {
        parts: state,
        rounds: program.rounds,
        end: "limit",
    }
}

/// A table is the same in every round, and so is what a map emits for it.
fn kept_streams(program: &Program, tables: &[Vec<Record>]) -> Kept {
    let streams = |source: &Source| match source.from {
        Origin::Table(number) => {
            let table = slice::from_ref(&tables[number]);
            Some(spill(table, source.map, program.parts))
        }
        Origin::State | Origin::Prev => None,
    };
    let steps = program.steps.iter();
    steps.map(|step| step.sources.iter().map(streams).collect()).collect()
}

/// The state that it was given, and the one that it leaves.
fn run_round(
    program: &Program,
    kept: &Kept,
    state: Vec<Vec<Record>>,
) -> (Vec<Vec<Record>>, Vec<Vec<Record>>) {
    let mut output = Vec::new();
    for (step, kept) in program.steps.iter().zip(kept) {
        output = run_step(step, program.parts, kept, &state, output);
    }
    (state, output)
}

fn run_step(
    step: &Step,
    parts: usize,
    kept: &[Option<Vec<Stream>>],
    state: &[Vec<Record>],
    before: Vec<Vec<Record>>,
) -> Vec<Vec<Record>> {
    let made: Vec<Option<Vec<Stream>>> = step
        .sources
        .iter()
        .map(|source| match source.from {
            Origin::State => Some(spill(state, source.map, parts)),
            Origin::Prev => Some(spill(&before, source.map, parts)),
            Origin::Table(_) => None,
        })
        .collect();
    drop(before);
    let spills: Vec<&[Stream]> = made
        .iter()
        .zip(kept)
        .filter_map(|(made, kept)| made.as_deref().or(kept.as_deref()))
        .collect();
    (0..parts)
        .map(|part| {
            let streams = spills.iter().map(|streams| &streams[part][..]);
            reduce_part(streams.collect(), step.reduce)
        })
        .collect()
}

/// Maps each record, and deals what is emitted to the parts: a stream for each.
fn spill(splits: &[Vec<Record>], map: Map, parts: usize) -> Vec<Stream> {
    let records: usize = splits.iter().map(Vec::len).sum();
    let mut streams: Vec<Stream> = Vec::new();
    streams.resize_with(parts, || Vec::with_capacity(records / parts));
    let mut emitted = Vec::new();
    for record in splits.iter().flatten() {
        map(record, &mut emitted);
        for record in emitted.drain(..) {
            streams[part_of(&record.key, parts)].push(record);
        }
    }
    for stream in &mut streams {
        // Equal records cannot be told apart, so an unstable sort will do.
        stream.sort_unstable_by(compare);
    }
    streams
}

fn part_of(key: &Value, parts: usize) -> usize {
    match key {
        Value::Int(number) => number.rem_euclid(parts as i64) as usize,
        Value::Text(bytes) => {
            let add = |hash: u32, &byte: &u8| hash.wrapping_mul(31).wrapping_add(byte.into());
            bytes.iter().fold(0, add) as usize % parts
        }
    }
}

fn compare(a: &Record, b: &Record) -> Ordering {
    let by_fields = || a.fields.as_slice().cmp(b.fields.as_slice());
    a.key.cmp(&b.key).then_with(by_fields)
}

/// Calls reduce for each key of any stream, keys ascending.
fn reduce_part(mut left: Vec<&[Record]>, reduce: Reduce) -> Vec<Record> {
    let mut emitted = Vec::new();
    let mut groups = Vec::with_capacity(left.len());
    while let Some(key) = least_key(&left) {
        groups.clear();
        groups.extend(left.iter_mut().map(|stream| take_group(stream, key)));
        reduce(key, &groups, &mut emitted);
    }
    emitted
}

fn least_key<'a>(left: &[&'a [Record]]) -> Option<&'a Value> {
    let first_keys = left.iter().filter_map(|stream| Some(&stream.first()?.key));
    first_keys.min()
}

/// Takes the records of a key off the front of a stream that has none below it.
fn take_group<'a>(stream: &mut &'a [Record], key: &Value) -> Group<'a> {
    let of_key = |record: &&Record| record.key == *key;
    let count = stream.iter().take_while(of_key).count();
    let (group, left) = stream.split_at(count);
    *stream = left;
    group
}

/// The sum over the keys of each part. The last reduce emits at its key, so each part is in order, and its keys
/// stand in no other part.
fn distance(distance: Distance, old: &[Vec<Record>], new: &[Vec<Record>]) -> u64 {
    let parts = old.iter().zip(new);
    let distances = parts.map(|(old, new)| part_distance(distance, old, new));
    distances.fold(0, sum)
}

fn part_distance(distance: Distance, old: &[Record], new: &[Record]) -> u64 {
    let mut left = [old, new];
    let mut total = 0;
    while let Some(key) = least_key(&left) {
        let [old, new] = left.each_mut().map(|stream| take_group(stream, key));
        total = sum(total, distance(key, old, new).max(0).unsigned_abs());
    }
    total
}

/// Sums stop at the greatest number.
fn sum(a: u64, b: u64) -> u64 {
    a.saturating_add(b).min(i64::MAX.unsigned_abs())
}

/// The map function: emits a copy of the record.
fn same(record: &Record, emitted: &mut Vec<Record>) {
    emitted.push(record.clone());
}

/// The first reduce function: of each rank, an equal share for the target of each link.
fn share(key: &Value, groups: &[Group<'_>], emitted: &mut Vec<Record>) {
    let [ranks, links] = groups else {
        return;
    };
    let mut count = 0_i64;
    for _ in *links {
        count = count.saturating_add(1);
    }
    emit(key, 0, emitted);
    for rank in *ranks {
        let [Value::Int(rank)] = rank.fields.as_slice() else {
            return;
        };
        for link in *links {
            let [target] = link.fields.as_slice() else {
                return;
            };
            let part = quotient(rank.saturating_mul(85), count.saturating_mul(100));
            emit(target, part, emitted);
        }
    }
}

/// The second reduce function: what a key has without any link, and the sum of its shares.
fn total(key: &Value, groups: &[Group<'_>], emitted: &mut Vec<Record>) {
    let [shares] = groups else {
        return;
    };
    if let Some(sum) = sum_of(shares) {
        emit(key, sum.saturating_add(150_000), emitted);
    }
}

/// The distance function: how far the sums of the ranks are apart.
fn moved(_key: &Value, old: Group<'_>, new: Group<'_>) -> i64 {
    let (Some(old), Some(new)) = (sum_of(old), sum_of(new)) else {
        return 0;
    };
    new.saturating_sub(old).saturating_abs()
}

fn sum_of(group: Group<'_>) -> Option<i64> {
    let mut sum = 0_i64;
    for record in group {
        let [Value::Int(number)] = record.fields.as_slice() else {
            return None;
        };
        sum = sum.saturating_add(*number);
    }
    Some(sum)
}

fn emit(key: &Value, number: i64, emitted: &mut Vec<Record>) {
    emitted.push(Record {
        key: key.clone(),
        fields: Fields::One(Value::Int(number)),
    });
}

/// Rounded towards 0; 0 where the divisor is 0.
fn quotient(a: i64, b: i64) -> i64 {
    if b == 0 { 0 } else { a.saturating_div(b) }
}

fn read_table(path: &Path) -> io::Result<Vec<Record>> {
    let text = fs::read(path)?;
    // One more than the line ends, as the last line may lack its own.
    let lines = text.iter().filter(|&&byte| byte == b'\n').count() + 1;
    let mut table = Vec::with_capacity(lines);
    for (index, line) in text.split_inclusive(|&byte| byte == b'\n').enumerate() {
        let line = line.strip_suffix(b"\n").unwrap_or(line);
        match parse_record(line) {
            Some(record) => table.push(record),
            None => {
                let message = format!("line {}: not two whole numbers", index + 1);
                return Err(io::Error::new(io::ErrorKind::InvalidData, message));
            }
        }
    }
    Ok(table)
}

fn parse_record(line: &[u8]) -> Option<Record> {
    let mut pieces = line.split(|&byte| byte == b'\t');
    let key = parse_int(pieces.next()?)?;
    let field = parse_int(pieces.next()?)?;
    if pieces.next().is_some() {
        return None;
    }
    Some(Record {
        key,
        fields: Fields::One(field),
    })
}

/// A number has one spelling only: `0`, or an optional `-` and digits that
/// do not begin with 0.
fn parse_int(piece: &[u8]) -> Option<Value> {
    let digits = piece.strip_prefix(b"-").unwrap_or(piece);
    let canonical = piece == b"0" || matches!(digits.first(), Some(b'1'..=b'9'));
    if !canonical {
        return None;
    }
    let number = std::str::from_utf8(piece).ok()?.parse().ok()?;
    Some(Value::Int(number))
}

fn write_parts(parts: &[Vec<Record>], out: &Path) -> io::Result<()> {
    fs::create_dir_all(out)?;
    for (number, records) in parts.iter().enumerate() {
        let mut text = Vec::new();
        for record in records {
            write_record(record, &mut text)?;
        }
        fs::write(out.join(format!("part-{number:05}")), text)?;
    }
    Ok(())
}

fn write_record(record: &Record, text: &mut Vec<u8>) -> io::Result<()> {
    write_value(&record.key, text)?;
    for field in record.fields.as_slice() {
        text.push(b'\t');
        write_value(field, text)?;
    }
    text.push(b'\n');
    Ok(())
}

fn write_value(value: &Value, text: &mut Vec<u8>) -> io::Result<()> {
    match value {
        Value::Int(number) => write!(text, "{number}"),
        Value::Text(bytes) => text.write_all(bytes),
    }
}
