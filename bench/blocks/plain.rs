//! Encodes or decodes a block of records again and again, over plain types, and prints how many bytes the block has
//! and what came out.

use std::env;
use std::process::exit;

enum Value {
    Int(i64),
    Text(Vec<u8>),
}

struct Record {
    key: Value,
    fields: Vec<Value>,
}

fn encode(rows: &[Record], kinds: &[u8]) -> Vec<u8> {
    let mut out = Vec::new();
    out.extend_from_slice(b"HLB1");
    out.push(kinds.len() as u8);
    out.extend_from_slice(kinds);
    out.extend_from_slice(&(rows.len() as u64).to_be_bytes());
    for row in rows {
        push(&mut out, &row.key);
        for field in &row.fields {
            push(&mut out, field);
        }
    }
    out
}

fn push(out: &mut Vec<u8>, value: &Value) {
    match value {
        Value::Int(number) => out.extend_from_slice(&number.to_be_bytes()),
        Value::Text(text) => {
            out.push(text.len() as u8);
            out.extend_from_slice(text);
        }
    }
}

fn decode(bytes: &[u8], kinds: &[u8]) -> Option<Vec<Record>> {
    let rest = bytes.strip_prefix(b"HLB1")?;
    let (count, rest) = rest.split_first()?;
    if *count as usize != kinds.len() {
        return None;
    }
    let mut rest = rest.strip_prefix(kinds)?;
    let count = number(&mut rest)?;
    let mut rows = Vec::with_capacity((count as usize).min(rest.len()));
    for _ in 0..count {
        let key = value(&mut rest, kinds[0])?;
        let mut fields = Vec::with_capacity(kinds.len() - 1);
        for kind in &kinds[1..] {
            fields.push(value(&mut rest, *kind)?);
        }
        rows.push(Record { key, fields });
    }
    if rest.is_empty() { Some(rows) } else { None }
}

fn number(rest: &mut &[u8]) -> Option<u64> {
    let (front, others) = rest.split_first_chunk::<8>()?;
    *rest = others;
    Some(u64::from_be_bytes(*front))
}

fn value(rest: &mut &[u8], kind: u8) -> Option<Value> {
    if kind == b'I' {
        return Some(Value::Int(number(rest)? as i64));
    }
    let (length, others) = rest.split_first()?;
    let (text, others) = others.split_at_checked(*length as usize)?;
    if !text.iter().all(|byte| (32..=126).contains(byte)) {
        return None;
    }
    *rest = others;
    Some(Value::Text(text.to_vec()))
}

fn block_of(texts: bool, records: u32) -> Vec<u8> {
    let mut block = Vec::new();
    block.extend_from_slice(if texts { b"HLB1\x02TI" } else { b"HLB1\x02II" });
    block.extend_from_slice(&u64::from(records).to_be_bytes());
    for number in 0..records {
        if texts {
            block.extend_from_slice(b"\x0aabcdefghij");
        } else {
            block.extend_from_slice(&u64::from(number).to_be_bytes());
        }
        block.extend_from_slice(&77u64.to_be_bytes());
    }
    block
}

fn main() {
    let words: Vec<String> = env::args().skip(1).collect();
    let [kinds, work, records, passes] = words.as_slice() else {
        exit(2);
    };
    let texts = kinds == "words";
    let kinds: &[u8] = if texts { b"TI" } else { b"II" };
    let bytes = block_of(texts, records.parse().unwrap());
    let passes: u32 = passes.parse().unwrap();
    let mut sum = 0;
    match work.as_str() {
        "encode" => {
            let rows = decode(&bytes, kinds).unwrap();
            for _ in 0..passes {
                sum += encode(&rows, kinds).len();
            }
        }
        "decode" => {
            for _ in 0..passes {
                sum += decode(&bytes, kinds).unwrap().len();
            }
        }
        _ => exit(2),
    }
    println!("{} {}", bytes.len(), sum);
}
