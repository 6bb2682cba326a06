//! Reads documents with Rust's `serde_json`, and draws them by a hand-written walk, to compare the
//! library with: `ptree_bench_json TASK SHAPE PARTS TIMES`.
//!
//! The tasks are `json`, `json-parse` and `json-draw` of `bench/program`, with the same documents
//! and the same lines; `json-root` is left out, since the walk needs no step before the drawing.

mod walk;

use serde_json::Value;
use std::fs::File;
use std::io::{self, BufWriter, ErrorKind, Write};
use std::os::fd::AsFd;
use std::time::Instant;

// How many maps stand in one another in a part of a deep document.
const LEVELS: usize = 100;

// The number at a place of a document of numbers, of up to ten digits.
fn number_at(i: u32) -> u64 {
    (u64::from(i) * 2_654_435_761 % 10_000_000_000) >> (i % 34)
}

// A list of so many parts. A part is a record with a list, a map and a list in that, a number, or
// else deep.
fn document(shape: &str, parts: u32) -> String {
    let deep = "{\"a\":1,\"b\":".repeat(LEVELS) + "\"c\"" + &"}".repeat(LEVELS);
    let mut text = String::from("[");
    for i in 0..parts {
        if i > 0 {
            text.push(',');
        }
        match shape {
            "records" => text.push_str(&format!(
                "{{\"id\":{i},\"name\":\"record {i}\",\"tags\":[\"tree\",\"text\"],\"place\":{{\"city\":\"Maribor\",\"at\":[{i},-7]}}}}"
            )),
            "numbers" => text.push_str(&number_at(i).to_string()),
            _ => text.push_str(&deep),
        }
    }
    text.push(']');
    text
}

// Standard output without the search for line feeds that Rust's own has.
fn output() -> io::Result<BufWriter<File>> {
    let out = io::stdout().as_fd().try_clone_to_owned()?;
    Ok(BufWriter::new(File::from(out)))
}

// Draws a document to standard output, so many times.
fn draw_out(text: &str, times: u32) -> io::Result<()> {
    let mut out = output()?;
    for _ in 0..times {
        let value: Value = serde_json::from_str(text)?;
        walk::draw("j", &value, &mut out)?;
    }
    out.flush()
}

// Times the reading of a document alone, and its drawing into memory that is there already.
fn time_steps(text: &str, times: u32) -> io::Result<()> {
    let mut room = Vec::new();
    walk::draw("j", &serde_json::from_str(text)?, &mut room)?;
    println!("{} bytes, {} bytes drawn", text.len(), room.len());
    for _ in 0..times {
        let start = Instant::now();
        drop(serde_json::from_str::<Value>(text)?);
        let parsing = start.elapsed().as_nanos();
        room.clear();
        let start = Instant::now();
        walk::draw("j", &serde_json::from_str(text)?, &mut room)?;
        let drawing = start.elapsed().as_nanos();
        println!("parsed in {parsing} ns, all in {drawing} ns");
    }
    Ok(())
}

fn main() -> io::Result<()> {
    let words: Vec<String> = std::env::args().skip(1).collect();
    let word = |place: usize| words.get(place).map_or("", |word| word.as_str());
    let number = |place: usize| word(place).parse().map_err(|_| ErrorKind::InvalidInput);
    let text = document(word(1), number(2)?);
    let times = number(3)?;
    match word(0) {
        "json-parse" => {
            for _ in 0..times {
                drop(serde_json::from_str::<Value>(&text)?);
            }
            Ok(())
        }
        "json-draw" => draw_out(&text, times),
        "json" => time_steps(&text, times),
        _ => Err(ErrorKind::InvalidInput.into()),
    }
}
