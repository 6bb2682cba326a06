//! Made documents, and a configuration of all variables and a file, with the time of each step.

use crate::full::{FULL_TOML, FULL_VARIABLES};
use crate::{ROOM, buffered};
use ptree::buffered::Buffered;
use ptree::print_config::{FileSource, PrintConfig, Sources};
use ptree::style::Counted;
use ptree::value::{DocFormat, draw_document_with};
use std::alloc::{AllocError, Global};
use std::io::{self, ErrorKind};
use std::time::Instant;

// How many maps stand in one another in a part of a deep document.
const LEVELS: usize = 100;

// A part of a deep document: the front and the end of each level, and what is innermost.
const FRONT: &str = "{\"a\":1,\"b\":";

const INNERMOST: &str = "\"c\"";

const END: &str = "}";

// How many values a record has, and a part of a deep document. A number is one.
const RECORD_VALUES: u64 = 11;

const DEEP_VALUES: u64 = 201;

// The number at a place of a document of numbers, of up to ten digits.
fn number_at(i: u32) -> u64 {
    (u64::from(i) * 2_654_435_761 % 10_000_000_000) >> (i % 34)
}

// What std calls a step that failed.
fn failed<E: Drop>(_e: E) -> io::Error {
    io::Error::from(ErrorKind::Other)
}

// A list of so many parts, in JSON. A part is a record with a list, a map and a list in that, a number, or else deep.
fn document(alloc: Global, shape: &str, parts: u32) -> Result<String, AllocError> {
    let mut deep = FRONT.repeat(alloc, LEVELS)?;
    deep.push_str(INNERMOST)?;
    deep.push_str(END.repeat(alloc, LEVELS)?.as_str())?;
    let mut text = String::from_str(alloc, "[")?;
    for i in 0..parts {
        if i > 0 {
            text.push(',')?;
        }
        match shape {
            "records" => text.push_str(format!(in alloc;
                "{{\"id\":{i},\"name\":\"record {i}\",\"tags\":[\"tree\",\"text\"],\"place\":{{\"city\":\"Maribor\",\"at\":[{i},-7]}}}}"
            )?.as_str())?,
            "numbers" => text.push_str(format!(in alloc; "{}", number_at(i))?.as_str())?,
            _ => text.push_str(deep.as_str())?,
        }
    }
    text.push(']')?;
    Ok(text)
}

// How many values such a document has.
fn values(shape: &str, parts: u32) -> u64 {
    let each = match shape {
        "records" => RECORD_VALUES,
        "numbers" => 1,
        _ => DEEP_VALUES,
    };
    u64::from(parts).saturating_mul(each).saturating_add(1)
}

// Reads a document as `serde_json` does, and lets it go, so many times.
fn parse(alloc: Global, text: &str, times: u32) -> io::Result<()> {
    for _ in 0..times {
        serde_json::Value::from_str(alloc, text).map_err(failed)?;
    }
    Ok(())
}

// Draws a document down to a level to standard output, so many times.
fn draw_out(rt: &HostRuntime, text: &str, depth: u32, times: u32) -> io::Result<()> {
    let alloc = rt.alloc();
    let mut config = PrintConfig::default(alloc)?;
    config.depth = depth;
    let mut out = Buffered::with_capacity(alloc, ROOM, Counted::new(io::writer(rt)))?;
    for _ in 0..times {
        draw_document_with(alloc, DocFormat::Json, text, "j", &config, false, &mut out).map_err(
            failed,
        )?;
    }
    out.flush().map_err(failed)
}

// Draws a document down to a level into memory, and returns it with the time.
fn draw_in(
    rt: &HostRuntime,
    text: &str,
    depth: u32,
    memory: Vec<u8>,
) -> io::Result<(Vec<u8>, u128)> {
    let alloc = rt.alloc();
    let mut config = PrintConfig::default(alloc)?;
    config.depth = depth;
    let mut out = buffered(alloc, memory)?;
    let start = Instant::now(rt)?;
    draw_document_with(alloc, DocFormat::Json, text, "j", &config, false, &mut out).map_err(
        failed,
    )?;
    out.flush().map_err(failed)?;
    let drawing = start.elapsed(rt)?.as_nanos();
    Ok((out.into_inner().into_inner(), drawing))
}

// Times the reading of a document alone, the drawing of its root, for which it is read and walked over, and that of all of it.
fn time_steps(rt: &HostRuntime, text: &str, values: u64, times: u32) -> io::Result<()> {
    let alloc = rt.alloc();
    let (mut room, _) = draw_in(rt, text, u32::MAX, Vec::new(alloc))?;
    println!(rt;
        "{} bytes, {values} values, {} bytes drawn",
        text.len(),
        room.len()
    )?;
    for _ in 0..times {
        let start = Instant::now(rt)?;
        parse(alloc, text, 1)?;
        let parsing = start.elapsed(rt)?.as_nanos();
        let (root, converting) = draw_in(rt, text, 0, room)?;
        let (drawn, drawing) = draw_in(rt, text, u32::MAX, root)?;
        room = drawn;
        println!(rt;
            "parsed in {parsing} ns, the root drawn in {converting} ns, all in {drawing} ns"
        )?;
    }
    Ok(())
}

/// Times the steps of drawing a made document, or makes one of them, to be measured for its instructions and its memory.
pub fn draw_json(
    rt: &HostRuntime,
    step: &str,
    shape: &str,
    parts: u32,
    times: u32,
) -> io::Result<()> {
    let alloc = rt.alloc();
    let text = document(alloc, shape, parts)?;
    match step {
        "json-parse" => parse(alloc, text.as_str(), times),
        "json-root" => draw_out(rt, text.as_str(), 0, times),
        "json-draw" => draw_out(rt, text.as_str(), u32::MAX, times),
        _ => time_steps(rt, text.as_str(), values(shape, parts), times),
    }
}

// A file with every key and all 31 variables.
fn sources(alloc: Global) -> Result<Sources, AllocError> {
    let mut variables = Vec::new(alloc);
    for (name, value) in FULL_VARIABLES {
        variables.push((
            String::from_str(alloc, name)?,
            String::from_str(alloc, value)?,
        ))?;
    }
    Ok(Sources {
        file: FileSource::Toml(String::from_str(alloc, FULL_TOML)?),
        variables,
    })
}

/// Loads a configuration of all sources, with the time of each loading.
pub fn load_all(rt: &HostRuntime, times: u32) -> io::Result<()> {
    let alloc = rt.alloc();
    let sources = sources(alloc)?;
    let variables = sources.variables.len();
    for _ in 0..times {
        let start = Instant::now(rt)?;
        let config = PrintConfig::from_env(alloc, &sources)?;
        let loading = start.elapsed(rt)?.as_nanos();
        let depth = config.depth;
        println!(rt; "{variables} variables, loaded in {loading} ns: depth {depth}")?;
    }
    Ok(())
}
