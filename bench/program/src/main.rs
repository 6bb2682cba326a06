//! Measures the library: `ptree_bench TASK SHAPE ITEMS TIMES`. `bench/run` makes the tables of
//! `docs/FIGURES.md` of what the tasks print.
#![tactic(auto)]

mod documents;
mod full;
mod gallery;
mod graphs;
mod shapes;

use documents::{draw_json, load_all};
use gallery::draw_gallery;
use graphs::{count_once, draw_graph, time_once};
use ptree::TreeBuilder;
use ptree::buffered::Buffered;
use ptree::item::StringItem;
use ptree::output::{tree_bytes, write_tree_with};
use ptree::print_config::{PrintConfig, StyleWhen};
use ptree::read::{pieces_readable, read_tree};
use ptree::style::{Counted, DrawError};
use shapes::shaped;
use std::alloc::{AllocError, Global};
use std::io;
use std::time::Instant;
use std::{env, str};

// The size of the buffer, that of both programs.
pub const ROOM: usize = 8192;

// What is to be measured.
#[derive(Drop)]
struct Task {
    name: String,
    shape: String,
    items: u32,
    times: u32,
}

impl Task {
    // The task of the arguments. With none it is one drawing of a wide tree of four items to standard output.
    fn from_args(rt: &HostRuntime) -> io::Result<Task> {
        let alloc = rt.alloc();
        let mut words = env::args(rt)?.skip(1);
        let name = words.next().unwrap_or(String::from_str(alloc, "out")?);
        let shape = words.next().unwrap_or(String::from_str(alloc, "wide")?);
        Ok(Task {
            name,
            shape,
            items: number(words.next(), 4),
            times: number(words.next(), 1),
        })
    }
}

// A word's number.
fn number(word: Option<String>, otherwise: u32) -> u32 {
    match word {
        Some(word) => word.as_str().parse::<u32>().unwrap_or(otherwise),
        None => otherwise,
    }
}

// What std calls a drawing that failed.
pub fn failed(_e: DrawError) -> io::Error {
    io::Error::from(io::ErrorKind::Other)
}

// The default configuration, never styled, or always where the task's name ends so.
fn config(alloc: Global, name: &str) -> Result<PrintConfig, AllocError> {
    let mut config = PrintConfig::default(alloc)?;
    config.styled = StyleWhen::Never;
    if name.ends_with("styled") {
        config.styled = StyleWhen::Always;
        config.leaf.bold = true;
    }
    Ok(config)
}

// Draws to standard output, as the program does.
fn draw_out(rt: &HostRuntime, task: &Task, item: &StringItem) -> io::Result<()> {
    let alloc = rt.alloc();
    let config = config(alloc, &task.name)?;
    let mut out = Buffered::with_capacity(alloc, ROOM, Counted::new(io::writer(rt)))?;
    for _ in 0..task.times {
        write_tree_with(alloc, item, &mut out, &config).map_err(failed)?;
    }
    out.flush().map_err(failed)
}

/// Empties memory that is there already, to be drawn to through a buffer, as standard output is.
pub fn buffered(alloc: Global, mut memory: Vec<u8>) -> io::Result<Buffered<Counted<Vec<u8>>>> {
    memory.clear();
    Ok(Buffered::with_capacity(alloc, ROOM, Counted::new(memory))?)
}

// Draws into memory that is there already, again and again, and then copies the bytes likewise, with the time of each.
fn draw_in(rt: &HostRuntime, task: &Task, item: &StringItem) -> io::Result<()> {
    let alloc = rt.alloc();
    let config = config(alloc, &task.name)?;
    let mut memory = tree_bytes(alloc, item, &config)?;
    let len = memory.len();
    for _ in 0..task.times {
        let mut out = buffered(alloc, memory)?;
        let start = Instant::now(rt)?;
        write_tree_with(alloc, item, &mut out, &config).map_err(failed)?;
        out.flush().map_err(failed)?;
        let drawing = start.elapsed(rt)?.as_nanos();
        memory = out.into_inner().into_inner();
        println!(rt; "{len} bytes, drawn in {drawing} ns")?;
    }
    let mut copy = Vec::with_capacity(alloc, len)?;
    for _ in 0..task.times {
        copy.clear();
        let start = Instant::now(rt)?;
        copy.extend_from_slice(&memory)?;
        let copying = start.elapsed(rt)?.as_nanos();
        println!(rt; "copied in {copying} ns")?;
    }
    Ok(())
}

// Draws into new memory, again and again.
fn draw_new(rt: &HostRuntime, task: &Task, item: &StringItem) -> io::Result<()> {
    let config = config(rt.alloc(), &task.name)?;
    for _ in 0..task.times {
        let drawn = tree_bytes(rt.alloc(), item, &config)?;
        println!(rt; "{} bytes", drawn.len())?;
    }
    Ok(())
}

// Reads a drawing back, with the time of each reading.
fn read_back(rt: &HostRuntime, task: &Task, item: &StringItem) -> io::Result<()> {
    let alloc = rt.alloc();
    let config = config(alloc, &task.name)?;
    let drawn = tree_bytes(alloc, item, &config)?;
    let Ok(text) = str::from_utf8(&drawn) else {
        return Ok(());
    };
    let len = text.len();
    for _ in 0..task.times {
        if !pieces_readable(alloc, &config)? {
            return Ok(());
        }
        let start = Instant::now(rt)?;
        let tree = read_tree(alloc, text, &config)?;
        let reading = start.elapsed(rt)?.as_nanos();
        let read = tree.is_some();
        println!(rt; "{len} bytes, read in {reading} ns: {read}")?;
    }
    Ok(())
}

// Builds, with the time of each building.
fn build(rt: &HostRuntime, task: &Task, builder: &mut TreeBuilder) -> io::Result<()> {
    for _ in 0..task.times {
        let start = Instant::now(rt)?;
        let _item = builder.build()?;
        let building = start.elapsed(rt)?.as_nanos();
        println!(rt; "built in {building} ns")?;
    }
    Ok(())
}

// Clones a tree, to be measured for its memory.
fn clone(task: &Task, item: &StringItem) -> io::Result<()> {
    for _ in 0..task.times {
        item.clone()?;
    }
    Ok(())
}

fn main(rt: HostRuntime) -> io::Result<()> {
    let task = Task::from_args(&rt)?;
    if task.name.as_str() == "gallery" {
        return draw_gallery(&rt);
    }
    if task.name.as_str() == "env" {
        return load_all(&rt, task.times);
    }
    if task.name.starts_with("json") {
        return draw_json(
            &rt,
            task.name.as_str(),
            task.shape.as_str(),
            task.items,
            task.times,
        );
    }
    if task.name.as_str() == "graph" {
        return draw_graph(&rt, &task.shape, task.items, task.times);
    }
    if task.name.as_str() == "once" {
        return time_once(&rt, &task.shape, task.items, task.times);
    }
    if task.name.starts_with("once-") {
        return count_once(&rt, &task.name, &task.shape, task.items, task.times);
    }
    let mut builder = shaped(rt.alloc(), &task.shape, task.items)?;
    if task.name.as_str() == "build" {
        return build(&rt, &task, &mut builder);
    }
    let item = builder.build()?;
    match task.name.as_str() {
        "clone" => clone(&task, &item),
        "read" => read_back(&rt, &task, &item),
        "new" => draw_new(&rt, &task, &item),
        "out" | "out-styled" => draw_out(&rt, &task, &item),
        _ => draw_in(&rt, &task, &item),
    }
}
