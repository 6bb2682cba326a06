//! Hand-written Rust that the library is compared with: `ptree_bench_rust TASK SHAPE ITEMS TIMES`.
//!
//! The tasks are `out`, `draw`, `read` and `once-draw` of `bench/program`, with the same trees and
//! graphs and the same lines, and `redraw`, which draws the tree of the drawing in standard input.

mod graph;
mod pieces;
mod reader;
mod shapes;
mod tree;
mod writer;

use graph::Graph;
use std::fs::File;
use std::io::{self, BufWriter, Error, ErrorKind, Read, Write};
use std::os::fd::AsFd;
use std::time::Instant;
use tree::Item;

// Standard output without the search for line feeds that Rust's own has.
fn output() -> io::Result<BufWriter<File>> {
    let out = io::stdout().as_fd().try_clone_to_owned()?;
    Ok(BufWriter::new(File::from(out)))
}

// Draws to standard output.
fn draw_out(tree: &Item, times: u32) -> io::Result<()> {
    let mut out = output()?;
    for _ in 0..times {
        writer::draw(tree, &mut out)?;
    }
    out.flush()
}

// Draws a graph with each node expanded once to standard output.
fn draw_graph(graph: &Graph, times: u32) -> io::Result<()> {
    let mut out = output()?;
    for _ in 0..times {
        graph.draw(&mut out)?;
    }
    out.flush()
}

// Draws into memory that is there already, with the time of each drawing.
fn draw_in(tree: &Item, times: u32) -> io::Result<()> {
    let mut room = Vec::new();
    for _ in 0..=times {
        room.clear();
        let start = Instant::now();
        writer::draw(tree, &mut room)?;
        let drawing = start.elapsed().as_nanos();
        println!("{} bytes, drawn in {drawing} ns", room.len());
    }
    Ok(())
}

// Draws into new memory, again and again.
fn draw_new(tree: &Item, times: u32) -> io::Result<()> {
    for _ in 0..times {
        let mut room = Vec::new();
        writer::draw(tree, &mut room)?;
        println!("{} bytes", room.len());
    }
    Ok(())
}

// Reads a drawing back, with the time of each reading.
fn read_back(tree: &Item, times: u32) -> io::Result<()> {
    let mut drawn = Vec::new();
    writer::draw(tree, &mut drawn)?;
    let text = String::from_utf8(drawn).map_err(|_| ErrorKind::InvalidData)?;
    for _ in 0..times {
        let start = Instant::now();
        let tree = reader::read(&text);
        let reading = start.elapsed().as_nanos();
        println!(
            "{} bytes, read in {reading} ns: {}",
            text.len(),
            tree.is_some()
        );
    }
    Ok(())
}

// Draws the tree of the drawing in standard input.
fn redraw() -> io::Result<()> {
    let mut text = String::new();
    io::stdin().read_to_string(&mut text)?;
    let tree =
        reader::read(&text).ok_or_else(|| Error::new(ErrorKind::InvalidData, "no drawing"))?;
    draw_out(&tree, 1)
}

fn main() -> io::Result<()> {
    let words: Vec<String> = std::env::args().skip(1).collect();
    let word = |place: usize| words.get(place).map_or("", |word| word.as_str());
    let number = |place: usize| word(place).parse().map_err(|_| ErrorKind::InvalidInput);
    if word(0) == "redraw" {
        return redraw();
    }
    let times = number(3)?;
    if word(0) == "once-draw" {
        let graph = Graph::shaped(word(1), number(2)? as usize).ok_or(ErrorKind::InvalidInput)?;
        return draw_graph(&graph, times);
    }
    let tree = shapes::shaped(word(1), number(2)?).ok_or(ErrorKind::InvalidInput)?;
    match word(0) {
        "out" => draw_out(&tree, times),
        "draw" => draw_in(&tree, times),
        "read" => read_back(&tree, times),
        "new" => draw_new(&tree, times),
        _ => Err(ErrorKind::InvalidInput.into()),
    }
}
