//! Draws what is of extreme size to standard output: `chain`, `items`, `children`, `line`, `lines`,
//! `characters`, `pieces` or `graph`.
#![tactic(auto)]

use ptree::graph::{Graph, NodeIndex, write_graph_with};
use ptree::item::StringItem;
use ptree::output::write_tree_with;
use ptree::print_config::PrintConfig;
use ptree::read::{pieces_readable, read_tree};
use ptree::style::Counted;
use std::alloc::{AllocError, Global};
use std::io::{self, BufWriter, ErrorKind, Write};
use std::process::ExitCode;
use std::{env, str};

// The part that a long line is made of, of 64 bytes.
const PART: &str = "0123456789abcdef0123456789abcdef0123456789abcdef0123456789abcde\u{7f}";

// An item over children.
fn over(alloc: Global, text: &str, children: Vec<StringItem>) -> Result<StringItem, AllocError> {
    Ok(StringItem {
        text: String::from_str(alloc, text)?,
        children,
    })
}

// An item over one of this text.
fn over_leaf(alloc: Global, text: &str, leaf: &str) -> Result<StringItem, AllocError> {
    let leaf = over(alloc, leaf, Vec::new(alloc))?;
    over(alloc, text, vec![in alloc; leaf]?)
}

// A root over so many items, each with this text.
fn wide(alloc: Global, items: usize, text: &str) -> Result<StringItem, AllocError> {
    let mut children = Vec::with_capacity(alloc, items)?;
    for _ in 0..items {
        children.push(over(alloc, text, Vec::new(alloc))?)?;
    }
    over(alloc, "root", children)
}

// A root over one text of so many parts.
fn long(alloc: Global, part: &str, parts: usize) -> Result<StringItem, AllocError> {
    over_leaf(alloc, "root", part.repeat(alloc, parts)?.as_str())
}

// A root over a text of all characters.
fn every_character(alloc: Global) -> Result<StringItem, AllocError> {
    let mut text = String::new(alloc);
    for code in 0..0x11_0000u32 {
        if let Some(c) = char::from_u32(code) {
            text.push(c)?;
        }
    }
    over_leaf(alloc, "root", text.as_str())
}

// A ring of so many nodes, each with an edge to the next one and to the first one.
fn ring(alloc: Global, nodes: usize) -> io::Result<Graph<u64>> {
    let mut graph = Graph::new(alloc);
    let mut edges = Vec::with_capacity(alloc, nodes.saturating_mul(2))?;
    for i in 0..nodes {
        graph.add_node(i as u64)?;
        let next = i.saturating_add(1);
        edges.push((NodeIndex(i), NodeIndex(if next < nodes { next } else { 0 })))?;
        edges.push((NodeIndex(i), NodeIndex(0)))?;
    }
    graph.extend_with_edges(&edges)?;
    Ok(graph)
}

// Draws a tree to standard output.
fn draw(rt: &HostRuntime, tree: &StringItem, config: &PrintConfig) -> io::Result<()> {
    let alloc = rt.alloc();
    let mut out = Counted::new(BufWriter::new(alloc, io::writer(rt))?);
    write_tree_with(alloc, tree, &mut out, config)?;
    out.into_inner().flush()
}

// What is drawn of a tree.
fn drawn(alloc: Global, tree: &StringItem, config: &PrintConfig) -> io::Result<Vec<u8>> {
    let mut out = Counted::new(Vec::new(alloc));
    write_tree_with(alloc, tree, &mut out, config)?;
    Ok(out.into_inner())
}

// What is read of a drawing.
fn read(alloc: Global, drawing: &[u8], config: &PrintConfig) -> io::Result<StringItem> {
    let text = str::from_utf8(drawing).map_err(|_| io::Error::from(ErrorKind::InvalidData))?;
    if !pieces_readable(alloc, config)? {
        return Err(io::Error::from(ErrorKind::InvalidInput));
    }
    let read = read_tree(alloc, text, config)?;
    read.ok_or(io::Error::from(ErrorKind::InvalidData))
}

// That what is read of a drawing has the same drawing.
fn read_back(alloc: Global, drawing: &[u8], config: &PrintConfig) -> io::Result<()> {
    let tree = read(alloc, drawing, config)?;
    let again = drawn(alloc, &tree, config)?;
    if again.as_slice() == drawing {
        Ok(())
    } else {
        Err(io::Error::from(ErrorKind::InvalidData))
    }
}

// Draws a tree into memory, reads the drawing back, and writes it to standard output.
fn draw_and_read(rt: &HostRuntime, tree: &StringItem, config: &PrintConfig) -> io::Result<()> {
    let drawing = drawn(rt.alloc(), tree, config)?;
    read_back(rt.alloc(), &drawing, config)?;
    io::writer(rt).write_all(&drawing)
}

// Draws the ring down to a level, to standard output.
fn draw_ring(rt: &HostRuntime, config: &PrintConfig) -> io::Result<()> {
    let alloc = rt.alloc();
    let graph = ring(alloc, 1_000_000)?;
    let mut out = Counted::new(BufWriter::new(alloc, io::writer(rt))?);
    write_graph_with(alloc, &graph, NodeIndex(0), &mut out, config)?;
    out.into_inner().flush()
}

// A chain of so many items.
fn chain(alloc: Global, items: usize) -> Result<StringItem, AllocError> {
    let mut chain = over(alloc, "x", Vec::new(alloc))?;
    for _ in 1..items {
        chain = over(alloc, "x", vec![in alloc; chain]?)?;
    }
    Ok(chain)
}

// Draws a tree of this name to standard output, or the ring where no tree has it.
fn draw_named(rt: &HostRuntime, name: &str, config: &mut PrintConfig) -> io::Result<()> {
    let alloc = rt.alloc();
    match name {
        "chain" => draw(rt, &chain(alloc, 30_000)?, config),
        "items" => draw(rt, &wide(alloc, 20_000_000, "item")?, config),
        "children" => draw(rt, &wide(alloc, 1_000_000, "item")?, config),
        "line" => draw(rt, &long(alloc, PART, 16_777_216)?, config),
        "lines" => draw(rt, &long(alloc, "line\n", 10_000_000)?, config),
        "characters" => draw_and_read(rt, &every_character(alloc)?, config),
        "pieces" => {
            config.indent = 1_000_000;
            draw_and_read(rt, &wide(alloc, 100, "a\nb")?, config)
        }
        _ => {
            config.depth = 20;
            draw_ring(rt, config)
        }
    }
}

// Draws what the first word names, if there is one.
fn run(rt: &HostRuntime) -> io::Result<()> {
    let mut config = PrintConfig::default(rt.alloc())?;
    match env::args(rt)?.nth(1) {
        Some(name) => draw_named(rt, name.as_str(), &mut config),
        None => Ok(()),
    }
}

fn main(rt: HostRuntime) -> ExitCode {
    match run(&rt) {
        Ok(()) => ExitCode::from(0),
        Err(_) => ExitCode::from(1),
    }
}
