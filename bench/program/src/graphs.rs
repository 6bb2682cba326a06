//! Graphs, drawn as walks and with each node expanded once, beside the same trees as items.

use crate::{ROOM, buffered, failed};
use ptree::buffered::Buffered;
use ptree::graph::{Graph, NodeIndex, Place, REPEATED_MARK, write_graph_once_with, write_graph_with};
use ptree::item::StringItem;
use ptree::output::write_tree_with;
use ptree::print_config::PrintConfig;
use ptree::read::{pieces_readable, read_tree};
use ptree::style::{Counted, DrawError, Sink};
use std::alloc::{AllocError, Global};
use std::io;
use std::str;
use std::time::Instant;

// How many edges go out from each node but the first.
const EDGES: u32 = 5;

// How many go out from the first, where the drawing starts.
const FIRST_EDGES: u32 = 2;

// The greatest level that is drawn: there are 976,563 walks.
const DEPTH: u32 = 9;

// Edges, by their ends.
type Edges = Vec<(NodeIndex, NodeIndex)>;

// A graph of so many nodes.
fn graph(alloc: Global, nodes: u32) -> Result<Graph<String>, AllocError> {
    let mut graph = Graph::new(alloc);
    for i in 0..nodes {
        graph.add_node(format!(in alloc; "node {i}")?)?;
    }
    Ok(graph)
}

// Where the edge of number `k` from node `i` goes, modulo the number of nodes. The neighbours of a node lie near it, or far
// apart.
fn target(neighbors: &str, i: u32, k: u32) -> u32 {
    match neighbors {
        "near" => i.wrapping_add(k).wrapping_add(1),
        _ => i.wrapping_mul(7919).wrapping_add(k.wrapping_mul(104_729)),
    }
}

// The edges of such a graph.
fn edges(alloc: Global, neighbors: &str, nodes: u32) -> Result<Edges, AllocError> {
    let mut edges = Vec::new(alloc);
    for i in 0..nodes {
        let count = if i == 0 { FIRST_EDGES } else { EDGES };
        for k in 0..count {
            let target = target(neighbors, i, k) % nodes.max(1);
            edges.push((NodeIndex(i as usize), NodeIndex(target as usize)))?;
        }
    }
    Ok(edges)
}

// Draws a graph with each node expanded once.
fn write_once<W: Sink>(
    alloc: Global,
    graph: &Graph<String>,
    out: &mut W,
    config: &PrintConfig,
) -> Result<(), DrawError> {
    write_graph_once_with(alloc, graph, NodeIndex(0), REPEATED_MARK, out, config)
}

// What is drawn into memory: all walks of a graph, a graph with each node expanded once, or a tree.
#[derive(Clone, Copy)]
enum Drawn<'a> {
    Walks(&'a Graph<String>),
    Once(&'a Graph<String>),
    Items(&'a StringItem),
}

// Draws into memory. Returns what that took, in nanoseconds, and the memory.
fn drawing(
    rt: &HostRuntime,
    drawn: Drawn<'_>,
    memory: Vec<u8>,
    config: &PrintConfig,
) -> io::Result<(u128, Vec<u8>)> {
    let alloc = rt.alloc();
    let mut out = buffered(alloc, memory)?;
    let start = Instant::now(rt)?;
    let ended = match drawn {
        Drawn::Walks(graph) => write_graph_with(alloc, graph, NodeIndex(0), &mut out, config),
        Drawn::Once(graph) => write_once(alloc, graph, &mut out, config),
        Drawn::Items(tree) => write_tree_with(alloc, tree, &mut out, config),
    };
    ended.map_err(failed)?;
    out.flush().map_err(failed)?;
    Ok((start.elapsed(rt)?.as_nanos(), out.into_inner().into_inner()))
}

// The tree of a drawing, if it can be read.
fn tree_of_drawing(alloc: Global, drawn: &[u8], config: &PrintConfig) -> io::Result<Option<StringItem>> {
    let Ok(text) = str::from_utf8(drawn) else {
        return Ok(None);
    };
    if !pieces_readable(alloc, config)? {
        return Ok(None);
    }
    Ok(read_tree(alloc, text, config)?)
}

/// Times the making of a graph, its drawing, and the drawing of the same tree as items. The neighbours are `near`, or else far.
pub fn draw_graph(rt: &HostRuntime, neighbors: &str, nodes: u32, times: u32) -> io::Result<()> {
    let alloc = rt.alloc();
    let mut config = PrintConfig::default(alloc)?;
    config.depth = DEPTH;
    let mut graph = graph(alloc, nodes)?;
    let edges = edges(alloc, neighbors, nodes)?;
    let start = Instant::now(rt)?;
    let made = graph.extend_with_edges(&edges).is_ok();
    let making = start.elapsed(rt)?.as_nanos();
    let count = edges.len();
    println!(rt; "{count} edges, added in {making} ns: {made}")?;
    let mut out = Counted::new(Vec::new(alloc));
    write_graph_with(alloc, &graph, NodeIndex(0), &mut out, &config).map_err(failed)?;
    let mut drawn = out.into_inner();
    let Some(tree) = tree_of_drawing(alloc, &drawn, &config)? else {
        return Ok(());
    };
    for _ in 0..times {
        let (walks, memory) = drawing(rt, Drawn::Walks(&graph), drawn, &config)?;
        let (items, memory) = drawing(rt, Drawn::Items(&tree), memory, &config)?;
        drawn = memory;
        println!(rt; "walks drawn in {walks} ns, items in {items} ns")?;
    }
    Ok(())
}

// How many nodes lie in a block of the graph that is drawn with each node expanded once. All edges but those of the first node stay in
// their block.
const BLOCK: u32 = 64;

// The number that node `i` gets: its own, or one far from those of the nodes that are drawn beside it.
fn place(neighbors: &str, i: u32, nodes: u32) -> NodeIndex {
    let number = match neighbors {
        "far" => u64::from(i) * 7919 % u64::from(nodes.max(1)),
        _ => u64::from(i),
    };
    NodeIndex(number as usize)
}

// The edges of blocks: from the first node to the first of each block, and from each node to the next five of its block. Where a block
// ends, they go back to its first node.
fn block_edges(alloc: Global, neighbors: &str, nodes: u32) -> Result<Edges, AllocError> {
    let mut edges = Vec::new(alloc);
    for i in 0..nodes {
        let first = i - i % BLOCK;
        if i == first && i > 0 {
            edges.push((place(neighbors, 0, nodes), place(neighbors, i, nodes)))?;
        }
        for k in 0..EDGES {
            let within = i % BLOCK + k + 1;
            let target = if within < BLOCK && first.saturating_add(within) < nodes {
                first.saturating_add(within)
            } else {
                first
            };
            edges.push((place(neighbors, i, nodes), place(neighbors, target, nodes)))?;
        }
    }
    Ok(edges)
}

// The edges of layers: from the first node to the two of the first layer, and from each node of a layer to both of the next one.
fn layer_edges(alloc: Global, nodes: u32) -> Result<Edges, AllocError> {
    let mut edges = Vec::new(alloc);
    for i in 0..nodes {
        let next = if i % 2 == 0 { i.saturating_add(1) } else { i.saturating_add(2) };
        for target in [next, next.saturating_add(1)] {
            if target < nodes {
                edges.push((NodeIndex(i as usize), NodeIndex(target as usize)))?;
            }
        }
    }
    Ok(edges)
}

// The edges from the first node to all others.
fn wide_edges(alloc: Global, nodes: u32) -> Result<Edges, AllocError> {
    let mut edges = Vec::new(alloc);
    for i in 1..nodes {
        edges.push((NodeIndex(0), NodeIndex(i as usize)))?;
    }
    Ok(edges)
}

// The edges of a chain.
fn chain_edges(alloc: Global, nodes: u32) -> Result<Edges, AllocError> {
    let mut edges = Vec::new(alloc);
    for i in 1..nodes {
        edges.push((NodeIndex(i as usize - 1), NodeIndex(i as usize)))?;
    }
    Ok(edges)
}

// A graph that is drawn with each node expanded once: of blocks whose nodes are `near` one another or `far` apart, of `layers`,
// `wide`, or a `chain`.
fn once_graph(alloc: Global, shape: &str, nodes: u32) -> Result<Graph<String>, AllocError> {
    let mut graph = graph(alloc, nodes)?;
    let edges = match shape {
        "layers" => layer_edges(alloc, nodes)?,
        "wide" => wide_edges(alloc, nodes)?,
        "chain" => chain_edges(alloc, nodes)?,
        _ => block_edges(alloc, shape, nodes)?,
    };
    match graph.extend_with_edges(&edges) {
        Ok(()) => Ok(graph),
        Err(_) => Err(AllocError),
    }
}

// The tree that is drawn of a graph with each node expanded once.
fn once_tree(
    alloc: Global,
    graph: &Graph<String>,
    config: &PrintConfig,
) -> io::Result<Option<StringItem>> {
    let mut out = Counted::new(Vec::new(alloc));
    write_once(alloc, graph, &mut out, config).map_err(failed)?;
    let drawn = out.into_inner();
    tree_of_drawing(alloc, &drawn, config)
}

// How many places are right below each place.
fn child_counts(
    alloc: Global,
    graph: &Graph<String>,
    places: &[Place],
) -> Result<Vec<usize>, AllocError> {
    let mut counts = Vec::new(alloc);
    for place in places {
        let count = if place.below() > 0 {
            graph.neighbors(place.node)?.len()
        } else {
            0
        };
        counts.push(count)?;
    }
    Ok(counts)
}

// A place as an item without children, with room for so many.
fn place_item(
    alloc: Global,
    graph: &Graph<String>,
    place: Place,
    count: usize,
) -> Result<StringItem, AllocError> {
    let label = graph.node_weight(place.node).map_or("", |label| label.as_str());
    let mark = if place.is_repeated() { REPEATED_MARK } else { "" };
    Ok(StringItem {
        text: format!(in alloc; "{label}{mark}")?,
        children: Vec::with_capacity(alloc, count)?,
    })
}

// The items of places, without their children. They are made in the order of the nodes' numbers, as the nodes were.
fn numbered_items(
    alloc: Global,
    graph: &Graph<String>,
    places: &[Place],
    counts: &[usize],
) -> Result<Vec<Option<StringItem>>, AllocError> {
    let mut order = Vec::new(alloc);
    let mut items = Vec::new(alloc);
    for (i, place) in places.iter().enumerate() {
        order.push((place.node.0, i))?;
        items.push(None)?;
    }
    order.sort()?;
    for (_, i) in &order {
        if let (Some(place), Some(count), Some(item)) = (places.get(*i), counts.get(*i), items.get_mut(*i)) {
            *item = Some(place_item(alloc, graph, *place, *count)?);
        }
    }
    Ok(items)
}

// The tree that is drawn of a graph with each node expanded once, where its texts and its lists of children lie in memory in the order
// of the nodes' numbers, as the graph's do.
fn numbered_tree(alloc: Global, graph: &Graph<String>) -> Result<Option<StringItem>, AllocError> {
    let places = graph.expanded_once(NodeIndex(0), u32::MAX)?.places;
    let counts = child_counts(alloc, graph, &places)?;
    let mut items = numbered_items(alloc, graph, &places, &counts)?;
    let mut done: Vec<StringItem> = Vec::new(alloc);
    // From the last place to the first: the trees that were done last are those below it, the first of them at the end.
    for _ in 0..places.len() {
        let Some(Some(mut item)) = items.pop() else {
            break;
        };
        let count = counts.get(items.len()).copied().unwrap_or(0);
        for _ in 0..count {
            if let Some(child) = done.pop() {
                item.children.push(child)?;
            }
        }
        done.push(item)?;
    }
    Ok(done.pop())
}

// How long a copy of a tree takes, in nanoseconds: each item is made again.
fn copying(rt: &HostRuntime, tree: &StringItem) -> io::Result<u128> {
    let start = Instant::now(rt)?;
    let copy = tree.clone()?;
    let copying = start.elapsed(rt)?.as_nanos();
    drop(copy);
    Ok(copying)
}

/// Times the drawing of a graph with each node expanded once, the drawing of the same tree as items, laid out in the order of the drawing
/// and in that of the nodes, and its copying.
pub fn time_once(rt: &HostRuntime, shape: &str, nodes: u32, times: u32) -> io::Result<()> {
    let alloc = rt.alloc();
    let config = PrintConfig::default(alloc)?;
    let graph = once_graph(alloc, shape, nodes)?;
    let Some(tree) = once_tree(alloc, &graph, &config)? else {
        return Ok(());
    };
    let Some(numbered) = numbered_tree(alloc, &graph)? else {
        return Ok(());
    };
    if numbered != tree {
        return Ok(());
    }
    let places = graph.expanded_once(NodeIndex(0), u32::MAX)?.places.len();
    println!(rt; "{places} places")?;
    let mut drawn = Vec::new(alloc);
    for _ in 0..times {
        let (once, memory) = drawing(rt, Drawn::Once(&graph), drawn, &config)?;
        let (items, memory) = drawing(rt, Drawn::Items(&tree), memory, &config)?;
        let (alike, memory) = drawing(rt, Drawn::Items(&numbered), memory, &config)?;
        drawn = memory;
        let start = Instant::now(rt)?;
        let made = graph.expanded_once(NodeIndex(0), u32::MAX)?;
        let making = start.elapsed(rt)?.as_nanos();
        let made = made.places.len();
        let copying = copying(rt, &tree)?;
        println!(rt; "places drawn in {once} ns, items in {items} ns, in the nodes' order in {alike} ns, {made} places made in {making} ns, items copied in {copying} ns")?;
    }
    Ok(())
}

/// Only makes the places, draws them to standard output, or draws the same tree as items: `once-make`, `once-draw` and `once-items`.
pub fn count_once(rt: &HostRuntime, task: &str, shape: &str, nodes: u32, times: u32) -> io::Result<()> {
    let alloc = rt.alloc();
    let config = PrintConfig::default(alloc)?;
    let graph = once_graph(alloc, shape, nodes)?;
    let mut out = Buffered::with_capacity(alloc, ROOM, Counted::new(io::writer(rt)))?;
    if task == "once-items" {
        if let Some(tree) = once_tree(alloc, &graph, &config)? {
            for _ in 0..times {
                write_tree_with(alloc, &tree, &mut out, &config).map_err(failed)?;
            }
        }
        return out.flush().map_err(failed);
    }
    for _ in 0..times {
        if task == "once-make" {
            graph.expanded_once(NodeIndex(0), u32::MAX)?;
        } else {
            write_once(alloc, &graph, &mut out, &config).map_err(failed)?;
        }
    }
    out.flush().map_err(failed)
}
