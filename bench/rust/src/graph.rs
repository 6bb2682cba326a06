//! Draws a graph with each node expanded once, and the graphs of `bench/program/src/graphs.rs`.

use crate::pieces::{has_line_feed, LAST_PASS, LAST_TURN, PASS, TURN};
use crate::writer::{append_lines, set_end};
use std::io::{self, Write};

// What is drawn behind a node that is expanded elsewhere.
const MARK: &str = " (*)";

// How many edges go out from each node of a block, and how many nodes lie in it.
const EDGES: usize = 5;
const BLOCK: usize = 64;

// In place of the number of an edge: there is none.
const NONE: usize = usize::MAX;

struct Node {
    text: String,
    // the newest edge from the node
    newest: usize,
}

struct Edge {
    target: usize,
    // the next older edge from the same node
    next: usize,
}

/// A graph with the edges of each node in a list, the newest first.
pub struct Graph {
    nodes: Vec<Node>,
    edges: Vec<Edge>,
}

// Writes a node's own lines, marked if it is expanded elsewhere. The buffer holds the prefix, of so
// many bytes, and the turning piece after it, and does so afterwards.
#[inline(always)]
fn draw_entry<W: Write>(
    text: &str,
    is_marked: bool,
    pass: &str,
    prefix: usize,
    line: &mut Vec<u8>,
    out: &mut W,
) -> io::Result<()> {
    let front = line.len();
    if has_line_feed(text.as_bytes()) {
        append_lines(text, pass, prefix, line);
    } else {
        line.extend_from_slice(text.as_bytes());
    }
    if is_marked {
        line.extend_from_slice(MARK.as_bytes());
    }
    line.push(b'\n');
    out.write_all(line)?;
    line.truncate(front);
    Ok(())
}

impl Graph {
    // A graph without edges.
    fn of_nodes(count: usize) -> Graph {
        let node = |i| Node {
            text: format!("node {i}"),
            newest: NONE,
        };
        Graph {
            nodes: (0..count).map(node).collect(),
            edges: Vec::new(),
        }
    }

    fn add_edge(&mut self, source: usize, target: usize) {
        let next = self.nodes[source].newest;
        self.nodes[source].newest = self.edges.len();
        self.edges.push(Edge { target, next });
    }

    // Blocks of nodes, of which each leads to the next five of its block. `number` is what the node
    // at a place is numbered.
    fn add_blocks(&mut self, number: impl Fn(usize) -> usize) {
        let count = self.nodes.len();
        for i in 0..count {
            let first = i - i % BLOCK;
            if i == first && i > 0 {
                self.add_edge(number(0), number(i));
            }
            for k in 1..=EDGES {
                let within = i % BLOCK + k;
                let is_in = within < BLOCK && first + within < count;
                let target = if is_in { first + within } else { first };
                self.add_edge(number(i), number(target));
            }
        }
    }

    // Layers of two nodes, which both lead to the two of the next layer.
    fn add_layers(&mut self) {
        let count = self.nodes.len();
        for i in 0..count {
            let next = if i % 2 == 0 { i + 1 } else { i + 2 };
            for target in (next..count).take(2) {
                self.add_edge(i, target);
            }
        }
    }

    /// A graph of a shape, if there is such a shape.
    pub fn shaped(shape: &str, count: usize) -> Option<Graph> {
        let mut graph = Graph::of_nodes(count);
        match shape {
            "near" => graph.add_blocks(|i| i),
            "far" => graph.add_blocks(|i| i * 7919 % count),
            "wide" => (1..count).for_each(|i| graph.add_edge(0, i)),
            "layers" => graph.add_layers(),
            _ => return None,
        }
        Some(graph)
    }

    /// Draws the graph from its first node on.
    pub fn draw<W: Write>(&self, out: &mut W) -> io::Result<()> {
        let mut line = Vec::with_capacity(256);
        let mut expanded = vec![false; self.nodes.len()];
        let start = &self.nodes[0];
        draw_entry(&start.text, false, "", 0, &mut line, out)?;
        if start.newest == NONE {
            return Ok(());
        }
        expanded[0] = true;
        self.draw_below(start.newest, &mut expanded, &mut line, out)
    }

    // Draws a node, and what is below it if it is not expanded yet. Says whether something was drawn
    // below it.
    #[inline(always)]
    fn draw_node<W: Write>(
        &self,
        number: usize,
        pass: &str,
        prefix: usize,
        expanded: &mut [bool],
        line: &mut Vec<u8>,
        out: &mut W,
    ) -> io::Result<bool> {
        let node = &self.nodes[number];
        let is_expanded = expanded[number];
        draw_entry(&node.text, is_expanded, pass, prefix, line, out)?;
        if is_expanded || node.newest == NONE {
            return Ok(false);
        }
        expanded[number] = true;
        set_end(line, prefix, pass);
        self.draw_below(node.newest, expanded, line, out)?;
        Ok(true)
    }

    // Draws the nodes that edges lead to, from this one on, and what is below them. The buffer
    // holds their prefix, and does so afterwards.
    fn draw_below<W: Write>(
        &self,
        newest: usize,
        expanded: &mut [bool],
        line: &mut Vec<u8>,
        out: &mut W,
    ) -> io::Result<()> {
        let prefix = line.len();
        line.extend_from_slice(TURN.as_bytes());
        let mut edge = &self.edges[newest];
        while edge.next != NONE {
            if self.draw_node(edge.target, PASS, prefix, expanded, line, out)? {
                set_end(line, prefix, TURN);
            }
            edge = &self.edges[edge.next];
        }
        set_end(line, prefix, LAST_TURN);
        self.draw_node(edge.target, LAST_PASS, prefix, expanded, line, out)?;
        line.truncate(prefix);
        Ok(())
    }
}
