//! Graphs, and the calls that draw them.
use crate::border::{self, Expansion};
use crate::item::TreeItem;
use crate::print_config::{OutputKind, PrintConfig};
use crate::style::Style;
use std::borrow::Cow;
use std::fmt::Display;
use std::io::{self, Write};

/// The mark that `cargo tree` puts after a node that was expanded before.
pub const REPEATED_MARK: &str = " (*)";

/// A node of a graph, by its place among those that were added.
#[derive(Clone, Copy, Debug, Default, PartialEq, Eq, PartialOrd, Ord, Hash)]
pub struct NodeIndex(usize);

impl NodeIndex {
    /// Returns the node that was added after `index` others.
    pub fn new(index: usize) -> NodeIndex {
        NodeIndex(index)
    }

    /// Returns how many nodes were added before it.
    pub fn index(self) -> usize {
        self.0
    }
}

/// A directed graph whose nodes have weights. Edges may be parallel, and lead from a node to itself.
#[derive(Clone, Debug)]
pub struct Graph<N> {
    weights: Vec<N>,
    edges: Vec<(NodeIndex, NodeIndex)>,
    // The places of the edges that leave each node, oldest first.
    leaving: Vec<Vec<usize>>,
}

impl<N> Default for Graph<N> {
    fn default() -> Graph<N> {
        Graph::new()
    }
}

impl<N> Graph<N> {
    /// Starts a graph without nodes.
    pub fn new() -> Graph<N> {
        Graph {
            weights: Vec::new(),
            edges: Vec::new(),
            leaving: Vec::new(),
        }
    }

    /// Adds a node, and returns its index.
    pub fn add_node(&mut self, weight: N) -> NodeIndex {
        self.weights.push(weight);
        self.leaving.push(Vec::new());
        NodeIndex(self.weights.len() - 1)
    }

    /// Adds an edge from `a` to `b`.
    ///
    /// # Panics
    ///
    /// If an end is not a node of this graph.
    pub fn add_edge(&mut self, a: NodeIndex, b: NodeIndex) {
        assert!(
            a.0.max(b.0) < self.weights.len(),
            "an end of an edge is not a node"
        );
        self.leaving[a.0].push(self.edges.len());
        self.edges.push((a, b));
    }

    /// Adds edges in turn.
    ///
    /// # Panics
    ///
    /// If an end is not a node of this graph.
    pub fn extend_with_edges(&mut self, edges: &[(NodeIndex, NodeIndex)]) {
        for &(a, b) in edges {
            self.add_edge(a, b);
        }
    }

    /// Returns a node's weight.
    pub fn node_weight(&self, a: NodeIndex) -> Option<&N> {
        self.weights.get(a.0)
    }

    /// Returns the nodes to which edges lead from `a`, newest edge first: one node as often as there are edges to it.
    pub fn neighbors(&self, a: NodeIndex) -> impl Iterator<Item = NodeIndex> + '_ {
        let leaving = self.leaving.get(a.0).map_or(&[][..], |places| places);
        leaving.iter().rev().map(|&place| self.edges[place].1)
    }

    /// Reverses all edges, so that what leads to a node is drawn below it.
    pub fn reverse(&mut self) {
        let edges = std::mem::take(&mut self.edges);
        self.leaving.iter_mut().for_each(Vec::clear);
        for (a, b) in edges {
            self.add_edge(b, a);
        }
    }
}

impl<N: Clone + Display> TreeItem for (&Graph<N>, NodeIndex) {
    type Child = Self;

    fn write_self<W: io::Write>(&self, f: &mut W, style: &Style) -> io::Result<()> {
        match self.0.node_weight(self.1) {
            Some(weight) => write!(f, "{}", style.paint(weight)),
            None => Ok(()),
        }
    }

    fn children(&self) -> Cow<'_, [Self]> {
        Cow::from(
            self.0
                .neighbors(self.1)
                .map(|node| (self.0, node))
                .collect::<Vec<_>>(),
        )
    }
}

/// Draws all walks from a node to standard output, under the configuration of [`PrintConfig::from_env`].
pub fn print_graph<N: Clone + Display>(graph: &Graph<N>, start: NodeIndex) -> io::Result<()> {
    let config = PrintConfig::from_env();
    let drawing = drawing(graph, start, Expansion::Walks, &config, OutputKind::Stdout)?;
    io::stdout().lock().write_all(&drawing)
}

/// Draws all walks from a node to a writer. If the graph has a cycle, only the configured depth ends the drawing.
pub fn write_graph_with<N: Clone + Display, W: Write>(
    graph: &Graph<N>,
    start: NodeIndex,
    mut f: W,
    config: &PrintConfig,
) -> io::Result<()> {
    let drawing = drawing(graph, start, Expansion::Walks, config, OutputKind::Unknown)?;
    f.write_all(&drawing)
}

/// Draws a graph from a node to a writer. What is below a node is drawn only where it comes first; elsewhere `mark` follows its label
/// instead, such as [`REPEATED_MARK`], unless nothing is below it. So a cycle ends.
pub fn write_graph_once_with<N: Clone + Display, W: Write>(
    graph: &Graph<N>,
    start: NodeIndex,
    mark: &str,
    mut f: W,
    config: &PrintConfig,
) -> io::Result<()> {
    let expansion = Expansion::Once(mark);
    let drawing = drawing(graph, start, expansion, config, OutputKind::Unknown)?;
    f.write_all(&drawing)
}

// The drawing of a graph from a node for output of a kind.
fn drawing<N: Display>(
    graph: &Graph<N>,
    start: NodeIndex,
    expansion: Expansion<'_>,
    config: &PrintConfig,
    kind: OutputKind,
) -> io::Result<Vec<u8>> {
    let mut nodes = border::Nodes::default();
    for weight in &graph.weights {
        write!(nodes.texts, "{weight}")?;
        nodes.end_node();
    }
    for &(a, b) in &graph.edges {
        nodes.add_edge(a.0, b.0);
    }
    border::draw_graph(
        &nodes,
        start.0,
        expansion,
        config,
        config.should_style_output(kind),
    )
}
