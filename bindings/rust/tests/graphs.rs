//! Draws graphs. Expected drawings are those of the crate `ptree` 0.5.2 and of `cargo tree`, or were worked out by hand.
mod common;

use common::{red, wide, CRATES};
use ptree::graph::{write_graph_once_with, write_graph_with, Graph, NodeIndex, REPEATED_MARK};
use ptree::print_config::StyleWhen;
use ptree::style::Style;
use ptree::{write_tree_with, PrintConfig};
use std::io::{ErrorKind, Write};

fn walks(graph: &Graph<&str>, start: NodeIndex, config: &PrintConfig) -> String {
    let mut out = Vec::new();
    write_graph_with(graph, start, &mut out, config).expect("a drawing");
    String::from_utf8(out).expect("UTF-8")
}

fn once(graph: &Graph<&str>, start: NodeIndex, mark: &str, config: &PrintConfig) -> String {
    let mut out = Vec::new();
    write_graph_once_with(graph, start, mark, &mut out, config).expect("a drawing");
    String::from_utf8(out).expect("UTF-8")
}

// The graph of these labels and edges.
fn graph_of(labels: &[&'static str], edges: &[(usize, usize)]) -> Graph<&'static str> {
    let mut graph = Graph::new();
    for label in labels {
        graph.add_node(*label);
    }
    for &(a, b) in edges {
        graph.add_edge(NodeIndex::new(a), NodeIndex::new(b));
    }
    graph
}

fn modules() -> Graph<&'static str> {
    graph_of(
        &["app", "parser", "lexer"],
        &[(2, 1), (1, 2), (0, 2), (0, 1)],
    )
}

#[test]
fn all_walks_are_drawn() {
    let mut deps = Graph::new();
    let pg = deps.add_node("petgraph");
    let fb = deps.add_node("fixedbitset");
    let qc = deps.add_node("quickcheck");
    let rand = deps.add_node("rand");
    let libc = deps.add_node("libc");
    deps.extend_with_edges(&[(pg, fb), (pg, qc), (qc, rand), (rand, libc), (qc, libc)]);
    assert_eq!(walks(&deps, pg, &wide()), CRATES);
    assert_eq!(deps.neighbors(qc).collect::<Vec<_>>(), [libc, rand]);
    assert_eq!(
        (deps.node_weight(rand), deps.node_weight(NodeIndex::new(5))),
        (Some(&"rand"), None)
    );
    // the same as an item
    let mut out = Vec::new();
    write_tree_with(&(&deps, pg), &mut out, &wide()).expect("a drawing");
    assert_eq!(String::from_utf8_lossy(&out), CRATES);
}

#[test]
fn a_depth_ends_the_walks_of_a_cycle() {
    let config = PrintConfig { depth: 3, ..wide() };
    let ring = graph_of(&["a", "b"], &[(0, 1), (1, 0)]);
    let want = "a\n└── b\n    └── a\n        └── b\n";
    assert_eq!(walks(&ring, NodeIndex::new(0), &config), want);
}

#[test]
fn each_node_is_expanded_once() {
    let graph = modules();
    let want = "app\n├─ parser\n│  └─ lexer\n│     └─ parser (*)\n└─ lexer (*)\n";
    assert_eq!(
        once(
            &graph,
            NodeIndex::new(0),
            REPEATED_MARK,
            &PrintConfig::default()
        ),
        want
    );
    assert_eq!(
        once(&graph, NodeIndex::new(0), "", &PrintConfig::default()),
        want.replace(REPEATED_MARK, "")
    );
    let to_itself = graph_of(&["a"], &[(0, 0), (0, 0)]);
    assert_eq!(
        once(&to_itself, NodeIndex::new(0), "!", &PrintConfig::default()),
        "a\n├─ a!\n└─ a!\n"
    );
}

#[test]
fn a_reversed_graph_shows_what_leads_to_a_node() {
    let mut graph = modules();
    graph.reverse();
    let want = "parser\n├─ app\n└─ lexer\n   ├─ app\n   └─ parser (*)\n";
    assert_eq!(
        once(
            &graph,
            NodeIndex::new(1),
            REPEATED_MARK,
            &PrintConfig::default()
        ),
        want
    );
    assert_eq!(
        graph.neighbors(NodeIndex::new(2)).collect::<Vec<_>>(),
        [NodeIndex::new(0), NodeIndex::new(1)]
    );
}

#[test]
fn labels_are_painted() {
    let leaf = red();
    let config = PrintConfig {
        styled: StyleWhen::Always,
        leaf,
        branch: Style::default(),
        ..PrintConfig::default()
    };
    let graph = graph_of(&["a", "b\nc"], &[(0, 1)]);
    let want = "\x1b[31ma\x1b[0m\n└─ \x1b[31mb\n   : c\x1b[0m\n";
    assert_eq!(walks(&graph, NodeIndex::new(0), &config), want);
    assert_eq!(
        walks(
            &graph,
            NodeIndex::new(0),
            &PrintConfig {
                styled: StyleWhen::Tty,
                ..config
            }
        ),
        "a\n└─ b\n   : c\n"
    );
}

#[test]
fn a_node_that_is_none_is_an_empty_line() {
    assert_eq!(walks(&modules(), NodeIndex::new(7), &wide()), "\n");
    assert_eq!(once(&Graph::new(), NodeIndex::new(0), "!", &wide()), "\n");
}

#[test]
#[should_panic(expected = "an end of an edge is not a node")]
fn an_edge_to_no_node_panics() {
    graph_of(&["a"], &[(0, 1)]);
}

/// A writer that takes no byte.
struct Closed;

impl Write for Closed {
    fn write(&mut self, _bytes: &[u8]) -> std::io::Result<usize> {
        Err(ErrorKind::BrokenPipe.into())
    }

    fn flush(&mut self) -> std::io::Result<()> {
        Ok(())
    }
}

#[test]
fn errors_of_writers_are_returned() {
    let error = write_graph_with(
        &modules(),
        NodeIndex::new(2),
        Closed,
        &PrintConfig { depth: 2, ..wide() },
    )
    .expect_err("an error");
    assert_eq!(error.kind(), ErrorKind::BrokenPipe);
    let error = write_graph_once_with(&modules(), NodeIndex::new(2), "", Closed, &wide())
        .expect_err("an error");
    assert_eq!(error.kind(), ErrorKind::BrokenPipe);
}
