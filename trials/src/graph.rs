//! Tests graphs whose labels are numbers or lent.

use crate::expect::expect_graph;
use ptree::graph::Graph;
use std::alloc::Global;
use std::test::Fail;

// Makes a graph of two labels, with an edge from the first to the second.
fn pair<N: Drop>(alloc: Global, first: N, second: N) -> Result<Graph<N>, Fail> {
    let mut graph = Graph::new(alloc);
    let first = graph.add_node(first)?;
    let second = graph.add_node(second)?;
    graph.extend_with_edges(&[(first, second)])?;
    Ok(graph)
}

#[test]
fn labels_of_each_kind_are_drawn(rt: HostRuntime) -> Result<(), Fail> {
    let alloc = rt.alloc();
    let numbers = pair(alloc, 18446744073709551615u64, 0)?;
    expect_graph(alloc, &numbers, "18446744073709551615\n└─ 0\n")?;
    expect_graph(alloc, &pair(alloc, "x", "y")?, "x\n└─ y\n")
}
