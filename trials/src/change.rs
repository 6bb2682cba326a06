//! Tests which item of a tree is at a path.
use crate::expect::expect_tree;
use crate::fixtures::trees::{Below, tree};
use ptree_trees::change;
use std::alloc::Global;
use std::test::Fail;

// Expects the item at a path of a tree in which two children are named `a`, and one `b`.
fn expect_at(alloc: Global, path: &[&str], text: &str, below: Below) -> Result<(), Fail> {
    let items: Below = &[
        (1, "a"),
        (2, "1"),
        (1, "b"),
        (2, "a"),
        (3, "2"),
        (1, "a"),
        (2, "3"),
    ];
    let root = tree(alloc, "r", items)?;
    expect_tree(
        alloc,
        change::at(&root, path).ok_or("no item")?,
        text,
        below,
    )
}

#[test]
fn at_paths(rt: HostRuntime) -> Result<(), Fail> {
    let alloc = rt.alloc();
    expect_at(alloc, &["a"], "a", &[(1, "1")])?;
    expect_at(alloc, &["b", "a"], "a", &[(1, "2")])?;
    expect_at(alloc, &["b", "a", "2"], "2", &[])
}

#[test]
fn at_no_path(rt: HostRuntime) -> Result<(), Fail> {
    let alloc = rt.alloc();
    let root = tree(alloc, "r", &[(1, "a"), (2, "1"), (1, "a"), (2, "3")])?;
    assert!(rt; change::at(&root, &[]).is_some());
    assert!(rt; change::at(&root, &["r"]).is_none());
    assert!(rt; change::at(&root, &["a", "3"]).is_none());
    assert!(rt; change::at(&root, &["a", "1", "a"]).is_none());
    Ok(())
}
