//! The trees that are measured: the same as in `bench/program`.

use crate::tree::{Growing, Item};

/// A tree of a shape, of about so many items.
pub fn shaped(shape: &str, items: u32) -> Option<Item> {
    let mut tree = Growing::default();
    tree.add(0, "root".to_string());
    match shape {
        "wide" => below_root(&mut tree, items, |i| format!("item {i}")),
        "short" => below_root(&mut tree, items, |i| (i % 1_000_000).to_string()),
        "digits" => below_root(&mut tree, items, |i| (i % 10).to_string()),
        "long" => below_root(&mut tree, items, |i| format!("{i:040}")),
        "notes" => below_root(&mut tree, items, |i| format!("item {i}\n").repeat(10)),
        "chain" => chain(&mut tree, items),
        "binary" => pairs(&mut tree, 1, items.ilog2() as usize),
        "random" => random(&mut tree, items),
        _ => return None,
    }
    tree.into_tree()
}

// All items below the root.
fn below_root(tree: &mut Growing, items: u32, text: impl Fn(u32) -> String) {
    for i in 1..items {
        tree.add(1, text(i));
    }
}

// Each item below the one before it.
fn chain(tree: &mut Growing, items: u32) {
    for i in 1..items {
        tree.add(i as usize, format!("item {i}"));
    }
}

// Two items at a level, and two below each of them, down to the last level.
fn pairs(tree: &mut Growing, level: usize, levels: usize) {
    if level > levels {
        return;
    }
    for _ in 0..2 {
        tree.add(level, format!("item {}", levels - level + 1));
        pairs(tree, level + 1, levels);
    }
}

// An item goes below the one before it in 11 of 13 cases, and else below any item that is open.
fn random(tree: &mut Growing, items: u32) {
    let mut draw: u32 = 0x9e37_79b9;
    let mut level = 0;
    for i in 1..items {
        draw ^= draw << 13;
        draw ^= draw >> 17;
        draw ^= draw << 5;
        if draw % 13 >= 11 {
            level = draw / 13 % level.max(1);
        }
        level += 1;
        tree.add(level as usize, format!("item {i}"));
    }
}
