//! Draws a tree of many items, in memory, and reads it back. Prints the time of each.
//!
//! `measure COUNT SHAPE`, where SHAPE is `wide` (all items below the root) or `random` (each below any of the twenty items before it).
use ptree::item::StringItem;
use ptree::{read_tree, write_tree_with, PrintConfig, TreeBuilder};
use std::time::Instant;
use std::{env, io};

fn main() -> io::Result<()> {
    let words: Vec<String> = env::args().collect();
    let count = words
        .get(1)
        .and_then(|word| word.parse().ok())
        .unwrap_or(1_000_000);
    let is_wide = words.get(2).is_none_or(|word| word == "wide");
    let tree = tree_of(count, is_wide);
    let config = PrintConfig::default();

    let began = Instant::now();
    let mut drawing = Vec::new();
    write_tree_with(&tree, &mut drawing, &config)?;
    let drawn = began.elapsed();
    println!(
        "drawn: {} items, {} bytes, {} ns an item",
        count,
        drawing.len(),
        drawn.as_nanos() / count as u128
    );

    let text = String::from_utf8(drawing).map_err(io::Error::other)?;
    let began = Instant::now();
    let read = read_tree(&text, &config)?;
    let took = began.elapsed();
    println!("read: {} ns an item", took.as_nanos() / count as u128);
    assert!(read == tree, "what was read is another tree");
    Ok(())
}

// A tree of so many items.
fn tree_of(count: usize, is_wide: bool) -> StringItem {
    let mut builder = TreeBuilder::new("root".to_string());
    let (mut level, mut state) = (0, 1u64);
    for number in 1..count {
        state = state
            .wrapping_mul(6364136223846793005)
            .wrapping_add(1442695040888963407);
        let up = if is_wide {
            level
        } else {
            ((state >> 33) % 20) as usize % (level + 1)
        };
        for _ in 0..up {
            builder.end_child();
        }
        level = level - up + 1;
        builder.begin_child(format!("item {number}"));
    }
    builder.build()
}
