//! The trees that are measured.

use ptree::TreeBuilder;
use std::alloc::{AllocError, Global};

/// A builder that holds a tree of a shape, of about so many items.
pub fn shaped(alloc: Global, shape: &str, items: u32) -> Result<TreeBuilder, AllocError> {
    let mut builder = TreeBuilder::new(alloc, String::from_str(alloc, "root")?);
    match shape {
        "chain" => chain(alloc, &mut builder, items)?,
        "binary" => pairs(alloc, &mut builder, items.checked_ilog2().unwrap_or(0))?,
        "random" => random(alloc, &mut builder, items)?,
        "notes" => notes(alloc, &mut builder, items)?,
        "short" => short(alloc, &mut builder, items)?,
        "digits" => digits(alloc, &mut builder, items)?,
        "long" => long(alloc, &mut builder, items)?,
        _ => wide(alloc, &mut builder, items)?,
    }
    Ok(builder)
}

// Adds an item below the current one, and makes it current.
fn begin(alloc: Global, builder: &mut TreeBuilder, i: u32) -> Result<(), AllocError> {
    begin_with(builder, format!(in alloc; "item {i}")?)
}

// The same with this text.
fn begin_with(builder: &mut TreeBuilder, text: String) -> Result<(), AllocError> {
    if builder.level() < u32::MAX {
        builder.begin_child(text)?;
    }
    Ok(())
}

// Makes the item current that stands at this level above the current one.
fn rise(builder: &mut TreeBuilder, level: u32) {
    for _ in level..builder.level() {
        if builder.level() > 0 {
            builder.end_child();
        }
    }
}

// All items below the root.
fn wide(alloc: Global, builder: &mut TreeBuilder, items: u32) -> Result<(), AllocError> {
    for i in 1..items {
        begin(alloc, builder, i)?;
        rise(builder, 0);
    }
    Ok(())
}

// All items below the root, each with a number of up to six digits.
fn short(alloc: Global, builder: &mut TreeBuilder, items: u32) -> Result<(), AllocError> {
    for i in 1..items {
        begin_with(builder, format!(in alloc; "{}", i % 1_000_000)?)?;
        rise(builder, 0);
    }
    Ok(())
}

// All items below the root, each with one digit.
fn digits(alloc: Global, builder: &mut TreeBuilder, items: u32) -> Result<(), AllocError> {
    for i in 1..items {
        begin_with(builder, format!(in alloc; "{}", i % 10)?)?;
        rise(builder, 0);
    }
    Ok(())
}

// All items below the root, each with a number of forty digits.
fn long(alloc: Global, builder: &mut TreeBuilder, items: u32) -> Result<(), AllocError> {
    for i in 1..items {
        begin_with(builder, format!(in alloc; "{i:040}")?)?;
        rise(builder, 0);
    }
    Ok(())
}

// All items below the root, each with ten line feeds.
fn notes(alloc: Global, builder: &mut TreeBuilder, items: u32) -> Result<(), AllocError> {
    for i in 1..items {
        let line = format!(in alloc; "item {i}\n")?;
        begin_with(builder, line.as_str().repeat(alloc, 10)?)?;
        rise(builder, 0);
    }
    Ok(())
}

// Each item below the one before it.
fn chain(alloc: Global, builder: &mut TreeBuilder, items: u32) -> Result<(), AllocError> {
    for i in 1..items {
        begin(alloc, builder, i)?;
    }
    Ok(())
}

// Two items below each item, so many levels deep. Behind the nth item of the last level the next one stands as many levels above it as
// 2 divides n.
fn pairs(alloc: Global, builder: &mut TreeBuilder, depth: u32) -> Result<(), AllocError> {
    let leaves = 1u32.checked_shl(depth).unwrap_or(0);
    for leaf in 1..=leaves {
        for level in builder.level()..depth {
            begin(alloc, builder, depth - level)?;
        }
        rise(builder, depth.saturating_sub(leaf.trailing_zeros().saturating_add(1)));
    }
    Ok(())
}

// An item goes below the one before it in 11 of 13 cases, and else below any item that is open. The mean level is about 12.
fn random(alloc: Global, builder: &mut TreeBuilder, items: u32) -> Result<(), AllocError> {
    let mut draw: u32 = 0x9e37_79b9;
    for i in 1..items {
        draw ^= draw << 13;
        draw ^= draw >> 17;
        draw ^= draw << 5;
        if draw % 13 >= 11 {
            let level = builder.level().max(1);
            rise(builder, draw / 13 % level);
        }
        begin(alloc, builder, i)?;
    }
    Ok(())
}
