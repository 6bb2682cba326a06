//! The tree that each program draws: the shapes of `bench/rust`.

/// The levels and texts of a tree of a shape, of about so many items, in the order of drawing. There are none of an unknown shape.
pub fn shaped(shape: &str, items: u32) -> Vec<(usize, String)> {
    match shape {
        "wide" => rows(items, |_, _| 1),
        "binary" => binary(items.ilog2() as usize),
        "random" => {
            let mut draw: u32 = 0x9e37_79b9;
            rows(items, move |_, level| random_level(&mut draw, level))
        }
        _ => Vec::new(),
    }
}

// The root, and items whose levels follow from the one before.
fn rows(items: u32, mut next: impl FnMut(u32, usize) -> usize) -> Vec<(usize, String)> {
    let mut rows = vec![(0, "root".to_string())];
    let mut level = 0;
    for i in 1..items {
        level = next(i, level);
        rows.push((level, format!("item {i}")));
    }
    rows
}

// An item goes below the one before it in 11 of 13 cases, and else below any item that is open.
fn random_level(draw: &mut u32, level: usize) -> usize {
    *draw ^= *draw << 13;
    *draw ^= *draw >> 17;
    *draw ^= *draw << 5;
    if *draw % 13 >= 11 {
        1 + (*draw / 13) as usize % level.max(1)
    } else {
        level + 1
    }
}

// Two items below each, down to the last level.
fn binary(levels: usize) -> Vec<(usize, String)> {
    let mut rows = vec![(0, "root".to_string())];
    let mut open = vec![1, 1];
    while let Some(level) = open.pop() {
        rows.push((level, format!("item {}", levels - level + 1)));
        if level < levels {
            open.extend([level + 1, level + 1]);
        }
    }
    rows
}

/// Nests items of any type: `item` makes one of its text and its children. The children are in vectors of their number.
pub fn nested<T>(rows: Vec<(usize, String)>, mut item: impl FnMut(String, Vec<T>) -> T) -> Option<T> {
    // For each level the items that are made and wait for their parent, from the last row up.
    let mut waiting: Vec<Vec<T>> = Vec::new();
    for (level, text) in rows.into_iter().rev() {
        let mut children = match waiting.len() > level + 1 {
            true => waiting.pop().unwrap_or_default(),
            false => Vec::new(),
        };
        children.reverse();
        children.shrink_to_fit();
        waiting.resize_with(waiting.len().max(level + 1), Vec::new);
        waiting[level].push(item(text, children));
    }
    waiting.pop()?.pop()
}
