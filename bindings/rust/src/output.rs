//! The calls that draw.
use crate::border::Steps;
use crate::item::TreeItem;
use crate::print_config::{OutputKind, PrintConfig};
use crate::style::Style;
use std::io::{self, Write};

/// Draws to standard output, under the configuration of [`PrintConfig::from_env`].
pub fn print_tree<T: TreeItem>(item: &T) -> io::Result<()> {
    print_tree_with(item, &PrintConfig::from_env())
}

/// Draws to standard output.
pub fn print_tree_with<T: TreeItem>(item: &T, config: &PrintConfig) -> io::Result<()> {
    draw(item, io::stdout().lock(), config, OutputKind::Stdout)
}

/// Draws to a writer, under the configuration of [`PrintConfig::from_env`].
pub fn write_tree<T: TreeItem, W: Write>(item: &T, f: W) -> io::Result<()> {
    write_tree_with(item, f, &PrintConfig::from_env())
}

/// Draws an item and all below it, down to the configured depth, to a writer.
///
/// Items are asked for in the order of drawing, and written in blocks. If an item returns an error, the items before it have been written.
/// Memory holds one block, or the text and the entry of an item that is longer, and what the items on the way to the current one need.
/// The stack grows with the levels.
pub fn write_tree_with<T: TreeItem, W: Write>(
    item: &T,
    f: W,
    config: &PrintConfig,
) -> io::Result<()> {
    draw(item, f, config, OutputKind::Unknown)
}

// Draws to output of a kind.
fn draw<T: TreeItem, W: Write>(
    item: &T,
    f: W,
    config: &PrintConfig,
    kind: OutputKind,
) -> io::Result<()> {
    let is_styled = config.should_style_output(kind);
    let leaf = if is_styled {
        config.leaf.clone()
    } else {
        Style::default()
    };
    let mut steps = Steps::new(f, config, is_styled);
    let walked = walk(item, &leaf, 0, true, config.depth, &mut steps);
    match walked {
        Ok(()) => steps.draw(),
        Err(Stop::Item(error)) => steps.draw().and(Err(error)),
        Err(Stop::Drawing(error)) => Err(error),
    }
}

// Why a walk ended.
enum Stop {
    Item(io::Error),
    Drawing(io::Error),
}

// Gives an item at a level, and those below it, down to a depth.
fn walk<T: TreeItem, W: Write>(
    item: &T,
    leaf: &Style,
    level: u32,
    is_last: bool,
    depth: u32,
    steps: &mut Steps<W>,
) -> Result<(), Stop> {
    item.write_self(&mut steps.texts, leaf)
        .map_err(Stop::Item)?;
    steps.end_item(level, is_last).map_err(Stop::Drawing)?;
    if level < depth {
        let children = item.children();
        let mut rest = children.iter();
        while let Some(child) = rest.next() {
            walk(child, leaf, level + 1, rest.len() == 0, depth, steps)?;
        }
    }
    Ok(())
}
