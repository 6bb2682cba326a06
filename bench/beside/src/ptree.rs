//! Draws a tree with the crate `ptree`: the original or the wrapper, by which of them it is compiled with.

mod report;
mod shapes;

use ptree::item::StringItem;
use ptree::{write_tree_with, PrintConfig};
use std::io::{self, ErrorKind, Write};

fn main() -> io::Result<()> {
    let (shape, items, times) = report::words().ok_or(ErrorKind::InvalidInput)?;
    let rows = shapes::shaped(&shape, items);
    let count = rows.len();
    let tree = shapes::nested(rows, |text, children| StringItem { text, children }).ok_or(ErrorKind::InvalidInput)?;
    let config = PrintConfig { indent: 4, ..PrintConfig::default() };
    report::report(count, times, |out| draw(&tree, out, &config), |out| draw(&tree, out, &config), |out| draw(&tree, out, &config));
    Ok(())
}

fn draw<W: Write>(tree: &StringItem, out: &mut W, config: &PrintConfig) {
    write_tree_with(tree, out, config).expect("a drawing");
}
