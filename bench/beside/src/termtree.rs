//! Draws a tree with the crate `termtree`.

mod report;
mod shapes;

use std::io::{ErrorKind, Write};
use termtree::Tree;

fn main() -> std::io::Result<()> {
    let (shape, items, times) = report::words().ok_or(ErrorKind::InvalidInput)?;
    let rows = shapes::shaped(&shape, items);
    let count = rows.len();
    let tree = shapes::nested(rows, Tree::new).ok_or(ErrorKind::InvalidInput)?;
    report::report(count, times, |out| draw(&tree, out), |out| draw(&tree, out), |out| draw(&tree, out));
    Ok(())
}

fn draw<W: Write>(tree: &Tree<String>, out: &mut W) {
    write!(out, "{tree}").expect("a drawing");
}
