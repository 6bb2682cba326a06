//! Draws a tree. One buffer holds the prefix between the lines, and each line while it is written.

use crate::pieces::{has_line_feed, line_feed, LAST_PASS, LAST_TURN, MARKER, PASS, TURN};
use crate::tree::Item;
use std::io::{self, Write};

/// Draws a tree.
pub fn draw<W: Write>(tree: &Item, out: &mut W) -> io::Result<()> {
    let mut line = Vec::with_capacity(256);
    draw_entry(tree, "", 0, &mut line, out)?;
    draw_children(&tree.children, &mut line, out)
}

// Writes an item's own lines. The buffer holds the prefix, of so many bytes, and the turning piece
// after it, and does so afterwards. The passing piece is for further lines.
#[inline]
fn draw_entry<W: Write>(
    item: &Item,
    pass: &str,
    prefix: usize,
    line: &mut Vec<u8>,
    out: &mut W,
) -> io::Result<()> {
    let front = line.len();
    if has_line_feed(item.text.as_bytes()) {
        append_lines(&item.text, pass, prefix, line);
    } else {
        line.extend_from_slice(item.text.as_bytes());
    }
    line.push(b'\n');
    out.write_all(line)?;
    line.truncate(front);
    Ok(())
}

/// Appends a text of several lines: after each line feed stand the prefix, the passing piece and the
/// marker.
#[inline(never)]
pub fn append_lines(text: &str, pass: &str, prefix: usize, line: &mut Vec<u8>) {
    let mut rest = text.as_bytes();
    while let Some(at) = line_feed(rest) {
        line.extend_from_slice(&rest[..at + 1]);
        line.extend_from_within(..prefix);
        line.extend_from_slice(pass.as_bytes());
        line.extend_from_slice(MARKER.as_bytes());
        rest = &rest[at + 1..];
    }
    line.extend_from_slice(rest);
}

// Draws the children of an item, and what is below them. The buffer holds their prefix, and does so
// afterwards.
fn draw_children<W: Write>(items: &[Item], line: &mut Vec<u8>, out: &mut W) -> io::Result<()> {
    let Some((last, others)) = items.split_last() else {
        return Ok(());
    };
    let prefix = line.len();
    line.extend_from_slice(TURN.as_bytes());
    for item in others {
        draw_entry(item, PASS, prefix, line, out)?;
        if !item.children.is_empty() {
            set_end(line, prefix, PASS);
            draw_children(&item.children, line, out)?;
            set_end(line, prefix, TURN);
        }
    }
    set_end(line, prefix, LAST_TURN);
    draw_entry(last, LAST_PASS, prefix, line, out)?;
    set_end(line, prefix, LAST_PASS);
    draw_children(&last.children, line, out)?;
    line.truncate(prefix);
    Ok(())
}

/// Puts a piece after the prefix, in the place of what stands there.
#[inline]
pub fn set_end(line: &mut Vec<u8>, prefix: usize, piece: &str) {
    line.truncate(prefix);
    line.extend_from_slice(piece.as_bytes());
}
