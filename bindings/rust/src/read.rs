//! Reads a drawing back.
use crate::border;
use crate::item::StringItem;
use crate::print_config::PrintConfig;
use std::error::Error;
use std::{fmt, io};

/// Why a text is not a drawing.
#[derive(Clone, Copy, Debug, PartialEq, Eq)]
pub enum ReadError {
    /// This line, counted from 1, cannot continue the drawing.
    Line(usize),

    /// The text is incomplete: a sibling is missing, or the last line's line feed.
    End,
}

impl fmt::Display for ReadError {
    fn fmt(&self, f: &mut fmt::Formatter) -> fmt::Result {
        match self {
            ReadError::Line(line) => write!(f, "line {line} cannot continue the drawing"),
            ReadError::End => write!(f, "the text is incomplete"),
        }
    }
}

impl Error for ReadError {}

/// Returns the tree that [`crate::write_tree_with`] draws as this text, under the configuration without styles.
///
/// # Errors
///
/// `InvalidData` if the text is not a drawing; the inner error is a [`ReadError`]. `InvalidInput` if drawings with the pieces of
/// the configuration cannot be read back. `OutOfMemory`.
pub fn read_tree(text: &str, config: &PrintConfig) -> io::Result<StringItem> {
    let outline = border::read(text, config)?;
    // Each item waits here for its children.
    let mut open: Vec<StringItem> = Vec::new();
    for (level, text) in outline.items() {
        close_to(&mut open, level as usize);
        open.push(StringItem {
            text: text?,
            children: Vec::new(),
        });
    }
    close_to(&mut open, 1);
    open.pop()
        .ok_or_else(|| io::Error::from(io::ErrorKind::InvalidData))
}

// Makes each item from this level on the last child of the one above it.
fn close_to(open: &mut Vec<StringItem>, level: usize) {
    while open.len() > level.max(1) {
        if let (Some(item), Some(parent)) = (open.pop(), open.last_mut()) {
            parent.children.push(item);
        }
    }
}
