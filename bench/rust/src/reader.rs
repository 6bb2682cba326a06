//! Reads a drawing in one pass.
//!
//! A line that is no further line of the last item is a child of it or an item's next sibling. Only
//! one item can have a next sibling: the innermost one of the last item and those above it that is
//! no last child. So each line is compared with the path once, and the piece after that decides.

use crate::pieces::{line_feed, LAST_PASS, LAST_TURN, MARKER, PASS, TURN};
use crate::tree::{Growing, Item};

/// The last item, and those below the root that it is below.
struct Path {
    // the passing pieces of those above the last item
    pieces: Vec<u8>,
    // where the piece of each begins
    starts: Vec<usize>,
    // which of them are no last child
    waiting: Vec<usize>,
    // whether the last item is a last child
    is_last: bool,
}

/// The tree of which the text is the drawing.
pub fn read(text: &str) -> Option<Item> {
    let mut tree = Growing::default();
    let mut rest = add(&mut tree, 0, text, &[], "")?;
    if rest.is_empty() {
        return tree.into_tree();
    }
    let mut path = Path {
        pieces: Vec::new(),
        starts: Vec::new(),
        waiting: Vec::new(),
        is_last: turning(rest.as_bytes())?,
    };
    rest = path.add(&mut tree, rest)?;
    while !rest.is_empty() {
        path.step(rest.as_bytes())?;
        rest = path.add(&mut tree, rest)?;
    }
    if path.is_last && path.waiting.is_empty() {
        tree.into_tree()
    } else {
        None
    }
}

impl Path {
    // Goes to the item of a line.
    #[inline]
    fn step(&mut self, line: &[u8]) -> Option<()> {
        let mut shared = self.pieces.len();
        if self.is_last {
            if let Some(&next) = self.waiting.last() {
                shared = self.starts[next];
            }
        }
        let behind = line.strip_prefix(&self.pieces[..shared])?;
        match turning(behind) {
            None => self.step_down(behind, shared),
            Some(is_last) => {
                if self.is_last {
                    self.starts.truncate(self.waiting.pop()?);
                    self.pieces.truncate(shared);
                }
                self.is_last = is_last;
                Some(())
            }
        }
    }

    // Goes to a child of the last item. The line is what is after so many bytes of the pieces.
    #[inline]
    fn step_down(&mut self, line: &[u8], shared: usize) -> Option<()> {
        let line = line.strip_prefix(&self.pieces[shared..])?;
        self.starts.push(self.pieces.len());
        if self.is_last {
            self.is_last = turning(line.strip_prefix(LAST_PASS.as_bytes())?)?;
            self.pieces.extend_from_slice(LAST_PASS.as_bytes());
        } else {
            self.is_last = turning(line.strip_prefix(PASS.as_bytes())?)?;
            self.pieces.extend_from_slice(PASS.as_bytes());
            self.waiting.push(self.starts.len() - 1);
        }
        Some(())
    }

    // The passing piece of the last item.
    #[inline]
    fn passing(&self) -> &'static str {
        if self.is_last {
            LAST_PASS
        } else {
            PASS
        }
    }

    // Adds the last item, whose line this is, and returns what is after its lines.
    #[inline]
    fn add<'a>(&self, tree: &mut Growing, line: &'a str) -> Option<&'a str> {
        let text = &line[self.pieces.len() + TURN.len()..];
        add(
            tree,
            self.starts.len() + 1,
            text,
            &self.pieces,
            self.passing(),
        )
    }
}

// Whether the turning piece is that of a last child.
#[inline]
fn turning(line: &[u8]) -> Option<bool> {
    if line.starts_with(TURN.as_bytes()) {
        Some(false)
    } else if line.starts_with(LAST_TURN.as_bytes()) {
        Some(true)
    } else {
        None
    }
}

// Adds an item whose text begins here, and returns what is after its lines.
#[inline]
fn add<'a>(
    tree: &mut Growing,
    level: usize,
    text: &'a str,
    pieces: &[u8],
    pass: &str,
) -> Option<&'a str> {
    let end = line_feed(text.as_bytes())?;
    let (first, rest) = (&text[..end], &text[end + 1..]);
    if further(rest, pieces, pass).is_some() {
        return add_lines(tree, level, first, rest, pieces, pass);
    }
    tree.add(level, first.to_string());
    Some(rest)
}

// The text of a further line: what is after the passing pieces and the marker.
#[inline]
fn further<'a>(line: &'a str, pieces: &[u8], pass: &str) -> Option<&'a str> {
    let front = pieces.len() + pass.len();
    let bytes = line.as_bytes();
    let is_further = bytes.get(front..)?.starts_with(MARKER.as_bytes())
        && bytes.starts_with(pieces)
        && bytes[pieces.len()..].starts_with(pass.as_bytes());
    is_further.then(|| &line[front + MARKER.len()..])
}

// Does what `add` does for a text of several lines: the first one, and what is after it.
#[inline(never)]
fn add_lines<'a>(
    tree: &mut Growing,
    level: usize,
    first: &str,
    rest: &'a str,
    pieces: &[u8],
    pass: &str,
) -> Option<&'a str> {
    let mut joined = first.to_string();
    let mut rest = rest;
    while let Some(line) = further(rest, pieces, pass) {
        let end = line_feed(line.as_bytes())?;
        joined.push('\n');
        joined.push_str(&line[..end]);
        rest = &line[end + 1..];
    }
    tree.add(level, joined);
    Some(rest)
}
