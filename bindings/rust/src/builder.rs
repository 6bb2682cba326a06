//! Builds a tree item by item.
use crate::item::StringItem;

/// Builds a tree of texts item by item, in the order in which they are drawn. A new child becomes the last child of the current
/// item, which at first is the root.
#[derive(Clone, Debug)]
pub struct TreeBuilder {
    // The root, and below it each item on the way to the current one. Each lacks its last child, which is the next of them.
    open: Vec<StringItem>,
}

impl TreeBuilder {
    /// Starts a tree whose root has this text.
    pub fn new(text: String) -> TreeBuilder {
        TreeBuilder {
            open: vec![leaf(text)],
        }
    }

    /// Adds a child to the current item, and makes the new child current.
    pub fn begin_child(&mut self, text: String) -> &mut Self {
        self.open.push(leaf(text));
        self
    }

    /// Makes the current item's parent current.
    ///
    /// # Panics
    ///
    /// The current item is the root, which has no parent.
    pub fn end_child(&mut self) -> &mut Self {
        assert!(self.open.len() > 1, "the root has no parent");
        self.close();
        self
    }

    /// Adds a leaf to the current item, which stays current.
    pub fn add_empty_child(&mut self, text: String) -> &mut Self {
        self.begin_child(text).end_child()
    }

    /// Returns the tree so far. You can add more items afterwards, and build again.
    pub fn build(&mut self) -> StringItem {
        let mut copy = self.clone();
        while copy.open.len() > 1 {
            copy.close();
        }
        copy.open.swap_remove(0)
    }

    // Makes the current item the last child of the item above it.
    fn close(&mut self) {
        if let Some(item) = self.open.pop() {
            if let Some(parent) = self.open.last_mut() {
                parent.children.push(item);
            }
        }
    }
}

// An item without children.
fn leaf(text: String) -> StringItem {
    StringItem {
        text,
        children: Vec::new(),
    }
}
