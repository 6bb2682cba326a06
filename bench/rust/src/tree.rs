//! Trees of owned texts, and their making from items in the order of a drawing.

pub struct Item {
    pub text: String,
    pub children: Vec<Item>,
}

/// The items so far. The children of an item that is not closed follow it. When it is closed, it
/// gets them in a list of exactly their number.
#[derive(Default)]
pub struct Growing {
    items: Vec<Item>,
    // where the items are that the last one is below
    parents: Vec<usize>,
}

impl Growing {
    /// Adds an item at a level: at most one more than that of the last one.
    #[inline]
    pub fn add(&mut self, level: usize, text: String) {
        if level > self.parents.len() {
            self.parents.push(self.items.len() - 1);
        } else {
            self.close(level);
        }
        self.items.push(Item {
            text,
            children: Vec::new(),
        });
    }

    // Closes the items that no item at this level is below.
    #[inline]
    fn close(&mut self, level: usize) {
        while self.parents.len() > level {
            if let Some(parent) = self.parents.pop() {
                self.items[parent].children = self.items.split_off(parent + 1);
            }
        }
    }

    /// The tree of all items.
    pub fn into_tree(mut self) -> Option<Item> {
        self.close(0);
        self.items.pop()
    }
}
