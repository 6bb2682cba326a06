//! Items, which are what can be drawn.
use crate::style::Style;
use std::borrow::Cow;
use std::io;

/// An item of a tree: what is written for it, and its children.
pub trait TreeItem: Clone {
    /// The type of the children.
    type Child: TreeItem;

    /// Writes the item's own contents, without its children. `style` is the style of leaves: items that respect it paint what
    /// they write. All that it writes, taken together, must be UTF-8.
    fn write_self<W: io::Write>(&self, f: &mut W, style: &Style) -> io::Result<()>;

    /// Returns the item's children, in order. It is not called at the greatest level that is drawn.
    fn children(&self) -> Cow<'_, [Self::Child]>;
}

/// A simple concrete implementation of [`TreeItem`]: each item has a text.
#[derive(Clone, Debug, PartialEq, Eq)]
pub struct StringItem {
    /// The item's own text, which is written painted.
    pub text: String,

    /// The item's children, in order.
    pub children: Vec<StringItem>,
}

impl TreeItem for StringItem {
    type Child = StringItem;

    fn write_self<W: io::Write>(&self, f: &mut W, style: &Style) -> io::Result<()> {
        style.write_painted(f, &self.text)
    }

    fn children(&self) -> Cow<'_, [StringItem]> {
        Cow::from(&self.children[..])
    }
}
