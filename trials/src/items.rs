//! Tests items of one's own: one without children, which are asked for their children, and bytes
//! that are no text.

use crate::expect::{draw_to, expect_text};
use ptree::item::{Children, MadeItem, Shaped, Text, TreeItem};
use ptree::output::{print_tree, tree_bytes, tree_text};
use ptree::print_config::{FileSource, PrintConfig, Sources};
use ptree::style::{Counted, DrawError, Sink, Style, put_all};
use std::alloc::{AllocError, Global};
use std::str;
use std::test::Fail;

// An item of one text.
#[derive(Drop)]
struct Custom;

impl Shaped for Custom {
    ghost use Rattle.std.specs.Prelude.{[], codes};
    ghost use Rattle.ptree.specs.Shape.{unfolded_shape};
    ghost use Rattle.ptree.specs.Style.{painted_text};

    ghost shape = { unfolded_shape (λ _ s. painted_text s (codes "My custom tree")) (λ _. []) };
}

impl TreeItem for Custom {
    type Child = Custom;

    fn write_self<W: Sink>(&self, _: Global, f: &mut W, style: &Style) -> Result<(), DrawError> {
        style.write_painted(f, "My custom tree")
    }

    fn children(&self, alloc: Global) -> Result<Children<'_, Custom>, AllocError> {
        Ok(Children::Made(Vec::new(alloc)))
    }
}

#[test]
fn an_item_of_ones_own_is_printed(rt: HostRuntime) -> Result<(), Fail> {
    let alloc = rt.alloc();
    let sources = Sources {
        file: FileSource::Absent,
        variables: Vec::new(alloc),
    };
    let mut out = Counted::new(Vec::new(alloc));
    print_tree(alloc, &Custom, &mut out, false, &sources)?;
    expect_text(str::from_utf8(&out.into_inner())?, "My custom tree\n")
}

// An item that runs out of memory when it is asked for its children and has none.
#[derive(Drop)]
struct Barren {
    text: String,
    below: Vec<Barren>,
}

impl MadeItem for Barren {
    ghost use Rattle.std.specs.Prelude.{string_bytes};
    ghost use Rattle.tests.specs.declared.items.Barren.{Barren, out-Barren};

    ghost Seen = { Barren };

    ghost seen = { λ b. b };

    ghost text_of = { λ b. string_bytes (out-Barren b).text };

    ghost below_of = { λ b. (out-Barren b).below.items };

    fn text(&self, _alloc: Global) -> Result<Text<'_>, AllocError> {
        Ok(Text::Lent(self.text.as_str()))
    }

    fn below(&self, _alloc: Global) -> Result<Children<'_, Barren>, AllocError> {
        if self.below.is_empty() {
            return Err(AllocError);
        }
        Ok(Children::Lent(self.below.as_slice()))
    }
}

// Expects that drawing to this depth writes the text, and whether it succeeds. If it does not, an
// item could not allocate its children.
fn expect_drawn_to(
    alloc: Global,
    item: &Barren,
    depth: u32,
    text: &str,
    succeeds: bool,
) -> Result<(), Fail> {
    let mut out = Counted::new(Vec::new(alloc));
    let right = match draw_to(alloc, item, depth, &mut out) {
        Ok(()) => succeeds,
        Err(DrawError::Memory) => !succeeds,
        Err(_) => false,
    };
    if !right {
        return Err(Fail::new(format_args!("depth {depth}")));
    }
    expect_text(str::from_utf8(&out.into_inner())?, text)
}

#[test]
fn children_not_asked_at_depth(rt: HostRuntime) -> Result<(), Fail> {
    let alloc = rt.alloc();
    let barren = Barren {
        text: String::from_str(alloc, "a")?,
        below: Vec::new(alloc),
    };
    expect_drawn_to(alloc, &barren, 0, "a\n", true)?;
    expect_drawn_to(alloc, &barren, 1, "a\n", false)?;
    let tree = Barren {
        text: String::from_str(alloc, "r")?,
        below: vec![in alloc; barren]?,
    };
    expect_drawn_to(alloc, &tree, 1, "r\n└── a\n", true)?;
    expect_drawn_to(alloc, &tree, 2, "r\n└── a\n", false)
}

// An item that writes a byte that no UTF-8 has.
#[derive(Drop)]
struct Raw;

impl Shaped for Raw {
    ghost use Rattle.std.specs.Prelude.{[], ◌∷◌};
    ghost use Rattle.ptree.specs.Shape.{unfolded_shape};

    ghost shape = { unfolded_shape (λ _ _. 255 ∷ []) (λ _. []) };
}

impl TreeItem for Raw {
    type Child = Raw;

    fn write_self<W: Sink>(&self, _: Global, f: &mut W, _: &Style) -> Result<(), DrawError> {
        put_all(f, b"\xff")
    }

    fn children(&self, alloc: Global) -> Result<Children<'_, Raw>, AllocError> {
        Ok(Children::Made(Vec::new(alloc)))
    }
}

#[test]
fn bytes_that_are_no_text_are_drawn(rt: HostRuntime) -> Result<(), Fail> {
    let alloc = rt.alloc();
    let config = PrintConfig::default(alloc)?;
    assert!(rt; tree_text(alloc, &Raw, &config)?.is_none());
    assert!(rt; tree_bytes(alloc, &Raw, &config)?.as_slice() == b"\xff\n".as_slice());
    Ok(())
}
