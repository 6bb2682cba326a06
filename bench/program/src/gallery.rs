//! One tree in several styles, for the picture in the README.

use crate::failed;
use ptree::TreeBuilder;
use ptree::builder::AddError;
use ptree::item::StringItem;
use ptree::output::write_tree_with;
use ptree::print_config::{
    ASCII_CHARS_PLUS, IndentChars, PrintConfig, StaticIndentChars, StyleWhen, UTF_CHARS,
    UTF_CHARS_BOLD, UTF_CHARS_DOUBLE,
};
use ptree::style::{Color, Counted, Style};
use std::alloc::{AllocError, Global};
use std::io::{self, BufWriter, Write};

// The tree that is shown.
fn shown(alloc: Global) -> Result<StringItem, AddError> {
    let mut builder = TreeBuilder::new(alloc, String::from_str(alloc, "petgraph")?);
    for (level, text) in [(1, "quickcheck"), (2, "libc"), (1, "fixedbitset")] {
        builder.add_at_level(level, String::from_str(alloc, text)?)?;
    }
    Ok(builder.build()?)
}

// A set with a colour for the branches and a style for the texts.
fn config(
    alloc: Global,
    set: StaticIndentChars,
    branch: Color,
    leaf: Style,
) -> Result<PrintConfig, AllocError> {
    let mut config = PrintConfig::default(alloc)?;
    config.styled = StyleWhen::Always;
    config.indent = 4;
    config.characters = IndentChars::from_static(alloc, set)?;
    config.branch = Style::default();
    config.branch.foreground = Some(branch);
    config.leaf = leaf;
    Ok(config)
}

// Draws the tree in four sets to standard output.
pub fn draw_gallery(rt: &HostRuntime) -> io::Result<()> {
    let alloc = rt.alloc();
    let tree = shown(alloc)?;
    let mut bold = Style::default();
    bold.bold = true;
    let mut italic = Style::default();
    italic.italic = true;
    let mut green = Style::default();
    green.foreground = Some(Color::Fixed(114));
    let configs = vec![in alloc;
        config(alloc, UTF_CHARS, Color::Blue, bold)?,
        config(alloc, UTF_CHARS_BOLD, Color::Red, Style::default())?,
        config(alloc, UTF_CHARS_DOUBLE, Color::RGB(70, 130, 180), italic)?,
        config(
            alloc,
            ASCII_CHARS_PLUS,
            Color::Named(String::from_str(alloc, "SteelBlue")?),
            green
        )?,
    ]?;
    let mut out = Counted::new(BufWriter::new(alloc, io::writer(rt))?);
    for config in &configs {
        write_tree_with(alloc, &tree, &mut out, config).map_err(failed)?;
    }
    out.into_inner().flush()
}
