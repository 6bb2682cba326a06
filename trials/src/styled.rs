//! Tests drawings of items with styles of their own, worked out by hand from the codes of ECMA-48.
use crate::expect::{expect_text, expect_tree};
use examples::styling::drawn;
use ptree::print_config::{PrintConfig, StyleWhen};
use ptree::style::{Color, Style};
use ptree_trees::styled::StyledItem;
use std::alloc::{AllocError, Global};
use std::str;
use std::test::Fail;

// A bold red root over a leaf without a style, and one that is struck through.
fn sample(alloc: Global) -> Result<StyledItem, AllocError> {
    let mut urgent = Style::default();
    urgent.bold = true;
    urgent.foreground = Some(Color::Red);
    let mut done = Style::default();
    done.strikethrough = true;
    let mut children = Vec::new(alloc);
    children.push(StyledItem::leaf(alloc, "a", None)?)?;
    children.push(StyledItem::leaf(alloc, "b", Some(done))?)?;
    StyledItem::new(alloc, "r", Some(urgent), children)
}

// A configuration with plain branches and underlined leaves.
fn underlined(alloc: Global, styled: StyleWhen) -> Result<PrintConfig, AllocError> {
    let mut config = PrintConfig::default(alloc)?;
    config.styled = styled;
    config.branch = Style::default();
    config.leaf.underline = true;
    Ok(config)
}

// Expects that the sample has this drawing.
fn expect_styled(alloc: Global, styled: StyleWhen, wanted: &str) -> Result<(), Fail> {
    let config = underlined(alloc, styled)?;
    let bytes = drawn(alloc, &sample(alloc)?, &config)?;
    expect_text(str::from_utf8(&bytes)?, wanted)
}

#[test]
fn own_styles_stay_in_unstyled_output(rt: HostRuntime) -> Result<(), Fail> {
    let alloc = rt.alloc();
    let styled = "\x1b[1m\x1b[31mr\x1b[0m\n├─ \x1b[4ma\x1b[0m\n└─ \x1b[9mb\x1b[0m\n";
    expect_styled(alloc, StyleWhen::Always, styled)?;
    let unstyled = "\x1b[1m\x1b[31mr\x1b[0m\n├─ a\n└─ \x1b[9mb\x1b[0m\n";
    expect_styled(alloc, StyleWhen::Never, unstyled)
}

#[test]
fn plain_has_the_texts(rt: HostRuntime) -> Result<(), Fail> {
    let alloc = rt.alloc();
    expect_tree(
        alloc,
        &sample(alloc)?.plain(alloc)?,
        "r",
        &[(1, "a"), (1, "b")],
    )
}
