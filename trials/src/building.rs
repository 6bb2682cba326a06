//! Tests a builder of many levels.

use crate::expect::expect_text;
use crate::fixtures::trees::{leaf, over};
use ptree::TreeBuilder;
use ptree::item::StringItem;
use ptree::print_config::PrintConfig;
use ptree::read::read_tree;
use std::alloc::{AllocError, Global};
use std::test::Fail;

const ITEMS: usize = 200;

// A chain of items under a root, built from the root down.
fn built(alloc: Global) -> Result<StringItem, AllocError> {
    let mut builder = TreeBuilder::new(alloc, String::from_str(alloc, "x")?);
    for _ in 0..ITEMS {
        builder.begin_child(String::from_str(alloc, "x")?)?;
    }
    builder.build()
}

// The same, made from the last item up.
fn made(alloc: Global) -> Result<StringItem, AllocError> {
    let mut chain = leaf(alloc, "x")?;
    for _ in 0..ITEMS {
        chain = over(alloc, "x", vec![in alloc; chain]?)?;
    }
    Ok(chain)
}

// Its drawing.
fn drawing(alloc: Global) -> Result<String, AllocError> {
    let mut lines = String::from_str(alloc, "x\n")?;
    for level in 0..ITEMS {
        lines.push_str("   ".repeat(alloc, level)?.as_str())?;
        lines.push_str("└─ x\n")?;
    }
    Ok(lines)
}

#[test]
fn a_chain_is_built_drawn_and_read_back(rt: HostRuntime) -> Result<(), Fail> {
    let alloc = rt.alloc();
    let config = PrintConfig::default(alloc)?;
    let (chain, text) = (built(alloc)?, drawing(alloc)?);
    assert!(rt; chain == made(alloc)?);
    expect_text(chain.drawing(alloc, &config)?.as_str(), text.as_str())?;
    assert!(rt; read_tree(alloc, text.as_str(), &config)? == Some(chain));
    Ok(())
}
