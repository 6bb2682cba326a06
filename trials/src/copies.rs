//! Tests copies of a colour, a style, characters and a configuration.

use ptree::print_config::{IndentChars, PrintConfig, UTF_CHARS};
use ptree::style::{Color, Style};
use std::test::Fail;

#[test]
fn a_copy_equals_its_source(rt: HostRuntime) -> Result<(), Fail> {
    let alloc = rt.alloc();
    let red = Color::Named(String::from_str(alloc, "red")?);
    assert!(rt; red.clone()? == red);
    let mut style = Style::default();
    style.bold = true;
    style.foreground = Some(Color::Red);
    style.background = Some(Color::Fixed(3));
    assert!(rt; style.clone()? == style && style != Style::default());
    let characters = IndentChars::from_static(alloc, UTF_CHARS)?;
    assert!(rt; characters.clone()? == characters);
    let config = PrintConfig::default(alloc)?;
    assert!(rt; config.clone()? == config);
    Ok(())
}
