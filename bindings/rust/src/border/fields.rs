//! Configurations as the library takes and gives them: numbers, and places in one text.
use super::calls::{CharactersFields, ColorFields, ConfigFields, Part, StyleFields};
use super::text_of;
use crate::print_config::{IndentChars, PrintConfig, StyleWhen};
use crate::style::{Color, Style};
use std::io;

/// The fields of a configuration and their texts, with another style of leaves.
pub(super) fn fields_for(
    config: &PrintConfig,
    is_styled: bool,
    leaf: &Style,
) -> (ConfigFields, Vec<u8>) {
    let mut names = Vec::new();
    let characters = &config.characters;
    let fields = ConfigFields {
        depth: config.depth,
        styled: u32::from(is_styled),
        indent: config.indent,
        padding: config.padding,
        characters: CharactersFields {
            down_and_right: part_of(&mut names, &characters.down_and_right),
            down: part_of(&mut names, &characters.down),
            turn_right: part_of(&mut names, &characters.turn_right),
            right: part_of(&mut names, &characters.right),
            empty: part_of(&mut names, &characters.empty),
        },
        branch: style_fields(&mut names, &config.branch),
        leaf: style_fields(&mut names, leaf),
        continued: part_of(&mut names, &config.continued),
    };
    (fields, names)
}

/// Appends a text, and returns where it is.
pub(super) fn part_of(names: &mut Vec<u8>, text: &str) -> Part {
    let start = names.len();
    names.extend_from_slice(text.as_bytes());
    Part {
        start,
        end: names.len(),
    }
}

/// The fields of a style.
pub(super) fn style_fields(names: &mut Vec<u8>, style: &Style) -> StyleFields {
    StyleFields {
        foreground: color_fields(names, style.foreground.as_ref()),
        background: color_fields(names, style.background.as_ref()),
        bold: u8::from(style.bold),
        dimmed: u8::from(style.dimmed),
        italic: u8::from(style.italic),
        underline: u8::from(style.underline),
        blink: u8::from(style.blink),
        reverse: u8::from(style.reverse),
        hidden: u8::from(style.hidden),
        strikethrough: u8::from(style.strikethrough),
    }
}

// The fields of a colour, or of none.
fn color_fields(names: &mut Vec<u8>, color: Option<&Color>) -> ColorFields {
    let plain = |kind| ColorFields {
        kind,
        ..ColorFields::default()
    };
    match color {
        None => plain(0),
        Some(Color::Black) => plain(1),
        Some(Color::Red) => plain(2),
        Some(Color::Green) => plain(3),
        Some(Color::Yellow) => plain(4),
        Some(Color::Blue) => plain(5),
        Some(Color::Purple) => plain(6),
        Some(Color::Cyan) => plain(7),
        Some(Color::White) => plain(8),
        Some(Color::Fixed(number)) => ColorFields {
            red: *number,
            ..plain(9)
        },
        Some(Color::RGB(red, green, blue)) => ColorFields {
            red: *red,
            green: *green,
            blue: *blue,
            ..plain(10)
        },
        Some(Color::Named(name)) => ColorFields {
            name: part_of(names, name),
            ..plain(11)
        },
    }
}

/// The configuration of fields and their texts.
pub(super) fn config_of(fields: &ConfigFields, names: &[u8]) -> io::Result<PrintConfig> {
    let text = |part: Part| text_of(names.get(part.start..part.end).unwrap_or_default());
    Ok(PrintConfig {
        depth: fields.depth,
        indent: fields.indent,
        padding: fields.padding,
        styled: match fields.styled {
            0 => StyleWhen::Never,
            1 => StyleWhen::Always,
            _ => StyleWhen::Tty,
        },
        characters: IndentChars {
            down_and_right: text(fields.characters.down_and_right)?,
            down: text(fields.characters.down)?,
            turn_right: text(fields.characters.turn_right)?,
            right: text(fields.characters.right)?,
            empty: text(fields.characters.empty)?,
        },
        branch: style_of(&fields.branch, names)?,
        leaf: style_of(&fields.leaf, names)?,
        continued: text(fields.continued)?,
    })
}

// The style of fields.
fn style_of(fields: &StyleFields, names: &[u8]) -> io::Result<Style> {
    Ok(Style {
        foreground: color_of(&fields.foreground, names)?,
        background: color_of(&fields.background, names)?,
        bold: fields.bold != 0,
        dimmed: fields.dimmed != 0,
        italic: fields.italic != 0,
        underline: fields.underline != 0,
        blink: fields.blink != 0,
        reverse: fields.reverse != 0,
        hidden: fields.hidden != 0,
        strikethrough: fields.strikethrough != 0,
    })
}

// The colour of fields.
fn color_of(fields: &ColorFields, names: &[u8]) -> io::Result<Option<Color>> {
    Ok(Some(match fields.kind {
        0 => return Ok(None),
        1 => Color::Black,
        2 => Color::Red,
        3 => Color::Green,
        4 => Color::Yellow,
        5 => Color::Blue,
        6 => Color::Purple,
        7 => Color::Cyan,
        8 => Color::White,
        9 => Color::Fixed(fields.red),
        10 => Color::RGB(fields.red, fields.green, fields.blue),
        _ => Color::Named(text_of(
            names
                .get(fields.name.start..fields.name.end)
                .unwrap_or_default(),
        )?),
    }))
}
