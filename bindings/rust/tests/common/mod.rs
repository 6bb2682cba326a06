//! What the tests of trees and those of graphs share.
use ptree::style::Style;
use ptree::{Color, PrintConfig};

/// Pieces of four characters, and no styles.
pub fn wide() -> PrintConfig {
    PrintConfig {
        indent: 4,
        branch: Style::default(),
        ..PrintConfig::default()
    }
}

/// Red texts.
pub fn red() -> Style {
    Style {
        foreground: Some(Color::Red),
        ..Style::default()
    }
}

/// The drawing of crates and of those that they need, four characters wide.
pub const CRATES: &str = "\
petgraph
├── quickcheck
│   ├── libc
│   └── rand
│       └── libc
└── fixedbitset
";
