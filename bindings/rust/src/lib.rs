//! Draws trees as text, and reads the drawings back exactly.
//!
//! The names and types are those of the crate `ptree` 0.5.2. A proved static library does the drawing and reading; this crate
//! passes items to it, and writes the results. `docs/BINDINGS.md` in the repository says what is guaranteed.
//!
//! ```
//! use ptree::{write_tree_with, PrintConfig, TreeBuilder};
//!
//! let tree = TreeBuilder::new("notes".to_string()).add_empty_child("shopping".to_string()).build();
//! let mut out = Vec::new();
//! write_tree_with(&tree, &mut out, &PrintConfig::default())?;
//! assert_eq!(String::from_utf8_lossy(&out), "notes\n└─ shopping\n");
//! # Ok::<(), std::io::Error>(())
//! ```
#![warn(missing_docs)]

#[cfg(feature = "petgraph")]
compile_error!("the feature `petgraph` is not supported: remove it, and copy the nodes and edges of your graph into a `ptree::graph::Graph`");

mod border;
pub mod builder;
pub mod graph;
pub mod item;
pub mod output;
pub mod print_config;
pub mod read;
pub mod style;
pub mod value;

pub use crate::builder::TreeBuilder;
pub use crate::item::TreeItem;
pub use crate::output::{print_tree, print_tree_with, write_tree, write_tree_with};
pub use crate::print_config::{IndentChars, PrintConfig};
pub use crate::read::read_tree;
pub use crate::style::{Color, Style};

// The examples of the page are tests of the documentation.
#[cfg(doctest)]
#[doc = include_str!("../../../docs/BINDINGS.md")]
struct Page;
