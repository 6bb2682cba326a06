//! What tests and trials share: trees and configurations, writers and readers that fail, and a
//! writer that may be a terminal.

pub mod failing;
pub mod screen;
pub mod trees;
