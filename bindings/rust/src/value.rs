//! Draws documents.
use crate::border;
use crate::print_config::{OutputKind, PrintConfig};
use std::io::{self, Write};

/// The format of a document.
#[derive(Clone, Copy, Debug, PartialEq, Eq)]
pub enum DocFormat {
    /// TOML.
    Toml,

    /// JSON.
    Json,
}

/// Draws a document under a label to a writer, keys in ascending order.
///
/// # Errors
///
/// `InvalidData` if the document is invalid, or has a float, a date or a time; then nothing was written.
pub fn write_document_with<W: Write>(
    format: DocFormat,
    text: &str,
    label: &str,
    mut f: W,
    config: &PrintConfig,
) -> io::Result<()> {
    let is_styled = config.should_style_output(OutputKind::Unknown);
    f.write_all(&border::draw_document(
        format, text, label, config, is_styled,
    )?)
}
