//! What is passed to the calls of the static library, and what is made of what they write.
mod calls;
mod fields;
mod steps;

use crate::print_config::{FileSource, PrintConfig};
use crate::read::ReadError;
use crate::style::Style;
use crate::value::DocFormat;
use calls::*;
use fields::{config_of, fields_for, part_of, style_fields};
use std::io::{self, Error, ErrorKind};
pub(crate) use steps::Steps;

// The error codes that are told apart here.
const DONE: u32 = 0;
const MEMORY: u32 = 1;
const PIECES: u32 = 5;
const LINE: u32 = 6;
const INCOMPLETE: u32 = 7;
const FAULT: u32 = 15;

/// Items by their levels and the ends of their texts, which stand one behind the other.
pub(crate) struct Outline {
    items: Vec<Item>,
    texts: Vec<u8>,
}

impl Outline {
    /// Returns each item's level and text.
    pub(crate) fn items(&self) -> impl Iterator<Item = (u32, io::Result<String>)> + '_ {
        let mut from = 0;
        self.items.iter().map(move |item| {
            let bytes = self.texts.get(from..item.end).unwrap_or_default();
            from = item.end;
            (item.level, text_of(bytes))
        })
    }
}

/// The nodes of a graph by the ends of their texts, and its edges.
#[derive(Default)]
pub(crate) struct Nodes {
    ends: Vec<usize>,
    edges: Vec<Edge>,

    /// The texts of all nodes, one behind the other.
    pub(crate) texts: Vec<u8>,
}

impl Nodes {
    /// Adds a node. Its text is what the texts have got since the node before it.
    pub(crate) fn end_node(&mut self) {
        self.ends.push(self.texts.len());
    }

    /// Adds an edge, by the places of its nodes.
    pub(crate) fn add_edge(&mut self, source: usize, target: usize) {
        self.edges.push(Edge { source, target });
    }
}

/// What is drawn of a graph.
#[derive(Clone, Copy)]
pub(crate) enum Expansion<'a> {
    /// All walks.
    Walks,

    /// Each node's neighbours once, and this mark after its label at later places.
    Once(&'a str),
}

/// The drawing of a graph from the node at a place.
pub(crate) fn draw_graph(
    nodes: &Nodes,
    start: usize,
    expansion: Expansion<'_>,
    config: &PrintConfig,
    is_styled: bool,
) -> io::Result<Vec<u8>> {
    let (fields, names) = fields_for(config, is_styled, &config.leaf);
    let Nodes { ends, edges, texts } = nodes;
    let guess = texts.len() + 16 * (ends.len() + edges.len());
    bytes_of(guess, |out, found| match expansion {
        Expansion::Walks => {
            ptree_draw_walks(ends, texts, edges, start, &fields, &names, out, found)
        }
        Expansion::Once(mark) => {
            let mark = mark.as_bytes();
            ptree_draw_once(ends, texts, edges, start, mark, &fields, &names, out, found)
        }
    })
}

/// The outline of the tree whose drawing a text is.
pub(crate) fn read(text: &str, config: &PrintConfig) -> io::Result<Outline> {
    let (fields, names) = fields_for(config, false, &Style::default());
    // There are no more items than line feeds, and no more bytes of texts than of the text.
    let lines = text.bytes().filter(|byte| *byte == b'\n').count();
    let mut outline = Outline {
        items: room(lines)?,
        texts: room(text.len())?,
    };
    let mut found = Found::default();
    let refusal = ptree_read_with(
        text.as_bytes(),
        &fields,
        &names,
        &mut outline.items,
        &mut outline.texts,
        &mut found,
    );
    if refusal != DONE {
        return Err(error_of(refusal, found.place));
    }
    outline.items.truncate(found.items);
    outline.texts.truncate(found.bytes);
    Ok(outline)
}

/// The drawing of a document.
pub(crate) fn draw_document(
    format: DocFormat,
    text: &str,
    label: &str,
    config: &PrintConfig,
    is_styled: bool,
) -> io::Result<Vec<u8>> {
    let (fields, names) = fields_for(config, is_styled, &config.leaf);
    bytes_of(4 * text.len() + label.len() + 1, |out, found| {
        let (text, label) = (text.as_bytes(), label.as_bytes());
        ptree_draw_document_with(
            text,
            label,
            format_number(format),
            &fields,
            &names,
            out,
            found,
        )
    })
}

/// A text painted in a style.
pub(crate) fn paint(style: &Style, text: &str) -> io::Result<String> {
    let mut names = Vec::new();
    let fields = style_fields(&mut names, style);
    // The codes of two colours and eight flags take at most 82 bytes.
    let painted = bytes_of(text.len() + 96, |out, found| {
        ptree_paint(text.as_bytes(), &fields, &names, out, found)
    })?;
    text_of(&painted)
}

/// The configuration of a preset's number.
pub(crate) fn preset(number: u32) -> io::Result<PrintConfig> {
    config_from(|config, names, found| ptree_config(number, config, names, found))
}

/// The configuration of a file and of variables, or none if any of them is invalid.
pub(crate) fn load(
    file: &FileSource,
    variables: &[(String, String)],
) -> io::Result<Option<PrintConfig>> {
    let (format, text) = file_of(file);
    let (fields, texts) = variables_for(variables);
    let loaded = config_from(|config, names, found| {
        ptree_load(text, format, &fields, &texts, config, names, found)
    });
    match loaded {
        Ok(config) => Ok(Some(config)),
        Err(error) if error.kind() == ErrorKind::InvalidInput => Ok(None),
        Err(error) => Err(error),
    }
}

/// All errors in a file and in variables.
pub(crate) fn faults(file: &FileSource, variables: &[(String, String)]) -> io::Result<Vec<String>> {
    let (format, text) = file_of(file);
    let (fields, texts) = variables_for(variables);
    let lines = bytes_of(256, |out, found| {
        ptree_faults(text, format, &fields, &texts, out, found)
    })?;
    Ok(text_of(&lines)?.lines().map(String::from).collect())
}

// The number of a file's format, and its text.
fn file_of(file: &FileSource) -> (u32, &[u8]) {
    match file {
        FileSource::Text(format, text) => (format_number(*format), text.as_bytes()),
        FileSource::Absent => (2, &[]),
        FileSource::Unreadable => (3, &[]),
    }
}

// Variables as parts of texts, and the texts.
fn variables_for(variables: &[(String, String)]) -> (Vec<Variable>, Vec<u8>) {
    let mut texts = Vec::new();
    let mut fields = Vec::new();
    for (name, value) in variables {
        fields.push(Variable {
            name: part_of(&mut texts, name),
            value: part_of(&mut texts, value),
        });
    }
    (fields, texts)
}

// The number of a format.
fn format_number(format: DocFormat) -> u32 {
    match format {
        DocFormat::Json => 0,
        DocFormat::Toml => 1,
    }
}

// The bytes that a call makes. It gets room for as many as are expected, and is called again if there are more.
fn bytes_of(expected: usize, call: impl Fn(&mut [u8], &mut Found) -> u32) -> io::Result<Vec<u8>> {
    let mut out = room(expected)?;
    let mut found = Found::default();
    let mut refusal = call(&mut out, &mut found);
    if refusal == DONE && found.bytes > out.len() {
        out = room(found.bytes)?;
        refusal = call(&mut out, &mut found);
    }
    if refusal != DONE {
        return Err(error_of(refusal, found.place));
    }
    out.truncate(found.bytes);
    Ok(out)
}

// The configuration whose fields a call makes.
fn config_from(
    call: impl Fn(&mut ConfigFields, &mut [u8], &mut Found) -> u32,
) -> io::Result<PrintConfig> {
    let mut found = Found::default();
    let mut fields = ConfigFields::default();
    let mut names = room(256)?;
    let mut refusal = call(&mut fields, &mut names, &mut found);
    if refusal == DONE && found.bytes > names.len() {
        names = room(found.bytes)?;
        refusal = call(&mut fields, &mut names, &mut found);
    }
    if refusal != DONE {
        return Err(error_of(refusal, found.place));
    }
    config_of(&fields, &names)
}

// Values that are not set yet. Out of memory is an error.
fn room<T: Clone + Default>(count: usize) -> io::Result<Vec<T>> {
    let mut room = Vec::new();
    room.try_reserve_exact(count)
        .map_err(|_| Error::from(ErrorKind::OutOfMemory))?;
    room.resize(count, T::default());
    Ok(room)
}

// The error for an error code.
fn error_of(refusal: u32, place: usize) -> Error {
    match refusal {
        MEMORY => Error::from(ErrorKind::OutOfMemory),
        LINE => Error::new(ErrorKind::InvalidData, ReadError::Line(place)),
        INCOMPLETE => Error::new(ErrorKind::InvalidData, ReadError::End),
        PIECES | FAULT => Error::new(ErrorKind::InvalidInput, refusal_text(refusal)),
        _ => Error::new(ErrorKind::InvalidData, refusal_text(refusal)),
    }
}

// The text of an error code.
fn refusal_text(refusal: u32) -> String {
    let mut out = [0; 100];
    let length = ptree_refusal_text(refusal, &mut out);
    String::from_utf8_lossy(&out[..length.min(out.len())]).into_owned()
}

// The text of bytes.
fn text_of(bytes: &[u8]) -> io::Result<String> {
    match std::str::from_utf8(bytes) {
        Ok(text) => Ok(text.to_string()),
        Err(error) => Err(Error::new(ErrorKind::InvalidData, error)),
    }
}
