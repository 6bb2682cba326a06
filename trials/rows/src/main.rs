//! Makes the calls that the library for C has none for, those of a builder, a graph that is turned
//! round, a `Value` and the lines that can follow a text, for rows that ask for them
//! (`tests/test_rows.py`).
//!
//! Standard input is calls, each a word and a text, which the byte 0 ends. Each answer is its length
//! in bytes, a blank, its text and a line feed.
#![tactic(auto)]

use ptree::TreeBuilder;
use ptree::graph::{Graph, NodeIndex};
use ptree::item::{StringItem, TreeItem};
use ptree::output::tree_text;
use ptree::print_config::{FileSource, PrintConfig, Sources, load};
use ptree::read::lines_that_follow;
use ptree::value::{ConvertError, Value};
use std::alloc::{AllocError, Global};
use std::process::ExitCode;
use std::{io, mem};

// What calls have made: a builder, whether it took the last item by its level, a graph, a document
// under a configuration, and a text with lines that may follow it.
#[derive(Drop)]
struct Made {
    builder: TreeBuilder,
    taken: bool,
    graph: Graph<String>,
    config: PrintConfig,
    label: String,
    is_json: bool,
    document: String,
    text: String,
    lines: Vec<String>,
}

// The word for why a document has no value.
fn word_of(e: ConvertError) -> &'static str {
    match e {
        ConvertError::Float => "float",
        ConvertError::Date => "date",
        ConvertError::Memory => "memory",
    }
}

// The value of a document in JSON.
fn json_value(alloc: Global, text: &str) -> Result<Value, &'static str> {
    let parsed = serde_json::Value::from_str(alloc, text).map_err(|_| "syntax")?;
    Value::from_json(alloc, &parsed).map_err(word_of)
}

// The value of a document in TOML.
fn toml_value(alloc: Global, text: &str) -> Result<Value, &'static str> {
    let table = toml::table_from_str(alloc, text).map_err(|_| "syntax")?;
    Value::from_toml(alloc, &toml::Value::Table(table)).map_err(word_of)
}

// The items of a tree, each with its level and the length of its text.
fn items_of(alloc: Global, tree: &StringItem) -> Result<String, AllocError> {
    let mut out = String::new(alloc);
    for (level, item) in tree.items(alloc)?.iter() {
        let (size, text) = (item.text.len(), item.text.as_str());
        out.push_str(format!(in alloc; "{level} {size} {text}\n")?.as_str())?;
    }
    Ok(out)
}

// A node by its number.
fn node(text: &str) -> Result<NodeIndex, AllocError> {
    Ok(NodeIndex(text.parse::<usize>().map_err(|_| AllocError)?))
}

// Edges such as `0>1 0>2`.
fn edges_of(alloc: Global, text: &str) -> Result<Vec<(NodeIndex, NodeIndex)>, AllocError> {
    let mut edges = Vec::new(alloc);
    for pair in text.split_whitespace() {
        let (source, target) = pair.split_once('>').ok_or(AllocError)?;
        edges.push((node(source)?, node(target)?))?;
    }
    Ok(edges)
}

// The configuration that a file in TOML means.
fn config_of(alloc: Global, file: &str) -> Result<PrintConfig, AllocError> {
    let sources = Sources {
        file: FileSource::Toml(String::from_str(alloc, file)?),
        variables: Vec::new(alloc),
    };
    load(alloc, &sources)?.ok_or(AllocError)
}

impl Made {
    fn new(alloc: Global) -> Result<Made, AllocError> {
        Ok(Made {
            builder: TreeBuilder::new(alloc, String::new(alloc)),
            taken: true,
            graph: Graph::new(alloc),
            config: PrintConfig::default(alloc)?,
            label: String::new(alloc),
            is_json: true,
            document: String::new(alloc),
            text: String::new(alloc),
            lines: Vec::new(alloc),
        })
    }

    // Adds an item at the level before a blank, if it can follow there.
    fn add_at(&mut self, alloc: Global, text: &str) -> Result<(), AllocError> {
        let (level, text) = text.split_once(' ').ok_or(AllocError)?;
        let level = level.parse::<u32>().map_err(|_| AllocError)?;
        let text = String::from_str(alloc, text)?;
        self.taken = self.builder.add_at_level(level, text).is_ok();
        Ok(())
    }

    // Ends the current item, which is not the root.
    fn end(&mut self) -> Result<(), AllocError> {
        if self.builder.level() == 0 {
            return Err(AllocError);
        }
        self.builder.end_child();
        Ok(())
    }

    // Adds an item below the current one, which becomes the current one or not.
    fn add(&mut self, alloc: Global, text: &str, begins: bool) -> Result<(), AllocError> {
        let text = String::from_str(alloc, text)?;
        if self.builder.level() == u32::MAX {
            return Err(AllocError);
        }
        if begins {
            self.builder.begin_child(text)?;
        } else {
            self.builder.add_empty_child(text)?;
        }
        Ok(())
    }

    // Turns the graph's edges round.
    fn reverse(&mut self, alloc: Global) {
        let graph = mem::replace(&mut self.graph, Graph::new(alloc));
        self.graph = graph.reversed();
    }

    // The neighbours of a node, each behind a blank.
    fn neighbors(&self, alloc: Global, text: &str) -> Result<String, AllocError> {
        let mut out = String::new(alloc);
        for neighbor in self.graph.neighbors(node(text)?)?.iter() {
            out.push_str(format!(in alloc; " {}", neighbor.0)?.as_str())?;
        }
        Ok(out)
    }

    // Whether each of the lines can follow the text, each answer behind a blank.
    fn follow(&self, alloc: Global) -> Result<String, AllocError> {
        let mut out = String::new(alloc);
        let (text, config) = (self.text.as_str(), &self.config);
        for follows in lines_that_follow(alloc, text, &self.lines, config)?.iter() {
            out.push_str(if *follows { " yes" } else { " no" })?;
        }
        Ok(out)
    }

    // The document's value.
    fn value(&self, alloc: Global) -> Result<Value, &'static str> {
        if self.is_json {
            json_value(alloc, self.document.as_str())
        } else {
            toml_value(alloc, self.document.as_str())
        }
    }

    // The drawing of an item.
    fn drawn<T>(&self, alloc: Global, item: &T) -> Result<String, AllocError>
    where
        T: TreeItem,
        T::Child: TreeItem<Child = T::Child> + Drop,
    {
        tree_text(alloc, item, &self.config)?.ok_or(AllocError)
    }

    // The drawing of the document's value alone, or of its copy under the label; or the word for
    // why it has none.
    fn value_drawn(&self, alloc: Global, is_labelled: bool) -> Result<String, AllocError> {
        match self.value(alloc) {
            Ok(value) if is_labelled => self.drawn(alloc, &(self.label.clone()?, value.clone()?)),
            Ok(value) => self.drawn(alloc, &value),
            Err(word) => String::from_str(alloc, word),
        }
    }

    // Answers a word, where it asks for something.
    fn answer(
        &mut self,
        alloc: Global,
        word: &str,
        text: &str,
    ) -> Result<Option<String>, AllocError> {
        let found = match word {
            "neighbors" => self.neighbors(alloc, text)?,
            "follow" => self.follow(alloc)?,
            "level" => format!(in alloc; "{}", self.builder.level())?,
            "outcome" => String::from_str(alloc, if self.taken { "taken" } else { "refused" })?,
            "built" => items_of(alloc, &self.builder.build()?)?,
            "value" => self.value_drawn(alloc, false)?,
            "labelled_value" => self.value_drawn(alloc, true)?,
            _ => return Ok(None),
        };
        Ok(Some(found))
    }

    // Makes the call of a word that asks for nothing.
    fn call(&mut self, alloc: Global, word: &str, text: &str) -> Result<(), AllocError> {
        match word {
            "root" => self.builder = TreeBuilder::new(alloc, String::from_str(alloc, text)?),
            "begin" => self.add(alloc, text, true)?,
            "leaf" => self.add(alloc, text, false)?,
            "end" => self.end()?,
            "at" => self.add_at(alloc, text)?,
            "nodes" => self.graph = Graph::new(alloc),
            "node" => {
                self.graph.add_node(String::from_str(alloc, text)?)?;
            }
            // (edges of no node are refused, and rows ask C for that)
            "edges" => {
                let edges = edges_of(alloc, text)?;
                self.graph.extend_with_edges(edges.as_slice()).unwrap_or(());
            }
            "reversed" => self.reverse(alloc),
            "settings" => self.config = config_of(alloc, text)?,
            "text" => {
                self.text = String::from_str(alloc, text)?;
                self.lines.clear();
            }
            "next" => self.lines.push(String::from_str(alloc, text)?)?,
            "label" => self.label = String::from_str(alloc, text)?,
            "json" | "toml" => {
                self.is_json = word == "json";
                self.document = String::from_str(alloc, text)?;
            }
            _ => return Err(AllocError),
        }
        Ok(())
    }
}

// Makes the calls of the input, and writes what they answer.
fn run(rt: &HostRuntime) -> io::Result<()> {
    let alloc = rt.alloc();
    let input = io::read_to_string(alloc, rt.stdin())?;
    let mut made = Made::new(alloc)?;
    let mut word = None;
    for part in input.as_str().split('\0') {
        let Some(called) = word else {
            word = Some(part);
            continue;
        };
        match made.answer(alloc, called, part)? {
            Some(found) => println!(rt; "{} {found}", found.len())?,
            None => made.call(alloc, called, part)?,
        }
        word = None;
    }
    Ok(())
}

fn main(rt: HostRuntime) -> ExitCode {
    match run(&rt) {
        Ok(()) => ExitCode::from(0),
        Err(_) => ExitCode::from(1),
    }
}
