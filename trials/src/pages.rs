//! The code of `docs/GUIDE.md` that is not in the crate `examples`, what the types there draw, and
//! calls of a builder that are chained.

use crate::expect::{expect_drawn, expect_once, expect_text};
use examples::building::add_list;
use examples::giving::{draw_log, put_within};
use examples::own_types::{Folder, Halved};
use examples::tasks::release;
use ptree::TreeBuilder;
use ptree::graph::Graph;
use ptree::item::{Root, StringItem};
use ptree::output::{ItemError, ItemWriter};
use ptree::print_config::{
    FileSource, OutputKind, PrintConfig, Sources, first_fault, load, syntax_line,
};
use ptree::read::read_tree;
use ptree::sink::Counted;
use std::alloc::{AllocError, Global};
use std::io::{BufRead, BufReader};
use std::test::Fail;

const NOTES: &str = "\
notes
├─ shopping
│  : by Friday
│  └─ bread
└─ call home
   : after six
";

// Returns the notes, by calls that are chained.
fn notes(alloc: Global) -> Result<StringItem, AllocError> {
    let mut builder = TreeBuilder::new(alloc, String::from_str(alloc, "notes")?);
    builder
        .begin_child(String::from_str(alloc, "shopping\nby Friday")?)?
        .add_empty_child(String::from_str(alloc, "bread")?)?
        .end_child()
        .add_empty_child(String::from_str(alloc, "call home\nafter six")?)?
        .build()
}

#[test]
fn notes_are_drawn(rt: HostRuntime) -> Result<(), Fail> {
    let alloc = rt.alloc();
    expect_drawn(alloc, &notes(alloc)?, NOTES)
}

// Reads a text under the default configuration.
fn read_default(alloc: Global, text: &str) -> Result<Option<StringItem>, AllocError> {
    let config = PrintConfig::default(alloc)?;
    read_tree(alloc, text, &config)
}

#[test]
fn notes_are_edited_as_text(rt: HostRuntime) -> Result<(), Fail> {
    let alloc = rt.alloc();
    let edited = NOTES.replace(alloc, "by Friday\n", "by Friday,\n│  : with flowers\n")?;
    let notes = read_default(alloc, edited.as_str())?.ok_or("no drawing")?;
    let shopping = notes.children.first().ok_or("no child")?;
    expect_text(shopping.text.as_str(), "shopping\nby Friday,\nwith flowers")
}

#[test]
fn a_recursion_builds_a_tree(rt: HostRuntime) -> Result<(), Fail> {
    let alloc = rt.alloc();
    let mut builder = TreeBuilder::new(alloc, String::from_str(alloc, "sort")?);
    add_list(alloc, &mut builder, 3)?;
    let text = "sort\n└─ 3\n   ├─ 1\n   └─ 2\n      ├─ 1\n      └─ 1\n";
    expect_drawn(alloc, &builder.build()?, text)
}

#[test]
fn a_log_is_drawn_as_it_comes(rt: HostRuntime) -> Result<(), Fail> {
    let alloc = rt.alloc();
    let config = PrintConfig::default(alloc)?;
    let log = BufReader::new(alloc, &b"started\nstopped\n"[..])?;
    let mut drawn = Counted::new(Vec::new(alloc));
    draw_log(alloc, "log", log.lines(alloc), &mut drawn, &config)?;
    expect_text(
        str::from_utf8(&drawn.into_inner())?,
        "log\n├─ started\n└─ stopped\n",
    )
}

// The item of a text.
fn one_text(text: &str) -> Root<'_, StringItem> {
    Root {
        text,
        children: &[],
    }
}

#[test]
fn an_item_too_deep_is_refused(rt: HostRuntime) -> Result<(), Fail> {
    let alloc = rt.alloc();
    let config = PrintConfig::default(alloc)?;
    let mut writer = ItemWriter::new(alloc, &config, OutputKind::Unknown, false)?;
    let mut drawn = Counted::new(Vec::new(alloc));
    writer.put(0, true, &one_text("a"), &mut drawn)?;
    match writer.put(2, true, &one_text("b"), &mut drawn) {
        Err(ItemError::Level) => {}
        _ => return Err(Fail::from("no refusal")),
    }
    put_within(&mut writer, 7, false, &one_text("b"), &mut drawn)?;
    put_within(&mut writer, 7, true, &one_text("c\nd"), &mut drawn)?;
    writer.put(1, true, &one_text("e"), &mut drawn)?;
    expect_text(
        str::from_utf8(&drawn.into_inner())?,
        "a\n├─ b\n│  └─ c\n│     : d\n└─ e\n",
    )
}

#[test]
fn a_tree_is_made_without_a_builder(rt: HostRuntime) -> Result<(), Fail> {
    let alloc = rt.alloc();
    let leaves = vec![in alloc;
        StringItem::leaf(alloc, "bread")?,
        StringItem::leaf(alloc, "milk")?,
    ]?;
    let shopping = StringItem::new(alloc, "shopping", leaves)?;
    let mut list = String::new(alloc);
    for (level, item) in shopping.items(alloc)? {
        list.push_str(format!(in alloc; "{level} {}, ", item.text)?.as_str())?;
    }
    expect_text(list.as_str(), "0 shopping, 1 bread, 1 milk, ")
}

// Draws the modules from `app` and what needs `parser`, and expects both drawings.
fn expect_modules(alloc: Global, needed: &str, needing: &str) -> Result<(), Fail> {
    let mut modules = Graph::new(alloc);
    let app = modules.add_node("app")?;
    let parser = modules.add_node("parser")?;
    let lexer = modules.add_node("lexer")?;
    modules.extend_with_edges(&[
        (lexer, parser),
        (parser, lexer),
        (app, lexer),
        (app, parser),
    ])?;
    expect_once(alloc, &modules, app, needed)?;
    expect_once(alloc, &modules.reversed(), parser, needing)
}

#[test]
fn modules_are_drawn_once(rt: HostRuntime) -> Result<(), Fail> {
    expect_modules(
        rt.alloc(),
        "app\n├─ parser\n│  └─ lexer\n│     └─ parser (*)\n└─ lexer (*)\n",
        "parser\n├─ app\n└─ lexer\n   ├─ app\n   └─ parser (*)\n",
    )
}

// A file and a variable.
fn sources(alloc: Global, file: &str) -> Result<Sources, AllocError> {
    let name = String::from_str(alloc, "PTREE_INDENT")?;
    let value = String::from_str(alloc, "4")?;
    Ok(Sources {
        file: FileSource::Json(String::from_str(alloc, file)?),
        variables: vec![in alloc; (name, value)]?,
    })
}

#[test]
fn sources_are_loaded(rt: HostRuntime) -> Result<(), Fail> {
    let alloc = rt.alloc();
    let sources = sources(alloc, "{\"depth\": 2}")?;
    let config = load(alloc, &sources)?.ok_or("a fault")?;
    assert!(rt; config.depth == 2 && config.indent == 4);
    Ok(())
}

#[test]
fn a_syntax_error_has_a_line(rt: HostRuntime) -> Result<(), Fail> {
    let alloc = rt.alloc();
    let sources = sources(alloc, "{\n  \"depth\": 2,\n}\n")?;
    let fault = first_fault(alloc, &sources)?.ok_or("no fault")?;
    let line = syntax_line(alloc, &sources.file)?.ok_or("no line")?;
    let text = format!(in alloc; "line {line}: {fault}")?;
    expect_text(text.as_str(), "line 3: the file has a syntax error")
}

// Makes a folder without folders in it.
fn empty_folder(alloc: Global, name: &str) -> Result<Folder, AllocError> {
    Ok(Folder {
        name: String::from_str(alloc, name)?,
        folders: Vec::new(alloc),
    })
}

#[test]
fn own_types_are_drawn(rt: HostRuntime) -> Result<(), Fail> {
    let alloc = rt.alloc();
    let halves = "5\n├─ 2\n│  ├─ 1\n│  └─ 1\n└─ 3\n   ├─ 1\n   └─ 2\n      ├─ 1\n      └─ 1\n";
    expect_drawn(alloc, &Halved(5), halves)?;
    let folders = vec![in alloc; empty_folder(alloc, "bin")?, empty_folder(alloc, "etc")?]?;
    let root = Root {
        text: "disk",
        children: folders.as_slice(),
    };
    expect_drawn(alloc, &root, "disk\n├─ bin\n└─ etc\n")
}

#[test]
fn tasks_have_their_own_styles(rt: HostRuntime) -> Result<(), Fail> {
    let alloc = rt.alloc();
    let text = "release\n├─ \x1b[9mchangelog\x1b[0m\n└─ \x1b[31mcall the printers\x1b[0m\n";
    expect_drawn(alloc, &release(alloc)?, text)
}
