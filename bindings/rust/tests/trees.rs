//! Builds, draws and reads trees. Expected drawings are those of the crate `ptree` 0.5.2, or were worked out by hand.
mod common;

use common::{red, wide, CRATES};
use ptree::item::StringItem;
use ptree::print_config::{IndentChars, Preset, StyleWhen, ASCII_CHARS_TICK};
use ptree::read::ReadError;
use ptree::style::Style;
use ptree::value::{write_document_with, DocFormat};
use ptree::{read_tree, write_tree_with, Color, PrintConfig, TreeBuilder, TreeItem};
use std::borrow::Cow;
use std::io::{self, ErrorKind, Write};
use std::panic::{catch_unwind, AssertUnwindSafe};

fn drawn<T: TreeItem>(item: &T, config: &PrintConfig) -> String {
    let mut out = Vec::new();
    write_tree_with(item, &mut out, config).expect("a drawing");
    String::from_utf8(out).expect("UTF-8")
}

fn over(text: &str, children: Vec<StringItem>) -> StringItem {
    StringItem {
        text: text.to_string(),
        children,
    }
}

fn crates() -> StringItem {
    let rand = over("rand", vec![over("libc", vec![])]);
    let quickcheck = over("quickcheck", vec![over("libc", vec![]), rand]);
    over("petgraph", vec![quickcheck, over("fixedbitset", vec![])])
}

#[test]
fn a_builder_without_children_gives_a_leaf() {
    let tree = TreeBuilder::new("only".to_string()).build();
    assert_eq!(tree, over("only", vec![]));
}

#[test]
fn a_builder_keeps_the_order_of_children() {
    let mut builder = TreeBuilder::new("root".to_string());
    for number in 0..10 {
        builder.add_empty_child(number.to_string());
    }
    let texts: Vec<String> = builder
        .build()
        .children
        .into_iter()
        .map(|child| child.text)
        .collect();
    assert_eq!(texts.join(" "), "0 1 2 3 4 5 6 7 8 9");
}

#[test]
fn a_builder_nests_children_and_goes_on() {
    let mut builder = TreeBuilder::new("0".to_string());
    for number in 1..4 {
        builder.begin_child(number.to_string());
    }
    let chain = over(
        "0",
        vec![over("1", vec![over("2", vec![over("3", vec![])])])],
    );
    assert_eq!(builder.build(), chain);
    builder
        .end_child()
        .end_child()
        .add_empty_child("4".to_string());
    let grown = over(
        "0",
        vec![over(
            "1",
            vec![over("2", vec![over("3", vec![])]), over("4", vec![])],
        )],
    );
    assert_eq!(builder.build(), grown);
    assert!(catch_unwind(move || builder.end_child().end_child().build()).is_err());
}

#[test]
fn an_item_is_drawn() {
    assert_eq!(drawn(&crates(), &wide()), CRATES);
}

#[test]
fn a_depth_ends_a_drawing() {
    assert_eq!(
        drawn(&crates(), &PrintConfig { depth: 0, ..wide() }),
        "petgraph\n"
    );
    let one = PrintConfig { depth: 1, ..wide() };
    assert_eq!(
        drawn(&crates(), &one),
        "petgraph\n├── quickcheck\n└── fixedbitset\n"
    );
}

#[test]
fn pieces_are_as_wide_as_the_configuration_says() {
    // (indent, padding, set, the line of a child, of a last child, and below each)
    let cases = [
        (4, 1, "utf", "├── ", "└── ", "│   ", "    "),
        (3, 1, "utf", "├─ ", "└─ ", "│  ", "   "),
        (4, 0, "utf", "├───", "└───", "│   ", "    "),
        (4, 2, "utf", "├─  ", "└─  ", "│   ", "    "),
        (6, 1, "ascii", "|---- ", "`---- ", "|     ", "      "),
        (3, 1, "utf-double", "╠═ ", "╚═ ", "║  ", "   "),
    ];
    let tree = over(
        "r",
        vec![
            over("a", vec![over("x", vec![])]),
            over("b", vec![over("y", vec![])]),
        ],
    );
    for (indent, padding, set, regular, last, below, below_last) in cases {
        let characters: IndentChars = set.parse().expect("a set");
        let config = PrintConfig {
            indent,
            padding,
            characters,
            ..PrintConfig::default()
        };
        let want = format!("r\n{regular}a\n{below}{last}x\n{last}b\n{below_last}{last}y\n");
        assert_eq!(drawn(&tree, &config), want, "{set} {indent} {padding}");
    }
    assert!("UTF".parse::<IndentChars>().is_err());
}

#[test]
fn labels_of_several_lines_are_drawn_and_read() {
    let tree = over("r\ns", vec![over("a\nb", vec![]), over("c", vec![])]);
    let text = drawn(&tree, &PrintConfig::default());
    assert_eq!(text, "r\n: s\n├─ a\n│  : b\n└─ c\n");
    assert_eq!(
        read_tree(&text, &PrintConfig::default()).expect("a tree"),
        tree
    );
}

#[test]
fn presets_draw_as_their_programs() {
    let tree = over("r", vec![over("a", vec![])]);
    for (preset, want) in [
        (Preset::CargoTree, "r\n└── a\n"),
        (Preset::Sqlite, "r\n`--a\n"),
        (Preset::Ps, "r\n \\_ a\n"),
    ] {
        let config = PrintConfig::from_preset(preset).expect("a preset");
        assert_eq!(drawn(&tree, &config), want);
        assert_eq!(read_tree(want, &config).expect("a tree"), tree);
    }
    let cargo = PrintConfig::from_preset(Preset::CargoTree).expect("a preset");
    assert_eq!(
        cargo,
        PrintConfig {
            indent: 4,
            ..PrintConfig::default()
        }
    );
}

#[test]
fn what_is_drawn_reads_back() {
    let tree = crates();
    assert_eq!(read_tree(CRATES, &wide()).expect("a tree"), tree);
    let leaf = over("", vec![]);
    assert_eq!(
        read_tree(&drawn(&leaf, &wide()), &wide()).expect("a tree"),
        leaf
    );
}

#[test]
fn the_first_wrong_line_is_reported() {
    let refused = |text: &str| {
        let error = read_tree(text, &wide()).expect_err("a refusal");
        assert_eq!(error.kind(), ErrorKind::InvalidData);
        *error
            .get_ref()
            .and_then(|inner| inner.downcast_ref::<ReadError>())
            .expect("a ReadError")
    };
    assert_eq!(refused("r\nx\n"), ReadError::Line(2));
    assert_eq!(refused("r\n├── a\n└── b\n└── c\n"), ReadError::Line(4));
    assert_eq!(refused("r\n├── a\n"), ReadError::End);
    assert_eq!(refused(""), ReadError::End);
    assert_eq!(
        ReadError::Line(2).to_string(),
        "line 2 cannot continue the drawing"
    );
    let ticks = PrintConfig {
        indent: 1,
        padding: 0,
        characters: ASCII_CHARS_TICK.into(),
        ..PrintConfig::default()
    };
    let error = read_tree("r\n", &ticks).expect_err("pieces");
    assert_eq!(error.kind(), ErrorKind::InvalidInput);
    assert_eq!(
        error.to_string(),
        "drawings with these pieces cannot be read back"
    );
}

#[test]
fn styles_paint_branches_and_leaves() {
    let tree = over("r", vec![over("a", vec![])]);
    let leaf = red();
    let config = PrintConfig {
        styled: StyleWhen::Always,
        leaf,
        ..PrintConfig::default()
    };
    // The root's prefix is painted too, though it is empty.
    let want = "\x1b[2m\x1b[0m\x1b[31mr\x1b[0m\n\x1b[2m└─ \x1b[0m\x1b[31ma\x1b[0m\n";
    assert_eq!(drawn(&tree, &config), want);
    assert_eq!(
        drawn(
            &tree,
            &PrintConfig {
                styled: StyleWhen::Never,
                ..config
            }
        ),
        "r\n└─ a\n"
    );
}

#[test]
fn each_colour_has_its_code() {
    let named = |name: &str| Color::Named(name.to_string());
    let cases = [
        (Color::Black, "30"),
        (Color::Red, "31"),
        (Color::Green, "32"),
        (Color::Yellow, "33"),
        (Color::Blue, "34"),
        (Color::Purple, "35"),
        (Color::Cyan, "36"),
        (Color::White, "37"),
        (Color::Fixed(110), "38;5;110"),
        (Color::RGB(10, 20, 30), "38;2;10;20;30"),
        (named("red"), "31"),
        (named("maroon"), "38;2;128;0;0"),
        (named("steelblue"), "38;2;70;130;180"),
        (named("#4682B4"), "38;2;70;130;180"),
    ];
    for (color, code) in cases {
        let style = Style {
            foreground: Some(color),
            ..Style::default()
        };
        assert_eq!(
            style.paint("x").to_string(),
            format!("\x1b[{code}mx\x1b[0m")
        );
    }
    let unknown = Style {
        foreground: Some(named("no such colour")),
        ..Style::default()
    };
    assert_eq!(unknown.paint("x").to_string(), "x");
    let all = Style {
        background: Some(Color::Cyan),
        bold: true,
        dimmed: true,
        italic: true,
        underline: true,
        blink: true,
        reverse: true,
        hidden: true,
        strikethrough: true,
        ..Style::default()
    };
    let codes = "\x1b[1m\x1b[2m\x1b[3m\x1b[4m\x1b[5m\x1b[7m\x1b[8m\x1b[9m\x1b[46m";
    assert_eq!(all.paint(7).to_string(), format!("{codes}7\x1b[0m"));
}

#[test]
fn documents_are_drawn() {
    let toml = "configuration = [\"toml\", \"yaml\", \"json\", \"environment\"]\ncharactersets = [\"utf\", \"ascii\"]\n\ndefault_depth = 3\n";
    let want = "\
toml
├── charactersets
│   ├── utf
│   └── ascii
├── configuration
│   ├── toml
│   ├── yaml
│   ├── json
│   └── environment
└── default_depth = 3
";
    let mut out = Vec::new();
    write_document_with(DocFormat::Toml, toml, "toml", &mut out, &wide()).expect("a document");
    assert_eq!(String::from_utf8_lossy(&out), want);
    for (format, text) in [
        (DocFormat::Json, "[1"),
        (DocFormat::Json, "[1.5]"),
        (DocFormat::Toml, "a = 1979-05-27"),
    ] {
        let mut out = Vec::new();
        let error =
            write_document_with(format, text, "", &mut out, &wide()).expect_err("a refusal");
        assert_eq!((error.kind(), out.len()), (ErrorKind::InvalidData, 0));
    }
}

/// A node of a graph: its number, and the edges of all nodes.
#[derive(Clone)]
struct Node(usize, &'static [(usize, usize)]);

impl TreeItem for Node {
    type Child = Node;

    fn write_self<W: Write>(&self, f: &mut W, style: &Style) -> io::Result<()> {
        write!(f, "{}", style.paint(self.0))
    }

    fn children(&self) -> Cow<'_, [Node]> {
        let below = self.1.iter().rev().filter(|edge| edge.0 == self.0);
        Cow::from(below.map(|edge| Node(edge.1, self.1)).collect::<Vec<_>>())
    }
}

#[test]
fn items_of_ones_own_are_drawn() {
    let edges = &[(0, 1), (0, 2), (2, 3), (3, 4), (2, 4)];
    let want = "0\n├── 2\n│   ├── 4\n│   └── 3\n│       └── 4\n└── 1\n";
    assert_eq!(drawn(&Node(0, edges), &wide()), want);
    let cycle = &[(0, 1), (1, 0)];
    assert_eq!(
        drawn(&Node(0, cycle), &PrintConfig { depth: 3, ..wide() }),
        "0\n└── 1\n    └── 0\n        └── 1\n"
    );
}

/// An item over children of another type, whose first child does something of its own.
#[derive(Clone)]
struct Odd(fn(&mut Vec<u8>) -> io::Result<()>);

impl TreeItem for Odd {
    type Child = StringItem;

    fn write_self<W: Write>(&self, f: &mut W, _style: &Style) -> io::Result<()> {
        let mut bytes = Vec::new();
        (self.0)(&mut bytes)?;
        f.write_all(&bytes)
    }

    fn children(&self) -> Cow<'_, [StringItem]> {
        Cow::from(vec![over("below", vec![])])
    }
}

#[test]
fn errors_of_items_are_returned() {
    let mut out = Vec::new();
    let broken = Odd(|_| Err(io::Error::other("broken")));
    let error = write_tree_with(&broken, &mut out, &wide()).expect_err("an error");
    assert_eq!((error.to_string(), out.len()), ("broken".to_string(), 0));
    let bytes = Odd(|bytes| bytes.write_all(b"\xff"));
    let error = write_tree_with(&bytes, &mut out, &wide()).expect_err("no UTF-8");
    assert_eq!((error.kind(), out.len()), (ErrorKind::InvalidData, 0));
    let lines = Odd(|bytes| bytes.write_all("é\n".as_bytes()));
    assert_eq!(drawn(&lines, &wide()), "é\n: \n└── below\n");
}

#[test]
fn panics_of_items_unwind() {
    let panics = Odd(|_| panic!("an item"));
    let mut out = Vec::new();
    let caught = catch_unwind(AssertUnwindSafe(|| {
        write_tree_with(&panics, &mut out, &wide())
    }));
    let payload = caught.expect_err("a panic");
    assert_eq!(payload.downcast_ref::<&str>(), Some(&"an item"));
    assert_eq!(drawn(&crates(), &wide()), CRATES);
}

/// A writer that fails once it has these many bytes.
struct Full(Vec<u8>, usize);

impl Write for Full {
    fn write(&mut self, bytes: &[u8]) -> io::Result<usize> {
        let count = bytes.len().min(self.1 - self.0.len());
        if count == 0 {
            return Err(io::Error::other("full"));
        }
        self.0.extend_from_slice(&bytes[..count]);
        Ok(count)
    }

    fn flush(&mut self) -> io::Result<()> {
        Ok(())
    }
}

#[test]
fn a_writer_that_fails_has_a_prefix() {
    for size in 0..CRATES.len() {
        let mut full = Full(Vec::new(), size);
        let error = write_tree_with(&crates(), &mut full, &wide()).expect_err("an error");
        assert_eq!(
            (error.to_string().as_str(), &full.0[..]),
            ("full", &CRATES.as_bytes()[..size])
        );
    }
}

#[test]
fn threads_draw_at_once() {
    let threads: Vec<_> = (0..4)
        .map(|_| {
            std::thread::spawn(|| {
                for _ in 0..50 {
                    assert_eq!(drawn(&crates(), &wide()), CRATES);
                    assert_eq!(read_tree(CRATES, &wide()).expect("a tree"), crates());
                }
            })
        })
        .collect();
    for thread in threads {
        thread.join().expect("a thread");
    }
}
