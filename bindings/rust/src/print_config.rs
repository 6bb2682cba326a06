//! How trees are drawn: characters, the configuration, and its sources.
use crate::border;
use crate::style::Style;
use crate::value::DocFormat;
use std::env;
use std::fmt::Display;
use std::fs::{self, Metadata};
use std::io::{self, ErrorKind, IsTerminal};
use std::os::unix::fs::{FileTypeExt, MetadataExt};
use std::str::FromStr;

/// When output is styled.
#[derive(Clone, Copy, Debug, PartialEq, Eq)]
pub enum StyleWhen {
    /// No output is styled.
    Never,

    /// All output is styled.
    Always,

    /// Standard output is styled if it is a terminal; nothing else is.
    Tty,
}

/// How a tree is drawn.
#[derive(Clone, Debug, PartialEq)]
pub struct PrintConfig {
    /// The greatest level that is drawn; the root has level 0.
    pub depth: u32,

    /// The width of a piece in characters, including the padding.
    pub indent: usize,

    /// How many `empty` characters end a piece, before the item's text.
    pub padding: usize,

    /// When output is styled.
    pub styled: StyleWhen,

    /// The characters that branches are drawn with.
    pub characters: IndentChars,

    /// The style of branches.
    pub branch: Style,

    /// The style of items' texts.
    pub leaf: Style,

    /// The marker before each further line of an item's text, after the pieces.
    pub continued: String,
}

impl Default for PrintConfig {
    fn default() -> PrintConfig {
        PrintConfig {
            depth: u32::MAX,
            indent: 3,
            padding: 1,
            styled: StyleWhen::Tty,
            characters: UTF_CHARS.into(),
            branch: Style {
                dimmed: true,
                ..Style::default()
            },
            leaf: Style::default(),
            continued: ": ".to_string(),
        }
    }
}

/// The kind of a writer.
#[derive(Debug, Clone, Copy, PartialEq, Eq)]
pub enum OutputKind {
    /// Standard output.
    Stdout,

    /// Anything else, such as a file or a text.
    Unknown,
}

impl PrintConfig {
    /// Returns the configuration of the environment's variables and of the file that they name or that is in the user's folder of
    /// configurations, or the complete default if any of them is invalid.
    pub fn from_env() -> PrintConfig {
        let (file, variables) = sources_of_env();
        border::load(&file, &variables)
            .ok()
            .flatten()
            .unwrap_or_default()
    }

    /// Returns all errors in what [`PrintConfig::from_env`] reads, such as `the variable PTREE_STYLED isn't never, always or
    /// tty`. If there is one, `from_env` returns the default.
    ///
    /// # Errors
    ///
    /// Out of memory.
    pub fn faults_of_env() -> io::Result<Vec<String>> {
        let (file, variables) = sources_of_env();
        border::faults(&file, &variables)
    }

    /// Returns the configuration with which another program draws.
    ///
    /// # Errors
    ///
    /// Out of memory.
    pub fn from_preset(preset: Preset) -> io::Result<PrintConfig> {
        border::preset(preset as u32)
    }

    /// Whether output of a kind is styled.
    pub fn should_style_output(&self, output_kind: OutputKind) -> bool {
        match (self.styled, output_kind) {
            (StyleWhen::Always, _) => true,
            (StyleWhen::Tty, OutputKind::Stdout) => io::stdout().is_terminal(),
            _ => false,
        }
    }

    /// Returns the text painted in the style of branches.
    pub fn paint_branch(&self, input: impl Display) -> impl Display {
        self.branch.paint(input)
    }

    /// Returns the text painted in the style of leaves.
    pub fn paint_leaf(&self, input: impl Display) -> impl Display {
        self.leaf.paint(input)
    }
}

/// The configuration file, as it was found.
pub(crate) enum FileSource {
    /// There is no file.
    Absent,

    /// There is a file, but it could not be read, or is not UTF-8.
    Unreadable,

    /// The text of a file.
    Text(DocFormat, String),
}

// The file and the variables of the environment.
fn sources_of_env() -> (FileSource, Vec<(String, String)>) {
    let variables: Vec<_> = env::vars_os()
        .filter_map(|(name, value)| Some((name.into_string().ok()?, value.into_string().ok()?)))
        .collect();
    let file = read_file(&variables).unwrap_or(FileSource::Unreadable);
    (file, variables)
}

// The configuration file that variables lead to.
fn read_file(variables: &[(String, String)]) -> io::Result<FileSource> {
    let Some(path) = find_file(variables)? else {
        return Ok(FileSource::Absent);
    };
    let format = if path.ends_with(".json") {
        DocFormat::Json
    } else {
        DocFormat::Toml
    };
    Ok(FileSource::Text(format, fs::read_to_string(path)?))
}

// The value of a variable. The last one of a name counts.
fn value_of<'a>(variables: &'a [(String, String)], name: &str) -> Option<&'a str> {
    let mut found = variables.iter().rev().filter(|(other, _)| other == name);
    found.next().map(|(_, value)| value.as_str())
}

// The path of the configuration file, if there is one: the first one that is not missing. That a named one is missing is an error.
fn find_file(variables: &[(String, String)]) -> io::Result<Option<String>> {
    let named = value_of(variables, "PTREE_CONFIG");
    let paths = match named {
        Some(named) => named_paths(named),
        None => user_paths(variables),
    };
    for path in paths {
        match fs::metadata(&path) {
            Ok(found) if found.is_file() || is_null(&found) => return Ok(Some(path)),
            Ok(_) => return Err(ErrorKind::InvalidInput.into()),
            Err(error) if error.kind() == ErrorKind::NotFound => {}
            Err(error) => return Err(error),
        }
    }
    match named {
        Some(_) => Err(ErrorKind::NotFound.into()),
        None => Ok(None),
    }
}

// Whether a file is the null device. A FIFO would wait, and another device may have no end.
fn is_null(found: &Metadata) -> bool {
    let null = fs::metadata("/dev/null").map(|null| null.rdev());
    found.file_type().is_char_device() && null.is_ok_and(|null| null == found.rdev())
}

// A path with each ending.
fn with_endings(stem: &str) -> Vec<String> {
    vec![format!("{stem}.toml"), format!("{stem}.json")]
}

// The paths that a value names. One with an ending is a path itself.
fn named_paths(value: &str) -> Vec<String> {
    if value.ends_with(".toml") || value.ends_with(".json") {
        vec![value.to_string()]
    } else {
        with_endings(value)
    }
}

// The paths in the user's folder of configurations.
fn user_paths(variables: &[(String, String)]) -> Vec<String> {
    let of = |name| value_of(variables, name);
    match (of("XDG_CONFIG_HOME"), of("HOME")) {
        (Some(folder), _) if folder.starts_with('/') => with_endings(&format!("{folder}/ptree")),
        (_, Some(home)) if !home.is_empty() => with_endings(&format!("{home}/.config/ptree")),
        _ => Vec::new(),
    }
}

/// A program that draws trees.
#[derive(Debug, Clone, Copy, PartialEq, Eq)]
pub enum Preset {
    /// `tree --noreport`.
    Tree = 1,

    /// `tree --noreport --charset=ascii`.
    TreeAscii,

    /// `cargo tree --no-dedupe`.
    CargoTree,

    /// `cargo tree --no-dedupe --charset ascii`.
    CargoTreeAscii,

    /// `findmnt -n -o TARGET`.
    Findmnt,

    /// `findmnt -n -o TARGET --ascii`.
    FindmntAscii,

    /// `explain query plan` of `sqlite3`.
    Sqlite,

    /// `mvn dependency:tree -Dtokens=extended`.
    Maven,

    /// `clang -Xclang -ast-dump`.
    Clang,

    /// `ps --forest -o args=`.
    Ps,
}

/// The characters that branches are drawn with.
#[derive(Clone, Debug, PartialEq, Eq)]
pub struct IndentChars {
    /// Points down and right (`├`).
    pub down_and_right: String,

    /// Points straight down (`│`).
    pub down: String,

    /// Turns from down to right (`└`).
    pub turn_right: String,

    /// Points right (`─`).
    pub right: String,

    /// A blank (` `).
    pub empty: String,
}

impl From<StaticIndentChars> for IndentChars {
    fn from(s: StaticIndentChars) -> IndentChars {
        IndentChars {
            down_and_right: s.down_and_right.to_string(),
            down: s.down.to_string(),
            turn_right: s.turn_right.to_string(),
            right: s.right.to_string(),
            empty: s.empty.to_string(),
        }
    }
}

impl FromStr for IndentChars {
    type Err = ();

    fn from_str(s: &str) -> Result<IndentChars, ()> {
        let set = match s {
            "utf" => UTF_CHARS,
            "ascii" | "ascii-tick" => ASCII_CHARS_TICK,
            "ascii-plus" => ASCII_CHARS_PLUS,
            "utf-bold" => UTF_CHARS_BOLD,
            "utf-dashed" => UTF_CHARS_DASHED,
            "utf-double" => UTF_CHARS_DOUBLE,
            _ => return Err(()),
        };
        Ok(set.into())
    }
}

/// Characters that need no memory, such as the shipped sets.
#[derive(Clone, Copy, Debug, PartialEq, Eq)]
pub struct StaticIndentChars {
    /// Points down and right (`├`).
    pub down_and_right: &'static str,

    /// Points straight down (`│`).
    pub down: &'static str,

    /// Turns from down to right (`└`).
    pub turn_right: &'static str,

    /// Points right (`─`).
    pub right: &'static str,

    /// A blank (` `).
    pub empty: &'static str,
}

// A set with a blank.
const fn set(
    down_and_right: &'static str,
    down: &'static str,
    turn_right: &'static str,
    right: &'static str,
) -> StaticIndentChars {
    StaticIndentChars {
        down_and_right,
        down,
        turn_right,
        right,
        empty: " ",
    }
}

/// ASCII characters, with a tick for turning right.
pub const ASCII_CHARS_TICK: StaticIndentChars = set("|", "|", "`", "-");

/// ASCII characters, with a plus for turning right.
pub const ASCII_CHARS_PLUS: StaticIndentChars = set("+", "|", "+", "-");

/// Regular box-drawing characters.
pub const UTF_CHARS: StaticIndentChars = set("├", "│", "└", "─");

/// Double box-drawing characters.
pub const UTF_CHARS_DOUBLE: StaticIndentChars = set("╠", "║", "╚", "═");

/// Heavy box-drawing characters.
pub const UTF_CHARS_BOLD: StaticIndentChars = set("┣", "┃", "┗", "━");

/// Dashed box-drawing characters.
pub const UTF_CHARS_DASHED: StaticIndentChars = set("├", "┆", "└", "╌");
