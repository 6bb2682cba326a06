//! Styles and colours.
use crate::border;
use std::fmt::Display;
use std::io;

/// How a text is painted on a terminal.
#[derive(Clone, Debug, PartialEq, Eq, Default)]
pub struct Style {
    /// The colour of the text. `None` leaves it unchanged.
    pub foreground: Option<Color>,

    /// The colour behind the text. `None` leaves it unchanged.
    pub background: Option<Color>,

    /// Bold text.
    pub bold: bool,

    /// Dimmed text.
    pub dimmed: bool,

    /// Italic text.
    pub italic: bool,

    /// Underlined text.
    pub underline: bool,

    /// Blinking text.
    pub blink: bool,

    /// Text with its two colours exchanged.
    pub reverse: bool,

    /// Hidden text.
    pub hidden: bool,

    /// Struck-through text.
    pub strikethrough: bool,
}

impl Style {
    /// Returns the painted text: the codes, `input`, and a reset if there is a code.
    ///
    /// # Panics
    ///
    /// Out of memory.
    pub fn paint(&self, input: impl Display) -> impl Display {
        let text = input.to_string();
        if *self == Style::default() {
            return text;
        }
        match border::paint(self, &text) {
            Ok(painted) => painted,
            Err(error) => panic!("{error}"),
        }
    }

    /// Writes a text, painted. A style without codes allocates nothing.
    pub fn write_painted<W: io::Write>(&self, f: &mut W, input: &str) -> io::Result<()> {
        if *self == Style::default() {
            return f.write_all(input.as_bytes());
        }
        f.write_all(border::paint(self, input)?.as_bytes())
    }
}

/// A colour of a text or of its background.
#[derive(Clone, Debug, Default, PartialEq, Eq)]
pub enum Color {
    /// Colour 0 of the terminal's table.
    #[default]
    Black,

    /// Colour 1.
    Red,

    /// Colour 2.
    Green,

    /// Colour 3.
    Yellow,

    /// Colour 4.
    Blue,

    /// Colour 5.
    Purple,

    /// Colour 6.
    Cyan,

    /// Colour 7.
    White,

    /// A colour by its number in the terminal's table of 256.
    Fixed(u8),

    /// A 24-bit colour by its bytes of red, green and blue.
    RGB(u8, u8, u8),

    /// A colour by its name, or by `#` and six hexadecimal digits. An unknown name sets no colour.
    Named(String),
}
