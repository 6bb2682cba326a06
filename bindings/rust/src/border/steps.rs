//! Items drawn one by one.
use super::calls::*;
use super::fields::fields_for;
use super::{error_of, DONE};
use crate::print_config::PrintConfig;
use crate::style::Style;
use std::io::{self, Write};

// How many items and how many bytes of texts wait at most before they are drawn.
const MOST_ITEMS: usize = 1 << 10;
const MOST_TEXTS: usize = 1 << 15;

// How many bytes of entries are made at once, unless one entry is longer.
const ROOM: usize = 1 << 16;

/// Draws items that are given in the order of drawing, some at a time.
pub(crate) struct Steps<W> {
    f: W,
    fields: ConfigFields,
    names: Vec<u8>,
    steps: Vec<Step>,

    /// The texts of the items that wait, one behind the other.
    pub(crate) texts: Vec<u8>,
    // Whether the last item at each level from 1 on is its parent's last child.
    path: Vec<u8>,
    out: Vec<u8>,
}

impl<W: Write> Steps<W> {
    /// Starts a drawing. The texts of items are painted already, so leaves have no style.
    pub(crate) fn new(f: W, config: &PrintConfig, is_styled: bool) -> Steps<W> {
        let (fields, names) = fields_for(config, is_styled, &Style::default());
        Steps {
            f,
            fields,
            names,
            steps: Vec::new(),
            texts: Vec::new(),
            path: Vec::new(),
            out: vec![0; ROOM],
        }
    }

    /// Adds an item. Its text is what the texts have got since the item before it.
    pub(crate) fn end_item(&mut self, level: u32, is_last: bool) -> io::Result<()> {
        let start = self.steps.last().map_or(0, |step| step.text.end);
        let text = Part {
            start,
            end: self.texts.len(),
        };
        if self.path.len() < level as usize {
            self.path.resize(level as usize, 0);
        }
        self.steps.push(Step {
            text,
            level,
            is_last: u8::from(is_last),
        });
        if self.steps.len() >= MOST_ITEMS || self.texts.len() >= MOST_TEXTS {
            return self.draw();
        }
        Ok(())
    }

    /// Draws the items that wait.
    pub(crate) fn draw(&mut self) -> io::Result<()> {
        let mut drawn = 0;
        while drawn < self.steps.len() {
            let (refusal, found) = self.draw_from(drawn);
            self.f.write_all(&self.out[..found.bytes])?;
            if refusal != DONE {
                return Err(error_of(refusal, found.place));
            }
            drawn += found.items;
            if found.place > self.out.len() {
                self.out.resize(found.place, 0);
            }
        }
        self.steps.clear();
        self.texts.clear();
        Ok(())
    }

    // Draws as many of the items from this one on as there is room for.
    fn draw_from(&mut self, first: usize) -> (u32, Found) {
        let mut found = Found::default();
        let refusal = ptree_draw_steps(
            &self.steps[first..],
            &self.texts,
            &mut self.path,
            &self.fields,
            &self.names,
            &mut self.out,
            &mut found,
        );
        (refusal, found)
    }
}
