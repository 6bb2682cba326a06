//! Draws a value of `serde_json` where it lies. One buffer holds the prefix between the lines, and
//! each line while it is written.

use serde_json::{Map, Value};
use std::io::{self, ErrorKind, Write};

const TURN: &str = "├─ ";
const LAST_TURN: &str = "└─ ";
const PASS: &str = "│  ";
const LAST_PASS: &str = "   ";
const MARKER: &str = ": ";

/// Draws a value under a label. A value that holds a float is refused before anything is drawn, as the library does.
pub fn draw<W: Write>(label: &str, value: &Value, out: &mut W) -> io::Result<()> {
    if has_float(value) {
        return Err(ErrorKind::InvalidData.into());
    }
    let mut line = Vec::with_capacity(256);
    draw_entry("", 0, &mut line, out, |line| push_text(label, line))?;
    line.clear();
    draw_below(value, &mut line, out)
}

// Whether a value holds a float.
fn has_float(value: &Value) -> bool {
    match value {
        Value::Number(number) => number.is_f64(),
        Value::Array(elements) => elements.iter().any(has_float),
        Value::Object(members) => members.values().any(has_float),
        _ => false,
    }
}

// Draws what is below a value. The buffer holds the prefix of its children, and does so afterwards.
fn draw_below<W: Write>(value: &Value, line: &mut Vec<u8>, out: &mut W) -> io::Result<()> {
    match value {
        Value::Array(elements) => draw_elements(elements, line, out),
        Value::Object(members) => draw_members(members, line, out),
        _ => Ok(()),
    }
}

fn draw_elements<W: Write>(items: &[Value], line: &mut Vec<u8>, out: &mut W) -> io::Result<()> {
    let prefix = line.len();
    for (i, value) in items.iter().enumerate() {
        let last = i + 1 == items.len();
        draw_child(value, last, prefix, line, out, |line| {
            push_scalar(value, line)
        })?;
    }
    line.truncate(prefix);
    Ok(())
}

fn draw_members<W: Write>(
    members: &Map<String, Value>,
    line: &mut Vec<u8>,
    out: &mut W,
) -> io::Result<()> {
    let prefix = line.len();
    for (i, (key, value)) in members.iter().enumerate() {
        let last = i + 1 == members.len();
        draw_child(value, last, prefix, line, out, |line| {
            push_text(key, line);
            if !matches!(value, Value::Array(_) | Value::Object(_)) {
                push_text(" = ", line);
                push_scalar(value, line);
            }
        })?;
    }
    line.truncate(prefix);
    Ok(())
}

// Draws a child, and what is below it.
#[inline]
fn draw_child<W: Write>(
    value: &Value,
    last: bool,
    prefix: usize,
    line: &mut Vec<u8>,
    out: &mut W,
    push: impl FnOnce(&mut Vec<u8>),
) -> io::Result<()> {
    let (turn, pass) = if last {
        (LAST_TURN, LAST_PASS)
    } else {
        (TURN, PASS)
    };
    line.truncate(prefix);
    push_text(turn, line);
    draw_entry(pass, prefix, line, out, push)?;
    if matches!(value, Value::Array(_) | Value::Object(_)) {
        line.truncate(prefix);
        push_text(pass, line);
        draw_below(value, line, out)?;
    }
    Ok(())
}

// Writes an entry. The buffer holds the prefix, of so many bytes, and the turning piece after it.
#[inline]
fn draw_entry<W: Write>(
    pass: &str,
    prefix: usize,
    line: &mut Vec<u8>,
    out: &mut W,
    push: impl FnOnce(&mut Vec<u8>),
) -> io::Result<()> {
    let front = line.len();
    push(line);
    if line[front..].contains(&b'\n') {
        spread(front, pass, prefix, line);
    }
    line.push(b'\n');
    out.write_all(line)
}

// Puts the prefix, the passing piece and the marker after each line feed of a text.
#[inline(never)]
fn spread(front: usize, pass: &str, prefix: usize, line: &mut Vec<u8>) {
    let text = line.split_off(front);
    for (i, part) in text.split(|byte| *byte == b'\n').enumerate() {
        if i > 0 {
            line.push(b'\n');
            line.extend_from_within(..prefix);
            push_text(pass, line);
            push_text(MARKER, line);
        }
        line.extend_from_slice(part);
    }
}

#[inline]
fn push_text(text: &str, line: &mut Vec<u8>) {
    line.extend_from_slice(text.as_bytes());
}

// Appends the text of a value; a list and a map have none.
#[inline]
fn push_scalar(value: &Value, line: &mut Vec<u8>) {
    match value {
        Value::Bool(true) => push_text("true", line),
        Value::Bool(false) => push_text("false", line),
        // (writing into memory does not fail)
        Value::Number(number) => write!(line, "{number}").unwrap_or_default(),
        Value::String(text) => push_text(text, line),
        Value::Null | Value::Array(_) | Value::Object(_) => {}
    }
}
