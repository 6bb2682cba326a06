//! Tests the texts of errors, and the errors of std that `?` makes of them.

use crate::expect::expect_text;
use crate::fixtures::failing::{Answer, Failing};
use ptree::builder::AddError;
use ptree::graph::EdgeError;
use ptree::print_config::{CharsError, Fault, Field};
use ptree::read::ReadError;
use ptree::style::{Counted, DrawError, put_all};
use ptree::value::{ConvertError, DocError};
use ptree_trees::difference::DrawingsError;
use ptree_trees::indented::{IndentError, WriteError};
use std::alloc::Global;
use std::fmt::Display;
use std::io::{self, ErrorKind};
use std::test::Fail;

// Expects that an error has this text.
fn expect_message(alloc: Global, error: &impl Display, wanted: &str) -> Result<(), Fail> {
    let text = format!(in alloc; "{error}")?;
    expect_text(text.as_str(), wanted)
}

// Expects that an error has this text, and that `?` makes of it an error of std of this kind with
// the same text.
fn expect_error<E>(alloc: Global, error: E, kind: ErrorKind, wanted: &str) -> Result<(), Fail>
where
    E: Display + Drop,
    io::Error: From<E>,
{
    expect_message(alloc, &error, wanted)?;
    expect_told(alloc, io::Error::from(error), kind, wanted)
}

// Expects that an error of std has this kind and this text.
fn expect_told(alloc: Global, error: io::Error, kind: ErrorKind, wanted: &str) -> Result<(), Fail> {
    if error.kind() != kind {
        return Err(Fail::new("another kind"));
    }
    expect_message(alloc, &error, wanted)
}

// Expects that an error is told as one of memory.
fn expect_memory<E>(alloc: Global, error: E) -> Result<(), Fail>
where
    E: Display + Drop,
    io::Error: From<E>,
{
    expect_error(alloc, error, ErrorKind::OutOfMemory, "out of memory")
}

// Expects that a writer's error of a kind, in an error of ours, is returned as it is, and what the
// latter says of it.
fn expect_write<E>(alloc: Global, error: E, kind: ErrorKind, wanted: &str) -> Result<(), Fail>
where
    E: Display + Drop,
    io::Error: From<E>,
{
    let text = format!(in alloc; "cannot write: {wanted}")?;
    expect_message(alloc, &error, text.as_str())?;
    expect_told(alloc, io::Error::from(error), kind, wanted)
}

#[test]
fn of_memory(rt: HostRuntime) -> Result<(), Fail> {
    let alloc = rt.alloc();
    expect_memory(alloc, AddError::Memory)?;
    expect_memory(alloc, EdgeError::Memory)?;
    expect_memory(alloc, CharsError::Memory)?;
    expect_memory(alloc, ReadError::Memory)?;
    expect_memory(alloc, DrawingsError::Left(ReadError::Memory))?;
    expect_memory(alloc, DrawingsError::Right(ReadError::Memory))?;
    expect_memory(alloc, ConvertError::Memory)?;
    expect_memory(alloc, DrawError::Memory)?;
    expect_memory(alloc, DocError::Draw(DrawError::Memory))?;
    expect_memory(alloc, IndentError::Memory)?;
    expect_memory(alloc, WriteError::Memory)
}

#[test]
fn of_arguments(rt: HostRuntime) -> Result<(), Fail> {
    let (alloc, kind) = (rt.alloc(), ErrorKind::InvalidInput);
    let level = "no item can follow at that level";
    expect_error(alloc, AddError::Level, kind, level)?;
    let no_node = "an edge of a node that isn't in the graph";
    expect_error(alloc, EdgeError::NoNode, kind, no_node)?;
    let unknown = "no set of characters has that name";
    expect_error(alloc, CharsError::Unknown, kind, unknown)?;
    let text = "the text of an item cannot follow an indent";
    expect_error(alloc, WriteError::Text, kind, text)
}

#[test]
fn of_texts(rt: HostRuntime) -> Result<(), Fail> {
    let (alloc, kind) = (rt.alloc(), ErrorKind::InvalidData);
    let line = "line 18446744073709551615 cannot continue the drawing";
    expect_error(alloc, ReadError::Line(usize::MAX), kind, line)?;
    let left = "the left drawing: line 4 cannot continue the drawing";
    expect_error(alloc, DrawingsError::Left(ReadError::Line(4)), kind, left)?;
    let line = "line 4 cannot continue the indented form";
    expect_error(alloc, IndentError::Line(4), kind, line)?;
    let (kind, end) = (ErrorKind::UnexpectedEof, "the text is incomplete");
    expect_error(alloc, ReadError::End, kind, end)?;
    let right = "the right drawing: the text is incomplete";
    expect_error(alloc, DrawingsError::Right(ReadError::End), kind, right)?;
    expect_error(alloc, IndentError::End, kind, end)
}

#[test]
fn of_documents(rt: HostRuntime) -> Result<(), Fail> {
    let (alloc, kind) = (rt.alloc(), ErrorKind::InvalidData);
    let (float, date) = (
        "a float, which is not drawn",
        "a date or a time, which is not drawn",
    );
    expect_error(alloc, ConvertError::Float, kind, float)?;
    expect_error(alloc, ConvertError::Date, kind, date)?;
    for (error, wanted) in [
        (DocError::Syntax, "invalid document"),
        (DocError::Float, float),
        (DocError::Date, date),
    ] {
        expect_error(alloc, error, kind, wanted)?;
    }
    let padding = "the variable PTREE_PADDING isn't a whole number up to 18446744073709551615";
    let fault = io::Error::from(Fault::Variable(Field::Padding));
    expect_told(alloc, fault, kind, padding)
}

#[test]
fn of_writers(rt: HostRuntime) -> Result<(), Fail> {
    let alloc = rt.alloc();
    let kind = ErrorKind::BrokenPipe;
    let pipe = DrawError::Write(io::Error::from(kind));
    expect_write(alloc, pipe, kind, "broken pipe")?;
    let kind = ErrorKind::StorageFull;
    let full = DocError::Draw(DrawError::Write(io::Error::from(kind)));
    expect_write(alloc, full, kind, "no storage space")?;
    let zero = "cannot write: the writer took no bytes";
    expect_message(alloc, &DrawError::Zero, zero)?;
    expect_message(alloc, &DocError::Draw(DrawError::Zero), zero)?;
    assert!(rt; io::Error::from(DrawError::Zero).kind() == ErrorKind::WriteZero);
    Ok(())
}

// That a writer's error of a kind is returned as it is.
fn expect_kind(alloc: Global, kind: ErrorKind) -> Result<(), Fail> {
    let failing = Failing::new(alloc, 0, 0, usize::MAX, Answer::Error(kind))?;
    match put_all(&mut Counted::new(failing), b"bytes") {
        Err(DrawError::Write(e)) if e.kind() == kind => Ok(()),
        _ => Err(Fail::new("another error")),
    }
}

#[test]
fn each_kind_is_told(rt: HostRuntime) -> Result<(), Fail> {
    for kind in [
        ErrorKind::BrokenPipe,
        ErrorKind::Interrupted,
        ErrorKind::InvalidInput,
        ErrorKind::NotFound,
        ErrorKind::Other,
        ErrorKind::OutOfMemory,
        ErrorKind::PermissionDenied,
        ErrorKind::StorageFull,
        ErrorKind::TimedOut,
        ErrorKind::UnexpectedEof,
        ErrorKind::WouldBlock,
        ErrorKind::WriteZero,
    ] {
        expect_kind(rt.alloc(), kind)?;
    }
    Ok(())
}
