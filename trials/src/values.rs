//! Tests values that no document has, the kinds of values that conversions keep, and the path at
//! which a document is refused.

use crate::expect::{expect_drawn, expect_text};
use ptree::value::{DocFormat, Value};
use ptree_trees::documents::{Step, refused_path};
use std::alloc::{AllocError, Global};
use std::test::Fail;

// Expects that a value and its clone are drawn as this text under the default configuration, and
// under a label as the label alone.
fn expect_value(alloc: Global, value: Value, text: &str) -> Result<(), Fail> {
    expect_drawn(alloc, &value.clone()?, text)?;
    expect_drawn(alloc, &value, text)?;
    expect_drawn(alloc, &(String::from_str(alloc, "l")?, value), "l\n")
}

#[test]
fn texts_of_small_values(rt: HostRuntime) -> Result<(), Fail> {
    for (value, text) in [
        (Value::Bool(false), "false\n"),
        (Value::U8(255), "255\n"),
        (Value::U16(65535), "65535\n"),
        (Value::U32(4294967295), "4294967295\n"),
        (Value::U64(0), "0\n"),
        (Value::U64(9), "9\n"),
        (Value::U64(10), "10\n"),
        (Value::U64(18446744073709551615), "18446744073709551615\n"),
        (Value::I8(-128), "-128\n"),
        (Value::I16(-32768), "-32768\n"),
        (Value::I64(0), "0\n"),
        (Value::I64(9223372036854775807), "9223372036854775807\n"),
        (Value::I64(-9223372036854775808), "-9223372036854775808\n"),
        (Value::Char('🌳'), "🌳\n"),
        (Value::Unit, "\n"),
        (Value::Option(None), "\n"),
    ] {
        expect_value(rt.alloc(), value, text)?;
    }
    Ok(())
}

// Makes an option of a value.
fn some(alloc: Global, value: Value) -> Result<Value, AllocError> {
    Ok(Value::Option(Some(Box::new(alloc, value)?)))
}

// Makes an option of a wrapped number.
fn wrapped(alloc: Global, number: i32) -> Result<Value, AllocError> {
    let number = Box::new(alloc, Value::I32(number))?;
    some(alloc, Value::Newtype(number))
}

#[test]
fn texts_of_values_that_hold_memory(rt: HostRuntime) -> Result<(), Fail> {
    let alloc = rt.alloc();
    expect_value(
        alloc,
        Value::String(String::from_str(alloc, "a\nb")?),
        "a\n: b\n",
    )?;
    expect_value(alloc, wrapped(alloc, -2147483648)?, "-2147483648\n")?;
    expect_value(alloc, Value::Seq(Vec::new(alloc)), "\n")?;
    expect_value(alloc, Value::Map(Vec::new(alloc)), "\n")?;
    expect_value(alloc, Value::Bytes(vec![in alloc; 65]?), "\n")
}

// Makes an option of a list.
fn hidden(alloc: Global) -> Result<Value, AllocError> {
    some(alloc, Value::Seq(vec![in alloc; Value::Bool(true)]?))
}

#[test]
fn draws_pairs(rt: HostRuntime) -> Result<(), Fail> {
    let alloc = rt.alloc();
    expect_drawn(
        alloc,
        &(String::from_str(alloc, "o")?, hidden(alloc)?),
        "o\n",
    )?;
    expect_drawn(alloc, &(String::new(alloc), hidden(alloc)?), "\n")
}

// Makes a map of lists, maps and single values, none of whose keys is a text.
fn map_of_lists(alloc: Global) -> Result<Value, AllocError> {
    let two = Value::Seq(vec![in alloc; Value::U8(1), Value::Unit]?);
    let inner = Value::Map(vec![in alloc; (Value::Char('é'), two)]?);
    let text = Value::String(String::from_str(alloc, "v")?);
    Ok(Value::Map(vec![in alloc;
        (Value::I8(-1), Value::Bytes(vec![in alloc; 1]?)),
        (Value::Bool(true), Value::Char('x')),
        (Value::U16(700), inner),
        (Value::Unit, Value::Seq(Vec::new(alloc))),
        (Value::Unit, Value::Map(Vec::new(alloc))),
        (Value::Seq(Vec::new(alloc)), text),
    ]?))
}

#[test]
fn draws_a_map_of_keys_of_any_kind(rt: HostRuntime) -> Result<(), Fail> {
    let alloc = rt.alloc();
    let drawing =
        "\n├─ -1 = \n├─ true = x\n├─ 700\n│  └─ é\n│     ├─ 1\n│     └─ \n├─ \n├─ \n└─  = v\n";
    expect_drawn(alloc, &map_of_lists(alloc)?, drawing)
}

// Expects that a value holds these values, as they are written in Rust.
fn expect_kinds(alloc: Global, value: &Value, wanted: &str) -> Result<(), Fail> {
    let found = format!(in alloc; "{value:?}")?;
    expect_text(found.as_str(), wanted)
}

#[test]
fn from_json_keeps_kinds(rt: HostRuntime) -> Result<(), Fail> {
    let alloc = rt.alloc();
    let parsed = serde_json::Value::from_str(alloc, "{\"b\":[1,-2],\"a\":null}")?;
    let kinds = r#"Map([(String("a"), Unit), (String("b"), Seq([U64(1), I64(-2)]))])"#;
    expect_kinds(alloc, &Value::from_json(alloc, &parsed)?, kinds)
}

#[test]
fn from_toml_keeps_kinds(rt: HostRuntime) -> Result<(), Fail> {
    let alloc = rt.alloc();
    let table = toml::table_from_str(alloc, "b = [1, true]\na = \"x\"")?;
    let value = Value::from_toml(alloc, &toml::Value::Table(table))?;
    let kinds = r#"Map([(String("a"), String("x")), (String("b"), Seq([I64(1), Bool(true)]))])"#;
    expect_kinds(alloc, &value, kinds)
}

// Expects that a path has these steps, each with a blank behind it.
fn expect_steps(alloc: Global, path: &[Step], wanted: &str) -> Result<(), Fail> {
    let mut steps = String::new(alloc);
    for step in path {
        let text = format!(in alloc; "{step} ")?;
        steps.push_str(text.as_str())?;
    }
    expect_text(steps.as_str(), wanted)
}

#[test]
fn a_float_has_a_path(rt: HostRuntime) -> Result<(), Fail> {
    let alloc = rt.alloc();
    let text = "{\"b\": 1.5, \"a\": [1, 2.5]}";
    let path = refused_path(alloc, DocFormat::Json, text)?.ok_or("no path")?;
    expect_steps(alloc, &path, "a 1 ")?;
    assert!(rt; refused_path(alloc, DocFormat::Json, "[1.5")?.is_none());
    Ok(())
}
