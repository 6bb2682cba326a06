//! Tests indented text: what is written, what is read, and each error.
use crate::expect::{expect_text, expect_tree};
use crate::fixtures::trees::{Below, tree};
use ptree_trees::indented::{
    Form, IndentError, WriteError, indented_text, is_line_text, is_unit, read_indented,
    write_indented,
};
use std::alloc::Global;
use std::test::Fail;

// The form of a unit and a bullet.
fn form<'a>(unit: &'a str, bullet: &'a str) -> Form<'a> {
    Form { unit, bullet }
}

#[test]
fn units(rt: HostRuntime) {
    for text in [" ", "\t", " \t "] {
        assert!(rt; is_unit(text), "at {text:?}");
    }
    for text in ["", "a", " a", " \n", "\u{a0}"] {
        assert!(rt; !is_unit(text), "at {text:?}");
    }
}

#[test]
fn bullets(rt: HostRuntime) {
    for text in ["", "- ", "*", "\u{a0}"] {
        assert!(rt; is_line_text(text), "at {text:?}");
    }
    for text in [" -", "\t", "-\n"] {
        assert!(rt; !is_line_text(text), "at {text:?}");
    }
}

// Expects that a text in a form is what is written of a tree, and what it is read of.
fn expect_form(
    alloc: Global,
    text: &str,
    form: &Form,
    root: &str,
    below: Below,
) -> Result<(), Fail> {
    let item = tree(alloc, root, below)?;
    let written = indented_text(alloc, &item, form)?;
    expect_text(written.as_str(), text)?;
    if !is_unit(form.unit) || !is_line_text(form.bullet) {
        return Err(Fail::from("no form"));
    }
    expect_tree(alloc, &read_indented(alloc, text, form)?, root, below)
}

const BELOW: Below = &[(1, "a"), (2, "b c"), (3, "d"), (1, "e")];

#[test]
fn forms(rt: HostRuntime) -> Result<(), Fail> {
    let texts: [(&str, &str, &str, &str, Below); 11] = [
        ("  ", "", "r\n  a\n    b c\n      d\n  e\n", "r", BELOW),
        ("\t", "", "r\n\ta\n\t\tb c\n\t\t\td\n\te\n", "r", BELOW),
        (" ", "", "r\n", "r", &[]),
        (" ", "", "\n \n", "", &[(1, "")]),
        ("  ", "", "r \n  a\t\n", "r ", &[(1, "a\t")]),
        (" ", "", "r\r\n ä\r\n", "r\r", &[(1, "ä\r")]),
        ("  ", "", "- r\n  - a\n", "- r", &[(1, "- a")]),
        (
            "  ",
            "- ",
            "- r\n  - a\n    - b c\n      - d\n  - e\n",
            "r",
            BELOW,
        ),
        ("  ", "*", "*r\n  *a\n", "r", &[(1, "a")]),
        ("  ", "- ", "- \n  -  a\n", "", &[(1, " a")]),
        ("  ", "- ", "- - r\n  - \ta\n", "- r", &[(1, "\ta")]),
    ];
    for (unit, bullet, text, root, below) in texts {
        expect_form(rt.alloc(), text, &form(unit, bullet), root, below)?;
    }
    Ok(())
}

// Expects that a text in a form is refused with this error.
fn expect_refused(alloc: Global, text: &str, form: &Form, wanted: IndentError) -> Result<(), Fail> {
    if !is_unit(form.unit) || !is_line_text(form.bullet) {
        return Err(Fail::from("no form"));
    }
    match read_indented(alloc, text, form) {
        Err(error) if error == wanted => Ok(()),
        other => Err(Fail::new(format_args!("{text:?}: wanted {wanted:?}, found {other:?}"))),
    }
}

#[test]
fn wrong_lines(rt: HostRuntime) -> Result<(), Fail> {
    for (unit, bullet, text, line) in [
        (" ", "", " r\n", 1),
        (" ", "", "\tr\n", 1),
        (" ", "", "r\nr\n", 2),
        (" ", "", "r\n\n", 2),
        (" ", "", "r\n  a\n", 2),
        ("  ", "", "r\n a\n", 2),
        (" ", "", "r\n\ta\n", 2),
        (" ", "", "r\n a\n\tb\n", 3),
        ("  ", "", "r\n  a\n     b\n", 3),
        (" ", "", "r\n a\n  b\n c\n   d\n", 5),
        (" ", "", "r\n a\n    b\nc", 3),
        ("  ", "- ", "r\n", 1),
        ("  ", "- ", "-\n", 1),
        ("  ", "- ", "  - r\n", 1),
        ("  ", "- ", "- r\n  a\n", 2),
        ("  ", "- ", "- r\n  * a\n", 2),
        ("  ", "- ", "- r\n- a\n", 2),
        ("  ", "- ", "- r\n - a\n", 2),
        ("  ", "- ", "- r\n  - a\n      - b\n", 3),
    ] {
        expect_refused(
            rt.alloc(),
            text,
            &form(unit, bullet),
            IndentError::Line(line),
        )?;
    }
    Ok(())
}

#[test]
fn incomplete_texts(rt: HostRuntime) -> Result<(), Fail> {
    for (bullet, text) in [
        ("", ""),
        ("", "r"),
        ("", " r"),
        ("", "r\n a"),
        ("", "r\nr"),
        ("", "r\n a\n "),
        ("", "r\n a\r"),
        ("- ", "- r\n - a"),
    ] {
        expect_refused(rt.alloc(), text, &form(" ", bullet), IndentError::End)?;
    }
    Ok(())
}

// Expects that a tree is not written, since a text of it cannot stand there.
fn expect_not_written(alloc: Global, form: &Form, root: &str, below: Below) -> Result<(), Fail> {
    let item = tree(alloc, root, below)?;
    match indented_text(alloc, &item, form) {
        Err(WriteError::Text) => Ok(()),
        other => Err(Fail::new(format_args!("{root:?} over {below:?}: {other:?}"))),
    }
}

#[test]
fn texts_that_are_not_written(rt: HostRuntime) -> Result<(), Fail> {
    let texts: [(&str, &str, Below); 6] = [
        ("", " r", &[]),
        ("", "r\n", &[]),
        ("", "r", &[(1, "a\nb")]),
        ("", "r", &[(1, "a"), (2, "\tb")]),
        ("- ", "r", &[(1, "a\n")]),
        (" -", "r", &[]),
    ];
    for (bullet, root, below) in texts {
        expect_not_written(rt.alloc(), &form(" ", bullet), root, below)?;
    }
    Ok(())
}

#[test]
fn appended(rt: HostRuntime) -> Result<(), Fail> {
    let alloc = rt.alloc();
    let mut out = String::from_str(alloc, "before\n")?;
    write_indented(
        alloc,
        &tree(alloc, "r", &[(1, "a")])?,
        &form("\t", ""),
        &mut out,
    )?;
    expect_text(out.as_str(), "before\nr\n\ta\n")
}
