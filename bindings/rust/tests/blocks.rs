//! Draws trees that are longer than what is drawn at once. Expected drawings are joined from lines that follow from each item's place.
use ptree::item::StringItem;
use ptree::style::Style;
use ptree::{read_tree, write_tree_with, PrintConfig, TreeItem};
use std::borrow::Cow;
use std::cell::Cell;
use std::io::{self, ErrorKind, Write};

fn leaf(text: String) -> StringItem {
    StringItem {
        text,
        children: Vec::new(),
    }
}

fn drawn<T: TreeItem>(item: &T) -> String {
    let mut out = Vec::new();
    write_tree_with(item, &mut out, &PrintConfig::default()).expect("a drawing");
    String::from_utf8(out).expect("UTF-8")
}

#[test]
fn many_items_are_drawn_in_blocks() {
    // Each of so many items is over one that is its last child.
    for count in [1, 511, 512, 513, 5000] {
        let children = (0..count)
            .map(|i| StringItem {
                text: format!("a{i}"),
                children: vec![leaf(format!("b{i}"))],
            })
            .collect();
        let tree = StringItem {
            text: "r".to_string(),
            children,
        };
        let mut want = "r\n".to_string();
        for i in 0..count {
            let (turn, pass) = if i + 1 == count {
                ("└─ ", "   ")
            } else {
                ("├─ ", "│  ")
            };
            want += &format!("{turn}a{i}\n{pass}└─ b{i}\n");
        }
        assert_eq!(drawn(&tree), want);
        assert_eq!(
            read_tree(&want, &PrintConfig::default()).expect("a tree"),
            tree
        );
    }
}

#[test]
fn texts_of_any_length_are_drawn() {
    for length in [
        0, 32_767, 32_768, 65_531, 65_532, 65_533, 65_534, 65_535, 65_536, 200_000,
    ] {
        let long = "x".repeat(length);
        let tree = StringItem {
            text: "r".to_string(),
            children: vec![
                leaf("a".to_string()),
                leaf(long.clone()),
                leaf(long.clone()),
            ],
        };
        assert_eq!(
            drawn(&tree),
            format!("r\n├─ a\n├─ {long}\n└─ {long}\n"),
            "{length}"
        );
    }
}

#[test]
fn a_deep_tree_is_drawn_over_blocks() {
    let mut tree = leaf("x".to_string());
    for _ in 0..1500 {
        tree = StringItem {
            text: "x".to_string(),
            children: vec![tree, leaf("y".to_string())],
        };
    }
    let mut want = String::from("x\n");
    for level in 0..1500 {
        want += &format!("{}├─ x\n", "│  ".repeat(level));
    }
    for level in (0..1500).rev() {
        want += &format!("{}└─ y\n", "│  ".repeat(level));
    }
    assert_eq!(drawn(&tree), want);
}

/// A child by its number; one of them fails.
#[derive(Clone)]
struct Numbered<'a> {
    number: u32,
    count: u32,
    failing: u32,
    asked: &'a Cell<u32>,
}

impl TreeItem for Numbered<'_> {
    type Child = Self;

    fn write_self<W: Write>(&self, f: &mut W, _style: &Style) -> io::Result<()> {
        self.asked.set(self.asked.get() + 1);
        write!(f, "{}", self.number)?;
        if self.number == self.failing {
            return Err(io::Error::other("broken"));
        }
        Ok(())
    }

    fn children(&self) -> Cow<'_, [Self]> {
        let last = if self.number == 0 { self.count } else { 0 };
        Cow::from(
            (1..=last)
                .map(|number| Numbered {
                    number,
                    ..self.clone()
                })
                .collect::<Vec<_>>(),
        )
    }
}

#[test]
fn the_items_before_a_broken_one_are_written() {
    for failing in [1, 2, 3000] {
        let asked = Cell::new(0);
        let mut out = Vec::new();
        let tree = Numbered {
            number: 0,
            count: 4000,
            failing,
            asked: &asked,
        };
        let error =
            write_tree_with(&tree, &mut out, &PrintConfig::default()).expect_err("an error");
        let want: String = (1..failing)
            .map(|number| format!("├─ {number}\n"))
            .collect();
        assert_eq!(
            (error.to_string().as_str(), asked.get()),
            ("broken", failing + 1)
        );
        assert_eq!(String::from_utf8(out).expect("UTF-8"), format!("0\n{want}"));
    }
}

/// A writer that takes so many bytes and then fails.
struct Few(usize);

impl Write for Few {
    fn write(&mut self, bytes: &[u8]) -> io::Result<usize> {
        let taken = bytes.len().min(self.0);
        self.0 -= taken;
        if taken == 0 {
            Err(ErrorKind::StorageFull.into())
        } else {
            Ok(taken)
        }
    }

    fn flush(&mut self) -> io::Result<()> {
        Ok(())
    }
}

#[test]
fn items_are_asked_for_as_they_are_drawn() {
    let asked = Cell::new(0);
    let tree = Numbered {
        number: 0,
        count: 100_000,
        failing: u32::MAX,
        asked: &asked,
    };
    let error = write_tree_with(&tree, Few(10), &PrintConfig::default()).expect_err("an error");
    assert_eq!(error.kind(), ErrorKind::StorageFull);
    assert!(asked.get() < 10_000, "{} items were asked for", asked.get());
}
