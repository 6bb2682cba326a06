//! Tests readers, what a buffer passes on, how sinks fail, where a drawing to one stops, and that a
//! writer is asked whether it is a terminal.

use crate::expect::expect_on_screen;
use crate::fixtures::failing::{Answer, Breaking, Failing};
use crate::fixtures::trees::over_leaves;
use ptree::buffered::Buffered;
use ptree::graph::{Graph, write_graph_with};
use ptree::output::write_tree_with;
use ptree::print_config::PrintConfig;
use ptree::style::{Counted, DrawError, Feed, put_all};
use std::alloc::Global;
use std::io::ErrorKind;
use std::test::Fail;

#[test]
fn a_writer_is_asked_whether_it_is_a_terminal(rt: HostRuntime) -> Result<(), Fail> {
    let alloc = rt.alloc();
    let tree = over_leaves(alloc, "r", &["a"])?;
    let dimmed = "\x1b[2m\x1b[0mr\n\x1b[2m└─ \x1b[0ma\n";
    expect_on_screen(alloc, &tree, false, "r\n└─ a\n")?;
    expect_on_screen(alloc, &tree, true, dimmed)
}

#[test]
fn an_error_of_a_reader_is_passed_on(rt: HostRuntime) -> Result<(), Fail> {
    for error in [ErrorKind::BrokenPipe, ErrorKind::Interrupted] {
        let mut room = [0; 4];
        let mut feed = Counted::new(Breaking {
            rest: b"abc",
            most: 2,
            error,
        });
        assert!(rt; feed.get(&mut room)? == 2 && feed.get(&mut room)? == 1);
        assert!(rt; room == [b'c', b'b', 0, 0]);
        for _ in 0..2u8 {
            let result = feed.get(&mut room);
            assert!(rt; matches!(&result, Err(e) if e.kind() == error));
        }
        assert!(rt; feed.into_inner().rest.is_empty());
    }
    Ok(())
}

// Makes a buffer before a writer with this much room.
fn buffer(
    alloc: Global,
    capacity: usize,
    room: usize,
    answer: Answer,
) -> Result<Buffered<Counted<Failing>>, Fail> {
    let sink = Counted::new(Failing::new(alloc, 8, room, 8, answer)?);
    match Buffered::with_capacity(alloc, capacity, sink) {
        Ok(buffered) => Ok(buffered),
        Err(_) => Err(Fail::new(format_args!("out of memory"))),
    }
}

// Expects that a call failed as the writer does.
fn expect_failed(found: Result<(), DrawError>, answer: Answer) -> Result<(), Fail> {
    match (&found, answer) {
        (Err(DrawError::Zero), Answer::Zero) => Ok(()),
        (Err(DrawError::Write(e)), Answer::Error(kind)) if e.kind() == kind => Ok(()),
        _ => Err(Fail::new(format_args!("{found:?}"))),
    }
}

// Expects that each call fails as the writer does: directly, through a buffer, and through one that
// is too small to hold what it is given.
fn expect_failures(alloc: Global, answer: Answer) -> Result<(), Fail> {
    let mut sink = Counted::new(Failing::new(alloc, 8, 2, 8, answer)?);
    expect_failed(put_all(&mut sink, b"abc"), answer)?;
    let mut buffered = buffer(alloc, 4, 2, answer)?;
    put_all(&mut buffered, b"abc")?;
    expect_failed(buffered.flush(), answer)?;
    expect_failed(buffered.flush(), answer)?;
    expect_failed(put_all(&mut buffered, b"d"), answer)?;
    let mut small = buffer(alloc, 1, 0, answer)?;
    expect_failed(put_all(&mut small, b"abc"), answer)
}

#[test]
fn an_error_is_told_from_accepting_nothing(rt: HostRuntime) -> Result<(), Fail> {
    expect_failures(rt.alloc(), Answer::Zero)?;
    expect_failures(rt.alloc(), Answer::Error(ErrorKind::BrokenPipe))
}

#[test]
fn a_buffer_passes_on_what_it_holds_when_it_is_full(rt: HostRuntime) -> Result<(), Fail> {
    let mut buffered = buffer(rt.alloc(), 4, 8, Answer::Zero)?;
    for part in ["ab", "cd", "e"] {
        put_all(&mut buffered, part.as_bytes())?;
    }
    buffered.flush()?;
    let writer = buffered.into_inner().into_inner();
    assert!(rt; writer.taken.as_slice() == b"abcde".as_slice() && writer.calls == 2);
    Ok(())
}

const PIPE: Answer = Answer::Error(ErrorKind::BrokenPipe);

// Expects that a drawing to a writer failed as the writer did, which took these bytes.
fn expect_stopped(
    ended: Result<(), DrawError>,
    out: Counted<Failing>,
    taken: &[u8],
) -> Result<(), Fail> {
    expect_failed(ended, PIPE)?;
    let found = out.into_inner().taken;
    if found.as_slice() == taken {
        Ok(())
    } else {
        Err(Fail::new(format_args!("{found:?}")))
    }
}

#[test]
fn a_tree_stops_within_a_piece(rt: HostRuntime) -> Result<(), Fail> {
    let alloc = rt.alloc();
    let config = PrintConfig::default(alloc)?;
    let tree = over_leaves(alloc, "r", &["a"])?;
    let mut out = Counted::new(Failing::new(alloc, 5, 5, usize::MAX, PIPE)?);
    let ended = write_tree_with(alloc, &tree, &mut out, &config);
    expect_stopped(ended, out, b"r\n\xe2\x94\x94")
}

// A node below itself, down to depth 6: 2 bytes, and at each level 9 and 3 for each level above it
// but the root's.
const RING: &str = "\
x
└─ x
   └─ x
      └─ x
         └─ x
            └─ x
               └─ x
";

#[test]
fn an_endless_drawing_stops_at_its_writers_error(rt: HostRuntime) -> Result<(), Fail> {
    let alloc = rt.alloc();
    let config = PrintConfig::default(alloc)?;
    let mut ring = Graph::new(alloc);
    let x = ring.add_node("x")?;
    ring.extend_with_edges(&[(x, x)])?;
    let mut out = Counted::new(Failing::new(alloc, 100, 100, usize::MAX, PIPE)?);
    let ended = write_graph_with(alloc, &ring, x, &mut out, &config);
    assert_eq!(rt; RING.len(), 101);
    expect_stopped(ended, out, &RING.as_bytes()[..100])
}
