//! Tests what `Counted` asks of its writer or reader: each call once, with all its bytes or room,
//! and nothing else.

use crate::expect::draw_to;
use crate::fixtures::trees::petgraph;
use ptree::style::{Counted, DrawError, Feed, Sink, Style, put_all};
use std::alloc::Global;
use std::io::{self, ErrorKind, Read, Write};
use std::test::Fail;

/// Records how much each call asked it to write or read, and how often it was flushed. It is
/// interrupted a number of times first; then it accepts and gives everything.
#[derive(Drop)]
struct Watched {
    asked: Vec<usize>,
    flushes: usize,
    interruptions: usize,
}

impl Watched {
    // Makes one that was asked nothing yet.
    fn new(alloc: Global, interruptions: usize) -> Watched {
        Watched {
            asked: Vec::new(alloc),
            flushes: 0,
            interruptions,
        }
    }

    // Whether this call is interrupted.
    fn is_interrupted(&mut self, len: usize) -> io::Result<bool> {
        self.asked.push(len)?;
        let interrupted = self.interruptions > 0;
        self.interruptions = self.interruptions.saturating_sub(1);
        Ok(interrupted)
    }
}

impl Write for Watched {
    fn write(&mut self, buf: &[u8]) -> io::Result<usize> {
        if self.is_interrupted(buf.len())? {
            return Err(io::Error::from(ErrorKind::Interrupted));
        }
        Ok(buf.len())
    }

    fn flush(&mut self) -> io::Result<()> {
        self.flushes = self.flushes.saturating_add(1);
        Ok(())
    }
}

impl Read for Watched {
    fn read(&mut self, buf: &mut [u8]) -> io::Result<usize> {
        if self.is_interrupted(buf.len())? {
            return Err(io::Error::from(ErrorKind::Interrupted));
        }
        buf.fill(7);
        Ok(buf.len())
    }
}

#[test]
fn nothing_is_flushed(rt: HostRuntime) -> Result<(), Fail> {
    let alloc = rt.alloc();
    let mut out = Counted::new(Watched::new(alloc, 0));
    assert!(rt; draw_to(alloc, &petgraph(alloc)?, u32::MAX, &mut out).is_ok());
    assert!(rt; Style::default().write_painted(&mut out, "text").is_ok());
    assert!(rt; put_all(&mut out, b"bytes").is_ok());
    assert_eq!(rt; out.put(b"more")?, 4);
    let writer = out.into_inner();
    assert!(rt; writer.asked.len() == 9 && writer.flushes == 0);
    Ok(())
}

#[test]
fn a_put_is_one_write(rt: HostRuntime) -> Result<(), Fail> {
    let alloc = rt.alloc();
    let mut out = Counted::new(Watched::new(alloc, 0));
    for bytes in [b"abc".as_slice(), b"", b"d"] {
        assert_eq!(rt; out.put(bytes)?, bytes.len());
    }
    assert_eq!(rt; out.into_inner().asked.as_slice(), [3, 0, 1].as_slice());
    Ok(())
}

#[test]
fn a_get_is_one_read(rt: HostRuntime) -> Result<(), Fail> {
    let alloc = rt.alloc();
    let mut room = [0; 4];
    let mut feed = Counted::new(Watched::new(alloc, 0));
    assert_eq!(rt; feed.get(&mut room)?, 4);
    assert_eq!(rt; feed.get(&mut [])?, 0);
    assert_eq!(rt; feed.get(&mut room[..1])?, 1);
    assert!(rt; room == [7; 4]);
    assert_eq!(rt; feed.into_inner().asked.as_slice(), [4, 0, 1].as_slice());
    Ok(())
}

#[test]
fn an_interrupted_get_is_not_tried_again(rt: HostRuntime) -> Result<(), Fail> {
    let alloc = rt.alloc();
    let mut room = [0; 4];
    let mut feed = Counted::new(Watched::new(alloc, 1));
    let result = feed.get(&mut room);
    assert!(rt; matches!(&result, Err(e) if e.kind() == ErrorKind::Interrupted));
    assert!(rt; room == [0; 4]);
    assert_eq!(rt; feed.into_inner().asked.as_slice(), [4].as_slice());
    Ok(())
}

#[test]
fn an_interrupted_put_is_not_tried_again(rt: HostRuntime) -> Result<(), Fail> {
    let mut out = Counted::new(Watched::new(rt.alloc(), 1));
    let result = put_all(&mut out, b"abc");
    assert!(rt; matches!(&result, Err(DrawError::Write(e)) if e.kind() == ErrorKind::Interrupted));
    assert_eq!(rt; out.into_inner().asked.as_slice(), [3].as_slice());
    Ok(())
}
