//! Times drawings, and prints what they took.

use std::io::{self, Write};
use std::time::Instant;

/// A writer that takes all bytes and keeps none.
#[derive(Default)]
pub struct Nowhere {
    bytes: usize,
    sum: u64,
}

impl Write for Nowhere {
    fn write(&mut self, bytes: &[u8]) -> io::Result<usize> {
        self.bytes += bytes.len();
        Ok(bytes.len())
    }

    fn flush(&mut self) -> io::Result<()> {
        Ok(())
    }
}

/// A writer that sums the bytes up, so that their order counts (FNV-1a).
#[derive(Default)]
pub struct Sum(pub Nowhere);

impl Write for Sum {
    fn write(&mut self, bytes: &[u8]) -> io::Result<usize> {
        let start = if self.0.bytes == 0 { 0xcbf2_9ce4_8422_2325 } else { self.0.sum };
        self.0.sum = bytes.iter().fold(start, |sum, byte| (sum ^ u64::from(*byte)).wrapping_mul(0x0100_0000_01b3));
        self.0.write(bytes)
    }

    fn flush(&mut self) -> io::Result<()> {
        Ok(())
    }
}

/// Draws as often as told, nowhere and then into a new vector each time. Prints the items, the bytes, their sum, and of each kind of
/// drawing the shortest time in ns an item and the KiB that it needed above the tree.
pub fn report(items: usize, times: u32, nowhere: impl Fn(&mut Nowhere), memory: impl Fn(&mut Vec<u8>), sum: impl Fn(&mut Sum)) {
    let mut summed = Sum::default();
    sum(&mut summed);
    let (nowhere_ns, nowhere_room) = took(times, || nowhere(&mut Nowhere::default()));
    let (memory_ns, memory_room) = took(times, || memory(&mut Vec::new()));
    let Nowhere { bytes, sum } = summed.0;
    println!("{items} {bytes} {sum:016x} {} {nowhere_room} {} {memory_room}", nowhere_ns / items as u128, memory_ns / items as u128);
}

// The shortest time, and the KiB by which the resident set rose.
fn took(times: u32, draw: impl Fn()) -> (u128, u64) {
    // (this resets the greatest resident set)
    let _ = std::fs::write("/proc/self/clear_refs", "5");
    let before = resident("VmRSS:");
    let mut shortest = u128::MAX;
    for _ in 0..times {
        let start = Instant::now();
        draw();
        shortest = shortest.min(start.elapsed().as_nanos());
    }
    (shortest, resident("VmHWM:").saturating_sub(before))
}

// A line of the resident set, in KiB.
fn resident(name: &str) -> u64 {
    let status = std::fs::read_to_string("/proc/self/status").unwrap_or_default();
    let line = status.lines().find(|line| line.starts_with(name));
    line.and_then(|line| line.split_whitespace().nth(1)?.parse().ok()).unwrap_or(0)
}

/// The words of the command line: the shape, the number of items, and how often it is drawn.
pub fn words() -> Option<(String, u32, u32)> {
    let mut words = std::env::args().skip(1);
    Some((words.next()?, words.next()?.parse().ok()?, words.next()?.parse().ok()?))
}
