//! The default characters, and the search for line feeds.

pub const TURN: &str = "├─ ";
pub const LAST_TURN: &str = "└─ ";
pub const PASS: &str = "│  ";
pub const LAST_PASS: &str = "   ";
pub const MARKER: &str = ": ";

// 1 in each byte, and the highest bit of each.
const ONES: u64 = 0x0101_0101_0101_0101;
const HIGHS: u64 = 0x8080_8080_8080_8080;

// The highest bit of the first byte that is a line feed, and perhaps of bytes after it.
#[inline]
fn marked(word: u64) -> u64 {
    let word = word ^ (ONES * b'\n' as u64);
    word.wrapping_sub(ONES) & !word & HIGHS
}

/// Where the first line feed is.
#[inline]
pub fn line_feed(bytes: &[u8]) -> Option<usize> {
    let mut at = 0;
    while let Some(word) = bytes[at..].first_chunk() {
        let found = marked(u64::from_le_bytes(*word));
        if found != 0 {
            return Some(at + found.trailing_zeros() as usize / 8);
        }
        at += 8;
    }
    let in_rest = bytes[at..].iter().position(|byte| *byte == b'\n')?;
    Some(at + in_rest)
}

/// Whether there is a line feed. The last eight bytes may overlap those before them.
#[inline]
pub fn has_line_feed(bytes: &[u8]) -> bool {
    let Some(end) = bytes.last_chunk() else {
        return bytes.contains(&b'\n');
    };
    let mut found = marked(u64::from_le_bytes(*end));
    let mut rest = bytes;
    while let Some((word, behind)) = rest.split_first_chunk() {
        found |= marked(u64::from_le_bytes(*word));
        rest = behind;
    }
    found != 0
}
