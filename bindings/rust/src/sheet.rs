//! The sheet of a drawing file.

use crate::exported;

/// The text of a drawing file's sheet: a line each for clearance, separation and
/// congestion, or the line `file refused` with the number 1 or 3. The text is
/// ASCII and has at most 256 bytes; each of its lines ends in a line feed.
///
/// A file is big-endian. The byte 1 is followed by a 32-bit count of segments,
/// each with net (32 bits), orientation (a byte, 1 horizontal), fixed, start and
/// end, in either direction; a 32-bit count of nodes, each with id (32 bits), x, y,
/// width and height; a 32-bit count of exemptions, each with net and node (32 bits
/// each); threshold and cutoff; the allowances of clearance, separation and
/// congestion (64 bits each). Floats are written as their 64 bits. At most 120
/// segments, 120 nodes and 240 exemptions are accepted.
pub fn sheet(file: &[u8]) -> String {
    let (length, text) = exported::sheet(file);
    text.iter().take(length).copied().map(char::from).collect()
}
