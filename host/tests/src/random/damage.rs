//! Small injuries to bytes that were well formed.

use super::source::Source;

/// Changes a byte, mostly near the front where the fields are, or cuts off or adds some bytes.
pub fn damage(source: &mut Source, bytes: &mut Vec<u8>) {
    match source.below(10) {
        0 => bytes.truncate(source.below(bytes.len() + 1)),
        1 => {
            let more = source.within(1, 40);
            bytes.extend(source.bytes(more));
        }
        2 => {
            bytes.pop();
        }
        3..=5 => change(source, bytes, 64),
        _ => change(source, bytes, usize::MAX),
    }
}

/// Changes one byte among the first ones.
pub fn change(source: &mut Source, bytes: &mut [u8], among: usize) {
    if bytes.is_empty() {
        return;
    }
    let at = source.below(bytes.len().min(among));
    bytes[at] = match source.below(4) {
        0 => 0,
        1 => bytes[at].wrapping_add(1),
        2 => bytes[at] ^ 1 << source.below(8),
        _ => source.byte(),
    };
}
