//! The entry quick look in Rust, by the algorithm of the library.

use reference::vectors::quick_look::OFFENDER;
use reference::Refusal;

/// The entry quick look: reads the positions once, and holds those seen as a set of
/// bits.
pub fn quick_look(n: usize, positions: &[u8], index: &mut usize) -> u32 {
    if !(2..=64).contains(&n) {
        return Refusal::SizeN.number();
    }
    if positions.len() != n {
        return Refusal::SliceLength.number();
    }
    let mut seen = 0u64;
    for (place, &position) in positions.iter().enumerate() {
        if usize::from(position) >= n || (seen >> position) & 1 == 1 {
            *index = place;
            return OFFENDER;
        }
        seen |= 1 << position;
    }
    0
}
