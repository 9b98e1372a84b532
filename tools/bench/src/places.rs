//! Calls from different places on the stack.
//!
//! A reader that keeps its state on the stack may be faster or slower by where the stack happens to stand (its place
//! modulo 32 and modulo 4,096), which no caller chooses. So every round calls from another place.

use std::hint::black_box;

/// A step, and all steps within a page.
const PLACES: usize = 256;
/// Has no divisor in common with PLACES, so that all are visited, and neighbours are far apart.
const STRIDE: usize = 37;

type Lowered = fn(&mut dyn FnMut());

/// Steps of 16 bytes, the least that a call keeps to.
const FINE: [Lowered; 16] = [
    by::<0x00>, by::<0x10>, by::<0x20>, by::<0x30>, by::<0x40>, by::<0x50>, by::<0x60>, by::<0x70>,
    by::<0x80>, by::<0x90>, by::<0xa0>, by::<0xb0>, by::<0xc0>, by::<0xd0>, by::<0xe0>, by::<0xf0>,
];
const COARSE: [Lowered; 16] = [
    by::<0x000>, by::<0x100>, by::<0x200>, by::<0x300>, by::<0x400>, by::<0x500>, by::<0x600>,
    by::<0x700>, by::<0x800>, by::<0x900>, by::<0xa00>, by::<0xb00>, by::<0xc00>, by::<0xd00>,
    by::<0xe00>, by::<0xf00>,
];

/// Calls from the place of a round.
pub fn from_place(round: usize, call: &mut dyn FnMut()) {
    let place = round * STRIDE % PLACES;
    COARSE[place / FINE.len()](&mut || FINE[place % FINE.len()](call));
}

/// Calls with the stack that much lower.
#[inline(never)]
fn by<const BYTES: usize>(call: &mut dyn FnMut()) {
    let room = [0_u8; BYTES];
    black_box(&room);
    call();
    black_box(&room);
}
