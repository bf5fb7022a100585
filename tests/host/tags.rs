//! Tags by the paper: success n of an address gives start + n * STEP, kept to 32 bits.
//! The starts of the test lie so far apart in that sequence that a tag says by itself whose it is and which success gave it.

const STEP: u32 = 2_654_435_769;
const INVERSE: u32 = 340_573_321;
const APART: u32 = 10_000_000;

pub fn tag(start: u32, n: u32) -> u32 {
    start.wrapping_add(n.wrapping_mul(STEP))
}

/// The success that gives this tag.
pub fn success(start: u32, tag: u32) -> u32 {
    tag.wrapping_sub(start).wrapping_mul(INVERSE)
}

/// The start of the test's k-th address.
pub fn start(k: usize) -> u32 {
    tag(0, k as u32 * APART)
}

/// Whose tag it is, and of which success; for tags of the starts above.
pub fn whose(tag: u32) -> (usize, u32) {
    let place = success(0, tag);
    ((place / APART) as usize, place % APART)
}
