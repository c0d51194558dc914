//! SplitMix64: words that look drawn, the same on every machine.

/// What a generator's state grows by at each draw.
pub const STEP: u64 = 0x9e37_79b9_7f4a_7c15;

/// What a generator draws in this state.
pub fn mixed(state: u64) -> u64 {
    let word = state.wrapping_add(STEP);
    let word = (word ^ word >> 30).wrapping_mul(0xbf58_476d_1ce4_e5b9);
    let word = (word ^ word >> 27).wrapping_mul(0x94d0_49bb_1331_11eb);
    word ^ word >> 31
}
