//! Short bodies.

use crate::noise;
use crate::random::Random;

/// Every body of no byte and of one byte in both versions, then random ones of two to six telling bytes.
pub fn input(index: u64, random: &mut Random) -> Vec<u8> {
    let version = (index % 2 + 1) as u8;
    match index / 2 {
        0 => vec![version],
        byte @ 1..=256 => vec![version, (byte - 1) as u8],
        _ => {
            let length = 2 + random.below(5);
            [vec![version], noise::telling(length, random)].concat()
        }
    }
}
